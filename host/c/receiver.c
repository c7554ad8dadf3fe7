/*
 * A receiver in C, from the multiplex to left and right, several of them in a rack, and what the
 * library does with a wrong call. From this folder, after host/library:
 *
 *     cc receiver.c -I../../include -L../../target/staticlib -lpescrondilu -lm
 *     ./a.out
 *
 * It prints what it found and exits with 0 only if all is as expected.
 */
#include "pescrondilu.h"

#include <math.h>
#include <stdio.h>
#include <string.h>

#define RATE 192000.0
#define PILOT_HZ 19000.0
#define PILOT 0.09f    /* the pilot's amplitude; 0.08 to 0.1 may go on air */
#define BLOCK 1920     /* 10 ms */
#define TOTAL 96000    /* half a second, a whole number of blocks */
#define MEASURED 19200 /* the last 100 ms: whole periods of both tones */
#define PERIOD 3840    /* 20 ms, of a summary */
#define RECEIVERS 3    /* of a rack */
#define ALLOWANCE 1502 /* samples of a round: 500 for each, and 2 lapse */
#define LEFT_HZ 1000.0
#define RIGHT_HZ 400.0
#define TONE 0.3 /* so that left and right, three times the multiplex at most, stay in Q15 */
#define MAIN 0.8f
#define TURN 6.283185307179586

/* Large, so not on the stack. */
static float table[PESCRONDILU_TABLE_LENGTH];
static float left_in[TOTAL], right_in[TOTAL], mpx[TOTAL], pilot[TOTAL];
static float left[TOTAL], right[TOTAL];

static int16_t table_q15[PESCRONDILU_TABLE_LENGTH];
static int16_t mpx_q15[TOTAL], pilot_q15[TOTAL];
static int16_t left_q15[TOTAL], right_q15[TOTAL];

static int wrong = 0;

static void expect(int as_expected, const char *what)
{
    if (!as_expected) {
        printf("NOT AS EXPECTED: %s\n", what);
        wrong = 1;
    }
}

/* How many phase corrections left the quick path, where any did. */
static void tell_wide(const char *where, size_t wide)
{
    if (wide != 0)
        printf("%s: %zu corrections took the wide way\n", where, wide);
}

/*
 * The amplitude of a tone in the last MEASURED samples. A receiver has a low-pass before, against
 * what is left of the pilot and the subcarriers. The library has no filters, and this measure is
 * blind to all but the tone.
 */
static double tone(const float *x, double hz)
{
    double c = 0, s = 0;
    for (int i = TOTAL - MEASURED; i < TOTAL; i++) {
        c += x[i] * cos(TURN * hz * i / RATE);
        s += x[i] * sin(TURN * hz * i / RATE);
    }
    return 2 * sqrt(c * c + s * s) / MEASURED;
}

static double tone_q15(const int16_t *x, double hz)
{
    static float scaled[TOTAL];
    for (int i = 0; i < TOTAL; i++)
        scaled[i] = (float)x[i] / 32768;
    return tone(scaled, hz);
}

/* Left and right have each their own tone and little of the other's. */
static void separated(const char *format, double ll, double lr, double rr, double rl)
{
    printf("%s: left tone %.4f in left, %.4f in right; right tone %.4f in right, %.4f in left\n",
           format, ll, lr, rr, rl);
    double sent = MAIN * TONE;
    expect(fabs(ll - sent) < 0.01 * sent && fabs(rr - sent) < 0.01 * sent,
           "each tone is in its channel, as strong as it was sent");
    expect(lr < 0.01 * sent && rl < 0.01 * sent, "each tone is 40 dB down in the other channel");
}

/* The table is the caller's. Any numbers are taken; the cosine is the one that makes stereo. */
static void make_tables(void)
{
    for (int i = 0; i < PESCRONDILU_TABLE_LENGTH; i++) {
        double c = cos(TURN * i / 4096);
        table[i] = (float)c;
        table_q15[i] = (int16_t)lrint(32767 * c);
    }
}

/* What an exciter does: two tones, encoded in one block. */
static void make_multiplex(void)
{
    for (int i = 0; i < TOTAL; i++) {
        left_in[i] = (float)(TONE * sin(TURN * LEFT_HZ * i / RATE));
        right_in[i] = (float)(TONE * sin(TURN * RIGHT_HZ * i / RATE));
    }
    pescrondilu_encode_made made = pescrondilu_encode_new(PILOT_HZ, MAIN, PILOT, RATE);
    expect(made.code == 0, "the encoder is made");

    /* A receiver filters the pilot out of the multiplex. Here it is made anew, a sine at the phase
     * of the encoder's own oscillator, so that it is in step with the multiplex. */
    for (size_t i = 0; i < TOTAL; i++) {
        pescrondilu_nco at = pescrondilu_nco_advance(made.encoder.nco, i);
        pilot[i] = (float)(PILOT * sin(TURN * at.phase / 4294967296.0));
    }

    pescrondilu_encode_reply reply =
        pescrondilu_encode_block(made.encoder, table, PESCRONDILU_TABLE_LENGTH, left_in, TOTAL,
                                 right_in, TOTAL, mpx, TOTAL);
    expect(reply.answer.code == 0, "the encoder's block is accepted");

    for (int i = 0; i < TOTAL; i++) {
        mpx_q15[i] = pescrondilu_q15_from_f64(mpx[i]);
        pilot_q15[i] = pescrondilu_q15_from_f64(pilot[i]);
    }
    uint32_t good = pescrondilu_on_air(PILOT_HZ, PILOT);
    uint32_t weak = pescrondilu_on_air(PILOT_HZ, 0.075f);
    uint32_t low = pescrondilu_on_air(18500, PILOT);
    printf("on air: %u with the pilot at 0.09, %u at 0.075, %u at 18.5 kHz\n", good, weak, low);
    expect(good == 1 && weak == 0, "the verdict is yes at 0.09 and no at 0.075");
    expect(low == 0, "the verdict is no at 18.5 kHz");
}

/* The lock coefficient for a level that settles with a time constant of 50 ms. */
static double lock_coefficient(void)
{
    return 1 - exp(-1 / (RATE * 0.05));
}

static pescrondilu_f32 receive_f32(void)
{
    pescrondilu_f32_made made =
        pescrondilu_f32_new(PILOT_HZ, 20, PILOT, lock_coefficient(), RATE);
    expect(made.code == 0, "the f32 decoder is made");
    expect(made.decoder.enabled == 1 && made.decoder.stereo == 0, "it begins enabled, in mono");

    /* The decoder is a plain struct. Each block is handed it and gives the next one back. */
    pescrondilu_f32 d = made.decoder;
    size_t wide = 0;
    for (int at = 0; at < TOTAL; at += BLOCK) {
        pescrondilu_f32_counted reply = pescrondilu_f32_merged_block(
            d, table, PESCRONDILU_TABLE_LENGTH, mpx + at, BLOCK, pilot + at, BLOCK, left + at,
            BLOCK, right + at, BLOCK);
        expect(reply.answer.code == 0, "the f32 block is accepted");
        d = reply.decoder;
        wide += reply.wide;
        if (at == 0 || at == 2 * BLOCK)
            printf("f32 after %3d ms: level %.4f, lamp %s\n", (at + BLOCK) / (int)(RATE / 1000),
                   pescrondilu_f32_read(d).lock_level, d.stereo ? "on" : "off");
    }

    pescrondilu_readout r = pescrondilu_f32_read(d);
    printf("f32 at the end:   level %.4f, lamp %s\n", r.lock_level, r.stereo ? "on" : "off");
    tell_wide("f32", wide);
    expect(wide == 0, "with pilot and table in -1 to 1 no correction takes the wide way");
    expect(fabs(r.lock_level - PILOT / 2) < 0.001, "the level settles at half the amplitude");
    expect(r.stereo == 1, "the f32 lamp is on");
    separated("f32", tone(left, LEFT_HZ), tone(right, LEFT_HZ), tone(right, RIGHT_HZ),
              tone(left, RIGHT_HZ));
    return d;
}

static void receive_q15(void)
{
    pescrondilu_q15_made made =
        pescrondilu_q15_new(PILOT_HZ, 20, PILOT, lock_coefficient(), RATE);
    expect(made.code == 0, "the Q15 decoder is made");

    pescrondilu_q15 d = made.decoder;
    for (int at = 0; at < TOTAL; at += BLOCK) {
        pescrondilu_q15_reply reply = pescrondilu_q15_merged_block(
            d, table_q15, PESCRONDILU_TABLE_LENGTH, mpx_q15 + at, BLOCK, pilot_q15 + at, BLOCK,
            left_q15 + at, BLOCK, right_q15 + at, BLOCK);
        expect(reply.answer.code == 0, "the Q15 block is accepted");
        d = reply.decoder;
    }

    pescrondilu_readout r = pescrondilu_q15_read(d);
    printf("Q15 at the end:   level %.4f, lamp %s\n", r.lock_level, r.stereo ? "on" : "off");
    expect(fabs(r.lock_level - PILOT / 2) < 0.001, "the level settles at half the amplitude");
    expect(r.stereo == 1, "the Q15 lamp is on");
    separated("Q15", tone_q15(left_q15, LEFT_HZ), tone_q15(right_q15, LEFT_HZ),
              tone_q15(right_q15, RIGHT_HZ), tone_q15(left_q15, RIGHT_HZ));
}

/*
 * The same with a summary beside sum and difference, for a log. A block ends one period or none, and
 * the columns have as many places.
 */
static void summarize(void)
{
    static float sum[BLOCK], difference[BLOCK];
    uint32_t stereo[1], mono[1], changes[1];
    float magnitude[1];
    pescrondilu_f32 d =
        pescrondilu_f32_new(PILOT_HZ, 20, PILOT, lock_coefficient(), RATE).decoder;
    pescrondilu_f32_summary s = pescrondilu_f32_summary_new(PERIOD);
    unsigned periods = 0, changed = 0, where = 0;
    for (int at = 0; at < TOTAL; at += BLOCK) {
        size_t ending = (s.stereo + s.mono + (size_t)BLOCK) / s.period;
        pescrondilu_f32_summary_reply reply = pescrondilu_f32_summary_block(
            d, s, table, PESCRONDILU_TABLE_LENGTH, mpx + at, BLOCK, pilot + at, BLOCK, sum, BLOCK,
            difference, BLOCK, stereo, ending, mono, ending, changes, ending, magnitude, ending);
        expect(reply.answer.code == 0, "the block with its summary is accepted");
        tell_wide("summary", reply.wide);
        d = reply.decoder;
        s = reply.summary;
        if (ending == 0)
            continue;
        periods++;
        changed += changes[0];
        where = changes[0] > 0 ? periods : where;
        expect(stereo[0] + mono[0] == PERIOD, "each sample is stereo or mono");
        expect((magnitude[0] > 0) == (stereo[0] > 0), "there is a difference in stereo only");
    }
    printf("summary: %u periods of 20 ms, %u change, in period %u\n", periods, changed, where);
    expect(periods == TOTAL / PERIOD && changed == 1 && where == 2, "the lamp goes on once");
    expect(stereo[0] == PERIOD && s.before == 1, "and stays on");
}

/*
 * Three receivers in one box: a block waits for the first one, 700 samples for the second, nothing
 * for the third. Each round is brought what was not taken before, one part behind the other.
 */
static void share(pescrondilu_f32 d)
{
    static const size_t brought[RECEIVERS] = {BLOCK, 700, 0};
    static float m[BLOCK + 700], p[BLOCK + 700], sum[BLOCK + 700], difference[BLOCK + 700];
    static float first[BLOCK], same[BLOCK], alone[BLOCK];
    static pescrondilu_f32_rack rack;
    static pescrondilu_rack_waiting waiting;
    for (int k = 0; k < RECEIVERS; k++)
        rack.decoders[k] = d;
    rack.number = RECEIVERS;

    size_t at[RECEIVERS] = {0, 0, 0};
    unsigned rounds = 0;
    for (; rounds < 9 && at[0] < brought[0]; rounds++) {
        size_t n = 0;
        for (int k = 0; k < RECEIVERS; k++) {
            size_t w = brought[k] - at[k];
            memcpy(m + n, mpx + at[k], w * sizeof *m);
            memcpy(p + n, pilot + at[k], w * sizeof *p);
            pescrondilu_waiting part = {w, w, w, w};
            waiting.decoders[k] = part;
            n += w;
        }
        pescrondilu_f32_round reply =
            pescrondilu_f32_rack_round(rack, ALLOWANCE, waiting, table, PESCRONDILU_TABLE_LENGTH, m,
                                       n, p, n, sum, n, difference, n);
        expect(reply.answer.code == 0, "the round is accepted");
        memcpy(first + at[0], difference, reply.taken[0] * sizeof *first);
        for (int k = 0; k < RECEIVERS; k++) {
            at[k] += reply.taken[k];
            tell_wide("rack", reply.wide[k]);
        }
        rack = reply.rack;
    }
    printf("rack: %u rounds, %zu, %zu and %zu samples taken\n", rounds, at[0], at[1], at[2]);
    expect(rounds == 4 && at[1] == 700, "1920 samples at 500 a round are worked in four");

    pescrondilu_f32_counted reply =
        pescrondilu_f32_block(d, table, PESCRONDILU_TABLE_LENGTH, mpx, BLOCK, pilot, BLOCK, same,
                              BLOCK, alone, BLOCK);
    expect(memcmp(&rack.decoders[0], &reply.decoder, sizeof d) == 0 &&
               memcmp(first, alone, sizeof first) == 0 && alone[BLOCK - 1] != 0,
           "record and difference are those of one block");
    expect(memcmp(&rack.decoders[2], &d, sizeof d) == 0, "the third stays as it was");

    pescrondilu_f32_round none =
        pescrondilu_f32_rack_round(rack, RECEIVERS - 1, waiting, table, PESCRONDILU_TABLE_LENGTH, m,
                                   0, p, 0, sum, 0, difference, 0);
    printf("an allowance of 2 for 3: code %u\n", none.answer.code);
    expect(none.answer.code == PESCRONDILU_REFUSED + 22, "the code is 122");
}

/*
 * The same receivers with buffers of their own, in one round with a larger allowance. Nothing waits
 * for the third, so that two slices in each list are enough.
 */
static void share_slices(pescrondilu_f32 d)
{
    static float sums[2][BLOCK], differences[2][BLOCK], same[BLOCK], alone[BLOCK];
    static const pescrondilu_f32_input m[2] = {{mpx, BLOCK}, {mpx, 700}};
    static const pescrondilu_f32_input p[2] = {{pilot, BLOCK}, {pilot, 700}};
    static pescrondilu_f32_output sum[2] = {{sums[0], BLOCK}, {sums[1], 700}};
    static pescrondilu_f32_output difference[2] = {{differences[0], BLOCK}, {differences[1], 700}};
    static pescrondilu_f32_rack rack;
    for (int k = 0; k < RECEIVERS; k++)
        rack.decoders[k] = d;
    rack.number = RECEIVERS;

    pescrondilu_f32_round round =
        pescrondilu_f32_rack_round_slices(rack, RECEIVERS * BLOCK, table, PESCRONDILU_TABLE_LENGTH,
                                          m, 2, p, 2, sum, 2, difference, 2);
    printf("slices: 1 round, %zu, %zu and %zu samples taken\n", round.taken[0], round.taken[1],
           round.taken[2]);
    expect(round.answer.code == 0, "the round over slices is accepted");

    pescrondilu_f32_counted reply =
        pescrondilu_f32_block(d, table, PESCRONDILU_TABLE_LENGTH, mpx, 700, pilot, 700, same, 700,
                              alone, 700);
    expect(memcmp(&round.rack.decoders[1], &reply.decoder, sizeof d) == 0 &&
               memcmp(differences[1], alone, sizeof alone) == 0 && alone[699] != 0,
           "the second receiver's are those of its own block");
}

/* A block with a pilot one sample short is refused, and nothing changes. */
static void refuse(pescrondilu_f32 d)
{
    static float left_before[TOTAL], right_before[TOTAL];
    memcpy(left_before, left, sizeof left);
    memcpy(right_before, right, sizeof right);

    pescrondilu_f32_counted reply =
        pescrondilu_f32_merged_block(d, table, PESCRONDILU_TABLE_LENGTH, mpx, BLOCK, pilot,
                                     BLOCK - 1, left, BLOCK, right, BLOCK);
    printf("pilot one short: code %u, expected %zu, got %zu\n", reply.answer.code,
           reply.answer.expected, reply.answer.got);
    expect(reply.answer.code == PESCRONDILU_REFUSED + 10, "the code is 110");
    expect(reply.answer.expected == BLOCK && reply.answer.got == BLOCK - 1, "it has the lengths");
    expect(reply.wide == 0, "it carries no count");

    /* All fields of the record are 4 bytes long, so it has no padding that could differ. */
    int kept = memcmp(&reply.decoder, &d, sizeof d) == 0 &&
               memcmp(left, left_before, sizeof left) == 0 &&
               memcmp(right, right_before, sizeof right) == 0;
    printf("record and outputs: %s\n", kept ? "as they were" : "changed");
    expect(kept, "a refused block leaves record and outputs as they were");

    /* A decoder that cannot be made is all zeros. */
    pescrondilu_f32_made none = pescrondilu_f32_new(PILOT_HZ, 20, PILOT, lock_coefficient(), 0);
    static const pescrondilu_f32 zeros;
    printf("a rate of 0: code %u\n", none.code);
    expect(none.code == PESCRONDILU_REFUSED + 1, "the code is 101");
    expect(memcmp(&none.decoder, &zeros, sizeof zeros) == 0, "the decoder is all zeros");
}

/*
 * A demodulator fails in the middle of a block, and the pilot is far outside -1 to 1 from there on.
 * The block is carried out, and tells that the loop left its quick path.
 */
static void leave_quick_path(pescrondilu_f32 d)
{
    static float large[BLOCK], same[BLOCK], difference[BLOCK];
    for (int i = 0; i < BLOCK; i++)
        large[i] = i < BLOCK / 2 ? pilot[i] : 1e30f;

    pescrondilu_f32_counted reply =
        pescrondilu_f32_block(d, table, PESCRONDILU_TABLE_LENGTH, mpx, BLOCK, large, BLOCK, same,
                              BLOCK, difference, BLOCK);
    tell_wide("a large pilot", reply.wide);
    expect(reply.answer.code == 0, "a large pilot is accepted");
    expect(reply.wide == BLOCK / 2, "half of its corrections took the wide way");

    reply = pescrondilu_f32_block(pescrondilu_f32_reset(reply.decoder), table,
                                  PESCRONDILU_TABLE_LENGTH, mpx, BLOCK, pilot, BLOCK, same, BLOCK,
                                  difference, BLOCK);
    printf("after a reset: %zu\n", reply.wide);
    expect(reply.wide == 0, "after a reset none does");
}

/*
 * A switch is on at anything but 0, and comes back as 0 or 1. Here sum and difference are taken, as
 * by a receiver that filters them before the matrix.
 */
static void use_switches(pescrondilu_f32 d)
{
    static float as_1[BLOCK], as_2[BLOCK], off[BLOCK], same[BLOCK];

    d.enabled = 1;
    pescrondilu_f32_counted one =
        pescrondilu_f32_block(d, table, PESCRONDILU_TABLE_LENGTH, mpx, BLOCK, pilot, BLOCK, same,
                              BLOCK, as_1, BLOCK);
    d.enabled = 2;
    pescrondilu_f32_counted two =
        pescrondilu_f32_block(d, table, PESCRONDILU_TABLE_LENGTH, mpx, BLOCK, pilot, BLOCK, same,
                              BLOCK, as_2, BLOCK);
    printf("a switch of 2: comes back as %u\n", two.decoder.enabled);
    expect(one.answer.code == 0 && two.answer.code == 0, "both blocks are accepted");
    expect(two.decoder.enabled == 1, "a switch of 2 comes back as 1");
    expect(memcmp(as_1, as_2, sizeof as_1) == 0, "a switch of 2 is on");
    expect(as_2[1] != 0, "with the switch on there is a difference");

    /* Disabled, the lamp stays on, since the loop goes on, and the difference is 0. */
    pescrondilu_f32_counted no =
        pescrondilu_f32_block(pescrondilu_f32_disable(d), table, PESCRONDILU_TABLE_LENGTH, mpx,
                              BLOCK, pilot, BLOCK, same, BLOCK, off, BLOCK);
    int silent = 1;
    for (int i = 0; i < BLOCK; i++)
        silent = silent && off[i] == 0;
    printf("disabled: difference %s, lamp %s\n", silent ? "0" : "heard",
           no.decoder.stereo ? "on" : "off");
    expect(silent && no.decoder.stereo == 1 && no.decoder.enabled == 0,
           "disabled, the difference is 0 and the lamp is on");
}

int main(void)
{
    make_tables();
    make_multiplex();
    pescrondilu_f32 d = receive_f32();
    receive_q15();
    summarize();
    share(d);
    share_slices(d);
    refuse(d);
    leave_quick_path(d);
    use_switches(d);
    puts(wrong ? "not all is as expected" : "all is as expected");
    return wrong;
}
