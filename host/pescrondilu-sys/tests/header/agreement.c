/*
 * Every function of the library called from C with odd bit patterns in every field and argument. A
 * line has the function's name and every field of what came back, in hex. agreement.rs makes the
 * same calls from Rust, in the same order and with the same numbers, and compares the lines.
 */
#include "pescrondilu.h"

#include <stdio.h>
#include <string.h>

#define CASES 96
#define N 9
#define SLICES 10 /* of a list, two more than the decoders of a rack */

/* ---- The numbers of a case ------------------------------------------------------------------- */

static uint64_t state = 2026;
static unsigned kind;  /* 0: NaNs, 1: any bits, 2: the lists below, 3: numbers that compute */
/*
 * 4 to 7: which length is wrong. 1: the summary is of any bits, and so is a rack's number; 2: the
 * allowance is too small; 3: what waits is of any bits, and slices have any lengths; 0: the
 * allowance is of any bits.
 */
static unsigned fault;

static const uint64_t odd64[] = {
    UINT64_C(0x0000000000000000), UINT64_C(0x8000000000000000), UINT64_C(0x7fffffffffffffff),
    UINT64_C(0xffffffffffffffff), UINT64_C(0x0000000000000001), UINT64_C(0x7ff0000000000000),
    UINT64_C(0xfff0000000000000), UINT64_C(0x7ff0dead0000beef), UINT64_C(0x3fe0000000000000),
    UINT64_C(0xc1dfffffffc00000), UINT64_C(0x8000000000000001), UINT64_C(0x0000000080000000),
};
static const uint32_t odd32[] = {
    0x00000000, 0x80000000, 0x7fffffff, 0xffffffff, 0x00000001, 0x7f800000,
    0xff800000, 0x7f80beef, 0x3f000000, 0xbf7fffff, 0x807fffff, 0x00007fff,
};
static const uint32_t switches[] = {0, 1, 2, 0xffffffff};

static uint64_t next(void)
{
    state += UINT64_C(0x9e3779b97f4a7c15);
    uint64_t z = state;
    z = (z ^ (z >> 30)) * UINT64_C(0xbf58476d1ce4e5b9);
    z = (z ^ (z >> 27)) * UINT64_C(0x94d049bb133111eb);
    return z ^ (z >> 31);
}

static uint64_t any64(void)
{
    uint64_t x = next();
    if (kind == 2)
        return odd64[x % 12];
    return kind == 3 ? x >> (x % 64) : x;
}

static uint32_t any32(void)
{
    uint64_t x = next();
    if (kind == 2)
        return odd32[x % 12];
    return (uint32_t)(kind == 3 ? (x >> 32) >> (x % 32) : x >> 32);
}

static int16_t any16(void)
{
    return (int16_t)(uint16_t)any32();
}

static float f32_of(uint32_t bits)
{
    float x;
    memcpy(&x, &bits, sizeof x);
    return x;
}

static double f64_of(uint64_t bits)
{
    double x;
    memcpy(&x, &bits, sizeof x);
    return x;
}

static float any_float(void)
{
    if (kind == 3)
        return (float)(int32_t)(uint32_t)(next() >> 32) / 2147483648.0f;
    if (kind == 0)
        return f32_of(((uint32_t)next() & 0x807fffff) | 0x7f800001);
    return f32_of(any32());
}

static double any_double(void)
{
    if (kind == 3)
        return (double)(int32_t)(uint32_t)(next() >> 32) / 1024.0;
    if (kind == 0)
        return f64_of((next() & UINT64_C(0x800fffffffffffff)) | UINT64_C(0x7ff0000000000001));
    return f64_of(any64());
}

/* Where the numbers are to compute, a parameter that a construction takes. */
static double near_double(double x)
{
    return kind == 3 ? x + (double)(next() >> 44) / 1048576.0 : any_double();
}

static float near_float(float x)
{
    return kind == 3 ? x + (float)(next() >> 48) / 1048576.0f : any_float();
}

static uint32_t any_switch(void)
{
    return switches[next() % 4];
}

static pescrondilu_f32 any_f32(void)
{
    pescrondilu_f32 d;
    d.kp = any_float();
    d.ki = any_float();
    d.imax = any_float();
    d.beta = any_float();
    d.on = any_float();
    d.off = any_float();
    d.integ = any_float();
    d.level = any_float();
    d.step0 = any32();
    d.phase = any32();
    d.stereo = any_switch();
    d.enabled = any_switch();
    return d;
}

/* Where the numbers are to compute, a fit record. */
static pescrondilu_q15 any_q15(void)
{
    int fit = kind == 3;
    pescrondilu_q15 d;
    d.kp = (int64_t)(fit ? next() >> 36 : any64());
    d.ki = (int64_t)(fit ? next() >> 40 : any64());
    d.imax = (int64_t)(fit ? next() >> 8 : any64());
    d.beta = (int64_t)(fit ? next() >> 33 : any64());
    d.on = (int64_t)(fit ? next() >> 4 : any64());
    d.off = (int64_t)(fit ? next() >> 5 : any64());
    d.integ = fit ? -(d.imax / 2) : (int64_t)any64();
    d.level = (int64_t)(fit ? next() >> 4 : any64());
    d.step0 = any32();
    d.phase = any32();
    d.stereo = any_switch();
    d.enabled = any_switch();
    return d;
}

/*
 * A summary that is fit, unless the fault is 1, so that the causes behind it come up too. Its
 * period is up to somewhat above the length of a block.
 */
static pescrondilu_f32_summary any_f32_summary(void)
{
    pescrondilu_f32_summary s;
    int fit = fault != 1;
    s.period = fit ? 1 + (uint32_t)(next() % (N + 3)) : any32();
    uint32_t held = fit ? (uint32_t)(next() % s.period) : 0;
    s.stereo = fit ? (uint32_t)(next() % (held + 1)) : any32();
    s.mono = fit ? held - s.stereo : any32();
    s.changes = fit ? (uint32_t)(next() % (held + 1)) : any32();
    uint32_t magnitude = (uint32_t)next() % 0x7f800001;
    s.magnitude = fit ? f32_of(held > 0 ? magnitude : 0) : any_float();
    s.before = any_switch();
    return s;
}

static pescrondilu_q15_summary any_q15_summary(void)
{
    pescrondilu_q15_summary s;
    int fit = fault != 1;
    s.period = fit ? 1 + (uint32_t)(next() % (N + 3)) : any32();
    uint32_t held = fit ? (uint32_t)(next() % s.period) : 0;
    s.stereo = fit ? (uint32_t)(next() % (held + 1)) : any32();
    s.mono = fit ? held - s.stereo : any32();
    s.changes = fit ? (uint32_t)(next() % (held + 1)) : any32();
    uint16_t magnitude = (uint16_t)((uint32_t)next() % 0x8000);
    s.magnitude = fit ? (int16_t)(held > 0 ? magnitude : 0) : any16();
    s.before = any_switch();
    return s;
}

/* A rack of two to eight decoders, unless the fault is 1. */
static size_t any_number(void)
{
    return fault == 1 ? (size_t)any64() : 2 + (size_t)(next() % 7);
}

static pescrondilu_f32_rack any_f32_rack(void)
{
    pescrondilu_f32_rack r;
    for (int i = 0; i < PESCRONDILU_RACK_PLACES; i++)
        r.decoders[i] = any_f32();
    r.number = any_number();
    return r;
}

static pescrondilu_q15_rack any_q15_rack(void)
{
    pescrondilu_q15_rack r;
    for (int i = 0; i < PESCRONDILU_RACK_PLACES; i++)
        r.decoders[i] = any_q15();
    r.number = any_number();
    return r;
}

/* A share of one to four samples and a rest, unless the fault is 0 or 2. */
static uint32_t any_allowance(size_t number)
{
    if (fault < 2)
        return any32();
    uint32_t n = (uint32_t)number;
    uint32_t share = fault == 2 ? 0 : 1 + (uint32_t)(next() % 4);
    return n * share + (uint32_t)(next() % n);
}

/* One to four samples for each decoder, often more than there are, unless the fault is 3. */
static pescrondilu_rack_waiting any_waiting(void)
{
    pescrondilu_rack_waiting r;
    for (int i = 0; i < PESCRONDILU_RACK_PLACES; i++) {
        size_t n = 1 + (size_t)(next() % 4);
        pescrondilu_waiting *w = &r.decoders[i];
        w->mpx = fault == 3 ? (size_t)any64() : n;
        w->pilot = fault == 3 ? (size_t)any64() : n;
        w->sum = fault == 3 ? (size_t)any64() : n;
        w->difference = fault == 3 ? (size_t)any64() : n;
    }
    return r;
}

/* Where the slices of each list begin in the N samples, and how many are in the list. */
static struct {
    size_t count;
    size_t at[SLICES];
    size_t n[SLICES];
} lists[4];

/*
 * None to ten slices of none to two samples, one behind the other. The four lists are alike, unless
 * the fault is 3; from 5 on a first slice differs, that of pilot, sum or difference.
 */
static void any_lists(void)
{
    size_t count = (size_t)(next() % (SLICES + 1));
    size_t at[4] = {0, 0, 0, 0};
    for (unsigned j = 0; j < 4; j++)
        lists[j].count = fault == 3 ? (size_t)(next() % (SLICES + 1)) : count;
    for (int i = 0; i < SLICES; i++) {
        size_t all = (size_t)(next() % 3);
        for (unsigned j = 0; j < 4; j++) {
            size_t n = fault == 3 ? (size_t)(next() % 3) : all;
            if (i == 0 && j > 0 && fault == 4 + j)
                n = n > 0 ? n - 1 : 1;
            n = n < N - at[j] ? n : N - at[j];
            lists[j].at[i] = at[j];
            lists[j].n[i] = n;
            at[j] += n;
        }
    }
}

static pescrondilu_nco any_nco(void)
{
    pescrondilu_nco o;
    o.phase = any32();
    o.inc = any32();
    return o;
}

static pescrondilu_encode any_encode(void)
{
    pescrondilu_encode e;
    e.nco = any_nco();
    e.main = any_float();
    e.pilot = any_float();
    return e;
}

static pescrondilu_encode_rds any_encode_rds(void)
{
    pescrondilu_encode_rds e;
    e.enc = any_encode();
    e.rds = any_float();
    return e;
}

/* Word three is word one again in every other fault, so that a group with C' can be formed. */
static pescrondilu_rds_words any_words(void)
{
    pescrondilu_rds_words w;
    w.one = (uint16_t)any16();
    w.two = (uint16_t)any16();
    w.three = fault % 2 == 1 ? w.one : (uint16_t)any16();
    w.four = (uint16_t)any16();
    return w;
}

/* ---- What came back -------------------------------------------------------------------------- */

static void put16(int16_t x)
{
    printf(" %04x", (unsigned)(uint16_t)x);
}

static void put32(uint32_t x)
{
    printf(" %08x", x);
}

static void put64(uint64_t x)
{
    printf(" %016llx", (unsigned long long)x);
}

static void put_float(float x)
{
    uint32_t bits;
    memcpy(&bits, &x, sizeof bits);
    put32(bits);
}

static void put_double(double x)
{
    uint64_t bits;
    memcpy(&bits, &x, sizeof bits);
    put64(bits);
}

static void put_byte(uint8_t x)
{
    printf(" %02x", (unsigned)x);
}

static void put_bool(bool x)
{
    uint8_t byte;
    memcpy(&byte, &x, sizeof byte);
    put_byte(byte);
}

static void put_answer(pescrondilu_answer a)
{
    put32(a.code);
    put64(a.expected);
    put64(a.got);
}

static void put_f32(pescrondilu_f32 d)
{
    put_float(d.kp);
    put_float(d.ki);
    put_float(d.imax);
    put_float(d.beta);
    put_float(d.on);
    put_float(d.off);
    put_float(d.integ);
    put_float(d.level);
    put32(d.step0);
    put32(d.phase);
    put32(d.stereo);
    put32(d.enabled);
}

static void put_q15(pescrondilu_q15 d)
{
    put64((uint64_t)d.kp);
    put64((uint64_t)d.ki);
    put64((uint64_t)d.imax);
    put64((uint64_t)d.beta);
    put64((uint64_t)d.on);
    put64((uint64_t)d.off);
    put64((uint64_t)d.integ);
    put64((uint64_t)d.level);
    put32(d.step0);
    put32(d.phase);
    put32(d.stereo);
    put32(d.enabled);
}

static void put_f32_summary(pescrondilu_f32_summary s)
{
    put32(s.period);
    put32(s.stereo);
    put32(s.mono);
    put32(s.changes);
    put_float(s.magnitude);
    put32(s.before);
}

static void put_q15_summary(pescrondilu_q15_summary s)
{
    put32(s.period);
    put32(s.stereo);
    put32(s.mono);
    put32(s.changes);
    put16(s.magnitude);
    put32(s.before);
}

static void put_counts(const size_t *counts)
{
    for (int i = 0; i < PESCRONDILU_RACK_PLACES; i++)
        put64(counts[i]);
}

static void put_f32_rack(pescrondilu_f32_rack r)
{
    for (int i = 0; i < PESCRONDILU_RACK_PLACES; i++)
        put_f32(r.decoders[i]);
    put64(r.number);
}

static void put_q15_rack(pescrondilu_q15_rack r)
{
    for (int i = 0; i < PESCRONDILU_RACK_PLACES; i++)
        put_q15(r.decoders[i]);
    put64(r.number);
}

/* The slices of list j in these samples. */
#define SET_LIST(list, j, from)                                                                    \
    for (int i = 0; i < SLICES; i++) {                                                             \
        list[i].samples = from + lists[j].at[i];                                                   \
        list[i].n = lists[j].n[i];                                                                 \
    }

static void put_readout(pescrondilu_readout r)
{
    put_double(r.integrator);
    put_double(r.integrator_limit);
    put_double(r.lock_level);
    put32(r.phase);
    put32(r.stereo);
    put32(r.enabled);
}

static void put_nco(pescrondilu_nco o)
{
    put32(o.phase);
    put32(o.inc);
}

static void put_nco_made(pescrondilu_nco_made m)
{
    put32(m.code);
    put_nco(m.nco);
}

static void put_encode(pescrondilu_encode e)
{
    put_nco(e.nco);
    put_float(e.main);
    put_float(e.pilot);
}

static void put_encode_made(pescrondilu_encode_made m)
{
    put32(m.code);
    put_encode(m.encoder);
}

static void put_encode_rds(pescrondilu_encode_rds e)
{
    put_encode(e.enc);
    put_float(e.rds);
}

static void put_encode_rds_made(pescrondilu_encode_rds_made m)
{
    put32(m.code);
    put_encode_rds(m.encoder);
}

/* ---- Tables, samples and outputs ------------------------------------------------------------- */

static float table[PESCRONDILU_TABLE_LENGTH], in1[N], in2[N], in3[N], out1[N], out2[N];
static int16_t table_q[PESCRONDILU_TABLE_LENGTH], in1_q[N], in2_q[N], out1_q[N], out2_q[N];
static uint32_t stereo[N + 1], mono[N + 1], changes[N + 1];
static float magnitude[N + 1];
static int16_t magnitude_q[N + 1];
static uint8_t bits[PESCRONDILU_RDS_GROUP_BITS + 1];

/* New samples, and in the outputs what a call may leave there. */
static void fill(void)
{
    for (int i = 0; i < N; i++) {
        in1[i] = any_float();
        in2[i] = any_float();
        in3[i] = any_float();
        in1_q[i] = any16();
        in2_q[i] = any16();
        out1[i] = f32_of(0xffa00000u + (uint32_t)i);
        out2[i] = f32_of(0x7fb00000u + (uint32_t)i);
        out1_q[i] = (int16_t)(0x1110 + i);
        out2_q[i] = (int16_t)(0x2220 + i);
    }
}

static void put_outputs(void)
{
    for (int i = 0; i < N; i++) {
        put_float(out1[i]);
        put_float(out2[i]);
        put16(out1_q[i]);
        put16(out2_q[i]);
    }
}

/* What a block may leave in a summary's columns. */
static void fill_columns(void)
{
    for (int i = 0; i <= N; i++) {
        stereo[i] = 0xaaaaaaa0u + (uint32_t)i;
        mono[i] = 0xbbbbbbb0u + (uint32_t)i;
        changes[i] = 0xccccccc0u + (uint32_t)i;
        magnitude[i] = f32_of(0xffd00000u + (uint32_t)i);
        magnitude_q[i] = (int16_t)(0x3330 + i);
    }
}

static void put_columns(void)
{
    for (int i = 0; i <= N; i++) {
        put32(stereo[i]);
        put32(mono[i]);
        put32(changes[i]);
        put_float(magnitude[i]);
        put16(magnitude_q[i]);
    }
}

/* What a group may leave there; none of it is a bit. */
static void fill_bits(void)
{
    for (size_t i = 0; i < sizeof bits; i++)
        bits[i] = (uint8_t)(0x80 + i);
}

static void put_bits(void)
{
    for (size_t i = 0; i < sizeof bits; i++)
        put_byte(bits[i]);
}

/* The length n, or one less where this is the fault of the case. */
static size_t length(size_t n, unsigned which)
{
    return fault == which ? n - 1 : n;
}

#define TABLE_N length(PESCRONDILU_TABLE_LENGTH, 4)

/* Which of a summary's columns has a place less or more; from 4 on none has. */
static unsigned wrong_column(void)
{
    return (unsigned)(next() % 8);
}

/*
 * The places of a column: one for each period that ends in a block of N samples, or one less where
 * there is one, else one more. Where the summary is of any bits, N.
 */
static size_t places(uint32_t period, uint32_t held, unsigned wrong, unsigned which)
{
    if (fault == 1)
        return N;
    size_t n = (held + N) / period;
    if (wrong != which)
        return n;
    return n > 0 ? n - 1 : n + 1;
}

#define EACH(name, ...)                                                                            \
    for (unsigned k = 0; k < CASES; k++) {                                                         \
        kind = k % 4;                                                                              \
        fault = k / 4 % 8;                                                                         \
        printf("%s", #name);                                                                       \
        __VA_ARGS__                                                                                \
        printf("\n");                                                                              \
    }

static void decoders(void)
{
    EACH(pescrondilu_f32_new, {
        double pilot = near_double(19000);
        double natural = near_double(20);
        double level = near_double(0.0625);
        double beta = near_double(0.001);
        double rate = near_double(192000);
        pescrondilu_f32_made m = pescrondilu_f32_new(pilot, natural, level, beta, rate);
        put32(m.code);
        put_f32(m.decoder);
    })
    EACH(pescrondilu_q15_new, {
        double pilot = near_double(19000);
        double natural = near_double(20);
        double level = near_double(0.0625);
        double beta = near_double(0.001);
        double rate = near_double(192000);
        pescrondilu_q15_made m = pescrondilu_q15_new(pilot, natural, level, beta, rate);
        put32(m.code);
        put_q15(m.decoder);
    })
    EACH(pescrondilu_f32_enable, { put_f32(pescrondilu_f32_enable(any_f32())); })
    EACH(pescrondilu_q15_enable, { put_q15(pescrondilu_q15_enable(any_q15())); })
    EACH(pescrondilu_f32_disable, { put_f32(pescrondilu_f32_disable(any_f32())); })
    EACH(pescrondilu_q15_disable, { put_q15(pescrondilu_q15_disable(any_q15())); })
    EACH(pescrondilu_f32_reset, { put_f32(pescrondilu_f32_reset(any_f32())); })
    EACH(pescrondilu_q15_reset, { put_q15(pescrondilu_q15_reset(any_q15())); })
    EACH(pescrondilu_f32_read, { put_readout(pescrondilu_f32_read(any_f32())); })
    EACH(pescrondilu_q15_read, { put_readout(pescrondilu_q15_read(any_q15())); })
    EACH(pescrondilu_f32_block, {
        fill();
        pescrondilu_f32_counted r =
            pescrondilu_f32_block(any_f32(), table, TABLE_N, in1, N, in2, length(N, 5), out1,
                                  length(N, 6), out2, length(N, 7));
        put_answer(r.answer);
        put64(r.wide);
        put_f32(r.decoder);
        put_outputs();
    })
    EACH(pescrondilu_f32_plain_block, {
        fill();
        pescrondilu_f32_reply r =
            pescrondilu_f32_plain_block(any_f32(), table, TABLE_N, in1, N, in2, length(N, 5), out1,
                                        length(N, 6), out2, length(N, 7));
        put_answer(r.answer);
        put_f32(r.decoder);
        put_outputs();
    })
    EACH(pescrondilu_q15_block, {
        fill();
        pescrondilu_q15_reply r =
            pescrondilu_q15_block(any_q15(), table_q, TABLE_N, in1_q, N, in2_q, length(N, 5),
                                  out1_q, length(N, 6), out2_q, length(N, 7));
        put_answer(r.answer);
        put_q15(r.decoder);
        put_outputs();
    })
    EACH(pescrondilu_q15_plain_block, {
        fill();
        pescrondilu_q15_reply r =
            pescrondilu_q15_plain_block(any_q15(), table_q, TABLE_N, in1_q, N, in2_q, length(N, 5),
                                        out1_q, length(N, 6), out2_q, length(N, 7));
        put_answer(r.answer);
        put_q15(r.decoder);
        put_outputs();
    })
    EACH(pescrondilu_f32_merged_block, {
        fill();
        pescrondilu_f32_counted r =
            pescrondilu_f32_merged_block(any_f32(), table, TABLE_N, in1, N, in2, length(N, 5), out1,
                                         length(N, 6), out2, length(N, 7));
        put_answer(r.answer);
        put64(r.wide);
        put_f32(r.decoder);
        put_outputs();
    })
    EACH(pescrondilu_q15_merged_block, {
        fill();
        pescrondilu_q15_reply r =
            pescrondilu_q15_merged_block(any_q15(), table_q, TABLE_N, in1_q, N, in2_q, length(N, 5),
                                         out1_q, length(N, 6), out2_q, length(N, 7));
        put_answer(r.answer);
        put_q15(r.decoder);
        put_outputs();
    })
    EACH(pescrondilu_f32_summary_new, {
        put_f32_summary(pescrondilu_f32_summary_new(any32()));
    })
    EACH(pescrondilu_q15_summary_new, {
        put_q15_summary(pescrondilu_q15_summary_new(any32()));
    })
    EACH(pescrondilu_f32_summary_block, {
        fill();
        fill_columns();
        pescrondilu_f32 d = any_f32();
        pescrondilu_f32_summary s = any_f32_summary();
        unsigned wrong = wrong_column();
        uint32_t held = s.stereo + s.mono;
        pescrondilu_f32_summary_reply r = pescrondilu_f32_summary_block(
            d, s, table, TABLE_N, in1, N, in2, length(N, 5), out1, length(N, 6), out2, length(N, 7),
            stereo, places(s.period, held, wrong, 0), mono, places(s.period, held, wrong, 1),
            changes, places(s.period, held, wrong, 2), magnitude,
            places(s.period, held, wrong, 3));
        put_answer(r.answer);
        put64(r.wide);
        put_f32(r.decoder);
        put_f32_summary(r.summary);
        put_outputs();
        put_columns();
    })
    EACH(pescrondilu_q15_summary_block, {
        fill();
        fill_columns();
        pescrondilu_q15 d = any_q15();
        pescrondilu_q15_summary s = any_q15_summary();
        unsigned wrong = wrong_column();
        uint32_t held = s.stereo + s.mono;
        pescrondilu_q15_summary_reply r = pescrondilu_q15_summary_block(
            d, s, table_q, TABLE_N, in1_q, N, in2_q, length(N, 5), out1_q, length(N, 6), out2_q,
            length(N, 7), stereo, places(s.period, held, wrong, 0), mono,
            places(s.period, held, wrong, 1), changes, places(s.period, held, wrong, 2),
            magnitude_q, places(s.period, held, wrong, 3));
        put_answer(r.answer);
        put_q15(r.decoder);
        put_q15_summary(r.summary);
        put_outputs();
        put_columns();
    })
    EACH(pescrondilu_f32_rack_round, {
        fill();
        pescrondilu_f32_rack rack = any_f32_rack();
        uint32_t allowance = any_allowance(rack.number);
        pescrondilu_rack_waiting waiting = any_waiting();
        pescrondilu_f32_round r = pescrondilu_f32_rack_round(
            rack, allowance, waiting, table, TABLE_N, in1, N, in2, length(N, 5), out1, length(N, 6),
            out2, length(N, 7));
        put_answer(r.answer);
        put_counts(r.taken);
        put_counts(r.wide);
        put_f32_rack(r.rack);
        put_outputs();
    })
    EACH(pescrondilu_q15_rack_round, {
        fill();
        pescrondilu_q15_rack rack = any_q15_rack();
        uint32_t allowance = any_allowance(rack.number);
        pescrondilu_rack_waiting waiting = any_waiting();
        pescrondilu_q15_round r = pescrondilu_q15_rack_round(
            rack, allowance, waiting, table_q, TABLE_N, in1_q, N, in2_q, length(N, 5), out1_q,
            length(N, 6), out2_q, length(N, 7));
        put_answer(r.answer);
        put_counts(r.taken);
        put_q15_rack(r.rack);
        put_outputs();
    })
    EACH(pescrondilu_f32_rack_round_slices, {
        fill();
        pescrondilu_f32_rack rack = any_f32_rack();
        uint32_t allowance = any_allowance(rack.number);
        any_lists();
        pescrondilu_f32_input mpx[SLICES], pilot[SLICES];
        pescrondilu_f32_output sum[SLICES], difference[SLICES];
        SET_LIST(mpx, 0, in1)
        SET_LIST(pilot, 1, in2)
        SET_LIST(sum, 2, out1)
        SET_LIST(difference, 3, out2)
        pescrondilu_f32_round r = pescrondilu_f32_rack_round_slices(
            rack, allowance, table, TABLE_N, mpx, lists[0].count, pilot, lists[1].count, sum,
            lists[2].count, difference, lists[3].count);
        put_answer(r.answer);
        put_counts(r.taken);
        put_counts(r.wide);
        put_f32_rack(r.rack);
        put_outputs();
    })
    EACH(pescrondilu_q15_rack_round_slices, {
        fill();
        pescrondilu_q15_rack rack = any_q15_rack();
        uint32_t allowance = any_allowance(rack.number);
        any_lists();
        pescrondilu_q15_input mpx[SLICES], pilot[SLICES];
        pescrondilu_q15_output sum[SLICES], difference[SLICES];
        SET_LIST(mpx, 0, in1_q)
        SET_LIST(pilot, 1, in2_q)
        SET_LIST(sum, 2, out1_q)
        SET_LIST(difference, 3, out2_q)
        pescrondilu_q15_round r = pescrondilu_q15_rack_round_slices(
            rack, allowance, table_q, TABLE_N, mpx, lists[0].count, pilot, lists[1].count, sum,
            lists[2].count, difference, lists[3].count);
        put_answer(r.answer);
        put_counts(r.taken);
        put_q15_rack(r.rack);
        put_outputs();
    })
    EACH(pescrondilu_f32_scan, {
        fill();
        pescrondilu_f32_scanned s = pescrondilu_f32_scan(in1, length(N, 5));
        put32(s.finite);
        put64(s.read);
    })
    EACH(pescrondilu_matrix_f32, {
        fill();
        put_answer(pescrondilu_matrix_f32(in1, N, in2, length(N, 5), out1, length(N, 6), out2,
                                          length(N, 7)));
        put_outputs();
    })
    EACH(pescrondilu_matrix_q15, {
        fill();
        put_answer(pescrondilu_matrix_q15(in1_q, N, in2_q, length(N, 5), out1_q, length(N, 6),
                                          out2_q, length(N, 7)));
        put_outputs();
    })
}

static void encoders(void)
{
    EACH(pescrondilu_on_air, {
        double frequency = near_double(19001.5);
        float amplitude = near_float(0.0625f);
        put32(pescrondilu_on_air(frequency, amplitude));
    })
    EACH(pescrondilu_nco_increment_for, {
        double freq = any_double();
        double rate = near_double(192000);
        pescrondilu_increment i = pescrondilu_nco_increment_for(freq, rate);
        put32(i.code);
        put32(i.increment);
    })
    EACH(pescrondilu_nco_new, {
        double freq = any_double();
        double rate = near_double(192000);
        put_nco_made(pescrondilu_nco_new(freq, rate));
    })
    EACH(pescrondilu_nco_from_increment, { put_nco(pescrondilu_nco_from_increment(any32())); })
    EACH(pescrondilu_nco_set_frequency, {
        pescrondilu_nco o = any_nco();
        double freq = any_double();
        double rate = near_double(192000);
        put_nco_made(pescrondilu_nco_set_frequency(o, freq, rate));
    })
    EACH(pescrondilu_nco_set_phase, {
        pescrondilu_nco o = any_nco();
        put_nco(pescrondilu_nco_set_phase(o, any32()));
    })
    EACH(pescrondilu_nco_advance, {
        pescrondilu_nco o = any_nco();
        put_nco(pescrondilu_nco_advance(o, (size_t)any64()));
    })
    EACH(pescrondilu_nco_reset, { put_nco(pescrondilu_nco_reset(any_nco())); })
    EACH(pescrondilu_encode_new, {
        double frequency = near_double(19000);
        float main_gain = near_float(0.5f);
        float pilot = near_float(0.0625f);
        double rate = near_double(192000);
        put_encode_made(pescrondilu_encode_new(frequency, main_gain, pilot, rate));
    })
    EACH(pescrondilu_encode_set_pilot, {
        pescrondilu_encode e = any_encode();
        put_encode_made(pescrondilu_encode_set_pilot(e, any_float()));
    })
    EACH(pescrondilu_encode_set_phase, {
        pescrondilu_encode e = any_encode();
        put_encode(pescrondilu_encode_set_phase(e, any32()));
    })
    EACH(pescrondilu_encode_reset, { put_encode(pescrondilu_encode_reset(any_encode())); })
    EACH(pescrondilu_encode_block, {
        fill();
        pescrondilu_encode_reply r = pescrondilu_encode_block(
            any_encode(), table, TABLE_N, in1, N, in2, length(N, 5), out1, length(N, 6));
        put_answer(r.answer);
        put_encode(r.encoder);
        put_outputs();
    })
    EACH(pescrondilu_encode_rds_new, {
        double frequency = near_double(19000);
        float main_gain = near_float(0.5f);
        float pilot = near_float(0.0625f);
        float rds = near_float(0.03125f);
        double rate = near_double(192000);
        put_encode_rds_made(pescrondilu_encode_rds_new(frequency, main_gain, pilot, rds, rate));
    })
    EACH(pescrondilu_encode_rds_set_pilot, {
        pescrondilu_encode_rds e = any_encode_rds();
        put_encode_rds_made(pescrondilu_encode_rds_set_pilot(e, any_float()));
    })
    EACH(pescrondilu_encode_rds_set_rds, {
        pescrondilu_encode_rds e = any_encode_rds();
        put_encode_rds_made(pescrondilu_encode_rds_set_rds(e, any_float()));
    })
    EACH(pescrondilu_encode_rds_set_phase, {
        pescrondilu_encode_rds e = any_encode_rds();
        put_encode_rds(pescrondilu_encode_rds_set_phase(e, any32()));
    })
    EACH(pescrondilu_encode_rds_reset, {
        put_encode_rds(pescrondilu_encode_rds_reset(any_encode_rds()));
    })
    EACH(pescrondilu_encode_rds_block, {
        fill();
        pescrondilu_encode_rds_reply r =
            pescrondilu_encode_rds_block(any_encode_rds(), table, TABLE_N, in1, N, in2,
                                         length(N, 5), in3, length(N, 7), out1, length(N, 6));
        put_answer(r.answer);
        put_encode_rds(r.encoder);
        put_outputs();
    })
}

/* The length of the output for a group: one less or one more in two of the faults. */
static size_t bits_n(void)
{
    return fault == 7 ? PESCRONDILU_RDS_GROUP_BITS + 1 : length(PESCRONDILU_RDS_GROUP_BITS, 4);
}

static void groups(void)
{
    EACH(pescrondilu_rds_remainder, { put32(pescrondilu_rds_remainder(any32())); })
    EACH(pescrondilu_rds_former_new, { put32(pescrondilu_rds_former_new().carried); })
    EACH(pescrondilu_rds_group, {
        fill_bits();
        pescrondilu_rds_former f;
        f.carried = any_switch();
        pescrondilu_rds_words w = any_words();
        pescrondilu_rds_reply r = pescrondilu_rds_group(f, w, bits, bits_n());
        put_answer(r.answer);
        put32(r.former.carried);
        put_bits();
    })
}

static void numbers(void)
{
    EACH(pescrondilu_sat16, { put16(pescrondilu_sat16((int64_t)any64())); })
    EACH(pescrondilu_round_shift, {
        int64_t x = (int64_t)any64();
        put64((uint64_t)pescrondilu_round_shift(x, any32()));
    })
    EACH(pescrondilu_q15_product, {
        int16_t a = any16();
        put64((uint64_t)pescrondilu_q15_product(a, any16()));
    })
    EACH(pescrondilu_q15_mul, {
        int16_t a = any16();
        put16(pescrondilu_q15_mul(a, any16()));
    })
    EACH(pescrondilu_q15_add_sat, {
        int16_t a = any16();
        put16(pescrondilu_q15_add_sat(a, any16()));
    })
    EACH(pescrondilu_q15_sub_sat, {
        int16_t a = any16();
        put16(pescrondilu_q15_sub_sat(a, any16()));
    })
    EACH(pescrondilu_low32, { put32(pescrondilu_low32((int64_t)any64())); })
    EACH(pescrondilu_phase_twice, { put32(pescrondilu_phase_twice(any32())); })
    EACH(pescrondilu_phase_thrice, { put32(pescrondilu_phase_thrice(any32())); })
    EACH(pescrondilu_floor_f64, { put_double(pescrondilu_floor_f64(any_double())); })
    EACH(pescrondilu_half_even_f64, { put_double(pescrondilu_half_even_f64(any_double())); })
    EACH(pescrondilu_f64_to_f32, { put_float(pescrondilu_f64_to_f32(any_double())); })
    EACH(pescrondilu_i64_to_f64, { put_double(pescrondilu_i64_to_f64((int64_t)any64())); })
    EACH(pescrondilu_f64_to_i64, { put64((uint64_t)pescrondilu_f64_to_i64(any_double())); })
    EACH(pescrondilu_f32_to_f64, { put_double(pescrondilu_f32_to_f64(any_float())); })
    EACH(pescrondilu_is_finite_f32, { put_bool(pescrondilu_is_finite_f32(any_float())); })
    EACH(pescrondilu_is_finite_f64, { put_bool(pescrondilu_is_finite_f64(any_double())); })
    EACH(pescrondilu_flush_denormal, { put_float(pescrondilu_flush_denormal(any_float())); })
    EACH(pescrondilu_floor_scaled, {
        double x = any_double();
        put64((uint64_t)pescrondilu_floor_scaled(x, any_double()));
    })
    EACH(pescrondilu_q15_from_f64, { put16(pescrondilu_q15_from_f64(any_double())); })
    EACH(pescrondilu_q14_from_f64, {
        pescrondilu_q14 q = pescrondilu_q14_from_f64(near_double(-0.5));
        put32(q.code);
        put16(q.value);
    })
    EACH(pescrondilu_correction_plain, { put32(pescrondilu_correction_plain(any_float())); })
    EACH(pescrondilu_correction_fast, {
        pescrondilu_corrected y = pescrondilu_correction_fast(any_float());
        put32(y.step);
        put_bool(y.quick);
    })
    EACH(pescrondilu_quick_serves, { put_bool(pescrondilu_quick_serves(any_double())); })
    EACH(pescrondilu_cos_f32, { put_float(pescrondilu_cos_f32(table, TABLE_N, any32())); })
    EACH(pescrondilu_interp_f32_pair, {
        pescrondilu_pair p = pescrondilu_interp_f32_pair(table, TABLE_N, any32());
        put_float(p.c);
        put_float(p.s);
    })
    EACH(pescrondilu_cos_q15, { put16(pescrondilu_cos_q15(table_q, TABLE_N, any32())); })
    EACH(pescrondilu_interp_q15, {
        put32((uint32_t)pescrondilu_interp_q15(table_q, TABLE_N, any32()));
    })
}

int main(void)
{
    for (int i = 0; i < PESCRONDILU_TABLE_LENGTH; i++) {
        kind = 3;
        table[i] = any_float();
        kind = 1;
        table_q[i] = any16();
    }
    decoders();
    encoders();
    groups();
    numbers();
    return 0;
}
