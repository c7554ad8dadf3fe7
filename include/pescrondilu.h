/*
 * The proved FM stereo core: pilot loop with stereo decision, summary of its periods, rack of
 * several decoders, scan of the pilot, matrix, multiplex encoders, oscillator, on-air verdict and
 * RDS group former, in libpescrondilu.a. x86-64 Linux, System V calls; C99 or C++.
 *
 *     cc program.c -Iinclude -Ltarget/staticlib -lpescrondilu -lm
 *
 * (The library needs the C library's memcpy and memset and nothing else; -lm is for a program that
 * makes its table by cos. It is compiled for x86-64-v2: SSE4.2 and POPCNT, which it does not test.)
 * host/c/receiver.c is an example.
 *
 * What the caller owes
 *   - Each pointer is aligned and leads to as many elements as the length after it says. It is
 *     not NULL, even where the length is 0. This holds for each slice of a list too.
 *   - An output overlaps no other argument of the call: no input, no other output, and no list of
 *     slices. So nothing is worked in place. Inputs may overlap each other.
 *   - The floating-point mode is the one a C program starts in: rounding to nearest, no traps,
 *     very small numbers kept. (-ffast-math at linking changes it, and with it the results.)
 *
 * What the caller gets
 *   - Every call ends. Nothing is allocated, locked, or kept from one call to the next: all that a
 *     decoder, a summary, a rack, an encoder or a group former remembers is in its record, which
 *     the caller holds.
 *   - Records go in and out by value. A call changes no record that it is handed; the next one
 *     comes back: d = pescrondilu_f32_reset(d);
 *   - Calls on different records may run on different threads, with one table for all of them.
 *   - Any bits are taken in records, parameters, tables and samples, NaN and infinities included.
 *     A NaN that comes back may have other bits than the one that went in.
 *   - A switch (a decoder's stereo and enabled, before, carried) is a uint32_t, off at 0 and on at
 *     anything else. It comes back as 0 or 1.
 *   - A record's read-outs are its fields. The read call gives a decoder's in the same units for
 *     both formats.
 *
 * Refusals
 *   A call that may be refused answers with a code: 0 is accepted, and PESCRONDILU_REFUSED plus
 *   the number of the cause is refused. The first cause in force wins, in the order that the
 *   function's text names them.
 *
 *   No.  Code  Cause
 *    0   100   the Q15 record is unfit (only one that was filled in by hand can be)
 *    1   101   the rate is not finite, or not above 0
 *    2   102   decoder: the pilot frequency is not finite, not above 0, or not below rate / 4
 *    3   103   decoder: the natural frequency is not finite, not above 0, or above pilot / 100
 *    4   104   decoder: the pilot level is not finite, not above 0, or above 1
 *    5   105   decoder: the lock coefficient is NaN, below 0 or above 1
 *    6   106   decoder: one of kp, ki, imax, beta, on, off becomes 0 or not finite as a float
 *    7   107   Q15 decoder: a value or a guard exceeds int64_t
 *    8   108   Q15 decoder: ki or beta becomes 0
 *    9   109   the table's length is not PESCRONDILU_TABLE_LENGTH
 *   10   110   a further input's length differs from the first input's
 *   11   111   an output's length differs from the first input's; a group's: from 104; that of a
 *              summary's figures: from the number of periods that end in the block
 *   12   112   encoder: the pilot frequency is not in 18000 to 20000 Hz
 *   13   113   encoder: the main gain is not in 0 to 1
 *   14   114   encoder: the pilot amplitude is not in 0 to 0.2
 *   15   115   encoder: the rate is below 120000 Hz
 *   16   116   encoder: the RDS level is not in 0 to 0.2
 *   17   117   oscillator: frequency / rate is not finite
 *   18   118   the value is outside Q14
 *   19   119   group: word three differs from word one, and bit 11 of word two is set
 *   20   120   summary: the period is 0, or the record was filled in by hand and is unfit
 *   21   121   rack: the number of decoders is below 2 or above PESCRONDILU_RACK_PLACES
 *   22   122   rack: the allowance is smaller than the number of decoders
 *
 *   What is left: a refused block, round or group gives its records back as they were (the switches
 *   as 0 or 1) and writes to no output. A refused set call gives the record back as it was. A
 *   refused construction gives zeros.
 */
#ifndef PESCRONDILU_H
#define PESCRONDILU_H

#include <stdbool.h>
#include <stddef.h>
#include <stdint.h>

#if !defined(__x86_64__) || defined(__ILP32__) || !defined(__linux__)
#error "libpescrondilu.a is for x86-64 Linux with 64-bit pointers"
#endif

#ifdef __cplusplus
#define PESCRONDILU_RESTRICT __restrict
extern "C" {
#else
#define PESCRONDILU_RESTRICT restrict
#endif

/* The entries of a table: entry i is cos(2 pi i / 4096), and the last one is the first again. */
#define PESCRONDILU_TABLE_LENGTH 4097

/* A code of 0 is accepted; this plus the number of the cause is refused. */
#define PESCRONDILU_REFUSED 100

/* The most decoders of a rack. */
#define PESCRONDILU_RACK_PLACES 8

/* The bits of an RDS group: four blocks, each of 16 bits of a word and 10 of its check. */
#define PESCRONDILU_RDS_GROUP_BITS 104

/* A phase is a uint32_t, one turn being 2^32. This is a quarter of a turn. */
#define PESCRONDILU_QUARTER_TURN UINT32_C(1073741824)

/*
 * What a block, a round or a group answers. At the causes 9, 10 and 11 expected is the length that
 * was asked for and got the one that was given; otherwise both are 0.
 */
typedef struct pescrondilu_answer {
    uint32_t code;
    size_t expected;
    size_t got;
} pescrondilu_answer;

/* ---- What a receiver calls: decoders, summary, rack, scan, matrix, verdict ------------------- */

/*
 * A decoder in float: the gains, the integrator, the lock level with its two thresholds, the step
 * and the phase, and the switches. The integrator and its limit are in turns a sample.
 */
typedef struct pescrondilu_f32 {
    float kp;
    float ki;
    float imax;
    float beta;
    float on;
    float off;
    float integ;
    float level;
    uint32_t step0;
    uint32_t phase;
    uint32_t stereo;
    uint32_t enabled;
} pescrondilu_f32;

/*
 * The same in fixed point: kp and ki in units of 2^-34, the integrator and its limit in 2^-64
 * turns a sample, beta in 2^-31, the level and its thresholds in 2^-61.
 */
typedef struct pescrondilu_q15 {
    int64_t kp;
    int64_t ki;
    int64_t imax;
    int64_t beta;
    int64_t on;
    int64_t off;
    int64_t integ;
    int64_t level;
    uint32_t step0;
    uint32_t phase;
    uint32_t stereo;
    uint32_t enabled;
} pescrondilu_q15;

/* A new decoder; zeros where the code is not 0. */
typedef struct pescrondilu_f32_made {
    uint32_t code;
    pescrondilu_f32 decoder;
} pescrondilu_f32_made;

typedef struct pescrondilu_q15_made {
    uint32_t code;
    pescrondilu_q15 decoder;
} pescrondilu_q15_made;

/* What a block answers, and the decoder after it. */
typedef struct pescrondilu_f32_reply {
    pescrondilu_answer answer;
    pescrondilu_f32 decoder;
} pescrondilu_f32_reply;

typedef struct pescrondilu_q15_reply {
    pescrondilu_answer answer;
    pescrondilu_q15 decoder;
} pescrondilu_q15_reply;

/*
 * The same of a float block of the fast way, and between them how many of the block's phase
 * corrections took the wide way. Each sample has one correction, of f = kp times the detector's
 * error plus the integrator. From f = -524288 up to, and without, f = 524288 the quick way serves,
 * which is one addition. Else, and where f is NaN, the wide way is taken: it gives the same and
 * takes longer. (In exact words: where v = f times 2^32 plus 0.5, as doubles, is below 2^51 in
 * magnitude, the quick way serves. A NaN is not below.)
 *
 * wide is from 0 to the block's number of samples, and counts this block alone. 0 is the usual
 * case: each sample went the quick way. A refused block carries no count, and has 0 there too.
 *
 * From a decoder that pescrondilu_f32_new returned, wide is 0 in every block as long as these hold:
 * kp + imax, added as floats, is at most 262144; and in every block since the start or the last
 * reset each pilot sample and each entry of the table is in -1 to 1. This is proved.
 */
typedef struct pescrondilu_f32_counted {
    pescrondilu_answer answer;
    size_t wide;
    pescrondilu_f32 decoder;
} pescrondilu_f32_counted;

/*
 * A decoder's read-outs, in the same units for both formats: integrator and limit in turns a
 * sample, and the lock level, which settles at half the pilot's amplitude.
 */
typedef struct pescrondilu_readout {
    double integrator;
    double integrator_limit;
    double lock_level;
    uint32_t phase;
    uint32_t stereo;
    uint32_t enabled;
} pescrondilu_readout;

/* What a scan of a pilot tells: 1 where every sample is finite, else 0; and the samples read. */
typedef struct pescrondilu_f32_scanned {
    uint32_t finite;
    size_t read;
} pescrondilu_f32_scanned;

/*
 * Makes a decoder: the pilot's and the loop's natural frequency in Hz, the amplitude expected of
 * the pilot, the lock coefficient (1 - exp(-1 / (rate * seconds)) for a level with that time
 * constant), and the rate in samples a second. It begins with phase, integrator and level 0, in
 * mono, enabled. Causes 1 to 6.
 */
pescrondilu_f32_made pescrondilu_f32_new(double pilot, double natural, double level, double beta,
                                         double rate);

/* The same in fixed point. Causes 1 to 8. */
pescrondilu_q15_made pescrondilu_q15_new(double pilot, double natural, double level, double beta,
                                         double rate);

/* Lets the difference be heard while the decoder says stereo. Never refused. */
pescrondilu_f32 pescrondilu_f32_enable(pescrondilu_f32 d);
pescrondilu_q15 pescrondilu_q15_enable(pescrondilu_q15 d);

/* Makes the difference 0. The loop and the stereo decision go on. Never refused. */
pescrondilu_f32 pescrondilu_f32_disable(pescrondilu_f32 d);
pescrondilu_q15 pescrondilu_q15_disable(pescrondilu_q15 d);

/*
 * Sets phase, integrator and level to 0 and the decision to mono; gains and enabled stay. Never
 * refused. A float level can become NaN, and then holds the decision until this is called.
 */
pescrondilu_f32 pescrondilu_f32_reset(pescrondilu_f32 d);
pescrondilu_q15 pescrondilu_q15_reset(pescrondilu_q15 d);

/* Reads a decoder. Never refused. */
pescrondilu_readout pescrondilu_f32_read(pescrondilu_f32 d);
pescrondilu_readout pescrondilu_q15_read(pescrondilu_q15 d);

/*
 * Decodes a block, the fast way. mpx is the multiplex, and pilot the same signal after the
 * caller's pilot filter, in step with it. sum becomes mpx. difference becomes mpx times the sine
 * of twice the phase while the decoder says stereo and is enabled, else 0. The caller filters both
 * to the audio band. wide counts the corrections that took the wide way.
 * Causes 9; 10 for pilot; 11 for sum, then for difference.
 */
pescrondilu_f32_counted pescrondilu_f32_block(
    pescrondilu_f32 d, const float *table, size_t table_n, const float *mpx, size_t mpx_n,
    const float *pilot, size_t pilot_n, float *PESCRONDILU_RESTRICT sum, size_t sum_n,
    float *PESCRONDILU_RESTRICT difference, size_t difference_n);

/*
 * The same in fixed point; a sample of 32768 would be 1. Causes 0, then as in float. There is one
 * way to correct the phase, so that nothing is counted.
 */
pescrondilu_q15_reply pescrondilu_q15_block(
    pescrondilu_q15 d, const int16_t *table, size_t table_n, const int16_t *mpx, size_t mpx_n,
    const int16_t *pilot, size_t pilot_n, int16_t *PESCRONDILU_RESTRICT sum, size_t sum_n,
    int16_t *PESCRONDILU_RESTRICT difference, size_t difference_n);

/*
 * The same blocks, the plain way: equal answers, outputs and records, and slower. Same causes.
 * Nothing is counted, since the quick way is not tried.
 */
pescrondilu_f32_reply pescrondilu_f32_plain_block(
    pescrondilu_f32 d, const float *table, size_t table_n, const float *mpx, size_t mpx_n,
    const float *pilot, size_t pilot_n, float *PESCRONDILU_RESTRICT sum, size_t sum_n,
    float *PESCRONDILU_RESTRICT difference, size_t difference_n);
pescrondilu_q15_reply pescrondilu_q15_plain_block(
    pescrondilu_q15 d, const int16_t *table, size_t table_n, const int16_t *mpx, size_t mpx_n,
    const int16_t *pilot, size_t pilot_n, int16_t *PESCRONDILU_RESTRICT sum, size_t sum_n,
    int16_t *PESCRONDILU_RESTRICT difference, size_t difference_n);

/*
 * Left and right from one call, the fast way: sum + 2 difference and sum - 2 difference of what
 * pescrondilu_f32_block would give, and the same record and count. The caller filters left and
 * right to the audio band. In mono the difference is +0, so that an mpx of -0.0f gives left +0 and
 * right -0. Causes 9; 10 for pilot; 11 for left, then for right.
 */
pescrondilu_f32_counted pescrondilu_f32_merged_block(
    pescrondilu_f32 d, const float *table, size_t table_n, const float *mpx, size_t mpx_n,
    const float *pilot, size_t pilot_n, float *PESCRONDILU_RESTRICT left, size_t left_n,
    float *PESCRONDILU_RESTRICT right, size_t right_n);

/*
 * The same in fixed point. Causes 0, then as in float.
 *
 * Left and right are limited to int16_t BEFORE the caller's low-pass. Since |1 + 2 sin| goes up to
 * 3, a multiplex above a third of full scale can reach the limit where the filtered audio would not.
 * So a caller hands in the multiplex with headroom, say at a quarter, the pilot staying as it is; or
 * takes sum and difference by pescrondilu_q15_block, filters these and calls the matrix.
 */
pescrondilu_q15_reply pescrondilu_q15_merged_block(
    pescrondilu_q15 d, const int16_t *table, size_t table_n, const int16_t *mpx, size_t mpx_n,
    const int16_t *pilot, size_t pilot_n, int16_t *PESCRONDILU_RESTRICT left, size_t left_n,
    int16_t *PESCRONDILU_RESTRICT right, size_t right_n);

/*
 * A summary of the decoder's samples, in periods of a chosen number of them: the period, then what
 * is held of the unfinished one. That is its stereo samples, its mono samples, the changes of the
 * decision, and the largest magnitude of the difference. before is a switch, the decision of the
 * sample before. It is the summary's own, so that the mono after a reset of a decoder in stereo is
 * a change like any other.
 */
typedef struct pescrondilu_f32_summary {
    uint32_t period;
    uint32_t stereo;
    uint32_t mono;
    uint32_t changes;
    float magnitude;
    uint32_t before;
} pescrondilu_f32_summary;

typedef struct pescrondilu_q15_summary {
    uint32_t period;
    uint32_t stereo;
    uint32_t mono;
    uint32_t changes;
    int16_t magnitude;
    uint32_t before;
} pescrondilu_q15_summary;

/*
 * What a block with its summary answers, and the decoder and the summary after it. In float wide is
 * the block's count of wide corrections; it goes by the block and not by the period.
 */
typedef struct pescrondilu_f32_summary_reply {
    pescrondilu_answer answer;
    size_t wide;
    pescrondilu_f32 decoder;
    pescrondilu_f32_summary summary;
} pescrondilu_f32_summary_reply;

typedef struct pescrondilu_q15_summary_reply {
    pescrondilu_answer answer;
    pescrondilu_q15 decoder;
    pescrondilu_q15_summary summary;
} pescrondilu_q15_summary_reply;

/*
 * A summary with periods of this many samples. It holds nothing, and mono stands before its first
 * sample. Never refused; with a period of 0 every block is (cause 20).
 */
pescrondilu_f32_summary pescrondilu_f32_summary_new(uint32_t period);
pescrondilu_q15_summary pescrondilu_q15_summary_new(uint32_t period);

/*
 * What pescrondilu_f32_block gives, and beside it the figures of each period that ends in the
 * block: stereo samples, mono samples, changes of the decision from one sample to the next, and the
 * largest magnitude of the difference. They go by the decision after each sample, so that a
 * disabled decoder has stereo samples too; its difference is 0, and with it the magnitude. The
 * magnitude begins each period at 0, passes over a NaN and counts an infinity.
 *
 * The figures of the first period that ends stand at place 0 of stereo, mono, changes and
 * magnitude, and so on. Each of the four has exactly as many places as periods end, which is
 * (s.stereo + s.mono + mpx_n) / s.period, rounded down. Often that is 0; the pointers are not NULL
 * then either. What is left of the block stays in the summary, and the next block goes on with it.
 * How a signal is cut into blocks makes no difference.
 *
 * Causes 20; 9; 10 for pilot; 11 for sum, for difference, then for stereo, mono, changes and
 * magnitude. 20 is in force where the period is 0, or the samples held (stereo + mono) reach it, or
 * more changes are held than samples; where the magnitude is NaN or has its sign bit set; or where
 * it is not 0 and no sample is held.
 */
pescrondilu_f32_summary_reply pescrondilu_f32_summary_block(
    pescrondilu_f32 d, pescrondilu_f32_summary s, const float *table, size_t table_n,
    const float *mpx, size_t mpx_n, const float *pilot, size_t pilot_n,
    float *PESCRONDILU_RESTRICT sum, size_t sum_n, float *PESCRONDILU_RESTRICT difference,
    size_t difference_n, uint32_t *PESCRONDILU_RESTRICT stereo, size_t stereo_n,
    uint32_t *PESCRONDILU_RESTRICT mono, size_t mono_n, uint32_t *PESCRONDILU_RESTRICT changes,
    size_t changes_n, float *PESCRONDILU_RESTRICT magnitude, size_t magnitude_n);

/* The same in fixed point. Causes 20, 0, then as in float. A held magnitude below 0 is unfit. */
pescrondilu_q15_summary_reply pescrondilu_q15_summary_block(
    pescrondilu_q15 d, pescrondilu_q15_summary s, const int16_t *table, size_t table_n,
    const int16_t *mpx, size_t mpx_n, const int16_t *pilot, size_t pilot_n,
    int16_t *PESCRONDILU_RESTRICT sum, size_t sum_n, int16_t *PESCRONDILU_RESTRICT difference,
    size_t difference_n, uint32_t *PESCRONDILU_RESTRICT stereo, size_t stereo_n,
    uint32_t *PESCRONDILU_RESTRICT mono, size_t mono_n, uint32_t *PESCRONDILU_RESTRICT changes,
    size_t changes_n, int16_t *PESCRONDILU_RESTRICT magnitude, size_t magnitude_n);

/*
 * A rack: the decoders of several receivers in one box, which share a table and an allowance of
 * samples. The first number of the places are in use. The caller puts each decoder there, and
 * between two rounds may reset, enable, disable or replace it. The places past the number are given
 * back as they were (the switches as 0 or 1); zeros will do.
 */
typedef struct pescrondilu_f32_rack {
    pescrondilu_f32 decoders[PESCRONDILU_RACK_PLACES];
    size_t number;
} pescrondilu_f32_rack;

typedef struct pescrondilu_q15_rack {
    pescrondilu_q15 decoders[PESCRONDILU_RACK_PLACES];
    size_t number;
} pescrondilu_q15_rack;

/* How long a decoder's part is of each of the four slices that all decoders of a rack share. */
typedef struct pescrondilu_waiting {
    size_t mpx;
    size_t pilot;
    size_t sum;
    size_t difference;
} pescrondilu_waiting;

/* What waits for each decoder. The places past the rack's number are not looked at. */
typedef struct pescrondilu_rack_waiting {
    pescrondilu_waiting decoders[PESCRONDILU_RACK_PLACES];
} pescrondilu_rack_waiting;

/*
 * What a round answers, how many samples each decoder took, in float how many of its corrections
 * took the wide way, and the rack after it.
 */
typedef struct pescrondilu_f32_round {
    pescrondilu_answer answer;
    size_t taken[PESCRONDILU_RACK_PLACES];
    size_t wide[PESCRONDILU_RACK_PLACES];
    pescrondilu_f32_rack rack;
} pescrondilu_f32_round;

typedef struct pescrondilu_q15_round {
    pescrondilu_answer answer;
    size_t taken[PESCRONDILU_RACK_PLACES];
    pescrondilu_q15_rack rack;
} pescrondilu_q15_round;

/*
 * A round of a rack. A decoder's share is allowance / rack.number, rounded down. Each decoder takes
 * that many of the samples that wait for it, or all of them where fewer wait; the rest of the
 * allowance lapses. Its outputs and its next record are those that pescrondilu_f32_block gives it
 * alone, over the samples that it took. Its outputs past these are left. taken[k] is the number of
 * samples that decoder k took, and wide[k] how many of their corrections took the wide way; both are
 * 0 past the rack's number.
 *
 * mpx, pilot, sum and difference have the parts of all decoders, one behind the other: decoder k's
 * part begins where that of the one before ends, and waiting.decoders[k] has its four lengths. A
 * part that would pass the end of its slice is cut off there. So a slice that is too short shows as
 * cause 10 or 11 of the first decoder that it cuts; where all four end at the same place of a
 * decoder's part, the round is carried out with what is there.
 *
 * What a decoder leaves depends on its own record, its samples and its share alone, however busy
 * the others are. The caller brings what was not taken again in the next round, from the first
 * untaken sample on. While allowance, number and table stay the same, w samples that wait for a
 * decoder are then all worked after w / share accepted rounds, rounded up, and no sooner, and its
 * record is that of one block over the w samples.
 *
 * Causes 21; 22; then those of the first decoder, of the second, and so on: 9; 10 for pilot; 11 for
 * sum, then for difference. The lengths are those of the decoder's part and not of its share, and
 * they are asked for also where nothing waits. A refused round leaves all records and outputs, also
 * those of the decoders before the one at fault, and taken and wide are 0 everywhere.
 */
pescrondilu_f32_round pescrondilu_f32_rack_round(
    pescrondilu_f32_rack rack, uint32_t allowance, pescrondilu_rack_waiting waiting,
    const float *table, size_t table_n, const float *mpx, size_t mpx_n, const float *pilot,
    size_t pilot_n, float *PESCRONDILU_RESTRICT sum, size_t sum_n,
    float *PESCRONDILU_RESTRICT difference, size_t difference_n);

/* The same in fixed point. Causes 21, 22; then of each decoder 0, then as in float. */
pescrondilu_q15_round pescrondilu_q15_rack_round(
    pescrondilu_q15_rack rack, uint32_t allowance, pescrondilu_rack_waiting waiting,
    const int16_t *table, size_t table_n, const int16_t *mpx, size_t mpx_n, const int16_t *pilot,
    size_t pilot_n, int16_t *PESCRONDILU_RESTRICT sum, size_t sum_n,
    int16_t *PESCRONDILU_RESTRICT difference, size_t difference_n);

/* A slice of a list: where its samples are, and how many. Those of an output are written to. */
typedef struct pescrondilu_f32_input {
    const float *samples;
    size_t n;
} pescrondilu_f32_input;

typedef struct pescrondilu_f32_output {
    float *samples;
    size_t n;
} pescrondilu_f32_output;

typedef struct pescrondilu_q15_input {
    const int16_t *samples;
    size_t n;
} pescrondilu_q15_input;

typedef struct pescrondilu_q15_output {
    int16_t *samples;
    size_t n;
} pescrondilu_q15_output;

/*
 * The same round for receivers that have buffers of their own. mpx, pilot, sum and difference are
 * lists of slices, each with the number of its slices after it, and decoder k's are mpx[k],
 * pilot[k], sum[k] and difference[k]. A slice that is not in its list counts as empty, so that a
 * list may end before a decoder for which nothing waits. Slices past the rack's number make no
 * difference and are not written to. The lists come back as they were.
 *
 * Share, taken, wide, causes, outputs and records are those of pescrondilu_f32_rack_round, a
 * decoder's slices being its parts, of which none is cut off.
 */
pescrondilu_f32_round pescrondilu_f32_rack_round_slices(
    pescrondilu_f32_rack rack, uint32_t allowance, const float *table, size_t table_n,
    const pescrondilu_f32_input *mpx, size_t mpx_n, const pescrondilu_f32_input *pilot,
    size_t pilot_n, pescrondilu_f32_output *PESCRONDILU_RESTRICT sum, size_t sum_n,
    pescrondilu_f32_output *PESCRONDILU_RESTRICT difference, size_t difference_n);

/* The same in fixed point. Causes 21, 22; then of each decoder 0, then as in float. */
pescrondilu_q15_round pescrondilu_q15_rack_round_slices(
    pescrondilu_q15_rack rack, uint32_t allowance, const int16_t *table, size_t table_n,
    const pescrondilu_q15_input *mpx, size_t mpx_n, const pescrondilu_q15_input *pilot,
    size_t pilot_n, pescrondilu_q15_output *PESCRONDILU_RESTRICT sum, size_t sum_n,
    pescrondilu_q15_output *PESCRONDILU_RESTRICT difference, size_t difference_n);

/*
 * Scans a pilot from its end, as the float blocks of the fast way do themselves, for a caller that
 * wants to know what came in. Where a sample is NaN or infinite, finite is 0 and the last such one
 * is pilot[pilot_n - read]; else finite is 1 and read is pilot_n. Never refused. (In fixed point
 * there is no such sample.)
 */
pescrondilu_f32_scanned pescrondilu_f32_scan(const float *pilot, size_t pilot_n);

/*
 * Sum and difference to left and right: sum + 2 difference and sum - 2 difference, in fixed point
 * limited to int16_t. Causes 10 for difference; 11 for left, then for right.
 */
pescrondilu_answer pescrondilu_matrix_f32(const float *sum, size_t sum_n, const float *difference,
                                          size_t difference_n, float *PESCRONDILU_RESTRICT left,
                                          size_t left_n, float *PESCRONDILU_RESTRICT right,
                                          size_t right_n);
pescrondilu_answer pescrondilu_matrix_q15(const int16_t *sum, size_t sum_n,
                                          const int16_t *difference, size_t difference_n,
                                          int16_t *PESCRONDILU_RESTRICT left, size_t left_n,
                                          int16_t *PESCRONDILU_RESTRICT right, size_t right_n);

/*
 * The on-air verdict, for receiver and exciter: 1 where the pilot's frequency is in 18998 to 19002 Hz
 * and its amplitude in 0.08f to 0.1f, the ends included (ITU-R BS.450), else 0; so a NaN is 0. Never
 * refused. An encoder's frequency is another matter: that may be 18000 to 20000 Hz.
 */
uint32_t pescrondilu_on_air(double frequency, float amplitude);

/* ---- What an exciter calls: oscillator, encoders, group former; and the verdict above -------- */

/* An oscillator: the phase before the next sample, and what each sample adds to it. */
typedef struct pescrondilu_nco {
    uint32_t phase;
    uint32_t inc;
} pescrondilu_nco;

/* An increment; 0 where the code is not 0. */
typedef struct pescrondilu_increment {
    uint32_t code;
    uint32_t increment;
} pescrondilu_increment;

/* A new or changed oscillator. */
typedef struct pescrondilu_nco_made {
    uint32_t code;
    pescrondilu_nco nco;
} pescrondilu_nco_made;

/* The encoder: the pilot's oscillator, the gain of sum and difference, the pilot's amplitude. */
typedef struct pescrondilu_encode {
    pescrondilu_nco nco;
    float main;
    float pilot;
} pescrondilu_encode;

/* The encoder with RDS: the stereo part, and the level of RDS. */
typedef struct pescrondilu_encode_rds {
    pescrondilu_encode enc;
    float rds;
} pescrondilu_encode_rds;

/* A new or changed encoder. */
typedef struct pescrondilu_encode_made {
    uint32_t code;
    pescrondilu_encode encoder;
} pescrondilu_encode_made;

typedef struct pescrondilu_encode_rds_made {
    uint32_t code;
    pescrondilu_encode_rds encoder;
} pescrondilu_encode_rds_made;

/* What a block answers, and the encoder after it. */
typedef struct pescrondilu_encode_reply {
    pescrondilu_answer answer;
    pescrondilu_encode encoder;
} pescrondilu_encode_reply;

typedef struct pescrondilu_encode_rds_reply {
    pescrondilu_answer answer;
    pescrondilu_encode_rds encoder;
} pescrondilu_encode_rds_reply;

/* The increment of a frequency at a rate, to the nearest 2^-32 turn. Causes 1, 17. */
pescrondilu_increment pescrondilu_nco_increment_for(double freq, double rate);

/* An oscillator with that increment, at phase 0. Causes 1, 17. */
pescrondilu_nco_made pescrondilu_nco_new(double freq, double rate);

/* An oscillator with this increment, at phase 0. Never refused. */
pescrondilu_nco pescrondilu_nco_from_increment(uint32_t inc);

/* Sets the increment by a frequency and a rate; the phase stays. Causes 1, 17. */
pescrondilu_nco_made pescrondilu_nco_set_frequency(pescrondilu_nco o, double freq, double rate);

/* Sets the phase. Never refused. */
pescrondilu_nco pescrondilu_nco_set_phase(pescrondilu_nco o, uint32_t p);

/* Goes n samples on, modulo one turn. Never refused. */
pescrondilu_nco pescrondilu_nco_advance(pescrondilu_nco o, size_t n);

/* Sets the phase to 0. Never refused. */
pescrondilu_nco pescrondilu_nco_reset(pescrondilu_nco o);

/*
 * Makes an encoder at phase 0: the pilot's frequency in Hz, the gain of sum and difference, the
 * pilot's amplitude, the rate in samples a second. Causes 1, 12, 13, 14, 15.
 */
pescrondilu_encode_made pescrondilu_encode_new(double frequency, float main_gain, float pilot,
                                               double rate);

/* Sets the pilot's amplitude. Cause 14. */
pescrondilu_encode_made pescrondilu_encode_set_pilot(pescrondilu_encode e, float pilot);

/* Sets the phase. Never refused. */
pescrondilu_encode pescrondilu_encode_set_phase(pescrondilu_encode e, uint32_t p);

/* Sets the phase to 0. Never refused. */
pescrondilu_encode pescrondilu_encode_reset(pescrondilu_encode e);

/*
 * Encodes a block: main times half the sum, plus main times half the difference on the sine of
 * twice the phase, plus pilot times the sine of the phase. Causes 9; 10 for right; 11 for output.
 */
pescrondilu_encode_reply pescrondilu_encode_block(pescrondilu_encode e, const float *table,
                                                  size_t table_n, const float *left, size_t left_n,
                                                  const float *right, size_t right_n,
                                                  float *PESCRONDILU_RESTRICT output,
                                                  size_t output_n);

/* Makes an encoder with RDS, at phase 0. Causes 1, 12, 13, 14, 15, 16. */
pescrondilu_encode_rds_made pescrondilu_encode_rds_new(double frequency, float main_gain,
                                                       float pilot, float rds, double rate);

/* Sets the pilot's amplitude. Cause 14. */
pescrondilu_encode_rds_made pescrondilu_encode_rds_set_pilot(pescrondilu_encode_rds e,
                                                             float pilot);

/* Sets the level of RDS. Cause 16. */
pescrondilu_encode_rds_made pescrondilu_encode_rds_set_rds(pescrondilu_encode_rds e, float rds);

/* Sets the phase. Never refused. */
pescrondilu_encode_rds pescrondilu_encode_rds_set_phase(pescrondilu_encode_rds e, uint32_t p);

/* Sets the phase to 0. Never refused. */
pescrondilu_encode_rds pescrondilu_encode_rds_reset(pescrondilu_encode_rds e);

/*
 * Encodes a block as above and adds the RDS baseband, times its level, on the sine of three times
 * the phase. Causes 9; 10 for right, then for rds; 11 for output.
 */
pescrondilu_encode_rds_reply pescrondilu_encode_rds_block(
    pescrondilu_encode_rds e, const float *table, size_t table_n, const float *left, size_t left_n,
    const float *right, size_t right_n, const float *rds, size_t rds_n,
    float *PESCRONDILU_RESTRICT output, size_t output_n);

/* The four words of an RDS group. */
typedef struct pescrondilu_rds_words {
    uint16_t one;
    uint16_t two;
    uint16_t three;
    uint16_t four;
} pescrondilu_rds_words;

/* The group former: carried is the last output bit, with which the next group goes on. */
typedef struct pescrondilu_rds_former {
    uint32_t carried;
} pescrondilu_rds_former;

/* What a group answers, and the former after it. */
typedef struct pescrondilu_rds_reply {
    pescrondilu_answer answer;
    pescrondilu_rds_former former;
} pescrondilu_rds_reply;

/*
 * What the generator z^10 + z^8 + z^7 + z^5 + z^4 + z^3 + 1 of IEC 62106 leaves of a number, bit k
 * being the coefficient of z^k. Of a word times 1024 it leaves the word's check, and of a block of
 * 26 bits that was received without a wrong bit its offset word. Never refused.
 */
uint32_t pescrondilu_rds_remainder(uint32_t number);

/* A new former: the output bit before the first is 0. Never refused. */
pescrondilu_rds_former pescrondilu_rds_former_new(void);

/*
 * Forms a group. A block is a word, and after it the word's check exclusive-or an offset word: A,
 * B, C and D in this order, and C' in the place of C where bit 11 of word two is set (bit 0 is the
 * lowest). With C' word three has to be word one again. The PESCRONDILU_RDS_GROUP_BITS bits, the
 * highest of each block first, go to output as bytes of 0 or 1, each exclusive-or the output bit
 * before it. Causes 11, 19.
 */
pescrondilu_rds_reply pescrondilu_rds_group(pescrondilu_rds_former former,
                                            pescrondilu_rds_words words,
                                            uint8_t *PESCRONDILU_RESTRICT output,
                                            size_t output_n);

/* ---- Number helpers: what the calls above are made of, for comparison with the original ------ */

/* The cosine and the sine of a phase. */
typedef struct pescrondilu_pair {
    float c;
    float s;
} pescrondilu_pair;

/* A Q14 number; 0 where the code is not 0. */
typedef struct pescrondilu_q14 {
    uint32_t code;
    int16_t value;
} pescrondilu_q14;

/* A phase correction, and whether the quick way served. */
typedef struct pescrondilu_corrected {
    uint32_t step;
    bool quick;
} pescrondilu_corrected;

/* x limited to -32768 to 32767. */
int16_t pescrondilu_sat16(int64_t x);

/*
 * x / 2^s, a half rounded up: 2^(s-1) is added, stopping at the largest int64_t, and the sum is
 * divided, rounding down. s = 0 gives x. s of 63 or more gives -1 for an x below 0, else 0.
 */
int64_t pescrondilu_round_shift(int64_t x, uint32_t s);

/* The exact product of two Q15 numbers. */
int64_t pescrondilu_q15_product(int16_t a, int16_t b);

/* The product, sum and difference of two Q15 numbers, limited; the product rounded before. */
int16_t pescrondilu_q15_mul(int16_t a, int16_t b);
int16_t pescrondilu_q15_add_sat(int16_t a, int16_t b);
int16_t pescrondilu_q15_sub_sat(int16_t a, int16_t b);

/* x modulo 2^32. */
uint32_t pescrondilu_low32(int64_t x);

/* Twice and three times a phase, modulo one turn. */
uint32_t pescrondilu_phase_twice(uint32_t p);
uint32_t pescrondilu_phase_thrice(uint32_t p);

/* The greatest whole number that is not above x. */
double pescrondilu_floor_f64(double x);

/* The whole number nearest to x, a half to the even one. */
double pescrondilu_half_even_f64(double x);

/* The nearest float, a tie to the even one. */
float pescrondilu_f64_to_f32(double x);

/* The nearest double, a tie to the even one. */
double pescrondilu_i64_to_f64(int64_t n);

/* x without its fraction, stopping at the ends of int64_t; a NaN gives 0. */
int64_t pescrondilu_f64_to_i64(double x);

/* x, which every double holds. */
double pescrondilu_f32_to_f64(float x);

/* Whether x is neither infinite nor NaN. */
bool pescrondilu_is_finite_f32(float x);
bool pescrondilu_is_finite_f64(double x);

/* Plus 0 where x is below 1e-30f in magnitude, else x; a NaN stays. */
float pescrondilu_flush_denormal(float x);

/* floor(x times scale + 0.5), stopping at the ends of int64_t; a NaN gives 0. */
int64_t pescrondilu_floor_scaled(double x, double scale);

/* x as a Q15 number, rounded and limited; a NaN gives 0. */
int16_t pescrondilu_q15_from_f64(double x);

/* x as a Q14 number, rounded. Cause 18, also for a NaN. */
pescrondilu_q14 pescrondilu_q14_from_f64(double x);

/*
 * The phase correction: floor(f times 2^32 + 0.5), stopping at the ends of int64_t, modulo 2^32; a
 * NaN gives 0. Both give the same step; the fast one says whether its quick way served, and takes the
 * plain way where it did not.
 */
uint32_t pescrondilu_correction_plain(float f);
pescrondilu_corrected pescrondilu_correction_fast(float f);

/* Whether the quick way serves for v = f times 2^32 + 0.5: |v| is below 2^51, which a NaN is not. */
bool pescrondilu_quick_serves(double v);

/*
 * The cosine of a phase by the table, n being its length; the pair has the sine too. The two in
 * fixed point are equal. Where a table lacks the entry, the answer is 0.
 */
float pescrondilu_cos_f32(const float *table, size_t n, uint32_t p);
pescrondilu_pair pescrondilu_interp_f32_pair(const float *table, size_t n, uint32_t p);
int16_t pescrondilu_cos_q15(const int16_t *table, size_t n, uint32_t p);
int32_t pescrondilu_interp_q15(const int16_t *table, size_t n, uint32_t p);

#ifdef __cplusplus
}
#endif

#endif
