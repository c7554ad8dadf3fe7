/*
 * The size of every struct of pescrondilu.h and the offset of every field, asserted while this file
 * is compiled. host/pescrondilu-sys asserts the same numbers on the Rust side, and its tests
 * compile this file as C and as C++ and compare the two lists.
 */
#include "../../include/pescrondilu.h"

#ifdef __cplusplus
#define ASSERT static_assert
#else
#define ASSERT _Static_assert
#endif

#define SIZE(type, bytes) ASSERT(sizeof(type) == (bytes), "the size of " #type)
#define FIELD(type, field, at) ASSERT(offsetof(type, field) == (at), #type "." #field)

SIZE(pescrondilu_answer, 24);
FIELD(pescrondilu_answer, code, 0);
FIELD(pescrondilu_answer, expected, 8);
FIELD(pescrondilu_answer, got, 16);

SIZE(pescrondilu_f32, 48);
FIELD(pescrondilu_f32, kp, 0);
FIELD(pescrondilu_f32, ki, 4);
FIELD(pescrondilu_f32, imax, 8);
FIELD(pescrondilu_f32, beta, 12);
FIELD(pescrondilu_f32, on, 16);
FIELD(pescrondilu_f32, off, 20);
FIELD(pescrondilu_f32, integ, 24);
FIELD(pescrondilu_f32, level, 28);
FIELD(pescrondilu_f32, step0, 32);
FIELD(pescrondilu_f32, phase, 36);
FIELD(pescrondilu_f32, stereo, 40);
FIELD(pescrondilu_f32, enabled, 44);

SIZE(pescrondilu_q15, 80);
FIELD(pescrondilu_q15, kp, 0);
FIELD(pescrondilu_q15, ki, 8);
FIELD(pescrondilu_q15, imax, 16);
FIELD(pescrondilu_q15, beta, 24);
FIELD(pescrondilu_q15, on, 32);
FIELD(pescrondilu_q15, off, 40);
FIELD(pescrondilu_q15, integ, 48);
FIELD(pescrondilu_q15, level, 56);
FIELD(pescrondilu_q15, step0, 64);
FIELD(pescrondilu_q15, phase, 68);
FIELD(pescrondilu_q15, stereo, 72);
FIELD(pescrondilu_q15, enabled, 76);

SIZE(pescrondilu_f32_made, 52);
FIELD(pescrondilu_f32_made, code, 0);
FIELD(pescrondilu_f32_made, decoder, 4);

SIZE(pescrondilu_q15_made, 88);
FIELD(pescrondilu_q15_made, code, 0);
FIELD(pescrondilu_q15_made, decoder, 8);

SIZE(pescrondilu_f32_reply, 72);
FIELD(pescrondilu_f32_reply, answer, 0);
FIELD(pescrondilu_f32_reply, decoder, 24);

SIZE(pescrondilu_q15_reply, 104);
FIELD(pescrondilu_q15_reply, answer, 0);
FIELD(pescrondilu_q15_reply, decoder, 24);

SIZE(pescrondilu_f32_counted, 80);
FIELD(pescrondilu_f32_counted, answer, 0);
FIELD(pescrondilu_f32_counted, wide, 24);
FIELD(pescrondilu_f32_counted, decoder, 32);

SIZE(pescrondilu_readout, 40);
FIELD(pescrondilu_readout, integrator, 0);
FIELD(pescrondilu_readout, integrator_limit, 8);
FIELD(pescrondilu_readout, lock_level, 16);
FIELD(pescrondilu_readout, phase, 24);
FIELD(pescrondilu_readout, stereo, 28);
FIELD(pescrondilu_readout, enabled, 32);

SIZE(pescrondilu_f32_summary, 24);
FIELD(pescrondilu_f32_summary, period, 0);
FIELD(pescrondilu_f32_summary, stereo, 4);
FIELD(pescrondilu_f32_summary, mono, 8);
FIELD(pescrondilu_f32_summary, changes, 12);
FIELD(pescrondilu_f32_summary, magnitude, 16);
FIELD(pescrondilu_f32_summary, before, 20);

SIZE(pescrondilu_q15_summary, 24);
FIELD(pescrondilu_q15_summary, period, 0);
FIELD(pescrondilu_q15_summary, stereo, 4);
FIELD(pescrondilu_q15_summary, mono, 8);
FIELD(pescrondilu_q15_summary, changes, 12);
FIELD(pescrondilu_q15_summary, magnitude, 16);
FIELD(pescrondilu_q15_summary, before, 20);

SIZE(pescrondilu_f32_summary_reply, 104);
FIELD(pescrondilu_f32_summary_reply, answer, 0);
FIELD(pescrondilu_f32_summary_reply, wide, 24);
FIELD(pescrondilu_f32_summary_reply, decoder, 32);
FIELD(pescrondilu_f32_summary_reply, summary, 80);

SIZE(pescrondilu_q15_summary_reply, 128);
FIELD(pescrondilu_q15_summary_reply, answer, 0);
FIELD(pescrondilu_q15_summary_reply, decoder, 24);
FIELD(pescrondilu_q15_summary_reply, summary, 104);

SIZE(pescrondilu_f32_rack, 392);
FIELD(pescrondilu_f32_rack, decoders, 0);
FIELD(pescrondilu_f32_rack, number, 384);

SIZE(pescrondilu_q15_rack, 648);
FIELD(pescrondilu_q15_rack, decoders, 0);
FIELD(pescrondilu_q15_rack, number, 640);

SIZE(pescrondilu_waiting, 32);
FIELD(pescrondilu_waiting, mpx, 0);
FIELD(pescrondilu_waiting, pilot, 8);
FIELD(pescrondilu_waiting, sum, 16);
FIELD(pescrondilu_waiting, difference, 24);

SIZE(pescrondilu_rack_waiting, 256);
FIELD(pescrondilu_rack_waiting, decoders, 0);

SIZE(pescrondilu_f32_round, 544);
FIELD(pescrondilu_f32_round, answer, 0);
FIELD(pescrondilu_f32_round, taken, 24);
FIELD(pescrondilu_f32_round, wide, 88);
FIELD(pescrondilu_f32_round, rack, 152);

SIZE(pescrondilu_q15_round, 736);
FIELD(pescrondilu_q15_round, answer, 0);
FIELD(pescrondilu_q15_round, taken, 24);
FIELD(pescrondilu_q15_round, rack, 88);

SIZE(pescrondilu_f32_input, 16);
FIELD(pescrondilu_f32_input, samples, 0);
FIELD(pescrondilu_f32_input, n, 8);

SIZE(pescrondilu_f32_output, 16);
FIELD(pescrondilu_f32_output, samples, 0);
FIELD(pescrondilu_f32_output, n, 8);

SIZE(pescrondilu_q15_input, 16);
FIELD(pescrondilu_q15_input, samples, 0);
FIELD(pescrondilu_q15_input, n, 8);

SIZE(pescrondilu_q15_output, 16);
FIELD(pescrondilu_q15_output, samples, 0);
FIELD(pescrondilu_q15_output, n, 8);

SIZE(pescrondilu_f32_scanned, 16);
FIELD(pescrondilu_f32_scanned, finite, 0);
FIELD(pescrondilu_f32_scanned, read, 8);

SIZE(pescrondilu_nco, 8);
FIELD(pescrondilu_nco, phase, 0);
FIELD(pescrondilu_nco, inc, 4);

SIZE(pescrondilu_increment, 8);
FIELD(pescrondilu_increment, code, 0);
FIELD(pescrondilu_increment, increment, 4);

SIZE(pescrondilu_nco_made, 12);
FIELD(pescrondilu_nco_made, code, 0);
FIELD(pescrondilu_nco_made, nco, 4);

SIZE(pescrondilu_encode, 16);
FIELD(pescrondilu_encode, nco, 0);
FIELD(pescrondilu_encode, main, 8);
FIELD(pescrondilu_encode, pilot, 12);

SIZE(pescrondilu_encode_rds, 20);
FIELD(pescrondilu_encode_rds, enc, 0);
FIELD(pescrondilu_encode_rds, rds, 16);

SIZE(pescrondilu_encode_made, 20);
FIELD(pescrondilu_encode_made, code, 0);
FIELD(pescrondilu_encode_made, encoder, 4);

SIZE(pescrondilu_encode_rds_made, 24);
FIELD(pescrondilu_encode_rds_made, code, 0);
FIELD(pescrondilu_encode_rds_made, encoder, 4);

SIZE(pescrondilu_encode_reply, 40);
FIELD(pescrondilu_encode_reply, answer, 0);
FIELD(pescrondilu_encode_reply, encoder, 24);

SIZE(pescrondilu_encode_rds_reply, 48);
FIELD(pescrondilu_encode_rds_reply, answer, 0);
FIELD(pescrondilu_encode_rds_reply, encoder, 24);

SIZE(pescrondilu_rds_words, 8);
FIELD(pescrondilu_rds_words, one, 0);
FIELD(pescrondilu_rds_words, two, 2);
FIELD(pescrondilu_rds_words, three, 4);
FIELD(pescrondilu_rds_words, four, 6);

SIZE(pescrondilu_rds_former, 4);
FIELD(pescrondilu_rds_former, carried, 0);

SIZE(pescrondilu_rds_reply, 32);
FIELD(pescrondilu_rds_reply, answer, 0);
FIELD(pescrondilu_rds_reply, former, 24);

SIZE(pescrondilu_pair, 8);
FIELD(pescrondilu_pair, c, 0);
FIELD(pescrondilu_pair, s, 4);

SIZE(pescrondilu_q14, 8);
FIELD(pescrondilu_q14, code, 0);
FIELD(pescrondilu_q14, value, 4);

SIZE(pescrondilu_corrected, 8);
FIELD(pescrondilu_corrected, step, 0);
FIELD(pescrondilu_corrected, quick, 4);
