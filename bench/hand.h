/* What is written by hand in C, to be counted beside the library: each function has the signature of the call of include/dzervolat.h that it is
   named after, gives the same answers for every input, and leaves everything as it was where it refuses. */
#ifndef HAND_H
#define HAND_H

#include "dzervolat.h"

extern __typeof__(dz_read) c_read;
extern __typeof__(dz_lookup) c_lookup;
extern __typeof__(dz_walk) c_walk;
extern __typeof__(dz_write) c_write;
extern __typeof__(dz_take) c_take;
extern __typeof__(dz_take_burst) c_take_burst;
extern __typeof__(dz_candidate) c_candidate;
extern __typeof__(dz_best) c_best;
extern __typeof__(dz_compare) c_compare;
extern __typeof__(dz_rank) c_rank;
extern __typeof__(dz_merge) c_merge;
extern __typeof__(dz_decide_all) c_decide_all;
extern __typeof__(dz_trace_record) c_trace_record;
extern __typeof__(dz_replay_block) c_replay_block;
extern __typeof__(dz_replay) c_replay;
extern __typeof__(dz_import) c_import;
extern __typeof__(dz_export) c_export;
extern __typeof__(dz_capture_head) c_capture_head;
extern __typeof__(dz_capture_packet) c_capture_packet;
extern __typeof__(dz_capture_record) c_capture_record;
extern __typeof__(dz_capture_begin) c_capture_begin;
extern __typeof__(dz_capture_block) c_capture_block;
extern __typeof__(dz_link_take) c_link_take;
extern __typeof__(dz_measure) c_measure, c_measure_shifting;

static inline int is_port(uint64_t port) { return port >= 1 && port <= DZ_PORTS; }

#endif
