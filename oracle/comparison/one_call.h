/* one_call.h: the one call on a graph, against the Rust. */
#ifndef ONE_CALL_H
#define ONE_CALL_H

#include "calls.h"
#include "stream.h"

/* The request of a graph, its parameters set by the library's setters. */
void request_of(call *c, const graph *g, const lists *l);

/* Whether a number is the Rust's: a NaN is any NaN; with an empty row, or a row of minus zeros only, zeros of either sign match. */
int is_rusts(const graph *g, uint64_t ours, uint64_t rusts);

/* Makes the call on lists that hold the salt's pattern, and compares seed, counts, Ritz record and what lies behind the lists. Answers 0
 * where it was refused, which is a difference. */
int one_call(const graph *g, lists *l, uint64_t salt, threshcinch_counts *counts);

#endif
