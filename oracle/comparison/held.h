/* held.h: a held run in random order, with refused calls among the others, stopped and gone on with, against the one call. */
#ifndef HELD_H
#define HELD_H

#include "calls.h"
#include "stream.h"

/* `one` is what the one call left of lists that held the salt's pattern, and `counts` what it answered. On the way `trials` damaged calls
 * are made on states and memory as the run has them. */
void held_run(const graph *g, const lists *one, uint64_t one_salt, const threshcinch_counts *counts, uint64_t salt, int trials);

#endif
