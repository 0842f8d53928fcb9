/* reading.h: document 01's table of refusals, as request W1 has it, read a second time. The numbers of the stages and the names of the
 * fields are those of docs/STATE.md. It shares no code with the library, so that an error would have to be made twice. */
#ifndef READING_H
#define READING_H

#include "calls.h"

/* number and place that the call must answer */
threshcinch_verdict reading(const call *c);

/* 1 to 10 alone: D, the graph and the parameters, whatever is lent */
threshcinch_verdict reading_file(const call *c);

/* whether every field of a state is in its range */
int reading_state(const threshcinch_state *s);

/* stages 1 to 19 */
int reading_is_open(const threshcinch_state *s);

size_t reading_chunks(size_t rows);

/* "Lent memory, in order 0 to 9", and request W1's 10, behind the lengths of the graph's lists */
void reading_sizes(size_t need[LISTS], size_t dims, size_t rounds, size_t rows, size_t entries);

/* "rounds x (k + 1) numbers": so many for each round */
size_t reading_record_width(size_t dims);

/* the state that a refused opening answers */
threshcinch_state reading_empty_state(void);

/* whether a setter takes the number */
int reading_takes_whole(uint64_t rounds_or_degree);
int reading_takes_seed_std(double x);

/* what sizes are refused with */
threshcinch_verdict reading_sizes_verdict(uint64_t d, uint64_t rounds, size_t rows, size_t entries);

#endif
