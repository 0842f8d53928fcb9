/* lent.h: the lists of a call with a pattern in all that the run does not need, and how two of them are compared. */
#ifndef LENT_H
#define LENT_H

#include "calls.h"
#include "stream.h"

/* A copy of the graph's lists, and lent memory some entries longer than the run needs, all of it filled with the salt's pattern. */
void lists_new(lists *l, const graph *g, uint64_t salt);

/* Lists of the same rooms, for a copy. */
void lists_like(lists *l, const lists *other);

void lists_copy(lists *to, const lists *from);
void lists_free(lists *l);
size_t lists_total_bytes(const lists *l);

/* the first list that differs in any byte of its room, or LISTS */
int lists_first_other(const lists *a, const lists *b);

/* what the salt's pattern has there */
uint64_t pattern(uint64_t salt, int which, size_t i);

/* whether the entries from `need` on are the pattern's still; else the list that is not, by its number */
int lists_first_overrun(const lists *l, const size_t need[LISTS], uint64_t salt);

/* two numbers of a list alike: a NaN is any NaN */
int is_same(int which, uint64_t a, uint64_t b);

#endif
