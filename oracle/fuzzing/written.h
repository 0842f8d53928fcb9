/* written.h: request W2 read a second time: what its two writers answer, and the texts that they write. It shares no code with the library,
 * and C's own printf writes each number, so that an error would have to be made twice. */
#ifndef WRITTEN_H
#define WRITTEN_H

#include "calls.h"
#include "text.h"

/* what the first writer must answer where there is room enough */
threshcinch_verdict written_run_verdict(const call *c);

/* the seven lines of a request, whether or not it is refused; lists that are far too long are cut */
void written_run(text *t, const call *c);

/* what the second writer gets */
typedef struct {
  threshcinch_verdict verdict;
  uint64_t d;
  size_t rows;
  threshcinch_counts counts;
  const double *seed;
  size_t seed_length;
} answer_parts;

/* what it must answer where there is room enough */
threshcinch_verdict written_answer_verdict(const answer_parts *a);

/* what is printed; nothing where that is refused */
void written_answer(text *t, const answer_parts *a);

/* the same verdict, unless the room is too small for so long a text */
threshcinch_verdict written_in_room(threshcinch_verdict v, size_t length, size_t room);

#endif
