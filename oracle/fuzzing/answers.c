#include "answers.h"

#include <string.h>

#include "graphs.h"
#include "guarded.h"
#include "pick.h"

enum { MOST_DIMS = 7, MOST_ROWS = 64, MOST_SEED = 600 };

/* Of any number of digits, and often at the end of one: 9, 10, 99, 100, ..., 2^64 - 1. */
static uint64_t any_whole(random_source *r) {
  static const uint64_t edges[] = {0, 1, 9, 10, 99, 100, UINT32_MAX, UINT64_C(1) << 32, UINT64_C(9999999999), UINT64_MAX - 1, UINT64_MAX};
  uint64_t ten = 1, digits = random_below(r, 20);
  if (once_in(r, 3)) return PICK(r, edges);
  for (uint64_t i = 0; i < digits; i++) ten *= 10;
  return once_in(r, 3) ? ten - (uint64_t)once_in(r, 2) : random_next(r) % (digits == 19 ? UINT64_MAX : 10 * ten);
}

static threshcinch_verdict any_refusal(random_source *r) {
  threshcinch_verdict v = {once_in(r, 2) ? 1 + random_below(r, 18) : any_whole(r), 0};
  v.number += v.number == 0;
  v.place = any_whole(r);
  return v;
}

static threshcinch_counts any_counts(random_source *r) {
  threshcinch_counts c;
  c.passes = any_whole(r);
  c.refreshed = any_whole(r);
  c.zeroed = any_whole(r);
  c.isolated = any_whole(r);
  return c;
}

/* ---- the seed */

static guarded lent_seed;
static uint64_t made[MOST_SEED];

static uint64_t any_number(random_source *r) { return once_in(r, 6) ? any_not_finite(r) : any_finite(r); }

static void make_seed(answer_parts *a, size_t length, random_source *r) {
  if (!lent_seed.end) lent_seed = guarded_new(sizeof made);
  for (size_t i = 0; i < length; i++) made[i] = any_number(r);
  uint8_t *at = guarded_last(&lent_seed, length * sizeof *made);
  memcpy(at, made, length * sizeof *made);
  a->seed = (const double *)(const void *)at;
  a->seed_length = length;
}

int answer_is_as_made(const answer_parts *a) { return !memcmp(a->seed, made, a->seed_length * sizeof *made); }

/* Too short, as long as is needed, or longer, for as many numbers as a right answer has. */
static size_t any_seed_length(size_t need, int is_short, random_source *r) {
  if (need > MOST_DIMS * MOST_ROWS) return random_below(r, MOST_SEED + 1);
  if (is_short) return once_in(r, 2) ? need - (need > 0) : random_below(r, need);
  return once_in(r, 2) ? need : need + random_below(r, MOST_SEED - need + 1);
}

/* ---- any */

static uint64_t wrong_dims(random_source *r) {
  static const uint64_t wrong[] = {0, 0, 8, 8, 9, 64, UINT64_C(1) << 32, UINT64_C(1) << 58, UINT64_C(1) << 63, UINT64_MAX};
  return PICK(r, wrong);
}

/* 2^58 x 64 and 2^63 x 2 are 2^64. */
static size_t wrong_rows(random_source *r) {
  static const size_t wrong[] = {0, 0, 0, 65, 65, 66, 128, UINT32_MAX, (size_t)1 << 32, (size_t)1 << 62, (size_t)1 << 63, SIZE_MAX};
  return PICK(r, wrong);
}

static size_t any_rows(random_source *r) {
  static const size_t edges[] = {1, 2, 9, 10, 63, 64};
  if (once_in(r, 3)) return PICK(r, edges);
  return 1 + random_below(r, once_in(r, 2) ? 12 : MOST_ROWS);
}

static size_t product(uint64_t d, size_t rows) { return d > MOST_DIMS || rows > MOST_ROWS ? SIZE_MAX : rows * d; }

/* One in four prints a refusal, whose other numbers do not matter; one in four of the others has a fault or more. A place without a refusal
 * does not matter either. */
void answer_make(answer_parts *a, random_source *r) {
  int is_refusal = once_in(r, 4), is_wrong = is_refusal || once_in(r, 4);
  threshcinch_verdict none = {0, once_in(r, 8) ? any_whole(r) : 0};
  a->verdict = is_refusal ? any_refusal(r) : none;
  a->d = is_wrong && once_in(r, 3) ? wrong_dims(r) : 1 + random_below(r, MOST_DIMS);
  a->rows = is_wrong && once_in(r, 3) ? wrong_rows(r) : any_rows(r);
  a->counts = any_counts(r);
  make_seed(a, any_seed_length(product(a->d, a->rows), is_wrong && once_in(r, 3), r), r);
}
