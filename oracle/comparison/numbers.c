/* The calls that take no lists: setters and sizes. */
#include <string.h>

#include "damage.h"
#include "reading.h"
#include "report.h"

static uint64_t some_whole(random_source *random) {
  static const uint64_t among[] = {0, 1, 2, 999, 1000, 1001, UINT64_C(4294967297), UINT64_C(1) << 63, UINT64_MAX};
  return among[random_below(random, sizeof among / sizeof *among)];
}

static double some_float(random_source *random) {
  static const uint64_t among[] = {0,
                                   UINT64_C(0x8000000000000000),
                                   1,
                                   UINT64_C(0x8000000000000001),
                                   UINT64_C(0x7fefffffffffffff),
                                   UINT64_C(0x7ff0000000000000),
                                   UINT64_C(0x7ff8000000000000),
                                   UINT64_C(0xfff0000000000000),
                                   UINT64_C(0x3f1a36e2eb1c432d)};
  double x;
  memcpy(&x, &among[random_below(random, sizeof among / sizeof *among)], sizeof x);
  return x;
}

static int is_params(threshcinch_params a, threshcinch_params b) { return !memcmp(&a, &b, sizeof a); }

static void check_set(const char *name, threshcinch_set set, threshcinch_params old, threshcinch_params new, int takes, uint64_t number) {
  if (breaks("setter")) set.params.rounds++;
  int is_right = set.verdict.number == (takes ? 0 : number) && set.verdict.place == 0 && is_params(set.params, takes ? new : old);
  if (!is_right)
    differ("setter", "setter of %s answers %llu at %llu", name, (unsigned long long)set.verdict.number,
           (unsigned long long)set.verdict.place);
  told_report.numbers_calls++;
}

/* Old parameters may be any: a setter tests its own number alone. */
static void try_setters(random_source *random) {
  threshcinch_params old = {some_whole(random), some_whole(random), some_float(random)}, new = old;
  uint64_t whole = some_whole(random);
  double number = some_float(random);
  new.rounds = whole;
  check_set("rounds", threshcinch_params_rounds(old, whole), old, new, reading_takes_whole(whole), 8);
  new = old;
  new.degree = whole;
  check_set("degree", threshcinch_params_degree(old, whole), old, new, reading_takes_whole(whole), 9);
  new = old;
  new.seed_std = number;
  check_set("seed_std", threshcinch_params_seed_std(old, number), old, new, reading_takes_seed_std(number), 10);
}

static void try_sizes(random_source *random) {
  static const uint64_t dims[] = {0, 1, 2, 6, 7, 8, UINT64_C(4294967297), UINT64_MAX};
  static const size_t rows[] = {0, 1, 4095, 4096, 4097, 8192, 1048575, 1048576, 1048577, SIZE_MAX};
  static const size_t entries[] = {0, 1, 67108863, 67108864, 67108865, SIZE_MAX};
  uint64_t d = dims[random_below(random, sizeof dims / sizeof *dims)];
  size_t n = rows[random_below(random, sizeof rows / sizeof *rows)], e = entries[random_below(random, sizeof entries / sizeof *entries)];
  uint64_t rounds = some_whole(random);
  threshcinch_verdict due = reading_sizes_verdict(d, rounds, n, e);
  size_t need[LISTS] = {0};
  if (due.number == 0) reading_sizes(need, d, rounds, n, e);
  threshcinch_sizes sizes = threshcinch_lent_sizes(d, rounds, n, e);
  _Static_assert(sizeof sizes.lengths / sizeof *sizes.lengths == LENT_LISTS, "a length for each lent list");
  if (breaks("sizes")) sizes.lengths[LENT_LISTS - 1]++;
  if (due.number == 8 && breaks("sizes-rounds")) sizes.verdict.number = 0;
  int is_right =
      sizes.verdict.number == due.number && sizes.verdict.place == due.place && !memcmp(sizes.lengths, need + LENT, sizeof sizes.lengths);
  if (!is_right)
    differ("sizes", "sizes of D=%llu rounds=%llu rows=%zu entries=%zu", (unsigned long long)d, (unsigned long long)rounds, n, e);
  size_t chunks = threshcinch_chunk_count(n) + (size_t)breaks("chunks");
  if (chunks != reading_chunks(n)) differ("chunks", "chunk count of %zu rows is %zu", n, chunks);
  told_report.numbers_calls += 2;
}

void damage_numbers(random_source *random, int trials) {
  for (int i = 0; i < trials; i++) {
    try_setters(random);
    try_sizes(random);
  }
}
