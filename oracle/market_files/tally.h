/* tally.h: what was tried, what differed, and the deliberate faults of the self-test. */
#ifndef TALLY_H
#define TALLY_H

#include "bytes.h"
#include "damage.h"
#include "second.h"

enum { MOST_NAMES = 64, NUMBERS = 20 };

typedef struct {
  uint64_t number; /* of the file at hand */
  made_by by;
  const bytes *file;
  uint64_t files, damaged, most_bytes;
  uint64_t right_by_shape[MOST_NAMES], wrong_by_shape[MOST_NAMES], right_by_damage[MOST_NAMES], wrong_by_damage[MOST_NAMES];
  uint64_t by_why[WHYS], unordered_blocks, repeats_behind_block;
  uint64_t reads[NUMBERS], rooms[NUMBERS], short_lists[LISTS];
  uint64_t exact, longer, longest_line, most_entries, placed;
  uint64_t differences;
} tally;

extern tally told;

/* The first files that differ are kept here. */
void keep_in(const char *folder);

/* Counts a difference; prints the first ones and keeps their files. */
void differ(const char *kind, const char *format, ...) __attribute__((format(printf, 2, 3)));

void fail(const char *format, ...) __attribute__((format(printf, 1, 2), noreturn));

void tally_file(const second *read);
void tally_print(void);

/* ---- the self-test: one fault of the chosen kind is put into what was seen, the first time that it can be */
void break_choose(const char *kind);
int breaks(const char *kind);

/* Prints the kinds, a line each. */
void breakages_print(void);

#endif
