/* report.h: what was compared, what differed, and the deliberate faults of the self-test. */
#ifndef REPORT_H
#define REPORT_H

#include "calls.h"
#include "stream.h"

enum { FAMILIES = 16, REFUSALS = 18 };

/* why a graph is not compared bit for bit: the first of these that it meets */
enum skip { COMPARED, SKIPPED_TWICE, SKIPPED_NAN, SKIPPED_NOT_FALLING, SKIPS };

/* How a round's part of the Ritz record is compared with the Rust's: the last of these that it meets. Where two values of the round tie,
 * zeros of either sign match; after a column twice or a NaN anywhere in the run it is not compared. */
enum round_kind { ROUND_WHOLE, ROUND_TIE, ROUND_NAN, ROUND_TWICE, ROUND_KINDS };

typedef struct {
  const graph *at_hand;
  uint64_t graphs, defaults, most_rows;
  uint64_t by_family[FAMILIES][SKIPS], same_though_skipped[FAMILIES];
  uint64_t rounds[ROUND_KINDS], rounds_same_though_skipped, record_closings;
  uint64_t by_dims[8], by_rows[5], by_chunks[7];
  uint64_t isolated, isolated_with_entries, isolated_no_root, isolated_low_root; /* graphs with such rows */
  uint64_t held_runs, held_stages, moves;
  uint64_t accepted_calls, refused_calls[REFUSALS]; /* of the held runs, undamaged */
  uint64_t damaged, damaged_twice, damaged_answers[CALL_KINDS][REFUSALS];
  uint64_t numbers_calls; /* setters and sizes */
  uint64_t differences;
} report;

extern report told_report;

/* Counts a difference, and prints the first ones with the number of the graph at hand. */
void differ(const char *kind, const char *format, ...) __attribute__((format(printf, 2, 3)));

/* Counts a damaged call under the damage's name. */
void count_damage(const char *name, enum call_kind kind, int is_accepted);

void report_print(void);

/* ---- the self-test: one fault of the chosen kind is put into what was seen, the first time that it can be */
void break_choose(const char *kind);
int breaks(const char *kind);

/* "kind:3" breaks list 3: succeeds once, for that kind and that list */
int breaks_list(const char *kind, int which);

#endif
