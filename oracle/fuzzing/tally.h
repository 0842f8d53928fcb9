/* tally.h: what was tried, what differed, and the deliberate faults of the self-test. */
#ifndef TALLY_H
#define TALLY_H

#include "grammar.h"
#include "graphs.h"
#include "lent_text.h"
#include "text.h"

enum { MOST_DAMAGES = 64, NUMBERS = 19 };

/* how the program gets a file: all at once, or in pieces, so that it must read again */
enum way { WHOLE, PIECES, WAYS };

typedef struct {
  uint64_t number;  /* of what is at hand */
  const char *made; /* a file, a graph or an answer */
  const char *how;  /* it was made */
  const text *file; /* its bytes, or what is to be written */
  int damage;
  uint64_t files, most_bytes;
  uint64_t right_by_damage[MOST_DAMAGES], wrong_by_damage[MOST_DAMAGES];
  uint64_t right, by_fault[FAULTS];
  uint64_t answers[NUMBERS], rows, longest_runs, not_drawn, too_dear, short_rooms;
  uint64_t isolated, isolated_with_entries, isolated_no_root; /* runs with such rows */
  uint64_t programs[NUMBERS], program_ways[WAYS], scripts;
  /* the first writer; rooms by whether something else is refused first */
  uint64_t graphs, several_faults, by_graph_fault[MOST_GRAPH_FAULTS], by_graph_number[NUMBERS], by_line[FAULTS];
  uint64_t longest_written, values, minus_zeros, subnormals, largest, taken, rewritten[NUMBERS], write_rooms[2][ROOM_KINDS];
  /* the second writer */
  uint64_t parts, by_answer_number[NUMBERS], refusals_printed, numbers_printed, nans_printed, longest_printed, printed_again;
  uint64_t print_rooms[2][ROOM_KINDS];
  uint64_t differences;
} tally;

extern tally told;

/* The first files that differ are kept here. */
void keep_in(const char *folder);

/* Counts a difference; prints the first ones and keeps their files. */
void differ(const char *kind, const char *format, ...) __attribute__((format(printf, 2, 3)));

void fail(const char *format, ...) __attribute__((format(printf, 1, 2), noreturn));

void tally_print(void);

/* ---- the self-test: one fault of the chosen kind is put into what was seen, the first time that it can be */
void break_choose(const char *kind);
int breaks(const char *kind);

/* the same for the kind "PART-KIND" */
int breaks_in(const char *part, const char *kind);

#endif
