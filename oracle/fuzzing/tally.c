#include "tally.h"

#include <stdarg.h>
#include <stdio.h>
#include <stdlib.h>
#include <string.h>

#include "damage.h"

enum { MOST_SHOWN = 24, MOST_OF_A_FILE = 3 };

tally told;

void fail(const char *format, ...) {
  va_list arguments;
  va_start(arguments, format);
  fprintf(stderr, "fuzz: ");
  vfprintf(stderr, format, arguments);
  fprintf(stderr, "\n");
  va_end(arguments);
  exit(2);
}

/* ---- differences */

static const char *folder;

void keep_in(const char *path) { folder = path; }

static void keep_file(char *path, size_t room) {
  snprintf(path, room, "%s/%s-%llu", folder, told.made, (unsigned long long)told.number);
  FILE *out = fopen(path, "wb");
  int is_kept = out && fwrite(told.file->bytes, 1, told.file->length, out) == told.file->length;
  if (out && fclose(out)) is_kept = 0;
  if (!is_kept) snprintf(path, room, "(could not be kept)");
}

/* A few of each file, so that one wrong field does not hide other files. */
static int is_shown(void) {
  static uint64_t shown, shown_of_file, last;
  static const text *last_file;
  if (told.number != last || told.file != last_file) shown_of_file = 0;
  last = told.number;
  last_file = told.file;
  if (shown == MOST_SHOWN || shown_of_file == MOST_OF_A_FILE) return 0;
  shown++;
  shown_of_file++;
  return 1;
}

void differ(const char *kind, const char *format, ...) {
  va_list arguments;
  char path[4096] = "(not kept)";
  told.differences++;
  if (!is_shown()) return;
  va_start(arguments, format);
  printf("DIFFERENCE %s: ", kind);
  vprintf(format, arguments);
  va_end(arguments);
  if (folder && told.file) keep_file(path, sizeof path);
  printf("; %s %llu (%s; %zu bytes): %s; again with oracle/fuzz --from %llu --%s 1\n", told.made, (unsigned long long)told.number, told.how,
         told.file ? told.file->length : 0, path, (unsigned long long)told.number, strcmp(told.made, "file") ? "writers" : "count");
  fflush(stdout);
}

/* ---- the summary */

static unsigned long long of(uint64_t x) { return x; }

static void print_damages(void) {
  printf("  %-47s %9s %9s\n", "damage", "right", "at fault");
  for (int i = 0; i < damage_count(); i++)
    printf("  %-47s %9llu %9llu\n", damage_name(i), of(told.right_by_damage[i]), of(told.wrong_by_damage[i]));
}

static void print_faults(void) {
  printf("Through reading_read_run: right %llu; at fault by line (0 over 32 KiB, 8 behind the seventh):", of(told.right));
  for (int i = 0; i < FAULTS; i++) printf("  %d: %llu", i, of(told.by_fault[i]));
  printf("\n");
}

static uint64_t sum_of(const uint64_t *counts, int count) {
  uint64_t sum = 0;
  for (int i = 0; i < count; i++) sum += counts[i];
  return sum;
}

static void print_numbers(const char *head, const uint64_t counts[NUMBERS]) {
  printf("%s %llu; by number (0 accepted):", head, of(sum_of(counts, NUMBERS)));
  for (int i = 0; i < NUMBERS; i++)
    if (counts[i]) printf("  %d: %llu", i, of(counts[i]));
  printf("\n");
}

static void print_files(void) {
  printf("Files %llu; longest %llu bytes\n", of(told.files), of(told.most_bytes));
  print_damages();
  print_faults();
  print_numbers("Right ones, written again by threshcinch_write_run:", told.rewritten);
  print_numbers("Through text_answer, graphs that were written among them:", told.answers);
  printf(
      "  rows compared %llu; runs of as many rounds as are taken %llu; accepted, and left out as drawn %llu, as too long a run %llu; with "
      "too little room %llu; taken apart and printed again by threshcinch_write_answer %llu\n",
      of(told.rows), of(told.longest_runs), of(told.not_drawn), of(told.too_dear), of(told.short_rooms), of(told.printed_again));
  printf("  runs with isolated rows %llu, with some that have entries %llu, with some whose root is NaN %llu\n", of(told.isolated),
         of(told.isolated_with_entries), of(told.isolated_no_root));
  print_numbers("Through seedrun:", told.programs);
  printf("  given whole %llu, in pieces %llu; also through the script %llu\n", of(told.program_ways[WHOLE]), of(told.program_ways[PIECES]),
         of(told.scripts));
}

static void print_graph_faults(void) {
  printf("  %-47s %9s\n", "fault", "alone");
  for (int i = 0; i < graph_fault_count(); i++) printf("  %-47s %9llu\n", graph_fault_name(i), of(told.by_graph_fault[i]));
}

static void print_rooms(const char *head, const uint64_t rooms[ROOM_KINDS]) {
  static const char *const names[ROOM_KINDS] = {"exact", "longer", "one byte short", "shorter", "none"};
  printf("  %s:", head);
  for (int i = 0; i < ROOM_KINDS; i++) printf("  %s %llu", names[i], of(rooms[i]));
  printf("\n");
}

static void print_graphs(void) {
  printf("Graphs %llu; with several faults %llu\n", of(told.graphs), of(told.several_faults));
  print_graph_faults();
  print_numbers("Through threshcinch_write_run:", told.by_graph_number);
  printf("  17 by line:");
  for (int i = 0; i < FAULTS; i++)
    if (told.by_line[i]) printf("  %d: %llu", i, of(told.by_line[i]));
  printf("\n");
  print_rooms("rooms beside another refusal", told.write_rooms[1]);
  print_rooms("rooms beside none, before one that is long enough", told.write_rooms[0]);
  printf(
      "  read back and written again %llu, the longest of %llu bytes; values %llu, of them minus zero %llu, subnormal %llu, largest %llu\n",
      of(told.by_graph_number[0]), of(told.longest_written), of(told.values), of(told.minus_zeros), of(told.subnormals), of(told.largest));
  printf("  through text_answer, and accepted %llu\n", of(told.taken));
}

static void print_answers(void) {
  print_numbers("Answers, through threshcinch_write_answer:", told.by_answer_number);
  print_rooms("rooms beside another refusal", told.print_rooms[1]);
  print_rooms("rooms beside none, before one that is long enough", told.print_rooms[0]);
  printf("  refusals printed %llu; numbers of seeds %llu, of them NaN %llu; the longest answer has %llu bytes\n", of(told.refusals_printed),
         of(told.numbers_printed), of(told.nans_printed), of(told.longest_printed));
}

void tally_print(void) {
  if (told.files) print_files();
  if (told.graphs) print_graphs();
  if (told.parts) print_answers();
  printf("Differences: %llu\n", of(told.differences));
}

/* ---- the self-test */

static const char *chosen;
static int is_done;

void break_choose(const char *kind) { chosen = kind; }

int breaks(const char *kind) {
  if (!chosen || is_done || strcmp(chosen, kind)) return 0;
  return is_done = 1;
}

int breaks_in(const char *part, const char *kind) {
  size_t length = strlen(part);
  if (!chosen || is_done || strncmp(chosen, part, length) || chosen[length] != '-' || strcmp(chosen + length + 1, kind)) return 0;
  return is_done = 1;
}
