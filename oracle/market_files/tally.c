#include "tally.h"

#include <stdarg.h>
#include <stdio.h>
#include <stdlib.h>
#include <string.h>

#include "shapes.h"

enum { MOST_SHOWN = 24, MOST_OF_A_FILE = 3 };

tally told;

void fail(const char *format, ...) {
  va_list arguments;
  va_start(arguments, format);
  fprintf(stderr, "trials: ");
  vfprintf(stderr, format, arguments);
  fprintf(stderr, "\n");
  va_end(arguments);
  exit(2);
}

/* ---- differences */

static const char *folder;

void keep_in(const char *path) { folder = path; }

static void keep_file(char *path, size_t room) {
  snprintf(path, room, "%s/file-%llu.mtx", folder, (unsigned long long)told.number);
  FILE *out = fopen(path, "wb");
  int is_kept = out && fwrite(told.file->at, 1, told.file->length, out) == told.file->length;
  if (out && fclose(out)) is_kept = 0;
  if (!is_kept) snprintf(path, room, "(could not be kept)");
}

/* A few of each file, so that one wrong number does not hide other files. */
static int is_shown(void) {
  static uint64_t shown, shown_of_file, last = UINT64_MAX;
  if (told.number != last) shown_of_file = 0;
  last = told.number;
  if (shown == MOST_SHOWN || shown_of_file == MOST_OF_A_FILE) return 0;
  shown++;
  shown_of_file++;
  return 1;
}

static const char *shape_of(made_by by) { return by.shape == SAMPLE ? "the sample" : shape_name(by.shape); }

static void print_file(void) {
  char path[4096] = "(not kept)";
  unsigned long long number = told.number;
  if (!told.file) return;
  if (folder) keep_file(path, sizeof path);
  printf("; file %llu (%s; %s; %zu bytes): %s; again with oracle/markets --from %llu --count 1", number, shape_of(told.by),
         damage_name(told.by.damage), told.file->length, path, number);
}

void differ(const char *kind, const char *format, ...) {
  va_list arguments;
  told.differences++;
  if (!is_shown()) return;
  va_start(arguments, format);
  printf("DIFFERENCE %s: ", kind);
  vprintf(format, arguments);
  va_end(arguments);
  print_file();
  printf("\n");
  fflush(stdout);
}

/* ---- what was met */

static uint64_t longest_line(const bytes *b) {
  uint64_t longest = 0;
  for (size_t at = 0; at < b->length;) {
    const uint8_t *end = memchr(b->at + at, '\n', b->length - at);
    size_t to = end ? (size_t)(end - b->at) : b->length;
    if (longest < to - at) longest = to - at;
    at = to + 1;
  }
  return longest;
}

static void most(uint64_t *kept, uint64_t seen) {
  if (*kept < seen) *kept = seen;
}

static int is_by_file(const void *left, const void *right) {
  const entry *x = left, *y = right;
  return (x->index > y->index) - (x->index < y->index);
}

/* whether the entries stand neither by row nor by column, as the search for repeats needs it; they are sorted by row */
static int is_unordered(const second *read) {
  static entry *copy;
  static size_t room;
  if (room < read->count) copy = realloc(copy, (room = read->count) * sizeof *copy);
  if (!copy) fail("no memory");
  memcpy(copy, read->entries, read->count * sizeof *copy);
  qsort(copy, read->count, sizeof *copy, is_by_file);
  int by_row = 1, by_column = 1;
  for (size_t i = 1; i < read->count; i++) {
    const entry *x = &copy[i - 1], *y = &copy[i];
    by_row &= x->row < y->row || (x->row == y->row && x->column < y->column);
    by_column &= x->column < y->column || (x->column == y->column && x->row < y->row);
  }
  return !by_row && !by_column;
}

void tally_file(const second *read) {
  uint64_t *shapes = read->fault ? told.wrong_by_shape : told.right_by_shape;
  uint64_t *damages = read->fault ? told.wrong_by_damage : told.right_by_damage;
  told.files++;
  told.damaged += told.by.damage != 0;
  damages[told.by.damage]++;
  if (told.by.shape != SAMPLE) shapes[told.by.shape]++;
  told.by_why[read->why]++;
  most(&told.most_bytes, told.file->length);
  most(&told.most_entries, read->count);
  most(&told.longest_line, longest_line(told.file));
  told.unordered_blocks += read->count > BLOCK && is_unordered(read);
  told.repeats_behind_block += read->apart >= BLOCK;
}

/* ---- the summary */

static unsigned long long of(uint64_t x) { return x; }

static void print_damages(void) {
  printf("  %-47s %9s %9s\n", "shape, before it is damaged", "right", "at fault");
  for (int i = 0; i < shape_count(); i++)
    printf("  %-47s %9llu %9llu\n", shape_name(i), of(told.right_by_shape[i]), of(told.wrong_by_shape[i]));
  printf("  %-47s %9s %9s\n", "damage", "right", "at fault");
  for (int i = 0; i < damage_count(); i++)
    printf("  %-47s %9llu %9llu\n", damage_name(i), of(told.right_by_damage[i]), of(told.wrong_by_damage[i]));
}

static void print_numbers(const char *head, const uint64_t counts[NUMBERS]) {
  printf("%s by number (0 accepted):", head);
  for (int i = 0; i < NUMBERS; i++)
    if (counts[i]) printf("  %d: %llu", i, of(counts[i]));
  printf("\n");
}

void tally_print(void) {
  static const char *const whys[WHYS] = {"right",           "banner",  "up to the size line", "no size line", "behind it",
                                         "too few entries", "repeated"};
  if (told.files) {
    printf("Files %llu, damaged %llu; the longest has %llu bytes, the longest line %llu, most entries %llu\n", of(told.files),
           of(told.damaged), of(told.most_bytes), of(told.longest_line), of(told.most_entries));
    print_damages();
    printf("By the line at fault:");
    for (int i = 0; i < WHYS; i++) printf("  %s %llu", whys[i], of(told.by_why[i]));
    printf("\n  over a block of entries in no rising order %llu; repeated a block apart or more %llu\n", of(told.unordered_blocks),
           of(told.repeats_behind_block));
  }
  print_numbers("threshcinch_read_matrix_market,", told.reads);
  printf("  by short list: %llu, %llu, %llu; accepted with exactly enough in each list %llu, with more in some %llu; entries placed %llu\n",
         of(told.short_lists[0]), of(told.short_lists[1]), of(told.short_lists[2]), of(told.exact), of(told.longer), of(told.placed));
  print_numbers("threshcinch_matrix_market_sizes,", told.rooms);
  printf("Differences: %llu\n", of(told.differences));
}

/* ---- the self-test */

static const char *chosen;
static int is_done;

void break_choose(const char *kind) { chosen = kind; }

int breaks(const char *kind) {
  if (!chosen || is_done || strcmp(chosen, kind)) return 0;
  return is_done = 1;
}

void breakages_print(void) {
  static const char *const kinds[] = {
      "number",       "number-2",      "number-3",       "number-11",      "accepted",         "place",         "place-11",
      "place-2",      "place-3",       "place-accepted", "rows",           "entries",          "refused-rows",  "refused-entries",
      "start-first",  "start-last",    "start-behind",   "column-first",   "column-last",      "column-behind", "value-first",
      "value-last",   "value-behind",  "value-sign",     "refused-start",  "refused-column",   "refused-value", "short-start",
      "short-column", "short-value",   "start-before",   "column-before",  "value-before",     "text",          "sizes-number",
      "sizes-place",  "sizes-2",       "sizes-3",        "sizes-accepted", "sizes-place-of-2", "sizes-starts",  "sizes-entries",
      "sizes-limit",  "sizes-refused", "crash",          "endless"};
  for (size_t i = 0; i < sizeof kinds / sizeof *kinds; i++) puts(kinds[i]);
}
