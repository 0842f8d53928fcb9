#include <stdlib.h>
#include <string.h>

#include "answers.h"
#include "checks.h"
#include "guarded.h"
#include "lent_text.h"
#include "tally.h"
#include "written.h"

/* ---- the second writer */

static void print_parts(const char *part, guarded *room, const answer_parts *a, size_t offered, const due_writing *due) {
  lent_text lent = {lent_bytes(room, offered), offered};
  threshcinch_written said = threshcinch_write_answer(a->verdict, a->d, a->rows, a->counts, a->seed, a->seed_length, lent.at, lent.room);
  check_lent_text(part, said, lent, due);
}

static void count_answer(const answer_parts *a, const due_writing *due) {
  size_t numbers = due->verdict.number == 0 && a->verdict.number == 0 ? a->rows * a->d : 0;
  told.parts++;
  told.by_answer_number[due->verdict.number]++;
  told.refusals_printed += a->verdict.number != 0;
  told.numbers_printed += numbers;
  for (size_t i = 0; i < numbers; i++) told.nans_printed += a->seed[i] != a->seed[i];
  if (told.longest_printed < due->whole->length) told.longest_printed = due->whole->length;
}

void check_answer_parts(random_source *r) {
  static guarded room;
  static text whole;
  answer_parts a;
  answer_make(&a, r);
  written_answer(&whole, &a);
  due_writing due = {written_answer_verdict(&a), &whole};
  told.made = "answer";
  told.how = a.verdict.number ? "a refusal" : due.verdict.number ? "with a fault" : "a seed";
  told.file = &whole;
  count_answer(&a, &due);
  size_t length = due.verdict.number ? random_below(r, LEAST_ROOM) : whole.length, offered = any_room(r, length);
  told.print_rooms[due.verdict.number ? 1 : 0][room_kind_of(offered, length)]++;
  print_parts("print", &room, &a, offered, &due);
  if (due.verdict.number == 0) print_parts("print", &room, &a, enough_room(r, length), &due);
  if (a.seed_length && breaks("print-seed")) ((uint8_t *)(uintptr_t)a.seed)[0] ^= 1;
  if (!answer_is_as_made(&a)) differ("print", "the seed was changed");
}

/* ---- the text program's answers, taken apart and printed again */

enum { MOST_SEED = 448, LINE_NAMES = 6 };

/* Takes a name and a number off the text, and fails where there is another name. */
static int take_number(const char **at, const char *name, int base, uint64_t *number) {
  size_t length = strlen(name);
  char *end;
  if (strncmp(*at, name, length)) return 0;
  *number = strtoull(*at + length, &end, base);
  *at = end;
  return 1;
}

static int take_head(const char **at, answer_parts *a) {
  static const char *const names[LINE_NAMES] = {"answer=", "\nn=", "\npasses=", "\nrefreshed=", "\nzeroed=", "\nisolated="};
  uint64_t rows, *const places[LINE_NAMES] = {&a->verdict.number, &rows, &a->counts.passes, &a->counts.refreshed, &a->counts.zeroed,
                                              &a->counts.isolated};
  int i = 0;
  while (i < LINE_NAMES && take_number(at, names[i], 10, places[i])) i++;
  a->rows = rows;
  return i == LINE_NAMES;
}

/* The numbers of all rows: how many rows and numbers. */
static size_t take_seed(const char **at, double *seed, size_t *rows) {
  uint64_t bits;
  size_t count = 0;
  *rows = 0;
  while (count < MOST_SEED) {
    int is_row = take_number(at, "\nrow=", 16, &bits);
    if (!is_row && !take_number(at, ",", 16, &bits)) break;
    *rows += (size_t)is_row;
    memcpy(&seed[count++], &bits, sizeof bits);
  }
  return count;
}

/* Succeeds if the text is one of the text program's, but for the newline at its end. */
static int take_apart(const char *text, answer_parts *a, double *seed) {
  size_t rows;
  const char *at = text;
  memset(a, 0, sizeof *a);
  a->seed = seed;
  if (take_number(&at, "answer=", 10, &a->verdict.number) && a->verdict.number) return take_number(&at, "\nat=", 10, &a->verdict.place);
  at = text;
  if (!take_head(&at, a)) return 0;
  a->seed_length = take_seed(&at, seed, &rows);
  a->d = rows ? a->seed_length / rows : 0;
  return rows == a->rows && !strcmp(at, "\n");
}

void check_printed_again(const uint8_t *bytes, size_t length, random_source *r) {
  static guarded room;
  static text whole;
  static char words[LEAST_ROOM + 1];
  double seed[MOST_SEED];
  answer_parts a;
  if (length > LEAST_ROOM) return; /* told before */
  memcpy(words, bytes, length);
  words[length] = '\0';
  text_set(&whole, bytes, length);
  if (!take_apart(words, &a, seed)) {
    differ("reprint", "the answer cannot be taken apart");
    return;
  }
  due_writing due = {{0, 0}, &whole};
  print_parts("reprint", &room, &a, enough_room(r, length), &due);
  told.printed_again++;
}
