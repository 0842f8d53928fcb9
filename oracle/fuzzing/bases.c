#include "bases.h"

#include <stdio.h>
#include <stdlib.h>
#include <string.h>

#include "pick.h"
#include "proved.h"

enum { MOST_STORED = 2000, MOST_LINE = 40000, SMALL = 600 };

const char sample[] =
    "d=1\n"
    "rounds=1\n"
    "degree=1\n"
    "seed_std=3f1a36e2eb1c432d\n"
    "starts=0,1\n"
    "columns=0\n"
    "values=3ff0000000000000\n";

/* ---- numbers at edges. 18446744073709551615 is 2^64 - 1, and 4294967295 is 2^32 - 1. */

static const char *const right_decimals[] = {"0",
                                             "1",
                                             "2",
                                             "7",
                                             "8",
                                             "9",
                                             "10",
                                             "63",
                                             "64",
                                             "65",
                                             "399",
                                             "400",
                                             "401",
                                             "1000",
                                             "1001",
                                             "1023",
                                             "1024",
                                             "1025",
                                             "4294967294",
                                             "4294967295",
                                             "4294967296",
                                             "9999999999",
                                             "10000000000",
                                             "9223372036854775807",
                                             "9223372036854775808",
                                             "9999999999999999999",
                                             "10000000000000000000",
                                             "18446744073709551609",
                                             "18446744073709551614",
                                             "18446744073709551615"};

static const char *const wrong_decimals[] = {"18446744073709551616",
                                             "18446744073709551617",
                                             "18446744073709551620",
                                             "18446744073709551625",
                                             "18446744073709551700",
                                             "18446744083709551615",
                                             "28446744073709551615",
                                             "19000000000000000000",
                                             "20000000000000000000",
                                             "99999999999999999999",
                                             "100000000000000000000",
                                             "184467440737095516150",
                                             "184467440737095516160",
                                             "184467440737095516161",
                                             "340282366920938463463374607431768211455",
                                             "340282366920938463463374607431768211456",
                                             "340282366920938463463374607431768211457",
                                             "00",
                                             "01",
                                             "007",
                                             "018446744073709551615",
                                             "00000000000000000000000000000001",
                                             "",
                                             "-0",
                                             "-1",
                                             "+1",
                                             " 1",
                                             "1 ",
                                             "1.0",
                                             "1e0",
                                             "0x1",
                                             "a",
                                             "1a",
                                             "1_000",
                                             "1'000",
                                             "\t1",
                                             "3ff0000000000000",
                                             "nan",
                                             "/",
                                             ":",
                                             "1/",
                                             "1:"};

static const char *const right_floats[] = {
    "0000000000000000", "8000000000000000", "0000000000000001", "8000000000000001", "000fffffffffffff",
    "0010000000000000", "3f1a36e2eb1c432d", "3ff0000000000000", "bff0000000000000", "4000000000000000",
    "7fe1ccf385ebc8a0", "7fefffffffffffff", "ffefffffffffffff", "7ff0000000000000", "fff0000000000000",
    "7ff0000000000001", "7ff4000000000000", "7ff7ffffffffffff", "7ff8000000000000", "7fffffffffffffff",
    "fff0000000000001", "fff8000000000000", "ffffffffffffffff", "0123456789abcdef", "fedcba9876543210"};

static const char *const wrong_floats[] = {"",
                                           "0",
                                           "3ff000000000000",
                                           "3ff00000000000000",
                                           "03ff0000000000000",
                                           "3FF0000000000000",
                                           "3fF0000000000000",
                                           "7FF8000000000000",
                                           "0x3ff0000000000000",
                                           "0x3ff00000000000",
                                           "3ff000000000000g",
                                           "g000000000000000",
                                           "3ff000000000000 ",
                                           " 3ff000000000000",
                                           "3ff0000000000000 ",
                                           "-3ff000000000000",
                                           "3ff0000000000000p",
                                           "1.00000000000000",
                                           "000000000000000@",
                                           "000000000000000`",
                                           "000000000000000/",
                                           "000000000000000:",
                                           "nan",
                                           "inf",
                                           "1",
                                           "3ff00000\n00000000"};

const char *any_right_decimal(random_source *r) { return PICK(r, right_decimals); }

const char *any_wrong_decimal(random_source *r) { return PICK(r, wrong_decimals); }

const char *any_right_float(random_source *r) { return PICK(r, right_floats); }

const char *any_wrong_float(random_source *r) { return PICK(r, wrong_floats); }

/* Half of them are taken, 400 most often. 4294967696 is 2^32 + 400 and 9223372036854775808 is 2^63. */
const char *any_rounds(random_source *r) {
  static const char *const taken[] = {"0", "1", "40", "399", "399", "400", "400", "400"};
  static const char *const not_taken[] = {"401",  "402",  "500",  "999",        "1000",       "1001",
                                          "1400", "4000", "4001", "4294967297", "4294967696", "9223372036854775808"};
  return once_in(r, 2) ? PICK(r, taken) : PICK(r, not_taken);
}

/* ---- stored files */

typedef struct {
  uint8_t *bytes;
  size_t length;
} stored;

static stored all[MOST_STORED], small[MOST_STORED];
static size_t all_count, small_count;

static void keep(const text *t) {
  if (all_count == MOST_STORED) return;
  stored s = {malloc(t->length + 1), t->length};
  if (!s.bytes) return;
  memcpy(s.bytes, t->bytes, t->length);
  all[all_count++] = s;
  if (t->length <= SMALL) small[small_count++] = s;
}

int bases_load_file(const char *path) {
  static text t;
  FILE *in = fopen(path, "rb");
  if (!in) return 0;
  t.length = fread(t.bytes, 1, TEXT_ROOM, in);
  int is_read = !ferror(in);
  fclose(in);
  if (is_read) keep(&t);
  return is_read;
}

/* A case is a line that begins with `case `, and then the run file's lines. */
int bases_load_cases(const char *path) {
  static text t;
  static char line[MOST_LINE];
  size_t before = all_count;
  int lines_left = 0;
  FILE *in = fopen(path, "rb");
  if (!in) return 0;
  while (fgets(line, sizeof line, in)) {
    int is_head = !strncmp(line, "case ", 5);
    if (is_head) t.length = 0;
    if (lines_left > 0) text_add(&t, line, strlen(line));
    if (lines_left == 1) keep(&t);
    lines_left = is_head ? TEXT_LINES : lines_left - (lines_left > 0);
  }
  fclose(in);
  return all_count > before;
}

/* ---- files made here */

/* What a file is made of. The lists' numbers are drawn so that they are often right together. */
typedef struct {
  const char *d, *rounds, *degree, *seed_std;
  size_t start_count, column_count, value_count;
  int has_longest; /* each number as many digits as it may have */
} draft;

static void add_head(text *t, const draft *f) {
  text_add_words(t, "d=%s\nrounds=%s\ndegree=%s\nseed_std=%s\n", f->d, f->rounds, f->degree, f->seed_std);
}

/* Starts rise from 0 to the number of columns, by as much a row as is left for each, or so. */
static uint64_t next_start(uint64_t start, size_t i, const draft *f, random_source *r) {
  if (i == 0) return 0;
  if (i + 1 == f->start_count) return f->column_count;
  return start + random_below(r, 2 * (f->column_count - start) / (f->start_count - i) + 1);
}

static void add_starts(text *t, const draft *f, random_source *r) {
  uint64_t start = 0;
  text_add_words(t, "starts=");
  for (size_t i = 0; i < f->start_count; i++) {
    start = next_start(start, i, f, r);
    text_add_words(t, "%s%llu", i ? "," : "", f->has_longest ? ~0ull : (unsigned long long)start);
  }
  text_add_words(t, "\n");
}

static void add_columns(text *t, const draft *f, random_source *r) {
  size_t rows = f->start_count < 2 ? 1 : f->start_count - 1;
  text_add_words(t, "columns=");
  for (size_t i = 0; i < f->column_count; i++)
    text_add_words(t, "%s%llu", i ? "," : "", f->has_longest ? 0xffffffffull : (unsigned long long)random_below(r, rows));
  text_add_words(t, "\n");
}

/* Values in [1, 2), now and then any finite one. */
static void add_values(text *t, const draft *f, random_source *r) {
  text_add_words(t, "values=");
  for (size_t i = 0; i < f->value_count; i++) {
    uint64_t bits = UINT64_C(0x3ff0000000000000) | random_next(r) >> 12;
    if (once_in(r, 8)) bits = random_next(r) & ~UINT64_C(0x0010000000000000);
    text_add_words(t, "%s%016llx", i ? "," : "", (unsigned long long)bits);
  }
  text_add_words(t, "\n");
}

static void add_all(text *t, const draft *f, random_source *r) {
  t->length = 0;
  add_head(t, f);
  add_starts(t, f, r);
  add_columns(t, f, r);
  add_values(t, f, r);
}

/* A graph that is run in no time: up to six rows. */
static draft small_draft(random_source *r) {
  static const char *const dims[] = {"1", "2", "3", "4", "5", "6", "7"}, *const steps[] = {"1", "1", "2", "3"};
  static const char *const stds[] = {"3f1a36e2eb1c432d", "3ff0000000000000", "0000000000000001", "7fefffffffffffff"};
  draft f = {PICK(r, dims), PICK(r, steps), PICK(r, steps), PICK(r, stds), 2 + random_below(r, 6), random_below(r, 12), 0, 0};
  f.value_count = f.column_count;
  return f;
}

static void make_small(text *t, random_source *r) {
  draft f = small_draft(r);
  add_all(t, &f, r);
}

/* Lists as long as they may be, and one to three more. */
static void make_sizes(text *t, random_source *r) {
  static const size_t starts[] = {0, 1, 2, 3, 64, 65, 65, 66, 67}, entries[] = {0, 1, 2, 1023, 1024, 1024, 1025, 1027};
  draft f = small_draft(r);
  f.start_count = PICK(r, starts);
  f.column_count = PICK(r, entries);
  f.value_count = once_in(r, 3) ? PICK(r, entries) : f.column_count;
  add_all(t, &f, r);
}

/* The numbers of the first four lines at their edges. */
static void make_head(text *t, random_source *r) {
  draft f = small_draft(r);
  if (once_in(r, 2)) f.d = any_right_decimal(r);
  if (once_in(r, 2)) f.rounds = any_right_decimal(r);
  if (once_in(r, 2)) f.degree = any_right_decimal(r);
  if (once_in(r, 2)) f.seed_std = any_right_float(r);
  add_all(t, &f, r);
}

/* Rounds at their limits. A run of 400 rounds is dear, so that D is 1 and the graph tiny. D, degree and the number of values are sometimes
 * wrong, since line 2 is told behind line 1, and before whatever later lines and the table of refusals say. */
static void make_rounds(text *t, random_source *r) {
  static const char *const dims[] = {"1", "1", "1", "1", "0", "9", "01"}, *const degrees[] = {"1", "1", "1", "1", "0", "x"};
  draft f = small_draft(r);
  f.d = PICK(r, dims);
  f.rounds = any_rounds(r);
  f.degree = PICK(r, degrees);
  f.start_count = 2 + random_below(r, 2);
  f.column_count = random_below(r, 4);
  f.value_count = f.column_count + (size_t)once_in(r, 10);
  add_all(t, &f, r);
}

/* The longest file that is right, of 30,147 bytes: no right one reaches 32 KiB. Its answer is a refusal. */
static void make_longest(text *t, random_source *r) {
  static const char longest[] = "18446744073709551615";
  draft f = {longest, "400", longest, "ffffffffffffffff", MOST_STARTS, MOST_ENTRIES, MOST_ENTRIES, 1};
  add_all(t, &f, r);
}

/* The largest sizes that are run. */
static void make_most(text *t, random_source *r) {
  draft f = small_draft(r);
  f.start_count = MOST_STARTS;
  f.column_count = f.value_count = MOST_ENTRIES;
  add_all(t, &f, r);
}

/* Any values at edges, in a small graph. */
static void make_floats(text *t, random_source *r) {
  draft f = small_draft(r);
  size_t count = f.value_count;
  f.value_count = 0;
  add_all(t, &f, r);
  t->length--;
  for (size_t i = 0; i < count; i++) text_add_words(t, "%s%s", i ? "," : "", any_right_float(r));
  text_add_words(t, "\n");
}

/* Rows at the edge of being isolated: with no values; with zeros; 1 and -1; 1e16, 1 and -1e16, whose sum is 0, and in another order, whose
 * sum is 1; 1e-24, whose root is 1e-12; the first number with a higher root; the least one; -1; sums that are infinite; 1e24, whose inverse
 * weight is 1e-12 all the same. */
static const char *const edge_rows[] = {"",
                                        "0000000000000000",
                                        "8000000000000000,8000000000000000",
                                        "3ff0000000000000,bff0000000000000",
                                        "4341c37937e08000,3ff0000000000000,c341c37937e08000",
                                        "4341c37937e08000,c341c37937e08000,3ff0000000000000",
                                        "3af357c299a88ea7",
                                        "3af357c299a88ea9",
                                        "0000000000000001",
                                        "bff0000000000000",
                                        "ffe1ccf385ebc8a0,ffe1ccf385ebc8a0",
                                        "7fe1ccf385ebc8a0,7fe1ccf385ebc8a0",
                                        "44ea784379d99db4"};

static size_t entries_of(const char *row) { return (strlen(row) + 1) / 17; }

/* One to six such rows, their columns in turn. */
static void make_isolated(text *t, random_source *r) {
  const char *rows[6];
  size_t count = 1 + random_below(r, 6), entries = 0;
  draft f = small_draft(r);
  t->length = 0;
  add_head(t, &f);
  text_add_words(t, "starts=0");
  for (size_t i = 0; i < count; i++) {
    rows[i] = PICK(r, edge_rows);
    entries += entries_of(rows[i]);
    text_add_words(t, ",%zu", entries);
  }
  text_add_words(t, "\ncolumns=");
  for (size_t e = 0; e < entries; e++) text_add_words(t, "%s%zu", e ? "," : "", e % count);
  text_add_words(t, "\nvalues=");
  for (size_t i = 0, e = 0; i < count; e += entries_of(rows[i++])) text_add_words(t, "%s%s", e && *rows[i] ? "," : "", rows[i]);
  text_add_words(t, "\n");
}

static void make_any(text *t, random_source *r) {
  static void (*const makers[])(text *, random_source *) = {make_small, make_small,  make_small,   make_sizes,  make_head,
                                                            make_most,  make_rounds, make_longest, make_floats, make_isolated};
  PICK(r, makers)(t, r);
}

void bases_pick(text *t, random_source *r) {
  uint64_t which = random_below(r, 10);
  if (which == 0 || all_count == 0) {
    text_set(t, sample, strlen(sample));
  } else if (which < 5 || small_count == 0) {
    make_any(t, r);
  } else {
    stored s = which < 8 ? small[random_below(r, small_count)] : all[random_below(r, all_count)];
    text_set(t, s.bytes, s.length);
  }
}
