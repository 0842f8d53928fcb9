#include "graphs.h"

#include <string.h>

#include "pick.h"
#include "proved.h"

static const uint64_t SIGN = UINT64_C(1) << 63, INFINITE = UINT64_C(0x7ff0000000000000), ONE = UINT64_C(0x3ff0000000000000);

enum { FRACTION = 52, EXPONENTS = 2047, MOST_DEGREE = 1000, MOST_DIMS = 7 };

/* ---- floats, by kind */

static uint64_t fraction(random_source *r) { return random_next(r) >> (64 - FRACTION); }

static uint64_t of_any_sign(random_source *r, uint64_t bits) { return once_in(r, 2) ? SIGN | bits : bits; }

/* Draws stand in statements of their own, since C leaves it open in which order the sides of an operator are drawn. */
static uint64_t any_bits(random_source *r) {
  uint64_t exponent = random_below(r, EXPONENTS);
  return of_any_sign(r, exponent << FRACTION | fraction(r));
}

static uint64_t zero(random_source *r) { return of_any_sign(r, 0); }

static uint64_t subnormal(random_source *r) {
  static const uint64_t edges[] = {1, 2, UINT64_C(0x0008000000000000), UINT64_C(0x000ffffffffffffe), UINT64_C(0x000fffffffffffff)};
  uint64_t zeros = random_below(r, FRACTION);
  return of_any_sign(r, once_in(r, 2) ? PICK(r, edges) : fraction(r) >> zeros);
}

static uint64_t largest(random_source *r) { return of_any_sign(r, INFINITE - 1 - (once_in(r, 2) ? random_below(r, 4) : 0)); }

static uint64_t power_of_two(random_source *r) { return of_any_sign(r, (1 + random_below(r, EXPONENTS - 1)) << FRACTION); }

static uint64_t near_one(random_source *r) { return ONE | fraction(r); }

static uint64_t digits_in_order(random_source *r) {
  const uint64_t bits[] = {UINT64_C(0x0123456789abcdef), UINT64_C(0xfedcba9876543210), UINT64_C(0x0010000000000000), ONE};
  return PICK(r, bits);
}

typedef uint64_t (*float_kind)(random_source *);

static const float_kind float_kinds[] = {any_bits, zero, subnormal, largest, power_of_two, near_one, digits_in_order};

uint64_t any_finite(random_source *r) { return PICK(r, float_kinds)(r); }

uint64_t any_not_finite(random_source *r) {
  static const uint64_t payloads[] = {0, 0, 0, 1, UINT64_C(0x0008000000000000), UINT64_C(0x0007ffffffffffff), UINT64_C(0x000fffffffffffff)};
  return of_any_sign(r, INFINITE | (once_in(r, 2) ? PICK(r, payloads) : fraction(r)));
}

/* ---- a right graph */

static size_t any_rows(random_source *r) {
  switch (random_below(r, 8)) {
    case 0:
      return MOST_STARTS - 1;
    case 1:
      return MOST_STARTS - 2;
    case 2:
    case 3:
      return 1 + random_below(r, MOST_STARTS - 1);
    default:
      return 1 + random_below(r, 12);
  }
}

static size_t any_entries(random_source *r) {
  switch (random_below(r, 16)) {
    case 0:
      return MOST_ENTRIES;
    case 1:
      return MOST_ENTRIES - random_below(r, 26);
    case 2:
      return random_below(r, 2);
    case 3:
    case 4:
      return random_below(r, MOST_ENTRIES + 1);
    default:
      return random_below(r, 120);
  }
}

static uint64_t any_of_or_up_to(random_source *r, const uint64_t *edges, size_t count, uint64_t most) {
  return once_in(r, 3) ? 1 + random_below(r, most) : edges[random_below(r, count)];
}

#define EDGE_OR(r, edges, most) any_of_or_up_to(r, edges, sizeof(edges) / sizeof *(edges), most)

static void make_head(graph *g, random_source *r) {
  static const uint64_t rounds[] = {1, 1, 1, 2, 2, 3, 5, 9, 10, 99, 100, 399, 400},
                        degrees[] = {1, 1, 1, 2, 3, 5, 9, 10, 20, 99, 100, 999, 1000};
  const uint64_t stds[] = {UINT64_C(0x3f1a36e2eb1c432d), ONE, 1, INFINITE - 1, UINT64_C(0x000fffffffffffff), UINT64_C(0x0010000000000000)};
  g->d = 1 + random_below(r, MOST_DIMS);
  g->rounds = EDGE_OR(r, rounds, MOST_ROUNDS);
  g->degree = EDGE_OR(r, degrees, MOST_DEGREE);
  g->seed_std = PICK(r, stds);
  if (once_in(r, 3)) g->seed_std = (any_bits(r) & ~SIGN) | 1;
}

/* Where row i begins: rows of one length, all entries in one row, short rows before empty ones, or rows of any length. */
typedef struct {
  int shape;
  size_t rows, entries, hot, step;
} rise;

static uint64_t start_of(const rise *s, size_t i, uint64_t before, random_source *r) {
  if (i == s->rows) return s->entries;
  switch (s->shape) {
    case 0:
      return i * s->entries / s->rows;
    case 1:
      return i <= s->hot ? 0 : s->entries;
    case 2:
      return i * s->step < s->entries ? i * s->step : s->entries;
    default:
      return i == 0 ? 0 : before + random_below(r, 2 * (s->entries - before) / (s->rows - i + 1) + 1);
  }
}

static void make_starts(graph *g, random_source *r) {
  rise s = {.entries = g->column_count, .rows = any_rows(r)};
  s.shape = (int)random_below(r, 6);
  s.hot = random_below(r, s.rows);
  s.step = 1 + random_below(r, 40);
  g->start_count = s.rows + 1;
  for (size_t i = 0; i < g->start_count; i++) g->starts[i] = start_of(&s, i, i ? g->starts[i - 1] : 0, r);
}

/* Columns in turn, falling, one again and again, or any. */
static void make_columns(graph *g, random_source *r) {
  size_t rows = g->start_count - 1, same = once_in(r, 2) ? rows - 1 : random_below(r, rows);
  int shape = (int)random_below(r, 5);
  for (size_t i = 0; i < g->column_count; i++) {
    size_t turn = i % rows, of_shape[] = {turn, rows - 1 - turn, same};
    g->columns[i] = (uint32_t)(shape < 3 ? of_shape[shape] : random_below(r, rows));
  }
}

/* Values of one kind, or each of its own. */
static void make_values(graph *g, random_source *r) {
  float_kind kind = once_in(r, 2) ? any_finite : PICK(r, float_kinds);
  for (size_t i = 0; i < g->value_count; i++) g->values[i] = kind(r);
}

static void make_right(graph *g, random_source *r) {
  memset(g, 0, sizeof *g);
  g->column_count = g->value_count = any_entries(r);
  make_head(g, r);
  make_starts(g, r);
  make_columns(g, r);
  make_values(g, r);
}

/* ---- faults */

static const uint64_t TWO32 = UINT64_C(1) << 32, TWO63 = UINT64_C(1) << 63, TWO20 = 1 << 20, TWO26 = 1 << 26;

static size_t any_place(size_t count, random_source *r) {
  if (count < 2 || once_in(r, 3)) return 0;
  return once_in(r, 2) ? count - 1 : random_below(r, count);
}

static void rounds_over(graph *g, random_source *r) {
  const uint64_t over[] = {401, 401, 402, 500, 999, 1000, 1001, 4000, TWO32, TWO32 + 1, TWO32 + 400, TWO63, TWO63 + 1, UINT64_MAX};
  g->rounds = PICK(r, over);
}

static int has_starts(const graph *g) { return g->start_count > 0 && g->start_count <= GRAPH_STARTS; }

/* The last start stays the number of columns, so that there is no other fault. */
static void starts_over(graph *g, random_source *r) {
  size_t count = once_in(r, 2) ? MOST_STARTS + 1 : MOST_STARTS + 1 + random_below(r, GRAPH_STARTS - MOST_STARTS);
  uint64_t last = has_starts(g) ? g->starts[g->start_count - 1] : 0;
  for (size_t i = g->start_count; i < count; i++) g->starts[i] = last;
  g->start_count = count;
}

static size_t over_entries(random_source *r) {
  return once_in(r, 2) ? MOST_ENTRIES + 1 : MOST_ENTRIES + 1 + random_below(r, GRAPH_ENTRIES - MOST_ENTRIES);
}

static void values_over(graph *g, random_source *r) { g->value_count = over_entries(r); }

static void columns_over(graph *g, random_source *r) { g->column_count = over_entries(r); }

/* Columns and values by as many, and the last start with them. */
static void entries_over(graph *g, random_source *r) {
  g->column_count = g->value_count = over_entries(r);
  if (has_starts(g)) g->starts[g->start_count - 1] = g->column_count;
}

/* Lists at and over the limits of refusal 3. */
static void far_over(graph *g, random_source *r) {
  size_t entries = TWO26 + random_below(r, 2);
  uint64_t which = random_below(r, 4);
  if (which == 0) g->start_count = TWO20 + 1 + random_below(r, 2);
  if (which == 1 || which == 2) g->column_count = entries;
  if (which == 2 || which == 3) g->value_count = entries;
}

static void dims_wrong(graph *g, random_source *r) {
  const uint64_t wrong[] = {0, 0, 8, 8, 9, 10, 15, 64, TWO32, TWO32 + 1, TWO63, TWO63 + 7, UINT64_MAX};
  g->d = PICK(r, wrong);
}

static void no_rows(graph *g, random_source *r) { g->start_count = random_below(r, 2); }

static void lengths_differ(graph *g, random_source *r) {
  size_t *count = once_in(r, 2) ? &g->column_count : &g->value_count;
  switch (random_below(r, 4)) {
    case 0:
      *count = 0;
      break;
    case 1:
      *count += 1 + random_below(r, 3);
      break;
    case 2:
      *count -= *count > 0;
      break;
    default:
      *count = random_below(r, MOST_ENTRIES + 1);
  }
}

static uint64_t any_start(const graph *g, random_source *r) {
  const uint64_t starts[] = {1,          g->column_count + 1,          g->column_count, g->column_count - 1, TWO32, TWO63,
                             UINT64_MAX, random_below(r, MOST_ENTRIES)};
  return PICK(r, starts);
}

static void first_start_wrong(graph *g, random_source *r) {
  if (has_starts(g)) g->starts[0] = any_start(g, r);
}

static void last_start_wrong(graph *g, random_source *r) {
  if (has_starts(g)) g->starts[g->start_count - 1] = any_start(g, r);
}

/* One above the next, or far above it: so the next one falls. */
static void start_falls(graph *g, random_source *r) {
  if (!has_starts(g)) return;
  size_t i = any_place(g->start_count, r);
  if (i + 1 < g->start_count) g->starts[i] = once_in(r, 2) ? g->starts[i + 1] + 1 : any_start(g, r);
}

static void column_wrong(graph *g, random_source *r) {
  if (g->column_count == 0 || g->column_count > GRAPH_ENTRIES) return;
  for (uint64_t left = once_in(r, 3) ? 3 : 1; left > 0; left--) {
    uint64_t rows = g->start_count - (g->start_count > 0), wrong[] = {rows, rows, rows + 1, TWO32 - 1, TWO32 / 2};
    uint32_t *column = &g->columns[any_place(g->column_count, r)];
    *column = (uint32_t)PICK(r, wrong);
  }
}

static void value_wrong(graph *g, random_source *r) {
  if (g->value_count == 0 || g->value_count > GRAPH_ENTRIES) return;
  for (uint64_t left = once_in(r, 3) ? 3 : 1; left > 0; left--) {
    uint64_t *value = &g->values[any_place(g->value_count, r)];
    *value = any_not_finite(r);
  }
}

static void rounds_none(graph *g, random_source *r) {
  (void)r;
  g->rounds = 0;
}

static void degree_wrong(graph *g, random_source *r) {
  const uint64_t wrong[] = {0, 0, 1001, 1001, 1002, 9999, TWO32, TWO32 + 1, TWO63, UINT64_MAX};
  g->degree = PICK(r, wrong);
}

static void seed_std_wrong(graph *g, random_source *r) {
  const uint64_t wrong[] = {0, 0, SIGN, SIGN | 1, SIGN | ONE, SIGN | (INFINITE - 1), INFINITE, SIGN | INFINITE, any_not_finite(r)};
  g->seed_std = PICK(r, wrong);
}

typedef struct {
  const char *name;
  void (*put)(graph *, random_source *);
} fault;

static const fault faults[] = {{"rounds over 400", rounds_over},
                               {"more than 65 starts", starts_over},
                               {"more than 1,024 columns", columns_over},
                               {"more than 1,024 values", values_over},
                               {"more than 1,024 columns and as many values", entries_over},
                               {"lists at or over the limits of refusal 3", far_over},
                               {"D not 1 to 7", dims_wrong},
                               {"no start or one", no_rows},
                               {"columns and values of other lengths", lengths_differ},
                               {"another first start", first_start_wrong},
                               {"another last start", last_start_wrong},
                               {"a start above the next", start_falls},
                               {"columns not below the rows", column_wrong},
                               {"values not finite", value_wrong},
                               {"no rounds", rounds_none},
                               {"degree not 1 to 1,000", degree_wrong},
                               {"seed_std not positive and finite", seed_std_wrong}};

enum { FAULT_KINDS = sizeof faults / sizeof *faults };

_Static_assert(sizeof faults / sizeof *faults <= MOST_GRAPH_FAULTS, "room to count them");

int graph_fault_count(void) { return FAULT_KINDS; }

const char *graph_fault_name(int which) { return faults[which].name; }

/* Seven of ten are right, two have one fault, one has two to four. */
void graph_make(graph *g, random_source *r) {
  uint64_t lot = random_below(r, 10);
  int due = lot < 7 ? 0 : lot < 9 ? 1 : 2 + (int)random_below(r, 3);
  make_right(g, r);
  for (g->fault_count = 0; g->fault_count < due; g->fault_count++) {
    g->fault = (int)random_below(r, FAULT_KINDS);
    faults[g->fault].put(g, r);
  }
}
