#include "reading.h"

#include <math.h>
#include <string.h>

/* ---- "Numbers allowed" */
static const size_t MOST_DIMS = 7, MOST_ROWS = 1048576, MOST_ENTRIES = 67108864, MOST_STEPS = 1000, CHUNK_ROWS = 4096, EXTRA_COLUMNS = 8;

static threshcinch_verdict told(uint64_t number, uint64_t place) {
  threshcinch_verdict v = {number, place};
  return v;
}

static int is_told(threshcinch_verdict v) { return v.number != 0; }

size_t reading_chunks(size_t rows) { return rows / CHUNK_ROWS + (rows % CHUNK_ROWS != 0); }

int reading_takes_whole(uint64_t x) { return 1 <= x && x <= MOST_STEPS; }

int reading_takes_seed_std(double x) { return x > 0.0 && x < INFINITY; }

size_t reading_record_width(size_t dims) { return dims + EXTRA_COLUMNS + 1; }

void reading_sizes(size_t need[LISTS], size_t dims, size_t rounds, size_t rows, size_t entries) {
  size_t k = dims + EXTRA_COLUMNS, chunks = reading_chunks(rows), record = rounds * reading_record_width(dims);
  size_t sizes[LISTS] = {rows + 1, entries,  entries,  rows,           rows,   entries,     entries,
                         rows * k, rows * k, rows * k, chunks * k * k, chunks, rows * dims, record};
  memcpy(need, sizes, sizeof sizes);
}

/* ---- 1 to 11 */

static threshcinch_verdict fault_of_starts(const uint64_t *starts, size_t length, size_t columns) {
  if (starts[0] != 0) return told(5, 0);
  for (size_t i = 1; i < length; i++)
    if (starts[i] < starts[i - 1]) return told(5, i);
  return starts[length - 1] != columns ? told(5, length - 1) : told(0, 0);
}

static threshcinch_verdict fault_of_columns(const uint32_t *columns, size_t length, size_t rows) {
  for (size_t i = 0; i < length; i++)
    if (columns[i] >= rows) return told(6, i);
  return told(0, 0);
}

static threshcinch_verdict fault_of_values(const double *values, size_t length) {
  for (size_t i = 0; i < length; i++)
    if (!isfinite(values[i])) return told(7, i);
  return told(0, 0);
}

static threshcinch_verdict fault_of_graph(const lists *l) {
  size_t rows = l->of[STARTS].length - 1, columns = l->of[COLUMNS].length;
  threshcinch_verdict v = fault_of_starts(l->of[STARTS].at, rows + 1, columns);
  if (is_told(v)) return v;
  v = fault_of_columns(l->of[COLUMNS].at, columns, rows);
  return is_told(v) ? v : fault_of_values(l->of[VALUES].at, columns);
}

/* the first list, of those from `from` on, that is shorter than it must be, or LISTS */
static int first_short(const lists *l, int from, size_t dims, size_t rounds, size_t rows, size_t entries) {
  size_t need[LISTS];
  reading_sizes(need, dims, rounds, rows, entries);
  int which = from;
  while (which < LISTS && need[which] <= l->of[which].length) which++;
  return which;
}

threshcinch_verdict reading_sizes_verdict(uint64_t d, uint64_t rounds, size_t rows, size_t entries) {
  if (d < 1 || d > MOST_DIMS) return told(1, 0);
  if (rows < 1) return told(2, 0);
  if (rows > MOST_ROWS || entries > MOST_ENTRIES) return told(3, 0);
  return reading_takes_whole(rounds) ? told(0, 0) : told(8, 0);
}

threshcinch_verdict reading_file(const call *c) {
  const lists *l = &c->lists;
  size_t starts = l->of[STARTS].length, columns = l->of[COLUMNS].length;
  if (c->dims < 1 || c->dims > MOST_DIMS) return told(1, 0);
  if (starts < 2) return told(2, 0);
  if (starts - 1 > MOST_ROWS || columns > MOST_ENTRIES) return told(3, 0);
  if (columns != l->of[VALUES].length) return told(4, 0);
  threshcinch_verdict v = fault_of_graph(l);
  if (is_told(v)) return v;
  if (!reading_takes_whole(c->params.rounds)) return told(8, 0);
  if (!reading_takes_whole(c->params.degree)) return told(9, 0);
  return reading_takes_seed_std(c->params.seed_std) ? told(0, 0) : told(10, 0);
}

static threshcinch_verdict fault_of_request(const call *c) {
  const lists *l = &c->lists;
  threshcinch_verdict v = reading_file(c);
  if (is_told(v)) return v;
  int lent = first_short(l, LENT, c->dims, c->params.rounds, l->of[STARTS].length - 1, l->of[COLUMNS].length);
  return lent < LISTS ? told(11, (uint64_t)(lent - LENT)) : told(0, 0);
}

/* ---- 16: "a state field outside the ranges above or its stage's own" */

static int is_asked_in_range(const threshcinch_asked *a) {
  return 1 <= a->dims && a->dims <= MOST_DIMS && 1 <= a->rows && a->rows <= MOST_ROWS && a->entries <= MOST_ENTRIES &&
         reading_takes_whole(a->rounds) && reading_takes_whole(a->degree) && reading_takes_seed_std(a->seed_std);
}

static int is_progress_in_range(const threshcinch_asked *a, const threshcinch_progress *p) {
  return p->stage <= 20 && p->round < a->rounds && p->pass < a->degree && p->column < a->dims + EXTRA_COLUMNS && p->attempt <= 1 &&
         p->current <= 2 && p->previous <= 2 && 0.1 <= p->bound && p->bound <= 0.9995 && 0.0 < p->alpha && p->alpha < 1.0;
}

/* "counts no more than a whole run can reach" */
static int are_counts_in_range(const threshcinch_asked *a, const threshcinch_counts *t) {
  size_t columns = a->rounds * (a->dims + EXTRA_COLUMNS);
  return t->passes <= a->rounds * (a->degree + 1) && t->refreshed <= columns && t->zeroed <= columns && t->isolated <= a->rows;
}

static int is_order_in_range(const threshcinch_state *s) {
  for (int i = 0; i < 15; i++)
    if (s->order[i] >= s->asked.dims + EXTRA_COLUMNS) return 0;
  return 1;
}

int reading_state(const threshcinch_state *s) {
  return is_asked_in_range(&s->asked) && is_progress_in_range(&s->asked, &s->progress) && are_counts_in_range(&s->asked, &s->counts) &&
         is_order_in_range(s);
}

int reading_is_open(const threshcinch_state *s) { return 1 <= s->progress.stage && s->progress.stage <= 19; }

/* ---- 16 of a chunk: "where this stage reads them for its rows" */

static int reads_starts(size_t stage) { return stage == 1 || stage == 2 || stage == 5 || stage == 13; }

static int are_starts_sound(const threshcinch_state *s, const lists *l, size_t first, size_t last) {
  const uint64_t *starts = l->of[STARTS].at;
  for (size_t i = first; i < last; i++)
    if (starts[i] > starts[i + 1] || starts[i] > s->asked.entries) return 0;
  return starts[last] <= s->asked.entries;
}

static int are_columns_below(const uint32_t *columns, size_t first, size_t last, size_t rows) {
  for (size_t i = first; i < last; i++)
    if (columns[i] >= rows) return 0;
  return 1;
}

static int are_rows_sound(const threshcinch_state *s, const lists *l, size_t number) {
  const uint64_t *starts = l->of[STARTS].at;
  size_t stage = s->progress.stage, rows = s->asked.rows;
  size_t first = number * CHUNK_ROWS, last = first + CHUNK_ROWS < rows ? first + CHUNK_ROWS : rows;
  if (!reads_starts(stage)) return 1;
  if (!are_starts_sound(s, l, first, last)) return 0;
  if (stage == 1) return 1;
  return are_columns_below(l->of[stage == 2 ? COLUMNS : EDGE_COLUMNS].at, starts[first], starts[last], rows);
}

static int are_lists_long_enough(const threshcinch_state *s, const lists *l) {
  return first_short(l, STARTS, s->asked.dims, s->asked.rounds, s->asked.rows, s->asked.entries) == LISTS;
}

static int is_sound_for_chunk(const call *c) {
  const threshcinch_state *s = &c->state;
  const uint8_t *marks = c->lists.of[MARKS].at;
  if (!reading_state(s)) return 0;
  if (!reading_is_open(s)) return 1;
  if (!are_lists_long_enough(s, &c->lists)) return 0;
  if (c->number >= reading_chunks(s->asked.rows)) return 1;
  return marks[c->number] <= 1 && are_rows_sound(s, &c->lists, c->number);
}

/* "A chunk call tests 16, 15, 12, 13" */
static threshcinch_verdict fault_of_chunk(const call *c) {
  const uint8_t *marks = c->lists.of[MARKS].at;
  if (!is_sound_for_chunk(c)) return told(16, 0);
  if (!reading_is_open(&c->state)) return told(15, 0);
  if (c->number >= reading_chunks(c->state.asked.rows)) return told(12, c->number);
  return marks[c->number] == 1 ? told(13, c->number) : told(0, 0);
}

/* ---- closing */

static int are_marks_sound(const uint8_t *marks, size_t chunks) {
  for (size_t i = 0; i < chunks; i++)
    if (marks[i] > 1) return 0;
  return 1;
}

static threshcinch_verdict first_left(const uint8_t *marks, size_t chunks) {
  for (size_t i = 0; i < chunks; i++)
    if (marks[i] == 0) return told(14, i);
  return told(0, 0);
}

/* "closing tests 16, 15, 14" */
static threshcinch_verdict fault_of_close(const call *c) {
  const threshcinch_state *s = &c->state;
  if (!reading_state(s)) return told(16, 0);
  if (!reading_is_open(s)) return told(15, 0);
  if (!are_lists_long_enough(s, &c->lists)) return told(16, 0);
  size_t chunks = reading_chunks(s->asked.rows);
  if (!are_marks_sound(c->lists.of[MARKS].at, chunks)) return told(16, 0);
  return first_left(c->lists.of[MARKS].at, chunks);
}

threshcinch_verdict reading(const call *c) {
  switch (c->kind) {
    case CHUNK:
      return fault_of_chunk(c);
    case CLOSE:
      return fault_of_close(c);
    default:
      return fault_of_request(c);
  }
}

/* docs/STATE.md: D, rows, rounds and degree 1, entries 0, seed_std 1e-4, bound 0.75 with its alpha, everything else 0 */
threshcinch_state reading_empty_state(void) {
  threshcinch_state s;
  memset(&s, 0, sizeof s);
  s.asked.dims = s.asked.rows = s.asked.rounds = s.asked.degree = 1;
  s.asked.seed_std = 1e-4;
  s.progress.bound = 0.75;
  s.progress.alpha = 1.0 / ((2.0 - 0.75) / 0.75);
  return s;
}
