#include "damage.h"

#include <math.h>
#include <string.h>
#include <sys/mman.h>

#include "lent.h"
#include "reading.h"
#include "report.h"
#include "watch.h"

enum { MOST_EDITS = 8 };

typedef struct {
  int which;
  size_t at;
  uint64_t old;
} edit;

/* a call on its way to be damaged, and how its lists are mended afterwards */
typedef struct {
  call call;
  lists *now, *before;
  random_source *random;
  edit edits[MOST_EDITS];
  int edit_count;
  const char *names[2];
  uint64_t place[2], value[2];
  int damages;
} trial;

/* how to damage, and how often among the others */
typedef struct {
  void (*apply)(trial *);
  int weight;
} damage;

/* ---- tools */

static size_t rows_of(const trial *t) { return t->call.kind <= OPEN ? t->before->of[STARTS].length - 1 : t->call.state.asked.rows; }

/* for the report: what was changed, and to what */
static void note(trial *t, const char *name, uint64_t place, uint64_t value) {
  t->names[t->damages] = name;
  t->place[t->damages] = place;
  t->value[t->damages] = value;
}

/* The copy gets the same damage, so that afterwards it tells what the call has changed. */
static void change(trial *t, int which, size_t at, uint64_t bits) {
  if (t->edit_count == MOST_EDITS) fail("more edits of one trial than were planned");
  edit e = {which, at, item(t->now, which, at)};
  t->edits[t->edit_count++] = e;
  set_item(t->now, which, at, bits);
  set_item(t->before, which, at, bits);
}

static void mend(trial *t) {
  while (t->edit_count > 0) {
    const edit *e = &t->edits[--t->edit_count];
    set_item(t->now, e->which, e->at, e->old);
    set_item(t->before, e->which, e->at, e->old);
  }
}

static uint64_t pick(trial *t, const uint64_t *from, size_t count) { return from[random_below(t->random, count)]; }
#define PICK(t, list) pick(t, list, sizeof(list) / sizeof *(list))

static uint64_t bits_of(double x) {
  uint64_t bits;
  memcpy(&bits, &x, sizeof bits);
  return bits;
}

static double float_of(uint64_t bits) {
  double x;
  memcpy(&x, &bits, sizeof x);
  return x;
}

/* below, at and above both ends of a range; and numbers that a narrower type would take for good ones */
static uint64_t whole_beside(trial *t, uint64_t low, uint64_t high, uint64_t at_hand) {
  const uint64_t among[] = {low - 1,
                            low,
                            low + 1,
                            high - 1,
                            high,
                            high + 1,
                            high + 1,
                            at_hand + 1,
                            at_hand - 1,
                            at_hand + (UINT64_C(1) << 32),
                            at_hand + (UINT64_C(1) << 63),
                            UINT64_C(1) << 63,
                            UINT64_MAX};
  return PICK(t, among);
}

/* no number at all, or one below zero */
static uint64_t odd_float(trial *t) {
  const uint64_t odd[] = {UINT64_C(0x7ff8000000000000), UINT64_C(0x7ff0000000000001), UINT64_C(0xfff8000000000000),
                          UINT64_C(0xffffffffffffffff), UINT64_C(0x8000000000000000), UINT64_C(0x8000000000000001),
                          UINT64_C(0xbff0000000000000), UINT64_C(0xfff0000000000000)};
  return PICK(t, odd);
}

/* an end of a range, its neighbours, and now and then an odd one */
static uint64_t float_beside(trial *t, double low, double high) {
  double end = once_in(t->random, 2) ? low : high;
  switch (random_below(t->random, 5)) {
    case 0:
      return bits_of(nextafter(end, -INFINITY));
    case 1:
      return bits_of(nextafter(end, INFINITY));
    case 2:
      return odd_float(t);
    default:
      return bits_of(end);
  }
}

/* ---- damages of a request */

static void damage_dims(trial *t) {
  t->call.dims = whole_beside(t, 1, 7, t->call.dims);
  note(t, "D", 0, t->call.dims);
}

static void damage_rounds(trial *t) {
  t->call.params.rounds = whole_beside(t, 1, 1000, t->call.params.rounds);
  note(t, "rounds", 0, t->call.params.rounds);
}

static void damage_degree(trial *t) {
  t->call.params.degree = whole_beside(t, 1, 1000, t->call.params.degree);
  note(t, "degree", 0, t->call.params.degree);
}

static void damage_seed_std(trial *t) {
  uint64_t bits = float_beside(t, 0.0, INFINITY);
  t->call.params.seed_std = float_of(bits);
  note(t, "seed_std", 0, bits);
}

/* Columns and values alike, so that 4 is not met. */
static void damage_both_lengths(trial *t) {
  size_t length = t->call.lists.of[COLUMNS].length, room = t->call.lists.of[COLUMNS].room;
  const uint64_t among[] = {length - (length > 0), length + (length < room), 0};
  t->call.lists.of[COLUMNS].length = t->call.lists.of[VALUES].length = PICK(t, among);
  note(t, "length of columns and values", 0, t->call.lists.of[COLUMNS].length);
}

/* Zeros that nothing can write; pages of them take no memory until they are read. */
static const void *zeros(void) {
  static void *at;
  if (at) return at;
  at = mmap(NULL, UINT64_C(67108865) * 8, PROT_READ, MAP_PRIVATE | MAP_ANONYMOUS | MAP_NORESERVE, -1, 0);
  if (at == MAP_FAILED) fail("no room for a list of the largest size");
  return at;
}

static void lend_zeros(call *c, int which, size_t length) {
  c->lists.of[which].at = (void *)(uintptr_t)zeros();
  c->lists.of[which].length = length;
}

/* n or the columns above their limit, and seldom n at its limit, as a million starts are read then. */
static void damage_limits(trial *t) {
  static const uint64_t columns[] = {67108864, 67108865};
  size_t length = once_in(t->random, 40) ? 1048577 : 1048578;
  if (once_in(t->random, 2)) {
    lend_zeros(&t->call, STARTS, length);
    note(t, "most rows", 0, length - 1);
    return;
  }
  length = PICK(t, columns);
  lend_zeros(&t->call, COLUMNS, length);
  lend_zeros(&t->call, VALUES, length);
  note(t, "most columns", 0, length);
}

/* ---- damages of any call */

static void damage_nothing(trial *t) { note(t, "nothing", 0, 0); }

static const char *const length_names[LISTS] = {
    "length of starts",       "length of columns",      "length of values",  "length of inverse weights", "length of v0",
    "length of edge columns", "length of edge weights", "length of block 0", "length of block 1",         "length of block 2",
    "length of partials",     "length of marks",        "length of output",  "length of ritz record"};

/* Of what the call asks for, or of something beside it where that is out of the limits. */
static void sizes_of(const trial *t, size_t need[LISTS]) {
  int is_request = t->call.kind <= OPEN;
  size_t dims = is_request ? (t->call.dims - 1) % 7 + 1 : t->call.state.asked.dims;
  size_t rounds = is_request ? (t->call.params.rounds - 1) % 1000 + 1 : t->call.state.asked.rounds;
  reading_sizes(need, dims, rounds, rows_of(t), t->before->of[COLUMNS].length);
}

/* One short more often than at its length, one longer, empty, or any shorter length. */
static void damage_length(trial *t) {
  size_t need[LISTS];
  int which = (int)random_below(t->random, LISTS);
  list *l = &t->call.lists.of[which];
  sizes_of(t, need);
  size_t length = need[which] < l->room ? need[which] : l->room;
  const uint64_t among[] = {length - (length > 0),
                            length - (length > 0),
                            length - (length > 0),
                            length,
                            length + (length < l->room),
                            0,
                            random_below(t->random, length + 1)};
  l->length = PICK(t, among);
  note(t, length_names[which], 0, l->length);
}

/* The last list in the order of the tests: one short, or empty. */
static void damage_record_length(trial *t) {
  size_t need[LISTS];
  list *l = &t->call.lists.of[RITZ_RECORD];
  sizes_of(t, need);
  size_t length = need[RITZ_RECORD] < l->room ? need[RITZ_RECORD] : l->room;
  l->length = once_in(t->random, 2) ? 0 : length - (length > 0);
  note(t, length_names[RITZ_RECORD], 0, l->length);
}

/* A row: of the chunk at hand, of its ends, or any. The index may be that of the last row's end. */
static size_t some_start(trial *t) {
  size_t rows = t->before->of[STARTS].length - 1;
  size_t first = t->call.kind == CHUNK && t->call.number <= rows / 4096 ? t->call.number * 4096 : 0;
  size_t last = first + 4096 < rows ? first + 4096 : rows;
  const uint64_t among[] = {first,
                            first + 1,
                            last - 1,
                            last,
                            last + 1,
                            first - (first > 0),
                            random_below(t->random, rows + 1),
                            0,
                            rows,
                            first + random_below(t->random, last - first + 1)};
  size_t i = PICK(t, among);
  return i <= rows ? i : rows;
}

static void damage_start(trial *t) {
  size_t i = some_start(t), entries = t->before->of[COLUMNS].length;
  uint64_t own = item(t->before, STARTS, i), ahead = i ? item(t->before, STARTS, i - 1) : 0, next = item(t->before, STARTS, i + 1);
  const uint64_t among[] = {own + 1, own - 1,           ahead - 1,  ahead,
                            next,    next + 1,          entries,    entries + 1,
                            0,       UINT64_C(1) << 63, UINT64_MAX, own + (UINT64_C(1) << 32)};
  uint64_t value = PICK(t, among);
  if (i < t->call.lists.of[STARTS].room && t->call.lists.of[STARTS].at == t->now->of[STARTS].at) change(t, STARTS, i, value);
  note(t, "a start", i, value);
}

/* An entry of the chunk at hand, at its ends and beside them, or any; only where there are entries. */
static size_t some_entry(trial *t) {
  size_t rows = t->before->of[STARTS].length - 1, entries = t->before->of[COLUMNS].length;
  size_t row = t->call.kind == CHUNK && t->call.number <= rows / 4096 ? t->call.number * 4096 : 0;
  size_t end = row + 4096 < rows ? row + 4096 : rows;
  uint64_t first = item(t->before, STARTS, row), last = item(t->before, STARTS, end);
  const uint64_t among[] = {first, last - 1, last, first - 1, random_below(t->random, entries), 0, entries - 1};
  uint64_t i = PICK(t, among);
  return i < entries ? i : entries - 1;
}

static void damage_column_of(trial *t, int which, const char *name) {
  const uint64_t rows = rows_of(t), among[] = {rows - 1, rows, rows, rows + 1, UINT32_MAX, UINT64_C(1) << 31, 0};
  if (t->before->of[COLUMNS].length == 0) {
    damage_nothing(t);
    return;
  }
  size_t i = some_entry(t);
  uint64_t value = PICK(t, among);
  change(t, which, i, value);
  note(t, name, i, (uint32_t)value);
}

static void damage_column(trial *t) { damage_column_of(t, COLUMNS, "a column"); }

static void damage_edge_column(trial *t) { damage_column_of(t, EDGE_COLUMNS, "an edge column"); }

static void damage_value(trial *t) {
  if (t->before->of[COLUMNS].length == 0) {
    damage_nothing(t);
    return;
  }
  size_t i = some_entry(t);
  uint64_t bits = float_beside(t, -INFINITY, INFINITY);
  change(t, VALUES, i, bits);
  note(t, "a value", i, bits);
}

/* the chunk's own mark, another of the first C, or one behind them */
static void damage_mark(trial *t) {
  static const uint64_t kinds[] = {0, 1, 2, 3, 128, 255, 254};
  size_t room = t->call.lists.of[MARKS].room;
  size_t i = t->call.kind == CHUNK && once_in(t->random, 2) ? t->call.number : random_below(t->random, room);
  uint64_t value = PICK(t, kinds);
  if (i >= room) i = room - 1;
  change(t, MARKS, i, value);
  note(t, "a mark", i, value);
}

/* Any lent number may be any float. */
static void damage_memory(trial *t) {
  static const uint64_t floats[] = {INVERSE, V0, EDGE_WEIGHTS, BLOCK0, BLOCK1, BLOCK2, PARTIALS, OUTPUT, RITZ_RECORD};
  int which = (int)PICK(t, floats);
  size_t i = random_below(t->random, t->now->of[which].room);
  uint64_t bits = float_beside(t, 0.0, INFINITY);
  change(t, which, i, bits);
  note(t, "a lent number", i, bits);
}

/* ---- damages of a state */

/* Closing takes no number; a mark is damaged then. */
static void damage_number(trial *t) {
  size_t chunks = reading_chunks(t->call.state.asked.rows);
  if (t->call.kind == CLOSE) {
    damage_mark(t);
    return;
  }
  t->call.number = whole_beside(t, 0, chunks - 1, t->call.number);
  note(t, "chunk number", 0, t->call.number);
}

/* a whole field, and the least number of its range */
typedef struct {
  const char *name;
  size_t offset;
  uint64_t low;
} whole_field;

static const whole_field whole_fields[] = {
    {"state: dims", offsetof(threshcinch_state, asked.dims), 1},
    {"state: rows", offsetof(threshcinch_state, asked.rows), 1},
    {"state: entries", offsetof(threshcinch_state, asked.entries), 0},
    {"state: rounds", offsetof(threshcinch_state, asked.rounds), 1},
    {"state: degree", offsetof(threshcinch_state, asked.degree), 1},
    {"state: stage", offsetof(threshcinch_state, progress.stage), 0},
    {"state: round", offsetof(threshcinch_state, progress.round), 0},
    {"state: pass", offsetof(threshcinch_state, progress.pass), 0},
    {"state: column", offsetof(threshcinch_state, progress.column), 0},
    {"state: attempt", offsetof(threshcinch_state, progress.attempt), 0},
    {"state: current", offsetof(threshcinch_state, progress.current), 0},
    {"state: previous", offsetof(threshcinch_state, progress.previous), 0},
    {"state: passes", offsetof(threshcinch_state, counts.passes), 0},
    {"state: refreshed", offsetof(threshcinch_state, counts.refreshed), 0},
    {"state: zeroed", offsetof(threshcinch_state, counts.zeroed), 0},
    {"state: isolated", offsetof(threshcinch_state, counts.isolated), 0},
};
enum { WHOLE_FIELDS = sizeof whole_fields / sizeof *whole_fields };

static uint64_t most_of_field(const threshcinch_state *s, size_t field) {
  const threshcinch_asked *a = &s->asked;
  size_t k = a->dims + 8;
  const uint64_t most[WHOLE_FIELDS] = {7,
                                       1048576,
                                       67108864,
                                       1000,
                                       1000,
                                       20,
                                       a->rounds - 1,
                                       a->degree - 1,
                                       k - 1,
                                       1,
                                       2,
                                       2,
                                       a->rounds * (a->degree + 1),
                                       a->rounds * k,
                                       a->rounds * k,
                                       a->rows};
  return most[field];
}

static void damage_whole_field(trial *t) {
  size_t field = random_below(t->random, WHOLE_FIELDS);
  uint64_t *at = (uint64_t *)((char *)&t->call.state + whole_fields[field].offset);
  *at = whole_beside(t, whole_fields[field].low, most_of_field(&t->call.state, field), *at);
  note(t, whole_fields[field].name, 0, *at);
}

/* any stage, the two that are none included, with the rest as it is */
static void damage_stage(trial *t) {
  t->call.state.progress.stage = random_below(t->random, 23);
  note(t, "state: any stage", 0, t->call.state.progress.stage);
}

static void damage_order(trial *t) {
  size_t k = t->call.state.asked.dims + 8, i = random_below(t->random, 15);
  t->call.state.order[i] = whole_beside(t, 0, k - 1, t->call.state.order[i]);
  note(t, "state: order", i, t->call.state.order[i]);
}

typedef struct {
  const char *name;
  size_t offset, count;
  double low, high;
} float_field;

/* those behind alpha may be anything */
static const float_field float_fields[] = {
    {"state: seed_std", offsetof(threshcinch_state, asked.seed_std), 1, 0.0, INFINITY},
    {"state: bound", offsetof(threshcinch_state, progress.bound), 1, 0.1, 0.9995},
    {"state: alpha", offsetof(threshcinch_state, progress.alpha), 1, 0.0, 1.0},
    {"state: before", offsetof(threshcinch_state, progress.before), 1, 0.0, INFINITY},
    {"state: norm", offsetof(threshcinch_state, progress.norm), 1, 0.0, INFINITY},
    {"state: totals", offsetof(threshcinch_state, totals), 225, 0.0, INFINITY},
    {"state: matrix", offsetof(threshcinch_state, matrix), 225, 0.0, INFINITY},
    {"state: vectors", offsetof(threshcinch_state, vectors), 225, 0.0, INFINITY},
};

static void damage_float_field(trial *t) {
  const float_field *field = &float_fields[random_below(t->random, sizeof float_fields / sizeof *float_fields)];
  size_t i = random_below(t->random, field->count);
  uint64_t bits = float_beside(t, field->low, field->high);
  memcpy((char *)&t->call.state + field->offset + 8 * i, &bits, sizeof bits);
  note(t, field->name, i, bits);
}

/* ---- damages of the degrees' closing */

static void damage_isolated(trial *t) {
  t->call.state.counts.isolated = 1 + random_below(t->random, t->call.state.asked.rows);
  note(t, "degrees: isolated", 0, t->call.state.counts.isolated);
}

/* 1e-12 is 3d719799812dea11 */
static uint64_t some_root(trial *t) {
  const uint64_t roots[] = {UINT64_C(0x3d719799812dea10),
                            UINT64_C(0x3d719799812dea11),
                            UINT64_C(0x3d719799812dea11),
                            UINT64_C(0x3d719799812dea12),
                            UINT64_C(0x3d719799812dea12),
                            UINT64_C(0xbd719799812dea12),
                            0,
                            1,
                            bits_of(1.0),
                            bits_of(1e12),
                            bits_of(INFINITY),
                            odd_float(t)};
  return PICK(t, roots);
}

/* One to four of them, the last one half of the time. */
static void damage_roots(trial *t) {
  size_t rows = t->call.state.asked.rows, count = 1 + random_below(t->random, 4);
  for (size_t i = 0; i < count; i++) {
    size_t at = once_in(t->random, 2) ? rows - 1 : random_below(t->random, rows);
    uint64_t bits = some_root(t);
    change(t, V0, at, bits);
    note(t, "degrees: roots", at, bits);
  }
}

/* ---- choosing and trying */

static const damage request_damages[] = {{damage_dims, 3},    {damage_rounds, 3},       {damage_degree, 3}, {damage_seed_std, 3},
                                         {damage_length, 14}, {damage_both_lengths, 2}, {damage_start, 6},  {damage_column, 4},
                                         {damage_value, 4},   {damage_mark, 1},         {damage_memory, 1}, {damage_limits, 1},
                                         {damage_nothing, 1}, {damage_record_length, 2}};

static const damage step_damages[] = {{damage_whole_field, 16}, {damage_stage, 3},        {damage_order, 3}, {damage_float_field, 10},
                                      {damage_number, 4},       {damage_length, 14},      {damage_start, 8}, {damage_column, 4},
                                      {damage_edge_column, 5},  {damage_value, 1},        {damage_mark, 5},  {damage_memory, 2},
                                      {damage_nothing, 1},      {damage_record_length, 2}};

static void damage_by(trial *t, const damage *among, size_t count) {
  int sum = 0;
  for (size_t i = 0; i < count; i++) sum += among[i].weight;
  int left = (int)random_below(t->random, (uint64_t)sum);
  while (left >= among->weight) left -= (among++)->weight;
  among->apply(t);
  t->damages++;
}

static void damage_once(trial *t) {
  if (t->call.kind <= OPEN)
    damage_by(t, request_damages, sizeof request_damages / sizeof *request_damages);
  else
    damage_by(t, step_damages, sizeof step_damages / sizeof *step_damages);
}

/* A whole run of many rounds or a high degree would take too long for one of a million calls; it is opened instead. */
static void keep_cheap(call *c) {
  double k = 15, rounds = (double)c->params.rounds, degree = (double)c->params.degree;
  double rows = (double)c->lists.of[STARTS].length, entries = (double)c->lists.of[COLUMNS].length;
  double work = rounds * ((degree + 1) * (rows + entries) * k + 4 * rows * k * k + 20 * k * k * k);
  if (c->kind == EMBED && work > 2e6 && reading(c).number == 0) c->kind = OPEN;
}

static void count_trial(const trial *t, const outcome *out) {
  int is_accepted = out->verdict.number == 0;
  told_report.damaged++;
  told_report.damaged_twice += t->damages == 2;
  told_report.damaged_answers[t->call.kind][out->verdict.number % REFUSALS]++;
  count_damage(t->damages == 2 ? "two damages" : t->names[0], t->call.kind, is_accepted);
}

static void describe(const trial *t, char *words, size_t size) {
  int used = snprintf(words, size, "%s", call_names[t->call.kind]);
  for (int i = 0; i < t->damages; i++)
    used += snprintf(words + used, size - (size_t)used, "%s %s [%llu] = 0x%llx", i ? "," : " with", t->names[i],
                     (unsigned long long)t->place[i], (unsigned long long)t->value[i]);
  if (t->call.kind >= CHUNK)
    snprintf(words + used, size - (size_t)used, " (stage %zu, chunk %zu)", t->call.state.progress.stage, t->call.number);
}

/* The calls that tell progress answer 0 for a state that is damaged or empty. */
static void check_progress(const threshcinch_state *s, const char *words) {
  if (reading_state(s) && s->progress.stage != 0) return;
  size_t accepted = threshcinch_calls_accepted(*s) + (size_t)breaks("no-calls"), owed = threshcinch_calls_owed(*s);
  if (accepted || owed)
    differ("calls", "%zu calls accepted and %zu owed are told of a state that is damaged or empty: %s", accepted, owed, words);
}

static void make_damaged(trial *t) {
  char words[300];
  outcome out;
  describe(t, words, sizeof words);
  if (watched(&t->call, t->now, t->before, &out, words)) lists_copy(t->now, t->before);
  if (t->call.kind >= CHUNK) check_progress(&t->call.state, words);
  count_trial(t, &out);
  mend(t);
}

/* The damages are one, and once in eight two. */
static void try_call(trial *t) {
  damage_once(t);
  if (once_in(t->random, 8)) damage_once(t);
  keep_cheap(&t->call);
  make_damaged(t);
}

static void begin(trial *t, const call *base, lists *now, lists *before, random_source *random) {
  t->call = *base;
  t->now = now;
  t->before = before;
  t->random = random;
  t->edit_count = t->damages = 0;
}

void damage_requests(const call *base, lists *now, lists *before, random_source *random, int trials) {
  trial t;
  for (int i = 0; i < trials; i++) {
    begin(&t, base, now, before, random);
    t.call.kind = once_in(random, 2) ? EMBED : OPEN;
    try_call(&t);
  }
}

/* Where all chunks are done, half of the chunk calls find their own mark at 0 again; so they get as far as their rows. */
static void choose_step(trial *t) {
  size_t chunks = reading_chunks(t->call.state.asked.rows);
  t->call.kind = once_in(t->random, 3) ? CLOSE : CHUNK;
  t->call.number = random_below(t->random, chunks);
  if (t->call.kind == CHUNK && item(t->now, MARKS, t->call.number) == 1 && !once_in(t->random, 4)) change(t, MARKS, t->call.number, 0);
}

void damage_steps(const call *base, lists *now, lists *before, random_source *random, int trials) {
  trial t;
  for (int i = 0; i < trials; i++) {
    begin(&t, base, now, before, random);
    choose_step(&t);
    try_call(&t);
  }
}

void damage_degrees(const call *base, lists *now, lists *before, random_source *random) {
  static void (*const damages[])(trial *) = {damage_isolated, damage_roots};
  trial t;
  for (size_t i = 0; i < sizeof damages / sizeof *damages; i++) {
    begin(&t, base, now, before, random);
    damages[i](&t);
    t.damages++;
    make_damaged(&t);
  }
}

/* ---- the limit that costs */

void damage_at_most_entries(void) {
  uint64_t starts[2] = {0, 67108864}, room[64];
  call c;
  outcome out;
  memset(&c, 0, sizeof c);
  memset(room, 0x5a, sizeof room);
  c.kind = EMBED;
  c.dims = 1;
  c.params = threshcinch_params_new();
  for (int which = 0; which < LISTS; which++) {
    list l = {room, 1, 0};
    c.lists.of[which] = l;
  }
  c.lists.of[STARTS].at = starts;
  c.lists.of[STARTS].length = 2;
  lend_zeros(&c, COLUMNS, 67108864);
  lend_zeros(&c, VALUES, 67108864);
  watched(&c, &c.lists, &c.lists, &out, "one call with as many entries as are allowed");
  told_report.damaged++;
  told_report.damaged_answers[EMBED][out.verdict.number % REFUSALS]++;
  count_damage("most columns", EMBED, 0);
}
