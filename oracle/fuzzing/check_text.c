#include <string.h>

#include "checks.h"
#include "guarded.h"
#include "isolated.h"
#include "reading.h"
#include "tally.h"
#include "written.h"

enum { MOST_ROWS = 64, MOST_DIMS = 7, MOST_WIDTH = 15, ROOM_MORE = 64, TEXT_FAULT = 17 };

/* Steps are run_cost's; a million took about two milliseconds. Up to CHEAP every run is asked for, up to DEAR one in DEAR_SHARE and those
 * of the most rounds. */
static const uint64_t CHEAP = 1000000, DEAR = 10000000, DEAR_SHARE = 8;

/* ---- the library's one call on the numbers of a run file */

static uint32_t columns[MOST_ENTRIES], edge_columns[MOST_ENTRIES];
static double values[MOST_ENTRIES], edge_weights[MOST_ENTRIES], inverse[MOST_ROWS], v0[MOST_ROWS], output[MOST_ROWS * MOST_DIMS];
static double blocks[3][MOST_ROWS * MOST_WIDTH], partials[MOST_WIDTH * MOST_WIDTH], ritz_record[MOST_ROUNDS * (MOST_WIDTH + 1)];
static uint8_t marks[1];

static void set_list(call *c, int which, void *at, size_t length) {
  list l = {at, length, length};
  c->lists.of[which] = l;
}

static void set_graph(call *c, const plain_run *run) {
  static uint64_t starts[MOST_STARTS];
  memcpy(starts, run->starts, sizeof starts);
  memcpy(values, run->values, sizeof values);
  for (size_t i = 0; i < MOST_ENTRIES; i++) columns[i] = (uint32_t)run->columns[i];
  set_list(c, STARTS, starts, run->start_count);
  set_list(c, COLUMNS, columns, run->column_count);
  set_list(c, VALUES, values, run->value_count);
}

static void set_memory(call *c) {
  set_list(c, INVERSE, inverse, MOST_ROWS);
  set_list(c, V0, v0, MOST_ROWS);
  set_list(c, EDGE_COLUMNS, edge_columns, MOST_ENTRIES);
  set_list(c, EDGE_WEIGHTS, edge_weights, MOST_ENTRIES);
  for (int i = 0; i < 3; i++) set_list(c, BLOCK0 + i, blocks[i], MOST_ROWS * MOST_WIDTH);
  set_list(c, PARTIALS, partials, MOST_WIDTH * MOST_WIDTH);
  set_list(c, MARKS, marks, 1);
  set_list(c, OUTPUT, output, MOST_ROWS * MOST_DIMS);
  set_list(c, RITZ_RECORD, ritz_record, MOST_ROUNDS * (MOST_WIDTH + 1));
}

static void set_call(call *c, const plain_run *run) {
  memset(c, 0, sizeof *c);
  c->kind = EMBED;
  c->dims = run->d;
  c->params.rounds = run->rounds;
  c->params.degree = run->degree;
  memcpy(&c->params.seed_std, &run->seed_std, sizeof run->seed_std);
  set_graph(c, run);
  set_memory(c);
}

/* passes, orthonormalizing and Jacobi's sweeps, by the operations in each */
static uint64_t run_cost(const plain_run *run) {
  uint64_t k = run->d + 8, rows = run->start_count - 1;
  return run->rounds * k * ((run->degree + 1) * (run->column_count + rows) + 8 * k * rows + 30 * k * k);
}

/* ---- the text that is due */

static void due_refusal(text *due, uint64_t number, uint64_t place) {
  answer_parts parts = {.verdict = {number, place}};
  written_answer(due, &parts);
}

/* request W3's count, and the rows that a wrong one would leave out: those that have entries, and among them those without a root */
typedef struct {
  size_t all, with_entries, no_root;
} isolated_count;

static isolated_count isolated_of(const call *c) {
  const uint64_t *starts = c->lists.of[STARTS].at;
  size_t rows = c->lists.of[STARTS].length - 1, all = isolated_rows(starts, values, rows);
  isolated_count count = {all, all - rows_without_entries(starts, rows), rows_without_root(starts, values, rows)};
  return count;
}

static void break_call(outcome *out, const isolated_count *isolated) {
  if (breaks("verdict")) out->verdict.number = 11;
  if (breaks("passes")) out->counts.passes++;
  if (breaks("isolated")) out->counts.isolated++;
  if (isolated->with_entries && breaks("isolated-empty")) out->counts.isolated -= isolated->with_entries;
  if (isolated->no_root && breaks("isolated-nan")) out->counts.isolated -= isolated->no_root;
}

static void count_run(const plain_run *run, const isolated_count *isolated) {
  told.rows += run->start_count - 1;
  told.longest_runs += run->rounds == MOST_ROUNDS;
  told.isolated += isolated->all > 0;
  told.isolated_with_entries += isolated->with_entries > 0;
  told.isolated_no_root += isolated->no_root > 0;
}

/* Passes and isolated rows follow from the file alone; the other counts and the seed are the library's. */
static void due_seed(text *due, const plain_run *run, const call *c) {
  outcome out;
  size_t rows = run->start_count - 1;
  isolated_count isolated = isolated_of(c);
  call_make(c, &out);
  break_call(&out, &isolated);
  if (out.verdict.number) differ("verdict", "the library refuses with %llu", (unsigned long long)out.verdict.number);
  if (out.counts.passes != run->rounds * (run->degree + 1)) differ("passes", "the library's count is %zu", out.counts.passes);
  if (out.counts.isolated != isolated.all) differ("isolated", "the library's count is %zu, not %zu", out.counts.isolated, isolated.all);
  answer_parts parts = {{0, 0}, run->d, rows, out.counts, output, MOST_ROWS * MOST_DIMS};
  written_answer(due, &parts);
  count_run(run, &isolated);
}

/* Succeeds unless the run is not asked for. */
static int find_due(text *due, int *number, const plain_run *run, random_source *r) {
  static call c;
  *number = TEXT_FAULT;
  if (run->fault != NO_FAULT) {
    due_refusal(due, TEXT_FAULT, (uint64_t)run->fault);
    return 1;
  }
  set_call(&c, run);
  threshcinch_verdict verdict = reading(&c);
  *number = (int)verdict.number;
  if (verdict.number) {
    due_refusal(due, verdict.number, verdict.place);
    return 1;
  }
  uint64_t cost = run_cost(run);
  int is_drawn = cost <= CHEAP || run->rounds == MOST_ROUNDS || once_in(r, DEAR_SHARE);
  told.too_dear += cost > DEAR;
  told.not_drawn += cost <= DEAR && !is_drawn;
  if (cost > DEAR || !is_drawn) return 0;
  due_seed(due, run, &c);
  return 1;
}

/* ---- the call */

static guarded room;

static void check_short_room(const uint8_t *bytes, size_t length, random_source *r) {
  size_t offered = once_in(r, 2) ? LEAST_ROOM - 1 : random_below(r, LEAST_ROOM);
  uint8_t *at = lent_bytes(&room, offered);
  size_t said = text_answer(bytes, length, at, offered);
  if (breaks("room-length")) said = 1;
  if (offered && breaks("room-wrote")) at[offered - 1] ^= 1;
  if (said) differ("short room", "the answer is %zu in a room of %zu bytes", said, offered);
  if (lent_first_written(at, 0, offered) < offered) differ("short room", "byte %zu was written", lent_first_written(at, 0, offered));
  told.short_rooms++;
}

static void break_text(uint8_t *at, size_t *said, int number) {
  if (number == TEXT_FAULT && breaks("text-fault")) at[8]++;
  if (number == TEXT_FAULT && breaks("text-line")) at[*said - 2]++;
  if (number > 0 && number < TEXT_FAULT && breaks("text-refusal")) at[7]++;
  if (number == 5 && breaks("text-place")) at[*said - 2]++;
  if (number == 0 && breaks("text-rows")) at[11]++;
  if (number == 0 && breaks("text-row")) at[*said - 2] ^= 1;
  if (number == 0 && breaks("text-newline")) at[*said - 1] = ' ';
  if (breaks("text-shorter")) --*said;
  if (breaks("text-longer")) ++*said;
  if (breaks("text-behind")) at[*said] ^= 1;
}

answer check_text(const plain_run *run, const uint8_t *bytes, size_t length, random_source *r) {
  static text due;
  answer a = {NOT_ASKED, 0, NULL};
  if (once_in(r, 16)) check_short_room(bytes, length, r);
  if (!find_due(&due, &a.number, run, r)) return (answer){NOT_ASKED, 0, NULL};
  size_t offered = LEAST_ROOM + (once_in(r, 4) ? random_below(r, ROOM_MORE + 1) : 0);
  uint8_t *at = lent_bytes(&room, offered);
  size_t said = text_answer(bytes, length, at, offered);
  break_text(at, &said, a.number);
  size_t other = text_first_other(&due, at, said <= offered ? said : offered);
  if (said != due.length)
    differ("text length", "it is %zu, not %zu; the texts differ from byte %zu on", said, due.length, other);
  else if (other < said)
    differ("text", "it differs from byte %zu on", other);
  if (lent_first_written(at, due.length, offered) < offered)
    differ("text behind", "byte %zu was written", lent_first_written(at, due.length, offered));
  told.answers[a.number]++;
  a.length = said <= offered ? said : 0;
  a.text = at;
  check_printed_again(a.text, a.length, r);
  return a;
}
