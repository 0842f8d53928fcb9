/* isolated: which rows the isolated count has, and which call sets it.
 * Status: 0, or 1 with the first thing that is wrong. */
#include "check.h"

enum { DIMS = 2, ROUNDS = 1, DEGREE = 2, HELD = 2, KINDS = 12, ROWS = 9000, CHUNKS = 3 };

/* what a row holds, as bits, and whether that isolates it */
typedef struct {
  const char *what;
  size_t entries;
  uint64_t values[HELD];
  int isolated;
} kind;

static const kind kinds[KINDS] = {
    {"no entries", 0, {0, 0}, 1},
    {"1 and -1", 2, {0x3FF0000000000000u, 0xBFF0000000000000u}, 1},
    {"two minus zeros", 2, {0x8000000000000000u, 0x8000000000000000u}, 1},
    {"the least subnormal number", 1, {1, 0}, 1},
    {"1e-24, whose root is 1e-12", 1, {0x3AF357C299A88EA7u, 0}, 1},
    {"the number behind it, with the same root", 1, {0x3AF357C299A88EA8u, 0}, 1},
    {"the next one, whose root is above 1e-12", 1, {0x3AF357C299A88EA9u, 0}, 0},
    {"1", 1, {0x3FF0000000000000u, 0}, 0},
    {"1e24, whose inverse weight is 1e-12 too", 1, {0x44EA784379D99DB4u, 0}, 0},
    {"1e308 twice, a degree of plus infinity", 2, {0x7FE1CCF385EBC8A0u, 0x7FE1CCF385EBC8A0u}, 0},
    {"-1", 1, {0xBFF0000000000000u, 0}, 1},
    {"-1e308 twice, a degree of minus infinity", 2, {0xFFE1CCF385EBC8A0u, 0xFFE1CCF385EBC8A0u}, 1},
};

static threshcinch_params least_work(void) {
  threshcinch_params params = threshcinch_params_new();
  params.rounds = ROUNDS;
  params.degree = DEGREE;
  return params;
}

/* So many rows, one kind after the other from `first` on, with their entries in the columns behind their own. The lists are never freed. */
static threshcinch_graph graph_of_kinds(size_t rows, size_t first) {
  uint64_t *starts = (uint64_t *)calloc(rows + 1, sizeof *starts);
  uint32_t *columns = (uint32_t *)calloc(rows * HELD, sizeof *columns);
  double *values = (double *)calloc(rows * HELD, sizeof *values);
  if (!starts || !columns || !values) fail("no memory for the graph");
  size_t entries = 0;
  for (size_t row = 0; row < rows; row++) {
    const kind *held = &kinds[(first + row) % KINDS];
    for (size_t entry = 0; entry < held->entries; entry++, entries++) {
      columns[entries] = (uint32_t)((row + entry + 1) % rows);
      values[entries] = number_of_bits(held->values[entry]);
    }
    starts[row + 1] = entries;
  }
  return threshcinch_graph_of(rows, starts, entries, columns, values);
}

static size_t isolated_among(size_t rows) {
  size_t count = 0;
  for (size_t row = 0; row < rows; row++) count += kinds[row % KINDS].isolated != 0;
  return count;
}

static threshcinch_counts one_call(const threshcinch_graph *graph, const threshcinch_memory *memory) {
  const threshcinch_embedded embedded = threshcinch_embed(DIMS, least_work(), graph, memory);
  accept("the one call", embedded.verdict);
  return embedded.counts;
}

/* One row of each kind alone. */
static void each_kind(void) {
  for (size_t number = 0; number < KINDS; number++) {
    const threshcinch_graph graph = graph_of_kinds(1, number);
    threshcinch_memory memory = memory_for(DIMS, ROUNDS, &graph);
    if (one_call(&graph, &memory).isolated != (size_t)kinds[number].isolated) fail("a row with %s is counted otherwise", kinds[number].what);
    threshcinch_memory_free(&memory);
  }
}

static void isolated_is(const char *when, const threshcinch_state *state, size_t count) {
  if (state->counts.isolated != count) fail("%s: stage %zu has %zu isolated rows, not %zu", when, state->progress.stage, state->counts.isolated, count);
}

/* All chunks of a stage, the last one first, and its closing; the count stays `count` until that. */
static threshcinch_answer stage_done(threshcinch_state state, size_t count, const threshcinch_graph *graph, const threshcinch_memory *memory) {
  threshcinch_answer answer = {{0, 0}, state};
  isolated_is("before a stage", &state, count);
  for (size_t number = threshcinch_chunk_count(state.asked.rows); number-- > 0;) {
    answer = threshcinch_run_chunk(&answer.state, number, graph, memory);
    accept("a chunk", answer.verdict);
    isolated_is("a chunk", &answer.state, count);
  }
  answer = threshcinch_run_close(&answer.state, graph, memory);
  accept("closing", answer.verdict);
  return answer;
}

static threshcinch_state ended_from(threshcinch_state state, const threshcinch_graph *graph, const threshcinch_memory *memory) {
  const size_t count = state.counts.isolated;
  while (threshcinch_is_open(&state)) state = stage_done(state, count, graph, memory).state;
  isolated_is("the end", &state, count);
  return state;
}

/* None from the opening on, all as the degrees close, and then no other number up to the end, which is the one call's. */
static void a_held_run(const threshcinch_graph *graph) {
  threshcinch_memory one = memory_for(DIMS, ROUNDS, graph), held = memory_for(DIMS, ROUNDS, graph);
  const threshcinch_counts counts = one_call(graph, &one);
  if (counts.isolated != isolated_among(ROWS)) fail("the one call has %zu isolated rows, not %zu", counts.isolated, isolated_among(ROWS));
  threshcinch_answer answer = threshcinch_run_open(DIMS, least_work(), graph, &held);
  accept("opening", answer.verdict);
  if (held.marks_length != CHUNKS) fail("%zu chunks", held.marks_length);
  answer = stage_done(answer.state, 0, graph, &held);
  isolated_is("the degrees are closed", &answer.state, counts.isolated);
  const threshcinch_state ended = ended_from(answer.state, graph, &held);
  if (memcmp(&ended.counts, &counts, sizeof counts)) fail("the held run's counts are not the one call's");
  if (memcmp(held.output, one.output, one.output_length * sizeof(double))) fail("the held run's seed is not the one call's");
  threshcinch_memory_free(&held);
  threshcinch_memory_free(&one);
}

/* What a host has written there before is not added to: closing the degrees sets the count, if it was in its range. */
static void the_closing_sets_it(const threshcinch_graph *graph) {
  const size_t before[] = {1, 77, ROWS};
  threshcinch_memory memory = memory_for(DIMS, ROUNDS, graph);
  for (size_t place = 0; place < sizeof before / sizeof *before; place++) {
    threshcinch_state state = threshcinch_run_open(DIMS, least_work(), graph, &memory).state;
    state.counts.isolated = before[place];
    state = stage_done(state, before[place], graph, &memory).state;
    isolated_is("the degrees are closed over another count", &state, isolated_among(ROWS));
  }
  threshcinch_state state = threshcinch_run_open(DIMS, least_work(), graph, &memory).state;
  state.counts.isolated = ROWS + 1;
  refuse("more isolated rows than rows", threshcinch_run_chunk(&state, 0, graph, &memory).verdict, THRESHCINCH_DAMAGED, 0);
  threshcinch_memory_free(&memory);
}

/* A host that stored a state of 0.2 may write the right count into it: nothing reads it, and the run takes it to its end. */
static void a_host_may_mend_it(const threshcinch_graph *graph) {
  threshcinch_memory one = memory_for(DIMS, ROUNDS, graph), held = memory_for(DIMS, ROUNDS, graph);
  one_call(graph, &one);
  const threshcinch_state opened = threshcinch_run_open(DIMS, least_work(), graph, &held).state;
  threshcinch_state state = stage_done(opened, 0, graph, &held).state;
  state.counts.isolated = 5;
  const threshcinch_state ended = ended_from(state, graph, &held);
  if (ended.counts.isolated != 5) fail("the host's count is gone");
  if (memcmp(held.output, one.output, one.output_length * sizeof(double))) fail("the count reaches the seed");
  threshcinch_memory_free(&held);
  threshcinch_memory_free(&one);
}

int main(void) {
  const threshcinch_graph graph = graph_of_kinds(ROWS, 0);
  each_kind();
  a_held_run(&graph);
  the_closing_sets_it(&graph);
  a_host_may_mend_it(&graph);
  printf("isolated: %zu of %d rows, of %d kinds, set as the degrees close\n", isolated_among(ROWS), ROWS, KINDS);
  return 0;
}
