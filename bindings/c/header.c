/* header: what the header's own code decides, and what its words say that a caller can see.
 * Status: 0, or 1 with the first thing that is wrong. */
#include "check.h"

/* the default parameters' rounds */
enum { DIMS = 2, ROWS = 30, ROUNDS = 5, WIDE = DIMS + 8 };

static threshcinch_verdict begin(const threshcinch_graph *graph, const threshcinch_memory *memory) {
  const threshcinch_params params = threshcinch_params_new();
  const threshcinch_verdict verdict = threshcinch_embed(DIMS, params, graph, memory).verdict;
  refuse("opening beside the one call", threshcinch_run_open(DIMS, params, graph, memory).verdict, verdict.number, verdict.place);
  return verdict;
}

/* A NULL list is an empty one, whatever its length says. */
static void null_lists_of_a_graph(const threshcinch_graph *graph, const threshcinch_memory *memory) {
  threshcinch_graph some = *graph;
  some.starts = NULL;
  refuse("no starts", begin(&some, memory), THRESHCINCH_NO_ROWS, 0);
  some = *graph;
  some.columns = NULL;
  refuse("no columns", begin(&some, memory), THRESHCINCH_LENGTHS, 0);
  some = *graph;
  some.values = NULL;
  refuse("no values", begin(&some, memory), THRESHCINCH_LENGTHS, 0);
  some.columns = NULL;
  refuse("no entries for the starts", begin(&some, memory), THRESHCINCH_STARTS, ROWS);
}

/* Memory whose Ritz record alone does not do: 11 at its place where a run begins, 16 in one that is open. `memory` would do. */
static void refused_record(const char *record, const threshcinch_graph *graph, const threshcinch_memory *memory, const threshcinch_memory *some) {
  refuse(record, begin(graph, some), THRESHCINCH_MEMORY, 10);
  const threshcinch_answer opened = threshcinch_run_open(DIMS, threshcinch_params_new(), graph, memory);
  accept("opening", opened.verdict);
  refuse(record, threshcinch_run_chunk(&opened.state, 0, graph, some).verdict, THRESHCINCH_DAMAGED, 0);
  accept("the chunk", threshcinch_run_chunk(&opened.state, 0, graph, memory).verdict);
  refuse(record, threshcinch_run_close(&opened.state, graph, some).verdict, THRESHCINCH_DAMAGED, 0);
  accept("closing", threshcinch_run_close(&opened.state, graph, memory).verdict);
}

static void null_lists_of_memory(const threshcinch_graph *graph, const threshcinch_memory *memory) {
  const threshcinch_memory none = {NULL, 5, NULL, 5, NULL, 5, NULL, 5, NULL, 5, NULL, 5, NULL, 5, NULL, 5, NULL, 5, NULL, 5, NULL, 5};
  refuse("no memory", begin(graph, &none), THRESHCINCH_MEMORY, 0);
  threshcinch_memory some = *memory;
  some.marks = NULL;
  refuse("no marks", begin(graph, &some), THRESHCINCH_MEMORY, 8);
  some = *memory;
  some.output = NULL;
  refuse("no output", begin(graph, &some), THRESHCINCH_MEMORY, 9);
  const threshcinch_answer opened = threshcinch_run_open(DIMS, threshcinch_params_new(), graph, memory);
  accept("opening", opened.verdict);
  refuse("a chunk with no output", threshcinch_run_chunk(&opened.state, 0, graph, &some).verdict, THRESHCINCH_DAMAGED, 0);
  refuse("closing with no output", threshcinch_run_close(&opened.state, graph, &some).verdict, THRESHCINCH_DAMAGED, 0);
  some = *memory;
  some.ritz_record = NULL;
  refused_record("no Ritz record", graph, memory, &some);
}

/* Its length depends on the rounds. Another list that is short is named first. */
static void a_short_ritz_record(const threshcinch_graph *graph, const threshcinch_memory *memory) {
  threshcinch_memory some = *memory;
  some.ritz_record_length = ROUNDS * (WIDE + 1) - 1;
  refused_record("a Ritz record that is one short", graph, memory, &some);
  some.output_length -= 1;
  refuse("two short lists", begin(graph, &some), THRESHCINCH_MEMORY, 9);
}

static void sizes_are(uint64_t d, uint64_t rounds, size_t rows, size_t entries, uint64_t number, size_t record) {
  const threshcinch_sizes sizes = threshcinch_lent_sizes(d, rounds, rows, entries);
  refuse("sizes", sizes.verdict, number, 0);
  if (sizes.lengths[10] != record) fail("the Ritz record of %u rounds has %zu numbers", (unsigned)rounds, sizes.lengths[10]);
  for (size_t list = 0; number && list < 11; list++)
    if (sizes.lengths[list]) fail("list %zu has a length beside refusal %u", list, (unsigned)number);
}

static void sizes_know_the_rounds(void) {
  sizes_are(1, 1, 1, 0, THRESHCINCH_ACCEPTED, 10);
  sizes_are(7, 1000, 1048576, 67108864, THRESHCINCH_ACCEPTED, 16000);
  sizes_are(2, 0, 1, 0, THRESHCINCH_ROUNDS, 0);
  sizes_are(2, 1001, 1, 0, THRESHCINCH_ROUNDS, 0);
  sizes_are(2, UINT64_MAX, 1, 0, THRESHCINCH_ROUNDS, 0);
  sizes_are(8, 0, 0, 67108865, THRESHCINCH_DIMS, 0);
  sizes_are(7, 0, 0, 67108865, THRESHCINCH_NO_ROWS, 0);
  sizes_are(7, 0, 1, 67108865, THRESHCINCH_LIMITS, 0);
}

/* ---- the Ritz record: who writes which places, seen on numbers that no run writes */

/* The same ring with values from 1 to 2: with subnormal ones no row counts, and every Ritz value is about 0.5. */
static threshcinch_graph settling_ring(void) {
  const threshcinch_graph graph = ring(ROWS);
  double *values = (double *)calloc(graph.values_length, sizeof *values);
  if (!values) fail("no memory for the graph");
  for (size_t entry = 0; entry < graph.values_length; entry++) {
    uint64_t bits;
    memcpy(&bits, &graph.values[entry], sizeof bits);
    values[entry] = number_of_bits(bits | 0x3FF0000000000000u);
  }
  return threshcinch_graph_of(ROWS, graph.starts, graph.columns_length, graph.columns, values);
}

static double lent_number(size_t place) {
  return -1000.0 - (double)place;
}

static threshcinch_memory with_lent_record(const threshcinch_graph *graph) {
  threshcinch_memory memory = memory_for(DIMS, ROUNDS, graph);
  for (size_t place = 0; place < memory.ritz_record_length; place++) memory.ritz_record[place] = lent_number(place);
  return memory;
}

/* So many rounds are written, as the one call has them; every place behind them is as it was lent. */
static void rounds_written(const char *when, size_t rounds, const threshcinch_memory *memory, const threshcinch_memory *one) {
  const size_t written = rounds * (WIDE + 1);
  if (memcmp(memory->ritz_record, one->ritz_record, written * sizeof(double))) fail("%s: the first %zu rounds are not the one call's", when, rounds);
  for (size_t place = written; place < memory->ritz_record_length; place++)
    if (memory->ritz_record[place] != lent_number(place)) fail("%s: with %zu rounds closed place %zu was written", when, rounds, place);
}

static void a_held_record_grows_by_rounds(const threshcinch_graph *graph, const threshcinch_memory *one) {
  threshcinch_memory memory = with_lent_record(graph);
  threshcinch_answer answer = threshcinch_run_open(DIMS, threshcinch_params_new(), graph, &memory);
  size_t closed = 0;
  rounds_written("opening", 0, &memory, one);
  while (threshcinch_is_open(&answer.state)) {
    refuse("closing too early", threshcinch_run_close(&answer.state, graph, &memory).verdict, THRESHCINCH_CHUNKS_LEFT, 0);
    rounds_written("a refused closing", closed, &memory, one);
    accept("a chunk", threshcinch_run_chunk(&answer.state, 0, graph, &memory).verdict);
    rounds_written("a chunk", closed, &memory, one);
    closed += answer.state.progress.stage == 14;
    answer = threshcinch_run_close(&answer.state, graph, &memory);
    accept("closing", answer.verdict);
    rounds_written("closing", closed, &memory, one);
  }
  if (closed != ROUNDS) fail("%zu products were closed", closed);
  threshcinch_memory_free(&memory);
}

/* raised to 0.1 and lowered to 0.9995 */
static double next_bound(double value) {
  if (!(value > 0.1)) return 0.1;
  return value < 0.9995 ? value : 0.9995;
}

static void a_record_is_what_the_header_says(const threshcinch_memory *one) {
  if (one->ritz_record_length != ROUNDS * (WIDE + 1)) fail("the Ritz record has %zu places", one->ritz_record_length);
  for (size_t round = 0; round < ROUNDS; round++) {
    const double *numbers = threshcinch_ritz_round(one, DIMS, round), *values = numbers + 1;
    const double bound = round ? next_bound(threshcinch_ritz_round(one, DIMS, round - 1)[1 + DIMS + 1]) : 0.75;
    if (numbers[0] != bound) fail("round %zu has the bound %.17g, not %.17g", round, numbers[0], bound);
    for (size_t place = 1; place < WIDE; place++)
      if (!(values[place - 1] > values[place])) fail("round %zu: value %zu does not fall", round, place);
  }
}

/* Numbers behind rounds x (k + 1) are never touched, and a refused one call touches none. */
static void a_longer_record(const threshcinch_graph *graph, const threshcinch_memory *one) {
  threshcinch_memory memory = with_lent_record(graph);
  threshcinch_params params = threshcinch_params_new();
  params.rounds = ROUNDS - 1;
  accept("fewer rounds", threshcinch_embed(DIMS, params, graph, &memory).verdict);
  rounds_written("fewer rounds", ROUNDS - 1, &memory, one);
  threshcinch_memory_free(&memory);
  memory = with_lent_record(graph);
  params.degree = 0;
  refuse("degree 0", threshcinch_embed(DIMS, params, graph, &memory).verdict, THRESHCINCH_DEGREE, 0);
  rounds_written("a refused one call", 0, &memory, one);
  threshcinch_memory_free(&memory);
}

static void ritz_record(void) {
  const threshcinch_graph graph = settling_ring();
  threshcinch_memory one = memory_for(DIMS, ROUNDS, &graph);
  accept("the one call", threshcinch_embed(DIMS, threshcinch_params_new(), &graph, &one).verdict);
  a_record_is_what_the_header_says(&one);
  a_held_record_grows_by_rounds(&graph, &one);
  a_longer_record(&graph, &one);
  threshcinch_memory_free(&one);
}

/* Rows without entries: NULL is taken where an empty list is. */
static void null_entries(void) {
  const uint64_t starts[3] = {0, 0, 0};
  const threshcinch_graph graph = threshcinch_graph_of(2, starts, 0, NULL, NULL);
  threshcinch_memory memory = memory_for(DIMS, ROUNDS, &graph);
  accept("a graph without entries", begin(&graph, &memory));
  threshcinch_memory_free(&memory);
}

static void a_setter_tests_its_own_number_alone(void) {
  threshcinch_params params = threshcinch_params_new();
  params.rounds = 0;
  params.degree = 0;
  params.seed_std = -1.0;
  const threshcinch_set rounds = threshcinch_params_rounds(params, 3), degree = threshcinch_params_degree(params, 4);
  const threshcinch_set seed_std = threshcinch_set_seed_std(params, 0.5);
  accept("rounds", rounds.verdict);
  accept("degree", degree.verdict);
  accept("seed_std", seed_std.verdict);
  if (rounds.params.rounds != 3 || rounds.params.degree != 0 || rounds.params.seed_std != -1.0) fail("rounds sets something else");
  if (degree.params.degree != 4 || degree.params.rounds != 0 || degree.params.seed_std != -1.0) fail("degree sets something else");
  if (seed_std.params.seed_std != 0.5 || seed_std.params.rounds != 0 || seed_std.params.degree != 0) fail("seed_std sets something else");
  const threshcinch_set refused = threshcinch_set_seed_std(params, 0.0);
  refuse("seed_std 0", refused.verdict, THRESHCINCH_SEED_STD, 0);
  if (refused.params.seed_std != -1.0) fail("a refused setter changes what was there");
}

/* Neither count moves within a stage, and together they stay the whole. */
static void progress_counts_whole_stages(void) {
  const threshcinch_graph graph = ring(4200);
  threshcinch_memory memory = memory_for(DIMS, ROUNDS, &graph);
  const threshcinch_answer opened = threshcinch_run_open(DIMS, threshcinch_params_new(), &graph, &memory);
  const size_t calls = (9 + 5 * (20 + 2 + 7 * (DIMS + 8))) * 3;
  if (threshcinch_run_accepted(&opened.state) != 0 || threshcinch_run_owed(&opened.state) != calls) fail("an open run owes every call");
  const threshcinch_answer done = threshcinch_run_chunk(&opened.state, 1, &graph, &memory);
  if (threshcinch_run_accepted(&done.state) != 0 || threshcinch_run_owed(&done.state) != calls) fail("a chunk counts before its stage is closed");
  accept("the other chunk", threshcinch_run_chunk(&done.state, 0, &graph, &memory).verdict);
  const threshcinch_answer closed = threshcinch_run_close(&done.state, &graph, &memory);
  accept("closing", closed.verdict);
  if (threshcinch_run_accepted(&closed.state) != 3 || threshcinch_run_owed(&closed.state) != calls - 3) fail("a closed stage counts three calls");
  threshcinch_memory_free(&memory);
}

/* Up to the last number; behind it there are none. */
static void each_refusal_has_words_of_its_own(void) {
  const char *const none = threshcinch_words(THRESHCINCH_MATRIX_MARKET + 1);
  if (strcmp(threshcinch_words(UINT64_MAX), none)) fail("a number that is no refusal's has words");
  for (uint64_t number = 0; number <= THRESHCINCH_MATRIX_MARKET; number++)
    for (uint64_t other = number + 1; other <= THRESHCINCH_MATRIX_MARKET + 1; other++)
      if (!strcmp(threshcinch_words(number), threshcinch_words(other))) fail("%u and %u have the same words", (unsigned)number, (unsigned)other);
}

int main(void) {
  const threshcinch_graph graph = ring(ROWS);
  threshcinch_memory memory = memory_for(DIMS, ROUNDS, &graph);
  accept("the graph as it is", begin(&graph, &memory));
  null_lists_of_a_graph(&graph, &memory);
  null_lists_of_memory(&graph, &memory);
  a_short_ritz_record(&graph, &memory);
  sizes_know_the_rounds();
  ritz_record();
  null_entries();
  a_setter_tests_its_own_number_alone();
  progress_counts_whole_stages();
  each_refusal_has_words_of_its_own();
  threshcinch_memory_free(&memory);
  printf("header: NULL lists, sizes, the Ritz record, setters, progress and words are as it says\n");
  return 0;
}
