/* environment: in every floating-point environment the short forms give the bits of the default one, and leave it as it was.
 *
 * The graph (check.h) is a ring of subnormal values, two chunks long. In each environment that can change the bits the long form must change
 * them here, so that a short form that sets nothing would be found out. (Not so for opening, the setter and those of text: as they are compiled
 * today, no environment changes what they answer. They are called in each all the same; and the writers of text compare subnormal numbers
 * and a NaN that signals, which would leave flags.)
 * Status: 0, or 1 with the first thing that is wrong.
 */
#define _POSIX_C_SOURCE 200809L
#include <pthread.h>

#include "check.h"

enum { DIMS = 1, ROWS = 4200, SMALL_ROWS = 30 };

/* What a long form does in an environment. TRAPS is not tried: an exception that is not masked ends the process. */
enum Unguarded { THE_SAME, OTHER_BITS, TRAPS };

typedef struct {
  const char *name;
  unsigned mxcsr;
  enum Unguarded unguarded;
  int reads_zeros; /* a subnormal operand counts as zero */
} Environment;

static const Environment environments[] = {
    {"nearest", 0x1F80, THE_SAME, 0},
    {"nearest, every exception raised before", 0x1FBF, THE_SAME, 0},
    {"downward", 0x3F80, OTHER_BITS, 0},
    {"upward", 0x5F80, OTHER_BITS, 0},
    {"toward zero", 0x7F80, OTHER_BITS, 0},
    {"flush-to-zero", 0x9F80, OTHER_BITS, 0},
    {"denormals-are-zero", 0x1FC0, OTHER_BITS, 1},
    {"flush-to-zero, denormals-are-zero", 0x9FC0, OTHER_BITS, 1},
    {"downward and all bits set", 0xBFFF, OTHER_BITS, 1},
    {"upward and all bits set", 0xDFFF, OTHER_BITS, 1},
    {"toward zero and all bits set", 0xFFFF, OTHER_BITS, 1},
    {"every exception traps", 0x0000, TRAPS, 0},
    {"every exception traps and was raised before", 0x003F, TRAPS, 0},
};

enum { ENVIRONMENTS = sizeof environments / sizeof *environments };

/* What a run leaves: the seed and the Ritz record, and the counts with the calls that the state told of at each stage, summed up. */
typedef struct {
  threshcinch_memory memory;
  threshcinch_counts counts;
  size_t told;
} Outcome;

/* A run file, what was read from it, and an answer; and what was read from a Matrix Market file. */
typedef struct {
  uint8_t file[THRESHCINCH_FILE_BYTES];
  threshcinch_written file_written;
  threshcinch_run_file read;
  uint8_t answer[THRESHCINCH_ANSWER_BYTES];
  threshcinch_written answer_written;
  threshcinch_matrix_market_room room;
  threshcinch_matrix_market market;
  uint64_t starts[3];
  uint32_t columns[3];
  double values[3];
} Texts;

/* What every environment is held to, from the default one. */
typedef struct {
  threshcinch_params params;
  threshcinch_graph graph;
  Outcome one_call;
  Outcome held;
  Texts texts;
} Expected;

static void as_found(const Environment *environment, const char *call) {
  const unsigned left = _mm_getcsr();
  if (left != environment->mxcsr) fail("%s: %s left %04x of %04x", environment->name, call, left, environment->mxcsr);
}

static int same_seed(const Outcome *one, const Outcome *other) {
  return !memcmp(one->memory.output, other->memory.output, one->memory.output_length * sizeof(double)) &&
         !memcmp(&one->counts, &other->counts, sizeof one->counts) && one->told == other->told;
}

static int same_record(const Outcome *one, const Outcome *other) {
  return !memcmp(one->memory.ritz_record, other->memory.ritz_record, one->memory.ritz_record_length * sizeof(double));
}

/* ---- runs in an environment; arithmetic of the test itself would be caught in it too, so there is none */

static Outcome one_call(const Environment *environment, threshcinch_params params, const threshcinch_graph *graph) {
  Outcome outcome;
  outcome.memory = memory_for(DIMS, params.rounds, graph);
  outcome.told = 0;
  _mm_setcsr(environment->mxcsr);
  const threshcinch_embedded embedded = threshcinch_embed(DIMS, params, graph, &outcome.memory);
  as_found(environment, "the one call");
  _mm_setcsr(THRESHCINCH_MXCSR);
  accept("the one call", embedded.verdict);
  outcome.counts = embedded.counts;
  return outcome;
}

/* Chunks downward, then closing; the register is looked at after each call. */
static threshcinch_answer stage(const Environment *environment, const threshcinch_state *state, const threshcinch_graph *graph, Outcome *outcome) {
  outcome->told += threshcinch_run_accepted(state);
  as_found(environment, "calls accepted");
  outcome->told += 3 * threshcinch_run_owed(state);
  as_found(environment, "calls owed");
  for (size_t number = threshcinch_chunk_count(ROWS); number > 0; number--) {
    accept("a chunk", threshcinch_run_chunk(state, number - 1, graph, &outcome->memory).verdict);
    as_found(environment, "a chunk");
  }
  const threshcinch_answer closed = threshcinch_run_close(state, graph, &outcome->memory);
  as_found(environment, "closing");
  return closed;
}

static Outcome held(const Environment *environment, threshcinch_params params, const threshcinch_graph *graph) {
  Outcome outcome;
  outcome.memory = memory_for(DIMS, params.rounds, graph);
  outcome.told = 0;
  _mm_setcsr(environment->mxcsr);
  threshcinch_answer answer = threshcinch_run_open(DIMS, params, graph, &outcome.memory);
  as_found(environment, "opening");
  while (!answer.verdict.number && threshcinch_is_open(&answer.state)) answer = stage(environment, &answer.state, graph, &outcome);
  _mm_setcsr(THRESHCINCH_MXCSR);
  accept("a held run", answer.verdict);
  outcome.counts = answer.state.counts;
  return outcome;
}

/* The long form, in whatever arithmetic it finds. */
static Outcome unguarded(const Environment *environment, threshcinch_params params, const threshcinch_graph *graph) {
  Outcome outcome;
  outcome.memory = memory_for(DIMS, params.rounds, graph);
  outcome.told = 0;
  _mm_setcsr(environment->mxcsr);
  const threshcinch_embedded embedded = threshcinch_spectral_embedding(DIMS, params, THRESHCINCH_LISTS(graph, &outcome.memory));
  _mm_setcsr(THRESHCINCH_MXCSR);
  outcome.counts = embedded.counts;
  return outcome;
}

/* ---- tests */

static void try_runs(const Environment *environment, const Expected *expected) {
  Outcome one = one_call(environment, expected->params, &expected->graph), run = held(environment, expected->params, &expected->graph);
  if (!same_seed(&one, &expected->one_call)) fail("%s: the one call has other bits", environment->name);
  if (!same_seed(&run, &expected->held)) fail("%s: the held run has other bits", environment->name);
  if (!same_record(&one, &expected->one_call)) fail("%s: the one call has another Ritz record", environment->name);
  if (!same_record(&run, &expected->one_call)) fail("%s: the held run has another Ritz record", environment->name);
  threshcinch_memory_free(&one.memory);
  threshcinch_memory_free(&run.memory);
}

static void try_unguarded(const Environment *environment, const Expected *expected) {
  if (environment->unguarded == TRAPS) return;
  Outcome outcome = unguarded(environment, expected->params, &expected->graph);
  const int same = same_seed(&outcome, &expected->one_call);
  if (same != (environment->unguarded == THE_SAME)) fail("%s: the long form has %s bits", environment->name, same ? "the same" : "other");
  threshcinch_memory_free(&outcome.memory);
}

/* The least subnormal number is positive and finite. */
static void try_setter(const Environment *environment) {
  const double least = number_of_bits(1);
  const threshcinch_params params = threshcinch_params_new();
  _mm_setcsr(environment->mxcsr);
  const threshcinch_set set = threshcinch_set_seed_std(params, least);
  as_found(environment, "the setter");
  _mm_setcsr(THRESHCINCH_MXCSR);
  accept("the setter", set.verdict);
  if (memcmp(&set.params.seed_std, &least, sizeof least)) fail("%s: seed_std is not what was set", environment->name);
}

/* A state in its second stage whose alpha is subnormal: in its range, above 0. */
static threshcinch_state with_subnormal_alpha(const Expected *expected) {
  threshcinch_memory memory = memory_for(DIMS, expected->params.rounds, &expected->graph);
  threshcinch_answer opened = threshcinch_run_open(DIMS, expected->params, &expected->graph, &memory);
  accept("opening", opened.verdict);
  opened.state.progress.stage = 2;
  opened.state.progress.alpha = number_of_bits(1);
  threshcinch_memory_free(&memory);
  return opened.state;
}

/* Where alpha reads as zero, the long forms take the state for damaged. */
static void try_progress(const Environment *environment, const Expected *expected) {
  const threshcinch_state state = with_subnormal_alpha(expected);
  const size_t accepted = threshcinch_calls_accepted(state), owed = threshcinch_calls_owed(state);
  _mm_setcsr(environment->mxcsr);
  const size_t accepted_here = threshcinch_run_accepted(&state);
  as_found(environment, "calls accepted");
  const size_t owed_here = threshcinch_run_owed(&state);
  as_found(environment, "calls owed");
  const size_t bare = environment->unguarded == TRAPS ? owed : threshcinch_calls_owed(state);
  _mm_setcsr(THRESHCINCH_MXCSR);
  if (!accepted || accepted_here != accepted) fail("%s: %zu calls accepted, not %zu", environment->name, accepted_here, accepted);
  if (!owed || owed_here != owed) fail("%s: %zu calls owed, not %zu", environment->name, owed_here, owed);
  if (bare != (environment->reads_zeros ? 0 : owed)) fail("%s: the long form tells %zu calls owed of %zu", environment->name, bare, owed);
}

/* Entries in no rising order, so that repeats are looked for. */
static void read_market(const Environment *environment, Texts *texts) {
  static const char text[] = "%%MatrixMarket matrix coordinate pattern symmetric\n2 2 2\n2 2\n2 1\n";
  threshcinch_graph_lists lists;
  lists.starts = texts->starts;
  lists.columns = texts->columns;
  lists.values = texts->values;
  lists.starts_length = lists.columns_length = lists.values_length = 3;
  _mm_setcsr(environment->mxcsr);
  texts->room = threshcinch_market_sizes(text, sizeof text - 1);
  as_found(environment, "the room for a Matrix Market file");
  texts->market = threshcinch_market_read(text, sizeof text - 1, &lists);
  as_found(environment, "reading a Matrix Market file");
  _mm_setcsr(THRESHCINCH_MXCSR);
  accept("the room for a Matrix Market file", texts->room.verdict);
  accept("reading a Matrix Market file", texts->market.verdict);
}

/* Subnormal numbers all over, and a NaN that signals. */
static void make_texts(const Environment *environment, Texts *texts) {
  const threshcinch_graph graph = ring(SMALL_ROWS);
  const double seed[2] = {number_of_bits(1), number_of_bits(0x7FF0000000000001u)};
  threshcinch_params params = threshcinch_params_new();
  threshcinch_embedded answer;
  params.seed_std = number_of_bits(1);
  memset(texts, 0, sizeof *texts);
  memset(&answer, 0, sizeof answer);
  _mm_setcsr(environment->mxcsr);
  texts->file_written = threshcinch_file_write(DIMS, params, &graph, texts->file, sizeof texts->file);
  as_found(environment, "writing a run file");
  threshcinch_file_read(texts->file, texts->file_written.length, &texts->read);
  as_found(environment, "reading a run file");
  texts->answer_written = threshcinch_answer_write(answer, 1, 2, seed, 2, texts->answer, sizeof texts->answer);
  as_found(environment, "writing an answer");
  _mm_setcsr(THRESHCINCH_MXCSR);
  accept("writing a run file", texts->file_written.verdict);
  accept("reading a run file", texts->read.verdict);
  accept("writing an answer", texts->answer_written.verdict);
  read_market(environment, texts);
}

static void try_texts(const Environment *environment, const Expected *expected) {
  static Texts texts;
  make_texts(environment, &texts);
  if (memcmp(&texts, &expected->texts, sizeof texts)) fail("%s: a text has other bytes, or another graph was read", environment->name);
}

typedef struct {
  const Environment *environment;
  const Expected *expected;
} Inherited;

/* A thread begins with its maker's register. */
static void *in_a_thread(void *given) {
  const Inherited *inherited = (const Inherited *)given;
  as_found(inherited->environment, "starting a thread");
  try_runs(inherited->environment, inherited->expected);
  return NULL;
}

static void try_thread(const Environment *environment, const Expected *expected) {
  Inherited inherited;
  pthread_t thread;
  inherited.environment = environment;
  inherited.expected = expected;
  _mm_setcsr(environment->mxcsr);
  const int failed = pthread_create(&thread, NULL, in_a_thread, &inherited);
  _mm_setcsr(THRESHCINCH_MXCSR);
  if (failed || pthread_join(thread, NULL)) fail("no thread");
}

int main(void) {
  static Expected expected;
  /* whatever this program was linked with */
  _mm_setcsr(THRESHCINCH_MXCSR);
  expected.params = threshcinch_params_new();
  expected.params.rounds = 1;
  expected.params.degree = 2;
  expected.graph = ring(ROWS);
  expected.one_call = one_call(&environments[0], expected.params, &expected.graph);
  expected.held = held(&environments[0], expected.params, &expected.graph);
  make_texts(&environments[0], &expected.texts);
  for (size_t at = 0; at < ENVIRONMENTS; at++) {
    try_runs(&environments[at], &expected);
    try_unguarded(&environments[at], &expected);
    try_setter(&environments[at]);
    try_progress(&environments[at], &expected);
    try_texts(&environments[at], &expected);
    try_thread(&environments[at], &expected);
  }
  printf("environment: the same bits in %d environments, each left as it was\n", (int)ENVIRONMENTS);
  return 0;
}
