/* A held run whose chunks are worked on by several threads, compared bit for bit with the one call.
 *
 *   threads ROWS THREADS REPEATS ROUNDS DEGREE
 *
 * The graph is the oracle's ring `big ROWS 2`, D is 2. In each stage every thread takes the chunk with its own number and then, as it gets
 * free, the next one that nobody has; when all are done, one thread closes the stage. Repeats turn the chunk numbers, so that each thread
 * meets other rows. Every lent list, the Ritz record too, and the counts are held to the one call's, the whole end state to that of a held run in
 * one thread.
 * Each thread rounds in another direction, as a host's threads may: the short forms compute in the default arithmetic all the same, and the
 * direction is looked at afterwards. (Only the direction: valgrind keeps no more of the register. bindings/c/environment.c has the rest.)
 * Status: 0 the same, 1 a difference or a refusal, 2 bad arguments, or no memory or threads to be had.
 */
#define _POSIX_C_SOURCE 200809L /* for barriers */
#include <pthread.h>
#include <stdarg.h>
#include <stdatomic.h>
#include <stdio.h>
#include <string.h>

#include "threshcinch.h"

enum { DIMS = 2, NEAR = 8, LEAST_ROWS = 9, MOST_ROWS = 1048576, MOST_THREADS = 64 };

/* What the threads of a run share. The closing thread alone writes `state` and `refusal`, between the two barriers of a stage. */
typedef struct {
  const threshcinch_graph *graph;
  const threshcinch_memory *memory;
  size_t chunks;
  size_t threads;
  size_t turn;
  pthread_barrier_t barrier;
  atomic_size_t next;
  threshcinch_state state;
  threshcinch_verdict refusal;
} Run;

typedef struct {
  Run *run;
  size_t number;
  threshcinch_verdict refusal;
  int direction_kept;
  pthread_t thread;
} Worker;

_Noreturn static void fail(int status, const char *words, ...) {
  va_list more;
  va_start(more, words);
  fputs("threads: ", stderr);
  vfprintf(stderr, words, more);
  fputc('\n', stderr);
  va_end(more);
  exit(status);
}

static void accept(const char *call, threshcinch_verdict verdict) {
  const size_t number = verdict.number, place = verdict.place;
  if (number) fail(1, "%s: refusal %zu at %zu: %s", call, number, place, threshcinch_words(number));
}

/* ---- the graph */

/* document 01's splitmix_unit, raised to [0, 1) */
static double unit(uint64_t index) {
  uint64_t z = index + 0x9E3779B97F4A7C15u;
  z = (z ^ z >> 30) * 0xBF58476D1CE4E5B9u;
  z = (z ^ z >> 27) * 0x94D049BB133111EBu;
  z = z ^ z >> 31;
  return (double)(z >> 11) / 9007199254740992.0;
}

/* the value depends on the pair alone, so the graph is symmetric */
static double value_of(uint64_t i, uint64_t j) {
  const uint64_t low = i < j ? i : j, high = i < j ? j : i;
  return unit(((uint64_t)2 << 40) + (low << 20) + high);
}

/* Each row has the next and the last one, two, three and four rows around the ring. */
static threshcinch_graph ring(size_t rows) {
  uint64_t *starts = calloc(rows + 1, sizeof *starts);
  uint32_t *columns = calloc(rows * NEAR, sizeof *columns);
  double *values = calloc(rows * NEAR, sizeof *values);
  if (!starts || !columns || !values) fail(2, "no memory for the graph");
  for (size_t entry = 0; entry < rows * NEAR; entry++) {
    const size_t row = entry / NEAR, step = entry % NEAR / 2 + 1;
    const size_t column = (entry % 2 ? row + rows - step : row + step) % rows;
    columns[entry] = (uint32_t)column;
    values[entry] = value_of(row, column);
    starts[row + 1] = entry + 1;
  }
  return threshcinch_graph_of(rows, starts, rows * NEAR, columns, values);
}

/* ---- a run in several threads */

/* All threads get the same state and the same lists. The laws of crates/threads (specs/Owned.antt) allow it: no place of a lent list
   belongs to two chunks of a stage (own-once), a chunk call writes its own places and mark only (call_writes_own), and neither its answer
   nor what it writes depends on another chunk's places (call_reads_own). They say so of the definition, which the code is proved to
   compute. Which loads the compiled code makes they do not say, so this program is also run under helgrind and drd. */
static void work(Worker *worker, size_t place) {
  Run *run = worker->run;
  const threshcinch_answer answer = threshcinch_run_chunk(&run->state, (place + run->turn) % run->chunks, run->graph, run->memory);
  if (answer.verdict.number) worker->refusal = answer.verdict;
}

/* The counter orders nothing: it only hands out numbers. */
static size_t next_place(Run *run) {
  return run->threads + atomic_fetch_add_explicit(&run->next, 1, memory_order_relaxed);
}

/* The laws are silent on closing, which reads what all chunks wrote: it comes after a barrier, and the next stage after another. */
static void close_stage(Run *run) {
  const threshcinch_answer answer = threshcinch_run_close(&run->state, run->graph, run->memory);
  run->state = answer.state;
  run->refusal = answer.verdict;
  atomic_store_explicit(&run->next, 0, memory_order_relaxed);
}

static void *worker_main(void *given) {
  static const unsigned directions[] = {_MM_ROUND_UP, _MM_ROUND_TOWARD_ZERO, _MM_ROUND_NEAREST, _MM_ROUND_DOWN};
  Worker *worker = given;
  Run *run = worker->run;
  _MM_SET_ROUNDING_MODE(directions[worker->number % 4]);
  while (threshcinch_is_open(&run->state) && !run->refusal.number) {
    for (size_t place = worker->number; place < run->chunks; place = next_place(run)) work(worker, place);
    if (pthread_barrier_wait(&run->barrier) == PTHREAD_BARRIER_SERIAL_THREAD) close_stage(run);
    pthread_barrier_wait(&run->barrier);
  }
  worker->direction_kept = _MM_GET_ROUNDING_MODE() == directions[worker->number % 4];
  return NULL;
}

/* Opens a run and does it to its end in this many threads. */
static threshcinch_state run_in_threads(size_t threads, size_t turn, threshcinch_params params, const threshcinch_graph *graph,
                                        const threshcinch_memory *memory) {
  Worker workers[MOST_THREADS];
  Run run = {.graph = graph, .memory = memory, .threads = threads, .turn = turn};
  const threshcinch_answer opened = threshcinch_run_open(DIMS, params, graph, memory);
  accept("opening", opened.verdict);
  run.state = opened.state;
  run.chunks = threshcinch_chunk_count(opened.state.asked.rows);
  if (pthread_barrier_init(&run.barrier, NULL, (unsigned)threads)) fail(2, "no barrier");
  for (size_t number = 0; number < threads; number++) {
    workers[number] = (Worker){.run = &run, .number = number};
    if (pthread_create(&workers[number].thread, NULL, worker_main, &workers[number])) fail(2, "no thread");
  }
  for (size_t number = 0; number < threads; number++) {
    pthread_join(workers[number].thread, NULL);
    accept("a chunk", workers[number].refusal);
    if (!workers[number].direction_kept) fail(1, "thread %zu has lost its rounding direction", number);
  }
  accept("closing", run.refusal);
  pthread_barrier_destroy(&run.barrier);
  return run.state;
}

/* ---- comparing */

static void same(const char *list, const void *one, const void *other, size_t bytes) {
  size_t at = 0;
  while (at < bytes && ((const unsigned char *)one)[at] == ((const unsigned char *)other)[at]) at++;
  if (at < bytes) fail(1, "%s differs, first at byte %zu", list, at);
}

#define SAME(list) same(#list, one->list, other->list, one->list##_length * sizeof *one->list)

static void same_memory(const threshcinch_memory *one, const threshcinch_memory *other) {
  SAME(inverse);
  SAME(v0);
  SAME(edge_columns);
  SAME(edge_weights);
  SAME(block0);
  SAME(block1);
  SAME(block2);
  SAME(partials);
  SAME(marks);
  SAME(output);
  SAME(ritz_record);
}

/* FNV-1a over the seed's bytes: oracle/vectors/big.txt has it for some sizes */
static uint64_t digest(const threshcinch_memory *memory) {
  const unsigned char *bytes = (const unsigned char *)memory->output;
  uint64_t found = 0xCBF29CE484222325u;
  for (size_t at = 0; at < memory->output_length * sizeof *memory->output; at++) found = (found ^ bytes[at]) * 0x100000001B3u;
  return found;
}

/* ---- the program */

static size_t number_of(const char *word, size_t least, size_t most) {
  char *end;
  const unsigned long long number = strtoull(word, &end, 10);
  const int whole = '0' <= *word && *word <= '9' && !*end;
  if (!whole || number < least || number > most) fail(2, "%s is not a number from %zu to %zu", word, least, most);
  return number;
}

static threshcinch_memory memory_for(uint64_t rounds, const threshcinch_graph *graph) {
  threshcinch_memory memory;
  const threshcinch_sizes sizes = threshcinch_lent_sizes(DIMS, rounds, graph->starts_length - 1, graph->columns_length);
  accept("sizes", sizes.verdict);
  if (!threshcinch_memory_new(&memory, sizes)) fail(2, "no memory for a run");
  return memory;
}

/* One run in threads beside the one call and the end of a run in one thread. */
static void compare(size_t threads, size_t turn, threshcinch_params params, const threshcinch_graph *graph, const threshcinch_memory *one,
                    threshcinch_counts counts, const threshcinch_state *ended) {
  threshcinch_memory held = memory_for(params.rounds, graph);
  const threshcinch_state state = run_in_threads(threads, turn, params, graph, &held);
  same("the state", ended, &state, sizeof state);
  same("the counts", &counts, &state.counts, sizeof counts);
  same_memory(one, &held);
  threshcinch_memory_free(&held);
}

int main(int count, char **words) {
  if (count != 6) fail(2, "usage: threads ROWS THREADS REPEATS ROUNDS DEGREE");
  const size_t rows = number_of(words[1], LEAST_ROWS, MOST_ROWS), threads = number_of(words[2], 1, MOST_THREADS);
  const size_t repeats = number_of(words[3], 1, 1000000);
  threshcinch_params params = threshcinch_params_new();
  params.rounds = number_of(words[4], 1, 1000);
  params.degree = number_of(words[5], 1, 1000);

  const threshcinch_graph graph = ring(rows);
  threshcinch_memory one = memory_for(params.rounds, &graph), alone = memory_for(params.rounds, &graph);
  const threshcinch_embedded embedded = threshcinch_embed(DIMS, params, &graph, &one);
  accept("the one call", embedded.verdict);
  const threshcinch_state ended = run_in_threads(1, 0, params, &graph, &alone);
  for (size_t repeat = 0; repeat < repeats; repeat++) compare(threads, repeat, params, &graph, &one, embedded.counts, &ended);

  const size_t chunks = threshcinch_chunk_count(rows), calls = threshcinch_run_accepted(&ended);
  printf("the same bits: rows=%zu chunks=%zu threads=%zu repeats=%zu calls=%zu digest=%016llx\n", rows, chunks, threads, repeats, calls,
         (unsigned long long)digest(&one));
  threshcinch_memory_free(&one);
  threshcinch_memory_free(&alone);
  free((void *)graph.starts);
  free((void *)graph.columns);
  free((void *)graph.values);
  return 0;
}
