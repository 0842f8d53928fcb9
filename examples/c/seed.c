/* From a graph to a seed and its Ritz record: two groups of three rows with one weak link between them.
 * Status: 0, or 1 with a refusal, or 2 where there is no memory, or no way to write the seed. */
#include <inttypes.h>
#include <stdio.h>

#include "threshcinch.h"

enum { DIMS = 2, ROWS = 6, ENTRIES = 14 };

static int refused(threshcinch_verdict verdict) {
  if (verdict.number) fprintf(stderr, "seed: refusal %" PRIu64 " at %" PRIu64 ": %s\n", verdict.number, verdict.place, threshcinch_words(verdict.number));
  return verdict.number != 0;
}

/* How the spectrum settled: the bound that each round's filter used, and the leading Ritz values that it found. The fourth, at place D + 1, is
 * the next round's bound. Six rows have no more than five that are not 0, so that the first round finds them at once. */
static void print_rounds(const threshcinch_memory *memory, size_t rounds) {
  for (size_t round = 0; round < rounds; round++) {
    const double *numbers = threshcinch_ritz_round(memory, DIMS, round), *values = numbers + 1;
    printf("round %zu: bound %.6f, Ritz values %.6f %.6f %.6f %.6f\n", round, numbers[0], values[0], values[1], values[2], values[3]);
  }
}

static int print_seed(const threshcinch_memory *memory, threshcinch_counts counts, size_t rounds) {
  for (size_t row = 0; row < ROWS; row++) printf("row %zu: %13.6e %13.6e\n", row, memory->output[row * DIMS], memory->output[row * DIMS + 1]);
  printf("passes %zu, columns refreshed %zu, zeroed %zu, isolated rows %zu\n", counts.passes, counts.refreshed, counts.zeroed, counts.isolated);
  print_rounds(memory, rounds);
  return fflush(stdout) || ferror(stdout) ? 2 : 0;
}

/* Computes and prints the seed in memory that stays the caller's. */
static int seed_in(threshcinch_params params, const threshcinch_graph *graph, const threshcinch_memory *memory) {
  const threshcinch_embedded embedded = threshcinch_embed(DIMS, params, graph, memory);
  return refused(embedded.verdict) ? 1 : print_seed(memory, embedded.counts, params.rounds);
}

int main(void) {
  /* row i's neighbours are columns[starts[i]] up to columns[starts[i + 1] - 1]; each link stands in both of its rows */
  const uint64_t starts[ROWS + 1] = {0, 2, 4, 7, 10, 12, 14};
  const uint32_t columns[ENTRIES] = {1, 2, 0, 2, 0, 1, 3, 2, 4, 5, 3, 5, 3, 4};
  const double values[ENTRIES] = {1.0, 0.5, 1.0, 0.75, 0.5, 0.75, 0.125, 0.125, 1.0, 0.25, 1.0, 0.5, 0.25, 0.5};
  const threshcinch_graph graph = threshcinch_graph_of(ROWS, starts, ENTRIES, columns, values);

  const threshcinch_params params = threshcinch_params_new();
  const threshcinch_sizes sizes = threshcinch_lent_sizes(DIMS, params.rounds, ROWS, ENTRIES);
  if (refused(sizes.verdict)) return 1;
  threshcinch_memory memory;
  if (!threshcinch_memory_new(&memory, sizes)) {
    fprintf(stderr, "seed: out of memory\n");
    return 2;
  }
  const int status = seed_in(params, &graph, &memory);
  threshcinch_memory_free(&memory);
  return status;
}
