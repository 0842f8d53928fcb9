/* What the tests of the header share: failing with words, bits, a graph by rule. In the language that C11 and C++11 have in common. */
#ifndef THRESHCINCH_CHECK_H
#define THRESHCINCH_CHECK_H

#include <stdarg.h>
#include <stdio.h>
#include <string.h>

#include "threshcinch.h"

__attribute__((noreturn)) static void fail(const char *words, ...) {
  va_list more;
  va_start(more, words);
  fputs("fails: ", stderr);
  vfprintf(stderr, words, more);
  fputc('\n', stderr);
  va_end(more);
  exit(1);
}

/* document 01's hash */
static inline uint64_t mixed(uint64_t index) {
  uint64_t z = index + 0x9E3779B97F4A7C15u;
  z = (z ^ z >> 30) * 0xBF58476D1CE4E5B9u;
  z = (z ^ z >> 27) * 0x94D049BB133111EBu;
  return z ^ z >> 31;
}

/* The number with these bits. No arithmetic, which would depend on the environment. */
static inline double number_of_bits(uint64_t bits) {
  double number;
  memcpy(&number, &bits, sizeof number);
  return number;
}

/* A subnormal number that depends on its pair of rows alone, so that the graph is symmetric. */
static inline double ring_value(uint64_t low, uint64_t high) {
  return number_of_bits(mixed(low << 32 | high) >> 12);
}

enum { RING_NEAR = 4 };

/* A ring of subnormal values: each row has the rows that lie one and three before and after it. The lists are never freed: a test lives
   shortly. */
static inline threshcinch_graph ring(size_t rows) {
  uint64_t *starts = (uint64_t *)calloc(rows + 1, sizeof *starts);
  uint32_t *columns = (uint32_t *)calloc(rows * RING_NEAR, sizeof *columns);
  double *values = (double *)calloc(rows * RING_NEAR, sizeof *values);
  if (!starts || !columns || !values) fail("no memory for the graph");
  for (size_t entry = 0; entry < rows * RING_NEAR; entry++) {
    const size_t row = entry / RING_NEAR, step = entry % RING_NEAR < 2 ? 1 : 3;
    const size_t column = (entry % 2 ? row + rows - step : row + step) % rows;
    columns[entry] = (uint32_t)column;
    values[entry] = ring_value(row < column ? row : column, row < column ? column : row);
    starts[row + 1] = entry + 1;
  }
  return threshcinch_graph_of(rows, starts, rows * RING_NEAR, columns, values);
}

static inline threshcinch_memory memory_for(uint64_t d, uint64_t rounds, const threshcinch_graph *graph) {
  threshcinch_memory memory;
  const threshcinch_sizes sizes = threshcinch_lent_sizes(d, rounds, graph->starts_length - 1, graph->columns_length);
  if (sizes.verdict.number || !threshcinch_memory_new(&memory, sizes)) fail("no memory for a run");
  return memory;
}

static inline void accept(const char *call, threshcinch_verdict verdict) {
  if (verdict.number) fail("%s: refusal %u at %u", call, (unsigned)verdict.number, (unsigned)verdict.place);
}

static inline void refuse(const char *call, threshcinch_verdict verdict, uint64_t number, uint64_t place) {
  if (verdict.number == number && verdict.place == place) return;
  fail("%s: refusal %u at %u, not %u at %u", call, (unsigned)verdict.number, (unsigned)verdict.place, (unsigned)number, (unsigned)place);
}

#endif
