/* graphs: Matrix Market files through the library, for who compares the graphs.
 *
 *   graphs < FILES > GRAPHS
 *   graphs --time RUNS FILE
 *
 * FILES: each file behind its length, and the length 2^64 - 1 at the end. GRAPHS, for each file: number and place of the verdict, rows and
 * entries; of an accepted one then rows + 1 starts, the columns, 4 bytes each, and the values. Other numbers have 8 bytes, lowest byte
 * first. The memory is what threshcinch_matrix_market_sizes answers.
 *
 * --time prints two times in seconds, the least of so many runs: that of sizes, memory and reading, with the file's text in memory; and the
 * same with opening and reading the file.
 *
 * Status 0, or 2: it could not be done. */
#include <stdio.h>
#include <stdlib.h>
#include <string.h>
#include <time.h>

#include "market.h"

static const uint64_t AT_END = UINT64_MAX;

static void fail(const char *words) {
  fprintf(stderr, "graphs: %s\n", words);
  exit(2);
}

static void *memory_of(size_t length) {
  void *at = malloc(length ? length : 1);
  if (!at) fail("no memory");
  return at;
}

/* ---- a graph */

typedef struct {
  market_graph read;
  uint64_t *starts;
  uint32_t *columns;
  double *values;
} owned;

static owned read_text(const uint8_t *text, size_t length) {
  owned g = {{{0, 0}, 0, 0}, NULL, NULL, NULL};
  market_room room = threshcinch_matrix_market_sizes(text, length);
  g.read.verdict = room.verdict;
  if (room.verdict.number) return g;
  g.starts = memory_of(room.starts * sizeof *g.starts);
  g.columns = memory_of(room.entries * sizeof *g.columns);
  g.values = memory_of(room.entries * sizeof *g.values);
  g.read = threshcinch_read_matrix_market(text, length, g.starts, room.starts, g.columns, room.entries, g.values, room.entries);
  return g;
}

static void release(owned *g) {
  free(g->starts);
  free(g->columns);
  free(g->values);
}

/* ---- the streams: this program is x86-64 code, which has the lowest byte first */

static void put(const void *from, size_t length) {
  if (length && fwrite(from, 1, length, stdout) != length) fail("standard output cannot be written");
}

static void put_number(uint64_t x) { put(&x, sizeof x); }

static void take(void *to, size_t length) {
  if (length && fread(to, 1, length, stdin) != length) fail("the files end too soon");
}

static uint64_t take_number(void) {
  uint64_t x;
  take(&x, sizeof x);
  return x;
}

static void put_graph(const owned *g) {
  put_number(g->read.verdict.number);
  put_number(g->read.verdict.place);
  put_number(g->read.rows);
  put_number(g->read.entries);
  if (g->read.verdict.number) return;
  put(g->starts, (g->read.rows + 1) * sizeof *g->starts);
  put(g->columns, g->read.entries * sizeof *g->columns);
  put(g->values, g->read.entries * sizeof *g->values);
}

static void read_all(void) {
  for (uint64_t length = take_number(); length != AT_END; length = take_number()) {
    uint8_t *text = memory_of(length);
    take(text, length);
    owned g = read_text(text, length);
    put_graph(&g);
    release(&g);
    free(text);
  }
  if (getchar() != EOF) fail("the files go on behind their end");
  if (fflush(stdout)) fail("standard output cannot be written");
}

/* ---- the time */

static double now(void) {
  struct timespec t;
  if (clock_gettime(CLOCK_MONOTONIC, &t)) fail("no clock");
  return (double)t.tv_sec + 1e-9 * (double)t.tv_nsec;
}

static uint8_t *load(const char *path, size_t *length) {
  FILE *in = fopen(path, "rb");
  if (!in || fseek(in, 0, SEEK_END)) fail("the file cannot be read");
  long end = ftell(in);
  if (end < 0 || fseek(in, 0, SEEK_SET)) fail("the file cannot be read");
  uint8_t *text = memory_of((size_t)end);
  if (fread(text, 1, (size_t)end, in) != (size_t)end) fail("the file cannot be read");
  fclose(in);
  *length = (size_t)end;
  return text;
}

static void least(double *kept, double seen) {
  if (*kept == 0 || seen < *kept) *kept = seen;
}

static void time_file(long runs, const char *path) {
  double call = 0, whole = 0;
  for (long i = 0; i < runs; i++) {
    size_t length;
    double began = now();
    uint8_t *text = load(path, &length);
    double loaded = now();
    owned g = read_text(text, length);
    double ended = now();
    if (g.read.verdict.number) fail("the file is refused");
    least(&call, ended - loaded);
    least(&whole, ended - began);
    release(&g);
    free(text);
  }
  printf("%.6f %.6f\n", call, whole);
}

int main(int count, char **words) {
  if (count == 1)
    read_all();
  else if (count == 4 && !strcmp(words[1], "--time"))
    time_file(strtol(words[2], NULL, 10), words[3]);
  else
    fail("words that are not understood");
  return 0;
}
