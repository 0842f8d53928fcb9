/* stream.h: what `oracle stream` writes; oracle/README.md has the order of its bytes. */
#ifndef STREAM_H
#define STREAM_H

#include <stdio.h>

#include "threshcinch.h"

/* a graph, and the answer of the Rust for it */
typedef struct {
  uint64_t number, family, dims, rows, entries, rounds, degree;
  double seed_std;
  uint64_t twice, nan, falls, empty;
  threshcinch_counts counts;
  uint64_t *starts;
  uint32_t *columns;
  double *values;
  double *seed;
  double *record; /* round by round the bound that its filter used, then its Ritz values in the Rust's order */
} graph;

/* These end the program with status 2 where the stream is short or not such a stream. */
void stream_begin(FILE *in, uint64_t *from, uint64_t *count);
void stream_graph(FILE *in, graph *g);
void stream_end(FILE *in, uint64_t count);

void graph_free(graph *g);

/* memory, or the end of the program */
void *taken(size_t bytes);
void fail(const char *format, ...) __attribute__((format(printf, 1, 2), noreturn));

#endif
