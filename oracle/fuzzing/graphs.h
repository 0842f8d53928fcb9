/* graphs.h: graphs with their parameters, as the first writer gets them: right ones of all shapes that the text program's sizes allow, and
 * ones with faults. */
#ifndef GRAPHS_H
#define GRAPHS_H

#include <stddef.h>
#include <stdint.h>

#include "random.h"

enum { GRAPH_STARTS = 80, GRAPH_ENTRIES = 1100, MOST_GRAPH_FAULTS = 32 };

/* Floats as their bits. A list that is longer than its array has zeros only. */
typedef struct {
  uint64_t d, rounds, degree, seed_std;
  size_t start_count, column_count, value_count;
  uint64_t starts[GRAPH_STARTS];
  uint32_t columns[GRAPH_ENTRIES];
  uint64_t values[GRAPH_ENTRIES];
  int fault_count;
  int fault; /* the last one that was put in, if any */
} graph;

void graph_make(graph *g, random_source *r);

int graph_fault_count(void);
const char *graph_fault_name(int which);

/* the bits of a number of any kind, all finite: zeros, subnormal ones and the largest of both signs among them */
uint64_t any_finite(random_source *r);

/* infinities and NaNs of both signs, quiet or not, with any payload */
uint64_t any_not_finite(random_source *r);

#endif
