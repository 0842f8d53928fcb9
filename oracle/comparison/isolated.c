#include "isolated.h"

#include <math.h>

static const double FLOOR = 1e-12;

/* "Degrees are row sums in input order from +0" */
static double root_of(const uint64_t *starts, const double *values, size_t row) {
  double degree = 0.0;
  for (uint64_t e = starts[row]; e < starts[row + 1]; e++) degree += values[e];
  return sqrt(degree);
}

/* A NaN is above nothing. */
static int is_isolated(double root) { return !(root > FLOOR); }

size_t isolated_rows(const uint64_t *starts, const double *values, size_t rows) {
  size_t count = 0;
  for (size_t i = 0; i < rows; i++) count += is_isolated(root_of(starts, values, i));
  return count;
}

size_t isolated_roots(const double *roots, size_t rows) {
  size_t count = 0;
  for (size_t i = 0; i < rows; i++) count += is_isolated(roots[i]);
  return count;
}

size_t rows_without_entries(const uint64_t *starts, size_t rows) {
  size_t count = 0;
  for (size_t i = 0; i < rows; i++) count += starts[i] == starts[i + 1];
  return count;
}

size_t rows_without_root(const uint64_t *starts, const double *values, size_t rows) {
  size_t count = 0;
  for (size_t i = 0; i < rows; i++) count += isnan(root_of(starts, values, i));
  return count;
}
