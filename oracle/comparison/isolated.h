/* isolated.h: request W3's count, read a second time: the rows that took the inverse weight 1e-12 because the root of their degree was not
 * above it. The sums and roots are C's own. */
#ifndef ISOLATED_H
#define ISOLATED_H

#include <stddef.h>
#include <stdint.h>

/* of a graph's rows */
size_t isolated_rows(const uint64_t *starts, const double *values, size_t rows);

/* of the first roots of a list, as the degrees stage leaves them in v0 */
size_t isolated_roots(const double *roots, size_t rows);

/* ---- what a wrong count would leave out: these tell whether a graph or a list is one that shows it */
size_t rows_without_entries(const uint64_t *starts, size_t rows);
size_t rows_without_root(const uint64_t *starts, const double *values, size_t rows);

#endif
