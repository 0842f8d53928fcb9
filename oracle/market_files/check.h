/* check.h: both functions of the library against the second reading, for one file. */
#ifndef CHECK_H
#define CHECK_H

#include "random.h"
#include "second.h"

/* The file's bytes end where a page begins that may not be touched; so do the lists that are lent. */
void check_file(const second *due, const uint8_t *text, size_t length, random_source *r);

/* Full triangles with as many entries as a graph may have, and with one more. Some hundred megabytes. */
void check_largest(void);

#endif
