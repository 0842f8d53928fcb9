/* grammar.h: document 01's grammar of run files, with request W1's limit of rounds, read a second time. It shares no code and no way of
 * working with crates/reading: it cuts the bytes into lines first, a line at its commas, and compares numbers as strings of digits, so that
 * an error would have to be made twice. */
#ifndef GRAMMAR_H
#define GRAMMAR_H

#include "proved.h"

enum { NO_FAULT = -1, FAULTS = 9 };

/* floats as their bits */
typedef struct {
  int fault; /* the first line at fault: 1 to 8, 0 for too many bytes; or NO_FAULT */
  uint64_t d, rounds, degree, seed_std;
  size_t start_count, column_count, value_count;
  uint64_t starts[MOST_STARTS], columns[MOST_ENTRIES], values[MOST_ENTRIES];
} plain_run;

/* Where there is a fault, only that is told. */
void grammar_read(plain_run *run, const uint8_t *bytes, size_t length);

#endif
