/* proved.h: the proved functions of crates reading and text, as C sees them. */
#ifndef PROVED_H
#define PROVED_H

#include <stddef.h>
#include <stdint.h>

enum { MOST_BYTES = 32768, MOST_ROUNDS = 400, MOST_STARTS = 65, MOST_ENTRIES = 1024, LEAST_ROOM = 8192 };

/* crates/reading: RunFile. A bool is one byte, and read as a number here, so that one that is neither 0 nor 1 is seen. */
typedef struct {
  uint8_t is_right;
  uint64_t line;
  uint64_t d;
  uint64_t rounds;
  uint64_t degree;
  double seed_std;
  size_t start_count;
  size_t column_count;
  size_t value_count;
  uint64_t starts[MOST_STARTS];
  uint32_t columns[MOST_ENTRIES];
  double values[MOST_ENTRIES];
} run_file;

_Static_assert(offsetof(run_file, line) == 8 && offsetof(run_file, seed_std) == 40 && offsetof(run_file, starts) == 72, "head of RunFile");
_Static_assert(offsetof(run_file, columns) == 592 && offsetof(run_file, values) == 4688 && sizeof(run_file) == 12880, "lists of RunFile");

extern run_file reading_read_run(const uint8_t *bytes, size_t length);

/* the length of the answer, or 0 where `out` has fewer than LEAST_ROOM bytes */
extern size_t text_answer(const uint8_t *bytes, size_t length, uint8_t *out, size_t out_length);

#endif
