/* checks.h: the proved functions against the second readings, for one file, graph or answer. */
#ifndef CHECKS_H
#define CHECKS_H

#include "grammar.h"
#include "text.h"
#include "threshcinch.h"

/* reading_read_run against the grammar: every field. */
void check_reading(const plain_run *due, const uint8_t *bytes, size_t length);

/* threshcinch_read_run against what is due: verdict and every field. `file` gets what it read. `part` names the call. */
void check_library_reading(const char *part, const plain_run *due, const uint8_t *bytes, size_t length, threshcinch_run_file *file);

/* what text_answer gave */
typedef struct {
  int number; /* the refusal, 0 for an accepted file, or NOT_ASKED */
  size_t length;
  const uint8_t *text;
} answer;

enum { NOT_ASKED = -1 };

/* text_answer against the grammar, the table of refusals and the library's one call, and its text taken apart and printed again. Runs that
 * would be long are not asked for. */
answer check_text(const plain_run *run, const uint8_t *bytes, size_t length, random_source *r);

/* threshcinch_write_run on a file that was read: the number of its refusal, which is of 1 to 10, or 0 and the file's own bytes. */
uint64_t check_written_again(const char *part, const threshcinch_run_file *file, const text *whole, random_source *r);

/* threshcinch_write_answer on the parts of an answer of the text program: its own bytes. */
void check_printed_again(const uint8_t *bytes, size_t length, random_source *r);

/* A graph through threshcinch_write_run, back through threshcinch_read_run, and written again. */
void check_graph(random_source *r);

/* An answer through threshcinch_write_answer. */
void check_answer_parts(random_source *r);

#endif
