/* second.h: which bytes are a Matrix Market file (coordinate, pattern, symmetric), and what graph it is, read a second time by request W5's
 * words. It shares no code and no way of working with the proved reader: line by line, each cut into words, numbers compared as strings of
 * digits, the entries kept and sorted, so that an error would have to be made twice. */
#ifndef SECOND_H
#define SECOND_H

#include "market.h"

typedef struct {
  uint64_t row, column; /* from 1; of the graph's own from 0 */
  uint64_t line;
  size_t index; /* in the order of the file */
} entry;

/* why a line is at fault */
enum why { NO_FAULT, BANNER, HEAD, NO_SIZE, BODY, TOO_FEW, REPEATED, WHYS };

typedef struct {
  uint64_t fault; /* the first line at fault, or 0 */
  enum why why;
  size_t apart;        /* of a repeated entry: how many entries it stands behind the one before it */
  uint64_t head_fault; /* the same, up to the size line */
  int has_size;
  uint64_t n, m; /* rows and entries of the size line */
  size_t count, room;
  entry *entries; /* sorted by row, column and line */
  /* the graph, where there is no fault and n is no more than MOST_ROWS */
  size_t placed, placed_room, starts_room;
  entry *graph;
  uint64_t *starts;
} second;

void second_read(second *s, const uint8_t *text, size_t length);

/* what the two functions must answer; by the lengths of the lent lists */
market_graph second_answer(const second *s, const size_t lengths[LISTS]);
market_room second_room(const second *s);

#endif
