/* market.h: the readers of Matrix Market graphs as C sees them, declared a second time beside threshcinch.h. */
#ifndef MARKET_H
#define MARKET_H

#include <stddef.h>
#include <stdint.h>

enum { MOST_ROWS = 1048576, MOST_ENTRIES = 67108864 };

/* the lent lists, in the order of their numbers */
enum { STARTS, COLUMNS, VALUES, LISTS };

typedef struct {
  uint64_t number;
  uint64_t place;
} market_verdict;

typedef struct {
  market_verdict verdict;
  size_t rows;
  size_t entries;
} market_graph;

typedef struct {
  market_verdict verdict;
  size_t starts;
  size_t entries;
} market_room;

extern market_graph threshcinch_read_matrix_market(const uint8_t *text, size_t text_length, uint64_t *starts, size_t starts_length,
                                                   uint32_t *columns, size_t columns_length, double *values, size_t values_length);

extern market_room threshcinch_matrix_market_sizes(const uint8_t *text, size_t text_length);

#endif
