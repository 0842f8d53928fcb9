/* calls.h: the library's four calls with their lists in a table, so that a list or a length can be reached by its number. */
#ifndef CALLS_H
#define CALLS_H

#include "threshcinch.h"

/* The graph's lists, and then lent memory in document 01's order 0 to 9 and request W1's 10. */
enum {
  STARTS,
  COLUMNS,
  VALUES,
  INVERSE,
  V0,
  EDGE_COLUMNS,
  EDGE_WEIGHTS,
  BLOCK0,
  BLOCK1,
  BLOCK2,
  PARTIALS,
  MARKS,
  OUTPUT,
  RITZ_RECORD,
  LISTS
};
enum { LENT = INVERSE, LENT_LISTS = LISTS - LENT };

/* A list as a call gets it. Its length may be offered shorter than the room that is really there. */
typedef struct {
  void *at;
  size_t length;
  size_t room;
} list;

typedef struct {
  list of[LISTS];
} lists;

enum call_kind { EMBED, OPEN, CHUNK, CLOSE, CALL_KINDS };

typedef struct {
  enum call_kind kind;
  uint64_t dims; /* EMBED, OPEN */
  threshcinch_params params;
  threshcinch_state state; /* CHUNK, CLOSE */
  size_t number;           /* CHUNK */
  lists lists;
} call;

typedef struct {
  threshcinch_verdict verdict;
  threshcinch_counts counts; /* EMBED */
  threshcinch_state state;   /* all others */
} outcome;

extern const char *const call_names[CALL_KINDS];
extern const char *const list_names[LISTS];
extern const size_t list_bytes[LISTS];

void call_make(const call *c, outcome *out);

/* the bits of an entry, as a number */
uint64_t item(const lists *l, int which, size_t i);
void set_item(lists *l, int which, size_t i, uint64_t bits);

#endif
