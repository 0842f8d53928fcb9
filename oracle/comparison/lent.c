#include "lent.h"

#include <string.h>

#include "random.h"
#include "reading.h"

uint64_t pattern(uint64_t salt, int which, size_t i) {
  uint64_t bits = random_hash(salt + ((uint64_t)which << 40) + i);
  return list_bytes[which] == 8 ? bits : bits & ((UINT64_C(1) << (8 * list_bytes[which])) - 1);
}

static void fill(lists *l, int which, uint64_t salt) {
  for (size_t i = 0; i < l->of[which].room; i++) set_item(l, which, i, pattern(salt, which, i));
}

static void take_list(lists *l, int which, size_t length, size_t room) {
  l->of[which].at = taken(room * list_bytes[which]);
  l->of[which].length = length;
  l->of[which].room = room;
}

static void copy_graph(lists *l, const graph *g) {
  memcpy(l->of[STARTS].at, g->starts, (g->rows + 1) * 8);
  memcpy(l->of[COLUMNS].at, g->columns, g->entries * 4);
  memcpy(l->of[VALUES].at, g->values, g->entries * 8);
}

/* How many entries a list has behind those that are needed. One Ritz record in sixteen has room for the most rounds, so that requests with
 * more rounds than the graph's are taken as well. */
static size_t more_of(const graph *g, int which, uint64_t salt) {
  uint64_t drawn = random_hash(salt ^ (uint64_t)which);
  size_t more = which < LENT ? 2 : 1 + drawn % 5;
  if (which == RITZ_RECORD && drawn / 5 % 16 == 0) more += (1000 - g->rounds) * reading_record_width(g->dims);
  return more;
}

/* A graph's lists are offered at their own length and have two more entries behind them; lent memory is offered whole. */
void lists_new(lists *l, const graph *g, uint64_t salt) {
  size_t need[LISTS];
  reading_sizes(need, g->dims, g->rounds, g->rows, g->entries);
  for (int which = 0; which < LISTS; which++) {
    size_t more = more_of(g, which, salt);
    take_list(l, which, which < LENT ? need[which] : need[which] + more, need[which] + more);
    fill(l, which, salt);
  }
  copy_graph(l, g);
}

void lists_like(lists *l, const lists *other) {
  for (int which = 0; which < LISTS; which++) take_list(l, which, other->of[which].length, other->of[which].room);
}

void lists_copy(lists *to, const lists *from) {
  for (int which = 0; which < LISTS; which++) memcpy(to->of[which].at, from->of[which].at, from->of[which].room * list_bytes[which]);
}

void lists_free(lists *l) {
  for (int which = 0; which < LISTS; which++) free(l->of[which].at);
}

size_t lists_total_bytes(const lists *l) {
  size_t bytes = 0;
  for (int which = 0; which < LISTS; which++) bytes += l->of[which].room * list_bytes[which];
  return bytes;
}

int lists_first_other(const lists *a, const lists *b) {
  int which = 0;
  while (which < LISTS && !memcmp(a->of[which].at, b->of[which].at, a->of[which].room * list_bytes[which])) which++;
  return which;
}

static int is_overrun(const lists *l, int which, size_t need, uint64_t salt) {
  for (size_t i = need; i < l->of[which].room; i++)
    if (item(l, which, i) != pattern(salt, which, i)) return 1;
  return 0;
}

int lists_first_overrun(const lists *l, const size_t need[LISTS], uint64_t salt) {
  int which = 0;
  while (which < LISTS && !is_overrun(l, which, need[which], salt)) which++;
  return which;
}

static int is_nan_bits(uint64_t bits) { return (bits & UINT64_C(0x7fffffffffffffff)) > UINT64_C(0x7ff0000000000000); }

int is_same(int which, uint64_t a, uint64_t b) {
  if (a == b) return 1;
  return which != STARTS && list_bytes[which] == 8 && is_nan_bits(a) && is_nan_bits(b);
}
