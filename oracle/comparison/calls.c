#include "calls.h"

const char *const call_names[CALL_KINDS] = {"one call", "open", "chunk", "close"};

const char *const list_names[LISTS] = {"starts",  "columns", "values",  "inverse weights", "v0",    "edge columns", "edge weights",
                                       "block 0", "block 1", "block 2", "partials",        "marks", "output",       "ritz record"};

const size_t list_bytes[LISTS] = {8, 4, 8, 8, 8, 4, 8, 8, 8, 8, 8, 1, 8, 8};

#define AT(which) l->of[which].at, l->of[which].length
#define ALL_LISTS                                                                                                                   \
  AT(STARTS), AT(COLUMNS), AT(VALUES), AT(INVERSE), AT(V0), AT(EDGE_COLUMNS), AT(EDGE_WEIGHTS), AT(BLOCK0), AT(BLOCK1), AT(BLOCK2), \
      AT(PARTIALS), AT(MARKS), AT(OUTPUT), AT(RITZ_RECORD)

static void take(outcome *out, const threshcinch_answer *answer) {
  out->verdict = answer->verdict;
  out->state = answer->state;
}

void call_make(const call *c, outcome *out) {
  const lists *l = &c->lists;
  threshcinch_answer answer;
  switch (c->kind) {
    case OPEN:
      answer = threshcinch_open(c->dims, c->params, ALL_LISTS);
      take(out, &answer);
      return;
    case CHUNK:
      answer = threshcinch_chunk(c->state, c->number, ALL_LISTS);
      take(out, &answer);
      return;
    case CLOSE:
      answer = threshcinch_close(c->state, ALL_LISTS);
      take(out, &answer);
      return;
    default: {
      threshcinch_embedded embedded = threshcinch_spectral_embedding(c->dims, c->params, ALL_LISTS);
      out->verdict = embedded.verdict;
      out->counts = embedded.counts;
    }
  }
}

uint64_t item(const lists *l, int which, size_t i) {
  const void *at = l->of[which].at;
  switch (list_bytes[which]) {
    case 8:
      return ((const uint64_t *)at)[i];
    case 4:
      return ((const uint32_t *)at)[i];
    default:
      return ((const uint8_t *)at)[i];
  }
}

void set_item(lists *l, int which, size_t i, uint64_t bits) {
  void *at = l->of[which].at;
  switch (list_bytes[which]) {
    case 8:
      ((uint64_t *)at)[i] = bits;
      return;
    case 4:
      ((uint32_t *)at)[i] = (uint32_t)bits;
      return;
    default:
      ((uint8_t *)at)[i] = (uint8_t)bits;
  }
}
