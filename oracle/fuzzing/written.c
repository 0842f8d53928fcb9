#include "written.h"

#include <string.h>

#include "proved.h"
#include "reading.h"

static threshcinch_verdict refusal(uint64_t number, uint64_t place) {
  threshcinch_verdict v = {number, place};
  return v;
}

/* "then 18, text room too small, at 0" */
threshcinch_verdict written_in_room(threshcinch_verdict v, size_t length, size_t room) {
  return v.number == 0 && room < length ? refusal(18, 0) : v;
}

/* ---- run files */

/* "17, where the graph or rounds exceed the program's sizes, with the first line that would hold them, tested first; then 1 to 10" */
threshcinch_verdict written_run_verdict(const call *c) {
  const list *of = c->lists.of;
  if (c->params.rounds > MOST_ROUNDS) return refusal(17, 2);
  if (of[STARTS].length > MOST_STARTS) return refusal(17, 5);
  if (of[COLUMNS].length > MOST_ENTRIES) return refusal(17, 6);
  if (of[VALUES].length > MOST_ENTRIES) return refusal(17, 7);
  return reading_file(c);
}

static unsigned long long bits_of(double x) {
  uint64_t bits;
  memcpy(&bits, &x, sizeof bits);
  return bits;
}

/* Far over what a run file has, nobody looks at the rest. */
enum { MOST_PRINTED = 1200 };

static void add_list(text *t, const char *name, const lists *l, int which) {
  text_add_words(t, "%s=", name);
  for (size_t i = 0; i < l->of[which].length && i < MOST_PRINTED; i++) {
    unsigned long long number = item(l, which, i);
    if (i) text_add_words(t, ",");
    if (which == VALUES)
      text_add_words(t, "%016llx", number);
    else
      text_add_words(t, "%llu", number);
  }
  text_add_words(t, "\n");
}

void written_run(text *t, const call *c) {
  t->length = 0;
  text_add_words(t, "d=%llu\nrounds=%llu\ndegree=%llu\nseed_std=%016llx\n", (unsigned long long)c->dims,
                 (unsigned long long)c->params.rounds, (unsigned long long)c->params.degree, bits_of(c->params.seed_std));
  add_list(t, "starts", &c->lists, STARTS);
  add_list(t, "columns", &c->lists, COLUMNS);
  add_list(t, "values", &c->lists, VALUES);
}

/* ---- answers */

enum { MOST_DIMS = 7, MOST_ROWS = 64 };

/* "unless it prints a refusal, tests D by 1, n = 0 by 2, n over 64 by 17 at 0, a short seed by 11 at 9" */
threshcinch_verdict written_answer_verdict(const answer_parts *a) {
  if (a->verdict.number) return refusal(0, 0);
  if (a->d < 1 || a->d > MOST_DIMS) return refusal(1, 0);
  if (a->rows == 0) return refusal(2, 0);
  if (a->rows > MOST_ROWS) return refusal(17, 0);
  if (a->seed_length < a->rows * a->d) return refusal(11, 9);
  return refusal(0, 0);
}

/* "a NaN always as 7ff8000000000000" */
static unsigned long long printed_bits(double x) { return x != x ? 0x7ff8000000000000ull : bits_of(x); }

static void add_rows(text *t, const answer_parts *a) {
  for (size_t i = 0; i < a->rows * a->d; i++)
    text_add_words(t, "%s%016llx%s", i % a->d ? "," : "row=", printed_bits(a->seed[i]), i % a->d + 1 == a->d ? "\n" : "");
}

void written_answer(text *t, const answer_parts *a) {
  const threshcinch_counts *c = &a->counts;
  t->length = 0;
  if (written_answer_verdict(a).number) return;
  if (a->verdict.number) {
    text_add_words(t, "answer=%llu\nat=%llu\n", (unsigned long long)a->verdict.number, (unsigned long long)a->verdict.place);
    return;
  }
  text_add_words(t, "answer=0\nn=%zu\npasses=%zu\nrefreshed=%zu\nzeroed=%zu\nisolated=%zu\n", a->rows, c->passes, c->refreshed, c->zeroed,
                 c->isolated);
  add_rows(t, a);
}
