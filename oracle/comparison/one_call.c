#include "one_call.h"

#include <string.h>

#include "isolated.h"
#include "lent.h"
#include "reading.h"
#include "record.h"
#include "report.h"

void request_of(call *c, const graph *g, const lists *l) {
  threshcinch_set rounds = threshcinch_params_rounds(threshcinch_params_new(), g->rounds);
  threshcinch_set degree = threshcinch_params_degree(rounds.params, g->degree);
  threshcinch_set seed_std = threshcinch_params_seed_std(degree.params, g->seed_std);
  threshcinch_params due = {g->rounds, g->degree, g->seed_std};
  if (memcmp(&seed_std.params, &due, sizeof due)) differ("setter", "the setters give other parameters");
  memset(c, 0, sizeof *c);
  c->kind = EMBED;
  c->dims = g->dims;
  c->params = due;
  c->lists = *l;
}

static enum skip skip_of(const graph *g) {
  if (g->twice) return SKIPPED_TWICE;
  if (g->nan) return SKIPPED_NAN;
  return g->falls ? COMPARED : SKIPPED_NOT_FALLING;
}

int is_rusts(const graph *g, uint64_t ours, uint64_t rusts) {
  if (is_same(OUTPUT, ours, rusts)) return 1;
  return g->empty && (ours << 1) == 0 && (rusts << 1) == 0;
}

static size_t first_other(const graph *g, const lists *l) {
  lists rust;
  rust.of[OUTPUT].at = g->seed;
  size_t i = 0, count = g->rows * g->dims;
  while (i < count && is_rusts(g, item(l, OUTPUT, i), item(&rust, OUTPUT, i))) i++;
  return i;
}

static void compare_seed(const graph *g, const lists *l, enum skip skip) {
  size_t i = first_other(g, l), count = g->rows * g->dims;
  uint64_t rusts = 0;
  if (i == count) {
    told_report.same_though_skipped[g->family] += skip != COMPARED;
    return;
  }
  if (skip != COMPARED) return;
  memcpy(&rusts, &g->seed[i], sizeof rusts);
  differ("seed", "number %zu of the seed is %016llx, the Rust's %016llx", i, (unsigned long long)item(l, OUTPUT, i),
         (unsigned long long)rusts);
}

static void compare_count(const char *name, size_t ours, size_t due) {
  if (ours != due) differ("count", "%s is %zu, not %zu", name, ours, due);
}

/* Refreshed and zeroed follow the bits, so they are promised where the bits are. Isolated rows are the Rust's and the second reading's. */
static void compare_counts(const graph *g, const threshcinch_counts *counts, enum skip skip) {
  compare_count("passes", counts->passes, g->counts.passes);
  compare_count("isolated", counts->isolated, g->counts.isolated);
  compare_count("isolated, as the graph has it,", counts->isolated, isolated_rows(g->starts, g->values, g->rows));
  if (skip != COMPARED) return;
  compare_count("refreshed", counts->refreshed, g->counts.refreshed);
  compare_count("zeroed", counts->zeroed, g->counts.zeroed);
}

static void compare_rest(const graph *g, lists *l, uint64_t salt) {
  size_t need[LISTS];
  reading_sizes(need, g->dims, g->rounds, g->rows, g->entries);
  for (int which = LENT; which < LISTS; which++)
    if (breaks_list("overrun", which)) set_item(l, which, need[which], item(l, which, need[which]) ^ 1);
  int which = lists_first_overrun(l, need, salt);
  if (which < LISTS) differ("overrun", "the one call wrote behind its part of %s", list_names[which]);
  int is_kept = !memcmp(l->of[STARTS].at, g->starts, (g->rows + 1) * 8) && !memcmp(l->of[COLUMNS].at, g->columns, g->entries * 4) &&
                !memcmp(l->of[VALUES].at, g->values, g->entries * 8);
  if (!is_kept) differ("graph changed", "the one call changed the graph");
}

/* The faults of a count that leaves out the rows whose root is NaN, or those that have entries. */
static void break_isolated(const graph *g, size_t *count) {
  size_t empty = rows_without_entries(g->starts, g->rows), no_root = rows_without_root(g->starts, g->values, g->rows);
  if (breaks("isolated")) ++*count;
  if (no_root && breaks("isolated-nan")) *count -= no_root;
  if (*count != empty && breaks("isolated-empty")) *count = empty;
}

static void break_some(const graph *g, lists *l, outcome *out, enum skip skip) {
  if (skip == COMPARED && breaks("seed")) set_item(l, OUTPUT, g->rows * g->dims - 1, item(l, OUTPUT, g->rows * g->dims - 1) ^ 1);
  if (breaks("passes")) out->counts.passes++;
  break_isolated(g, &out->counts.isolated);
  if (skip == COMPARED && breaks("refreshed")) out->counts.refreshed++;
  if (skip == COMPARED && breaks("zeroed")) out->counts.zeroed++;
  for (int which = 0; which < LENT; which++)
    if (g->entries && breaks_list("graph-wrote", which)) set_item(l, which, 0, item(l, which, 0) ^ 1);
}

int one_call(const graph *g, lists *l, uint64_t salt, threshcinch_counts *counts) {
  call c;
  outcome out;
  enum skip skip = skip_of(g);
  request_of(&c, g, l);
  call_make(&c, &out);
  break_some(g, l, &out, skip);
  told_report.by_family[g->family][skip]++;
  if (out.verdict.number || out.verdict.place) {
    differ("verdict", "the one call answers %llu at %llu", (unsigned long long)out.verdict.number, (unsigned long long)out.verdict.place);
    return 0;
  }
  compare_seed(g, l, skip);
  compare_counts(g, &out.counts, skip);
  record_compare(g, l, salt);
  compare_rest(g, l, salt);
  *counts = out.counts;
  return 1;
}
