#include "report.h"

#include <stdarg.h>
#include <string.h>

enum { MOST_SHOWN = 20, MOST_NAMES = 128 };

report told_report;

static const char *const family_names[FAMILIES] = {"neighbours", "ring",  "blocks",     "empty",    "negative", "huge",
                                                   "tiny",       "mixed", "minus-zero", "shuffled", "twice",    "asymmetric",
                                                   "regular",    "small", "dense",      "overflow"};

void differ(const char *kind, const char *format, ...) {
  va_list arguments;
  const graph *g = told_report.at_hand;
  if (told_report.differences++ >= MOST_SHOWN) return;
  va_start(arguments, format);
  printf("DIFFERENCE %s: ", kind);
  vprintf(format, arguments);
  va_end(arguments);
  if (g)
    printf(
        "; graph %llu (%s, D=%llu n=%llu entries=%llu rounds=%llu degree=%llu seed_std=%a): again with oracle/compare --from %llu --count "
        "1",
        (unsigned long long)g->number, family_names[g->family], (unsigned long long)g->dims, (unsigned long long)g->rows,
        (unsigned long long)g->entries, (unsigned long long)g->rounds, (unsigned long long)g->degree, g->seed_std,
        (unsigned long long)g->number);
  printf("\n");
  fflush(stdout);
}

/* ---- damages by name */

typedef struct {
  const char *name;
  uint64_t accepted[CALL_KINDS], refused[CALL_KINDS];
} tally;

static tally by_name[MOST_NAMES];
static int names;

static int compare_names(const void *a, const void *b) { return strcmp(((const tally *)a)->name, ((const tally *)b)->name); }

void count_damage(const char *name, enum call_kind kind, int is_accepted) {
  int i = 0;
  while (i < names && by_name[i].name != name && strcmp(by_name[i].name, name)) i++;
  if (i == MOST_NAMES) fail("more kinds of damage than were planned");
  if (i == names) by_name[names++].name = name;
  if (is_accepted)
    by_name[i].accepted[kind]++;
  else
    by_name[i].refused[kind]++;
}

/* ---- the summary */

static unsigned long long of(uint64_t x) { return x; }

static void print_family(const char *name, const uint64_t row[SKIPS], uint64_t same) {
  printf("  %-42s %10llu %16llu %8llu %12llu %25llu\n", name, of(row[COMPARED]), of(row[SKIPPED_TWICE]), of(row[SKIPPED_NAN]),
         of(row[SKIPPED_NOT_FALLING]), of(same));
}

static uint64_t sum_of(enum skip skip) {
  uint64_t sum = 0;
  for (int f = 0; f < FAMILIES; f++) sum += told_report.by_family[f][skip];
  return sum;
}

static void print_families(void) {
  const uint64_t sums[SKIPS] = {sum_of(COMPARED), sum_of(SKIPPED_TWICE), sum_of(SKIPPED_NAN), sum_of(SKIPPED_NOT_FALLING)};
  uint64_t same = 0;
  printf("\nThe one call against the Rust, bit for bit     compared   skipped: twice      NaN  not falling   (skipped, yet the same)\n");
  for (int f = 0; f < FAMILIES; f++) {
    print_family(family_names[f], told_report.by_family[f], told_report.same_though_skipped[f]);
    same += told_report.same_though_skipped[f];
  }
  print_family("all", sums, same);
}

static void print_rounds(void) {
  const report *r = &told_report;
  printf(
      "\nThe one call's Ritz record against the Rust's, in rounds: compared bit for bit %llu, and with a tie, zeros of either sign alike, "
      "%llu; skipped: a column twice %llu, a NaN in the run %llu (skipped, yet the same %llu)\n",
      of(r->rounds[ROUND_WHOLE]), of(r->rounds[ROUND_TIE]), of(r->rounds[ROUND_TWICE]), of(r->rounds[ROUND_NAN]),
      of(r->rounds_same_though_skipped));
}

static void print_isolated(void) {
  const report *r = &told_report;
  printf(
      "\nIsolated rows, counted by the Rust and by a second reading: in %llu graphs; some that have entries in %llu; some with a NaN for a "
      "root in %llu, with entries and a root of at most 1e-12 in %llu\n",
      of(r->isolated), of(r->isolated_with_entries), of(r->isolated_no_root), of(r->isolated_low_root));
}

static void print_row(const char *name, const uint64_t *counts, const char *const *labels, int count) {
  printf("  by %s:", name);
  for (int i = 0; i < count; i++) printf("  %s: %llu", labels[i], of(counts[i]));
  printf("\n");
}

static void print_sizes(void) {
  static const char *const dims[] = {"1", "2", "3", "4", "5", "6", "7"};
  static const char *const chunks[] = {"1", "2", "3", "4", "5", "more"};
  static const char *const rows[] = {"to 64", "to 1,000", "to 4,096", "to 20,000", "more"};
  const report *r = &told_report;
  printf("Graphs %llu, of which with the default parameters %llu; most rows %llu\n", of(r->graphs), of(r->defaults), of(r->most_rows));
  print_row("D", r->by_dims + 1, dims, 7);
  print_row("rows", r->by_rows, rows, 5);
  print_row("chunks", r->by_chunks + 1, chunks, 6);
}

static void print_refusals(const uint64_t counts[REFUSALS]) {
  for (int i = 0; i < REFUSALS; i++)
    if (counts[i]) printf("  %d: %llu", i, of(counts[i]));
  printf("\n");
}

static void print_held(void) {
  const report *r = &told_report;
  printf(
      "\nHeld runs against the one call, in every list: %llu; stages closed %llu; calls accepted %llu; gone on with in other memory %llu "
      "times\n",
      of(r->held_runs), of(r->held_stages), of(r->accepted_calls), of(r->moves));
  printf(
      "  the Ritz record looked at after each of these calls; closings of products, damaged ones among them, held to their states %llu\n",
      of(r->record_closings));
  printf("Refused calls among them, by number:");
  print_refusals(r->refused_calls);
}

static void print_tally(const tally *t) {
  printf("    %-40s", t->name);
  for (int kind = 0; kind < CALL_KINDS; kind++) printf(" %8llu/%-7llu", of(t->refused[kind]), of(t->accepted[kind]));
  printf("\n");
}

static void print_by_name(void) {
  printf("  damage                    refused/accepted:        one call             open            chunk            close\n");
  qsort(by_name, (size_t)names, sizeof *by_name, compare_names);
  for (int i = 0; i < names; i++) print_tally(&by_name[i]);
}

static void print_damages(void) {
  const report *r = &told_report;
  printf("\nDamaged calls %llu (of which with two damages at once %llu); setters and sizes %llu\n", of(r->damaged), of(r->damaged_twice),
         of(r->numbers_calls));
  for (int kind = 0; kind < CALL_KINDS; kind++) {
    printf("  %-9s answers by number (0 accepted):", call_names[kind]);
    print_refusals(r->damaged_answers[kind]);
  }
  print_by_name();
}

void report_print(void) {
  print_sizes();
  print_families();
  print_rounds();
  print_isolated();
  print_held();
  print_damages();
  printf("\nDifferences: %llu\n", of(told_report.differences));
}

/* ---- the self-test */

static const char *chosen;
static int is_done;

void break_choose(const char *kind) { chosen = kind; }

int breaks(const char *kind) {
  if (!chosen || is_done || strcmp(chosen, kind)) return 0;
  return is_done = 1;
}

int breaks_list(const char *kind, int which) {
  char whole[64];
  if (!chosen || is_done) return 0;
  snprintf(whole, sizeof whole, "%s:%d", kind, which);
  return breaks(whole);
}
