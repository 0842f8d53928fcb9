/* compare: reads what `oracle stream` writes and holds the library to it; oracle/README.md says what is compared.
 *
 *   compare [--limits] [--damaged N] [--first] [--break KIND] < STREAM
 *                              --limits also tries as many entries as are allowed; --damaged asks for at least so many damaged calls;
 *                              --first ends behind the first graph with a difference
 *   compare --breaks           the kinds of fault that the self-test can put in
 *
 * Status 0: no difference. 1: some. 2: the stream is cut short or not such a stream, or there is no memory. */
#include <string.h>

#include "damage.h"
#include "held.h"
#include "isolated.h"
#include "lent.h"
#include "one_call.h"
#include "random.h"
#include "reading.h"
#include "report.h"

enum { SMALL_ROWS = 1000, SMALL_REQUESTS = 4, SMALL_STEPS = 8, LARGE_REQUESTS = 2, LARGE_STEPS = 6, TOLD_EVERY = 5000 };

/* The faults of the self-test; where a list or a kind of call is broken, the first and the last number of one. */
static const struct {
  const char *kind;
  int first, last;
} breakages[] = {{"seed", 0, 0},
                 {"passes", 0, 0},
                 {"isolated", 0, 0},
                 {"isolated-nan", 0, 0},
                 {"isolated-empty", 0, 0},
                 {"refreshed", 0, 0},
                 {"zeroed", 0, 0},
                 {"graph-wrote", STARTS, VALUES},
                 {"overrun", INVERSE, RITZ_RECORD},
                 {"held", STARTS, RITZ_RECORD},
                 {"held-overrun", INVERSE, RITZ_RECORD},
                 {"held-counts", 0, 0},
                 {"held-isolated-left", 0, 0},
                 {"held-isolated-nan", 0, 0},
                 {"held-isolated-empty", 0, 0},
                 {"held-isolated-later", 0, 0},
                 {"accepted-calls", 0, 0},
                 {"calls", 0, 0},
                 {"no-calls", 0, 0},
                 {"stage", 0, 0},
                 {"counted", 0, 0},
                 {"range", 0, 0},
                 {"number", 0, 0},
                 {"place", 0, 0},
                 {"accepted", 0, 0},
                 {"zero-counts", 0, 0},
                 {"empty-state", 0, 0},
                 {"opened-state", 0, 0},
                 {"opened-isolated", 0, 0},
                 {"close-isolated-added", 0, 0},
                 {"close-isolated-at", 0, 0},
                 {"close-isolated-above", 0, 0},
                 {"close-isolated-behind", 0, 0},
                 {"kept-state", 0, 0},
                 {"chunk-state", 0, 0},
                 {"refused-wrote", STARTS, RITZ_RECORD},
                 {"chunk-wrote", STARTS, RITZ_RECORD},
                 {"close-wrote", STARTS, RITZ_RECORD},
                 {"run-wrote", STARTS, RITZ_RECORD},
                 {"setter", 0, 0},
                 {"sizes", 0, 0},
                 {"sizes-rounds", 0, 0},
                 {"chunks", 0, 0},
                 {"record-bound", 0, 0},
                 {"record-order", 0, 0},
                 {"record-bit", 0, 0},
                 {"record-unwritten", 0, 0},
                 {"record-unwritten-skipped", 0, 0},
                 {"record-tie", 0, 0},
                 {"held-record-bound", 0, 0},
                 {"held-record-diagonal", 0, 0},
                 {"held-record-unwritten", 0, 0},
                 {"held-order", 0, 0},
                 {"held-record-early", 0, 0},
                 {"held-record-closed", 0, 0},
                 {"close-record", 0, 0},
                 {"record-short", EMBED, CLOSE},
                 {"record-empty", EMBED, CLOSE}};

static void print_breakage(const char *kind, int first, int last) {
  if (last == 0) printf("%s\n", kind);
  for (int which = first; last > 0 && which <= last; which++) printf("%s:%d\n", kind, which);
}

/* which of the bands of row counts */
static int band_of(size_t rows) { return rows <= 64 ? 0 : rows <= 1000 ? 1 : rows <= 4096 ? 2 : rows <= 20000 ? 3 : 4; }

static void count_isolated(const graph *g) {
  size_t all = isolated_rows(g->starts, g->values, g->rows), empty = rows_without_entries(g->starts, g->rows);
  size_t no_root = rows_without_root(g->starts, g->values, g->rows);
  told_report.isolated += all > 0;
  told_report.isolated_with_entries += all > empty;
  told_report.isolated_no_root += no_root > 0;
  told_report.isolated_low_root += all > empty + no_root;
}

static void count_graph(const graph *g) {
  size_t chunks = reading_chunks(g->rows);
  told_report.graphs++;
  told_report.defaults += g->rounds == 5 && g->degree == 20 && g->seed_std == 1e-4;
  told_report.by_dims[g->dims]++;
  told_report.by_rows[band_of(g->rows)]++;
  told_report.by_chunks[chunks < 6 ? chunks : 6]++;
  if (told_report.most_rows < g->rows) told_report.most_rows = g->rows;
  count_isolated(g);
}

static void try_requests(const graph *g, lists *now, random_source *random) {
  lists before;
  call c;
  lists_like(&before, now);
  lists_copy(&before, now);
  request_of(&c, g, now);
  damage_requests(&c, now, &before, random, g->rows <= SMALL_ROWS ? SMALL_REQUESTS : LARGE_REQUESTS);
  if (lists_first_other(now, &before) < LISTS) fail("the lists were not mended");
  lists_free(&before);
}

static void compare_graph(const graph *g) {
  random_source random = {random_hash(g->number)};
  uint64_t one_salt = random_next(&random), held_salt = random_next(&random);
  threshcinch_counts counts;
  lists one;
  told_report.at_hand = g;
  count_graph(g);
  lists_new(&one, g, one_salt);
  if (one_call(g, &one, one_salt, &counts))
    held_run(g, &one, one_salt, &counts, held_salt, g->rows <= SMALL_ROWS ? SMALL_STEPS : LARGE_STEPS);
  try_requests(g, &one, &random);
  damage_numbers(&random, 1);
  lists_free(&one);
}

static void compare_stream(FILE *in, int ends_at_first) {
  uint64_t from, count;
  graph g;
  stream_begin(in, &from, &count);
  for (uint64_t i = 0; i < count; i++) {
    if (ends_at_first && told_report.differences) return;
    stream_graph(in, &g);
    if (g.number != from + i)
      fail("the stream has graph %llu where %llu must be", (unsigned long long)g.number, (unsigned long long)(from + i));
    compare_graph(&g);
    graph_free(&g);
    if ((i + 1) % TOLD_EVERY == 0)
      fprintf(stderr, "%llu graphs, %llu differences\n", (unsigned long long)(i + 1), (unsigned long long)told_report.differences);
  }
  stream_end(in, count);
}

static void print_breakages(void) {
  for (size_t i = 0; i < sizeof breakages / sizeof *breakages; i++)
    print_breakage(breakages[i].kind, breakages[i].first, breakages[i].last);
}

typedef struct {
  int has_limits, wants_breakages, ends_at_first;
  uint64_t least_damaged;
} options;

static options read_options(int count, char **words) {
  options o = {0, 0, 0, 0};
  for (int i = 1; i < count; i++) {
    int has_next = i + 1 < count;
    if (!strcmp(words[i], "--breaks"))
      o.wants_breakages = 1;
    else if (!strcmp(words[i], "--limits"))
      o.has_limits = 1;
    else if (!strcmp(words[i], "--first"))
      o.ends_at_first = 1;
    else if (!strcmp(words[i], "--damaged") && has_next)
      o.least_damaged = strtoull(words[++i], NULL, 10);
    else if (!strcmp(words[i], "--break") && has_next)
      break_choose(words[++i]);
    else
      fail("%s is not understood: compare [--limits] [--damaged N] [--first] [--break KIND] < STREAM", words[i]);
  }
  return o;
}

int main(int count, char **words) {
  options o = read_options(count, words);
  if (o.wants_breakages) {
    print_breakages();
    return 0;
  }
  setvbuf(stdin, NULL, _IOFBF, 1 << 20);
  if (o.has_limits) damage_at_most_entries();
  compare_stream(stdin, o.ends_at_first);
  report_print();
  if (told_report.damaged < o.least_damaged)
    fail("fewer damaged calls than the %llu that were asked for", (unsigned long long)o.least_damaged);
  return told_report.differences ? 1 : 0;
}
