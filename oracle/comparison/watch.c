#include "watch.h"

#include <string.h>

#include "isolated.h"
#include "reading.h"
#include "record.h"
#include "report.h"

enum { DEGREES = 1 };

/* What an accepted chunk call may write: entries from first up to last; where `width` is not 0, one column of rows of that width. */
typedef struct {
  int which;
  size_t first, last;
  size_t width, column;
} region;

/* ---- document 01: which entries a stage's chunk work writes */

/* the first block in lent order that a pass does not read */
static int free_block(const threshcinch_progress *p, size_t other) {
  int block = 0;
  while (p->current == (size_t)block || other == (size_t)block) block++;
  return BLOCK0 + block;
}

static size_t partial_width(const threshcinch_state *s) {
  size_t k = s->asked.dims + 8;
  switch (s->progress.stage) {
    case 6:
    case 11:
      return 1;
    case 7:
    case 9:
      return s->progress.column + 1;
    case 14:
      return k * k;
    default:
      return s->asked.dims;
  }
}

static region region_of(int which, size_t first, size_t last) {
  region r = {which, first, last, 0, 0};
  return r;
}

static region column_region(const threshcinch_state *s, size_t a, size_t b) {
  size_t k = s->asked.dims + 8;
  region r = {BLOCK0 + (int)s->progress.current, a * k, b * k, k, s->progress.column};
  return r;
}

static region partial_region(const threshcinch_state *s, size_t number) {
  size_t k = s->asked.dims + 8, first = number * k * k;
  return region_of(PARTIALS, first, first + partial_width(s));
}

/* The first region; degrees and edges write a second list at the same places. `previous` is the current block where the pass is a
 * round's first, in every state that a run reaches. */
static region written(const call *c, int *second) {
  const threshcinch_state *s = &c->state;
  const uint64_t *starts = c->lists.of[STARTS].at;
  size_t k = s->asked.dims + 8, rows = s->asked.rows, dims = s->asked.dims;
  size_t a = c->number * 4096, b = a + 4096 < rows ? a + 4096 : rows;
  *second = LISTS;
  switch (s->progress.stage) {
    case 1:
      *second = V0;
      return region_of(INVERSE, a, b);
    case 2:
      *second = EDGE_WEIGHTS;
      return region_of(EDGE_COLUMNS, starts[a], starts[b]);
    case 3:
      return region_of(V0, a, b);
    case 4:
      return region_of(BLOCK0, a * k, b * k);
    case 5:
      return region_of(free_block(&s->progress, s->progress.previous), a * k, b * k);
    case 13:
      return region_of(free_block(&s->progress, s->progress.current), a * k, b * k);
    case 8:
    case 10:
    case 12:
      return column_region(s, a, b);
    case 15:
    case 17:
    case 19:
      return region_of(OUTPUT, a * dims, b * dims);
    default:
      return partial_region(s, c->number);
  }
}

/* ---- comparing with the copy */

static int is_part_kept(const lists *now, const lists *before, int which, size_t first, size_t last) {
  size_t bytes = list_bytes[which];
  const char *a = now->of[which].at, *b = before->of[which].at;
  return first >= last || !memcmp(a + first * bytes, b + first * bytes, (last - first) * bytes);
}

static int is_list_kept(const lists *now, const lists *before, int which) {
  return is_part_kept(now, before, which, 0, now->of[which].room);
}

static int are_other_columns_kept(const lists *now, const lists *before, const region *r) {
  for (size_t i = r->first; r->width && i < r->last; i += r->width) {
    if (!is_part_kept(now, before, r->which, i, i + r->column)) return 0;
    if (!is_part_kept(now, before, r->which, i + r->column + 1, i + r->width)) return 0;
  }
  return 1;
}

static int is_region_kept_to(const lists *now, const lists *before, region r, int which) {
  r.which = which;
  return is_part_kept(now, before, which, 0, r.first) && is_part_kept(now, before, which, r.last, now->of[which].room) &&
         are_other_columns_kept(now, before, &r);
}

static int is_mark_set(const lists *now, const lists *before, size_t number) {
  return item(now, MARKS, number) == 1 && is_part_kept(now, before, MARKS, 0, number) &&
         is_part_kept(now, before, MARKS, number + 1, now->of[MARKS].room);
}

static int are_marks_cleared(const lists *now, const lists *before, size_t chunks) {
  for (size_t i = 0; i < chunks; i++)
    if (item(now, MARKS, i)) return 0;
  return is_part_kept(now, before, MARKS, chunks, now->of[MARKS].room);
}

static void check_kept(const lists *now, const lists *before, int which, const char *words) {
  if (!is_list_kept(now, before, which)) differ("memory changed", "%s changed %s", words, list_names[which]);
}

static void check_all_kept(const lists *now, const lists *before, const char *words) {
  for (int which = 0; which < LISTS; which++) check_kept(now, before, which, words);
}

/* ---- the calls */

static void check_chunk_work(const call *c, const lists *now, const lists *before, const char *words) {
  int second;
  region r = written(c, &second);
  for (int which = 0; which < LISTS; which++) {
    if (which == MARKS) continue;
    int is_right = which == r.which || which == second ? is_region_kept_to(now, before, r, which) : is_list_kept(now, before, which);
    if (!is_right)
      differ("chunk work elsewhere", "%s in stage %zu, chunk %zu, wrote elsewhere in %s", words, c->state.progress.stage, c->number,
             list_names[which]);
  }
  if (!is_mark_set(now, before, c->number)) differ("marks", "%s did not set its own mark alone", words);
}

/* Lent memory is written as far as the run needs it. */
static void check_run_work(const call *c, const lists *now, const lists *before, const char *words) {
  size_t need[LISTS], rows = c->lists.of[STARTS].length - 1;
  reading_sizes(need, c->dims, c->params.rounds, rows, c->lists.of[COLUMNS].length);
  for (int which = 0; which < LISTS; which++) {
    size_t from = which < LENT ? 0 : need[which];
    if (!is_part_kept(now, before, which, from, now->of[which].room))
      differ("overrun", "%s wrote behind its part of %s", words, list_names[which]);
  }
  if (!are_marks_cleared(now, before, reading_chunks(rows))) differ("marks", "%s did not leave its marks at 0", words);
}

/* "set as the degrees close", whatever stood there; no other closing touches it */
size_t isolated_closed(const threshcinch_state *old, const lists *l) {
  return old->progress.stage == DEGREES ? isolated_roots(l->of[V0].at, old->asked.rows) : old->counts.isolated;
}

/* Nothing is counted yet. */
threshcinch_state opened_state(const call *c) {
  threshcinch_state s = reading_empty_state();
  threshcinch_asked asked = {
      c->dims, c->lists.of[STARTS].length - 1, c->lists.of[COLUMNS].length, c->params.rounds, c->params.degree, c->params.seed_std};
  s.asked = asked;
  s.progress.stage = DEGREES;
  return s;
}

/* Closing the products writes its round's places of the Ritz record, and nothing beside them; opening and every other closing write none.
 */
static void check_record(const call *c, const outcome *out, const lists *now, const lists *before, const char *words) {
  if (c->kind != CLOSE || !record_is_written(&c->state)) {
    check_kept(now, before, RITZ_RECORD, words);
    return;
  }
  size_t first = record_place(&c->state), last = first + reading_record_width(c->state.asked.dims);
  if (!is_region_kept_to(now, before, region_of(RITZ_RECORD, first, last), RITZ_RECORD))
    differ("record", "%s wrote to the Ritz record beside the places of round %zu", words, c->state.progress.round);
  record_check_closing(&c->state, &out->state, now, words);
}

static void check_accepted(const call *c, const outcome *out, const lists *now, const lists *before, const char *words) {
  switch (c->kind) {
    case EMBED:
      check_run_work(c, now, before, words);
      return;
    case CHUNK:
      check_chunk_work(c, now, before, words);
      return;
    default:
      break;
  }
  size_t rows = c->kind == OPEN ? c->lists.of[STARTS].length - 1 : c->state.asked.rows;
  for (int which = 0; which < MARKS; which++) check_kept(now, before, which, words);
  check_kept(now, before, OUTPUT, words);
  check_record(c, out, now, before, words);
  if (!are_marks_cleared(now, before, reading_chunks(rows))) differ("marks", "%s did not clear the first marks alone", words);
}

/* ---- what is answered beside the verdict */

static int is_state(const threshcinch_state *a, const threshcinch_state *b) { return !memcmp(a, b, sizeof *a); }

static int are_counts_right(const call *c, const threshcinch_counts *counts, int is_accepted) {
  static const threshcinch_counts zero;
  if (!is_accepted) return !memcmp(counts, &zero, sizeof zero);
  return counts->passes == c->params.rounds * (c->params.degree + 1) &&
         counts->isolated == isolated_rows(c->lists.of[STARTS].at, c->lists.of[VALUES].at, c->lists.of[STARTS].length - 1);
}

static int is_closed_right(const call *c, const threshcinch_state *new, const lists *before) {
  return !memcmp(&new->asked, &c->state.asked, sizeof new->asked) && new->counts.isolated == isolated_closed(&c->state, before);
}

static int is_answer_right(const call *c, const outcome *out, const lists *before, int is_accepted) {
  threshcinch_state s;
  switch (c->kind) {
    case EMBED:
      return are_counts_right(c, &out->counts, is_accepted);
    case OPEN:
      s = is_accepted ? opened_state(c) : reading_empty_state();
      return is_state(&out->state, &s);
    case CLOSE:
      return is_accepted ? is_closed_right(c, &out->state, before) : is_state(&out->state, &c->state);
    default:
      return is_state(&out->state, &c->state);
  }
}

/* The Ritz record as the call got it: one short, or empty. */
static int is_record_short_by(const call *c, int is_empty) {
  size_t dims = c->kind <= OPEN ? c->dims : c->state.asked.dims, rounds = c->kind <= OPEN ? c->params.rounds : c->state.asked.rounds;
  size_t length = c->lists.of[RITZ_RECORD].length;
  return is_empty ? length == 0 : length + 1 == rounds * reading_record_width(dims);
}

/* Faults in what answers such a list: another place, or another number where the place is always 0. */
static void break_short_record(const call *c, outcome *out) {
  int is_told = c->kind <= OPEN ? out->verdict.number == 11 && out->verdict.place == 10 : out->verdict.number == 16;
  int is_hit = is_told && is_record_short_by(c, 0) && breaks_list("record-short", c->kind);
  is_hit = is_hit || (is_told && is_record_short_by(c, 1) && breaks_list("record-empty", c->kind));
  if (!is_hit) return;
  if (c->kind <= OPEN)
    out->verdict.place = 9;
  else
    out->verdict.number = 15;
}

/* The fault of a closing that writes another number. */
static void break_closing(const call *c, lists *now) {
  if (c->kind != CLOSE || !record_is_written(&c->state) || !breaks("close-record")) return;
  size_t first = record_place(&c->state);
  set_item(now, RITZ_RECORD, first, item(now, RITZ_RECORD, first) ^ 1);
}

/* how many of the roots have these bits */
static size_t roots_of(const call *c, uint64_t bits) {
  size_t count = 0;
  for (size_t i = 0; i < c->state.asked.rows; i++) count += item(&c->lists, V0, i) == bits;
  return count;
}

/* Faults in the isolated rows: counted at opening; as the degrees close added to what stood there, without the roots at 1e-12, with those
 * of the next number above it, or with the number behind the roots. */
static void break_isolated(const call *c, outcome *out) {
  const uint64_t at = UINT64_C(0x3d719799812dea11), above = at + 1;
  size_t *count = &out->state.counts.isolated, rows = c->state.asked.rows;
  if (c->kind == OPEN && breaks("opened-isolated")) ++*count;
  if (c->kind != CLOSE || c->state.progress.stage != DEGREES || rows > c->lists.of[V0].length) return;
  if (c->state.counts.isolated && breaks("close-isolated-added")) *count += c->state.counts.isolated;
  if (roots_of(c, at) && breaks("close-isolated-at")) *count -= roots_of(c, at);
  if (roots_of(c, above) && breaks("close-isolated-above")) *count += roots_of(c, above);
  if (rows < c->lists.of[V0].length && isolated_roots(c->lists.of[V0].at, rows + 1) != *count && breaks("close-isolated-behind")) ++*count;
}

/* The self-test's faults, in what was seen of a refused and of an accepted call. */
static void break_some(const call *c, const lists *now, outcome *out) {
  int is_accepted = out->verdict.number == 0;
  lists l = *now;
  for (int which = 0; which < LISTS; which++) {
    if (l.of[which].room == 0) continue;
    int is_hit = is_accepted ? c->kind == CLOSE && breaks_list("close-wrote", which) : breaks_list("refused-wrote", which);
    is_hit = is_hit || (is_accepted && c->kind == CHUNK && breaks_list("chunk-wrote", which));
    is_hit = is_hit || (is_accepted && c->kind == EMBED && breaks_list("run-wrote", which));
    size_t last = l.of[which].room - 1;
    if (is_hit) set_item(&l, which, last, item(&l, which, last) ^ 1);
  }
  if (is_accepted) break_closing(c, &l);
  if (is_accepted) break_isolated(c, out);
  break_short_record(c, out);
  if (!is_accepted && breaks("number")) out->verdict.number = out->verdict.number % 16 + 1;
  if (!is_accepted && breaks("place")) out->verdict.place++;
  if (is_accepted && breaks("accepted")) out->verdict.number = 16;
  if (!is_accepted && c->kind == EMBED && breaks("zero-counts")) out->counts.zeroed++;
  if (!is_accepted && c->kind == OPEN && breaks("empty-state")) out->state.order[14]++;
  if (is_accepted && c->kind == OPEN && breaks("opened-state")) out->state.totals[224] = 1.0;
  if (!is_accepted && c->kind >= CHUNK && breaks("kept-state")) out->state.order[14] ^= 1;
  if (is_accepted && c->kind == CHUNK && breaks("chunk-state")) out->state.counts.isolated ^= 1;
}

int watched(const call *c, const lists *now, const lists *before, outcome *out, const char *words) {
  threshcinch_verdict due = reading(c);
  uint64_t differences = told_report.differences;
  call_make(c, out);
  break_some(c, now, out);
  int is_accepted = out->verdict.number == 0;
  if (out->verdict.number != due.number || out->verdict.place != due.place) {
    differ("verdict", "%s answers %llu at %llu, the table says %llu at %llu", words, (unsigned long long)out->verdict.number,
           (unsigned long long)out->verdict.place, (unsigned long long)due.number, (unsigned long long)due.place);
    return 1;
  }
  if (!is_answer_right(c, out, before, is_accepted)) differ("answer", "%s answers other counts or another state than it must", words);
  if (is_accepted)
    check_accepted(c, out, now, before, words);
  else
    check_all_kept(now, before, words);
  return is_accepted || told_report.differences != differences;
}
