#include "held.h"

#include <string.h>

#include "damage.h"
#include "isolated.h"
#include "lent.h"
#include "one_call.h"
#include "random.h"
#include "reading.h"
#include "record.h"
#include "report.h"
#include "watch.h"

enum { MOST_CHUNKS = 256, TARGETS = 2, DEGREES = 1 };

/* Copies of large memory cost more than the calls between them, so a run has so many bytes for them. */
static const size_t COPIED_BYTES = 64 << 20;

/* a place in the run where damaged calls are tried: every run meets it */
typedef struct {
  size_t stage, round, pass, column, done;
  int trials;
} target;

typedef struct {
  const graph *g;
  const lists *one; /* what the one call left */
  lists now, before;
  list record;               /* what the Ritz record must hold after each call */
  uint64_t first_salt, salt; /* of the pattern that lay in the needed part at first, and that lies behind it now */
  threshcinch_state state;
  random_source random;
  size_t chunks, accepted, copies_left;
  target targets[TARGETS];
  int is_lost; /* a call answered what it must not: the run is given up */
} held;

static size_t width(const held *h) { return h->g->dims + 8; }

/* ---- calls */

static void step(const held *h, call *c, enum call_kind kind, size_t number) {
  c->kind = kind;
  c->state = h->state;
  c->number = number;
  c->lists = h->now;
}

static void lost(held *h, const char *what, const outcome *out) {
  differ("held run", "%s is answered %llu at %llu in stage %zu", what, (unsigned long long)out->verdict.number,
         (unsigned long long)out->verdict.place, h->state.progress.stage);
  h->is_lost = 1;
}

static void do_chunk(held *h, size_t number) {
  call c;
  outcome out;
  step(h, &c, CHUNK, number);
  call_make(&c, &out);
  if (out.verdict.number || out.verdict.place) {
    lost(h, "a chunk call", &out);
    return;
  }
  if (memcmp(&out.state, &h->state, sizeof out.state)) differ("answer", "an accepted chunk call answers another state");
  record_break_run(&h->state, &h->now);
  record_check(&h->record, &h->now, &h->state);
  h->accepted++;
}

/* ---- what closing answers */

/* document 01's order of the stages; whether a column is tried again is the one thing that the counts tell */
static threshcinch_progress next_place(const threshcinch_state *s, int is_again) {
  threshcinch_progress p = s->progress;
  size_t stage = p.stage++;
  if (stage == 5 && ++p.pass < s->asked.degree) p.stage = 5;
  if (stage == 12 && (is_again || ++p.column < s->asked.dims + 8)) p.stage = 6;
  if (stage == 14 && p.round + 1 < s->asked.rounds) {
    p.stage = 5;
    p.round++;
  }
  if (p.stage != 5) p.pass = 0;
  if (p.stage < 6 || p.stage > 12) p.column = 0;
  if (stage == 12) p.attempt = (size_t)is_again;
  return p;
}

static int is_place(const threshcinch_progress *a, const threshcinch_progress *b) {
  return a->stage == b->stage && a->round == b->round && a->pass == b->pass && a->column == b->column && a->attempt == b->attempt;
}

static int are_counts_next(const threshcinch_state *old, const threshcinch_state *new) {
  size_t stage = old->progress.stage;
  size_t passes = new->counts.passes - old->counts.passes, refreshed = new->counts.refreshed - old->counts.refreshed;
  size_t zeroed = new->counts.zeroed - old->counts.zeroed;
  return passes == (stage == 5 || stage == 13) && refreshed <= (stage == 12 && old->progress.attempt == 0) &&
         zeroed <= (stage == 12 && old->progress.attempt == 1);
}

/* The self-test's faults, where the graph shows them: a later closing counts; the degrees' closing leaves 0, leaves out the rows whose root
 * is NaN, or those that have entries. */
static void break_isolated(const graph *g, const threshcinch_state *old, size_t *count) {
  if (old->progress.stage != DEGREES) {
    *count += (size_t)breaks("held-isolated-later");
    return;
  }
  size_t empty = rows_without_entries(g->starts, g->rows), no_root = rows_without_root(g->starts, g->values, g->rows);
  if (*count && breaks("held-isolated-left")) *count = 0;
  if (no_root && breaks("held-isolated-nan")) *count -= no_root;
  if (*count != empty && breaks("held-isolated-empty")) *count = empty;
}

/* The roots in v0 are the graph's while the degrees close, and so is their count from then on. */
static void check_isolated(const held *h, const threshcinch_state *old, threshcinch_state *new) {
  const graph *g = h->g;
  break_isolated(g, old, &new->counts.isolated);
  size_t count = new->counts.isolated, due = isolated_closed(old, &h->now);
  if (count != due) differ("isolated", "closing stage %zu leaves %zu isolated rows, not %zu", old->progress.stage, count, due);
  if (old->progress.stage != DEGREES) return;
  due = isolated_rows(g->starts, g->values, g->rows);
  if (count != due) differ("isolated", "closing the degrees counts %zu isolated rows, the graph has %zu", count, due);
}

/* stages of the run if no further column is refreshed */
static size_t stages_of(const held *h) {
  const threshcinch_asked *a = &h->state.asked;
  return 9 + a->rounds * (a->degree + 2 + 7 * width(h)) + 7 * h->state.counts.refreshed;
}

static void check_progress(const held *h) {
  size_t accepted = threshcinch_calls_accepted(h->state), owed = threshcinch_calls_owed(h->state);
  if (breaks("calls")) owed++;
  if (accepted != h->accepted || accepted + owed != stages_of(h) * (h->chunks + 1))
    differ("calls", "%zu calls accepted and %zu owed are told after %zu, of %zu stages and %zu chunks", accepted, owed, h->accepted,
           stages_of(h), h->chunks);
}

static void check_closed(const threshcinch_state *old, threshcinch_state *new, const lists *now, size_t chunks) {
  if (breaks("stage")) new->progress.stage++;
  if (breaks("counted")) new->counts.passes++;
  if (breaks("range")) new->order[14] = 99;
  threshcinch_progress due = next_place(old, new->counts.refreshed != old->counts.refreshed);
  if (!is_place(&new->progress, &due))
    differ("stages", "stage %zu is followed by stage %zu, not %zu", old->progress.stage, new->progress.stage, due.stage);
  if (!are_counts_next(old, new)) differ("stages", "closing stage %zu raises counts that it must not", old->progress.stage);
  if (!reading_state(new)) differ("range", "closing stage %zu answers a state out of its ranges", old->progress.stage);
  for (size_t i = 0; i < chunks; i++)
    if (item(now, MARKS, i)) differ("marks", "closing stage %zu leaves mark %zu", old->progress.stage, i);
}

/* Closing the products writes its round's places; they are held to the states on both sides and to the one call's end. */
static void check_record(held *h, const threshcinch_state *old, threshcinch_state *new) {
  if (record_is_written(old)) {
    if (breaks("held-order")) new->order[0] = new->order[1];
    record_break_closing(&h->record, old, new, &h->now);
    record_check_closing(old, new, &h->now, "closing the products");
    record_closed(&h->record, h->one, old);
  }
  record_check(&h->record, &h->now, old);
}

static void do_close(held *h) {
  call c;
  outcome out;
  step(h, &c, CLOSE, 0);
  call_make(&c, &out);
  if (out.verdict.number || out.verdict.place) {
    lost(h, "closing", &out);
    return;
  }
  check_record(h, &c.state, &out.state);
  check_isolated(h, &c.state, &out.state);
  check_closed(&c.state, &out.state, &h->now, h->chunks);
  h->state = out.state;
  h->accepted++;
  told_report.held_stages++;
  check_progress(h);
}

/* ---- refused calls among them */

static int has_room_for_copy(held *h) {
  size_t bytes = 2 * lists_total_bytes(&h->now);
  if (h->copies_left < bytes) return 0;
  h->copies_left -= bytes;
  return 1;
}

static void refused(held *h, call *c, const char *words) {
  outcome out;
  if (!has_room_for_copy(h)) return;
  lists_copy(&h->before, &h->now);
  if (reading(c).number == 0) fail("a call that should be refused would be accepted");
  if (watched(c, &h->now, &h->before, &out, words)) lists_copy(&h->now, &h->before);
  told_report.refused_calls[out.verdict.number % REFUSALS]++;
}

static size_t some_number_past(held *h) {
  const uint64_t among[] = {h->chunks, h->chunks + 1, UINT64_C(1) << 32, UINT64_MAX};
  return among[random_below(&h->random, 4)];
}

/* In a stage in which `done` chunks, the first of `order`, are done. */
static void some_refused(held *h, const size_t *order, size_t done) {
  call c;
  switch (random_below(&h->random, 4)) {
    case 0:
      if (done == 0) return;
      step(h, &c, CHUNK, order[random_below(&h->random, done)]);
      refused(h, &c, "a chunk that is done");
      return;
    case 1:
      step(h, &c, CHUNK, some_number_past(h));
      refused(h, &c, "a chunk past the last");
      return;
    case 2:
      if (done == h->chunks) return;
      step(h, &c, CLOSE, 0);
      refused(h, &c, "closing too early");
      return;
    default:
      step(h, &c, once_in(&h->random, 2) ? CHUNK : CLOSE, 0);
      c.state = reading_empty_state();
      refused(h, &c, "a call with the empty state");
  }
}

/* ---- stopped and gone on with */

/* Other memory of other lengths, with another pattern behind what the run needs; the old one is gone. */
static void move(held *h) {
  lists fresh;
  size_t need[LISTS];
  if (!has_room_for_copy(h)) return;
  reading_sizes(need, h->g->dims, h->g->rounds, h->g->rows, h->g->entries);
  int which = lists_first_overrun(&h->now, need, h->salt);
  if (which < LISTS) differ("overrun", "a held run wrote behind its part of %s", list_names[which]);
  h->salt = random_next(&h->random);
  lists_new(&fresh, h->g, h->salt);
  for (which = 0; which < LISTS; which++) memcpy(fresh.of[which].at, h->now.of[which].at, need[which] * list_bytes[which]);
  lists_free(&h->now);
  lists_free(&h->before);
  h->now = fresh;
  lists_like(&h->before, &h->now);
  record_begin(&h->record, &h->now);
  told_report.moves++;
}

/* ---- damaged calls on the way */

static void choose_target(held *h, target *t, int trials) {
  random_source *r = &h->random;
  t->stage = 1 + random_below(r, 19);
  t->round = t->stage < 5 ? 0 : t->stage > 14 ? h->g->rounds - 1 : random_below(r, h->g->rounds);
  t->pass = t->stage == 5 ? random_below(r, h->g->degree) : 0;
  t->column = t->stage >= 6 && t->stage <= 12 ? random_below(r, width(h)) : 0;
  t->done = once_in(r, 2) ? h->chunks : random_below(r, h->chunks);
  t->trials = trials;
}

static int is_at(const held *h, const target *t, size_t done) {
  const threshcinch_progress *p = &h->state.progress;
  return t->trials > 0 && p->stage == t->stage && p->round == t->round && p->pass == t->pass && p->column == t->column && t->done == done;
}

static void damage_here(held *h, target *t) {
  call c;
  memset(&c, 0, sizeof c);
  step(h, &c, CHUNK, 0);
  lists_copy(&h->before, &h->now);
  damage_steps(&c, &h->now, &h->before, &h->random, t->trials);
  t->trials = 0;
  if (lists_first_other(&h->now, &h->before) < LISTS) fail("the lists were not mended");
}

/* Other counts and other roots, in every run, by draws of their own: so all else is drawn as if these were not. */
static void damage_degrees_here(held *h) {
  random_source random = {random_hash(~h->first_salt)};
  call c;
  memset(&c, 0, sizeof c);
  step(h, &c, CLOSE, 0);
  lists_copy(&h->before, &h->now);
  damage_degrees(&c, &h->now, &h->before, &random);
  if (lists_first_other(&h->now, &h->before) < LISTS) fail("the lists were not mended");
}

static void aside(held *h, const size_t *order, size_t done) {
  if (once_in(&h->random, 16)) some_refused(h, order, done);
  if (once_in(&h->random, 64)) move(h);
  for (int i = 0; i < TARGETS; i++)
    if (is_at(h, &h->targets[i], done)) damage_here(h, &h->targets[i]);
}

/* ---- the run */

static void shuffle(held *h, size_t *order) {
  for (size_t i = 0; i < h->chunks; i++) order[i] = i;
  for (size_t i = h->chunks; i > 1; i--) {
    size_t j = random_below(&h->random, i), kept = order[i - 1];
    order[i - 1] = order[j];
    order[j] = kept;
  }
}

static void do_stage(held *h) {
  size_t order[MOST_CHUNKS];
  shuffle(h, order);
  for (size_t i = 0; i < h->chunks && !h->is_lost; i++) {
    aside(h, order, i);
    do_chunk(h, order[i]);
  }
  aside(h, order, h->chunks);
  if (!h->is_lost && h->state.progress.stage == DEGREES) damage_degrees_here(h);
  if (!h->is_lost) do_close(h);
}

static void begin(held *h, const graph *g, const lists *one, uint64_t salt, int trials) {
  memset(h, 0, sizeof *h);
  h->g = g;
  h->one = one;
  h->random.state = random_hash(salt);
  h->first_salt = h->salt = salt;
  h->chunks = reading_chunks(g->rows);
  h->copies_left = COPIED_BYTES;
  lists_new(&h->now, g, salt);
  lists_like(&h->before, &h->now);
  record_begin(&h->record, &h->now);
  for (int i = 0; i < TARGETS; i++) choose_target(h, &h->targets[i], trials / TARGETS);
}

static void open_run(held *h) {
  call c;
  outcome out;
  request_of(&c, h->g, &h->now);
  c.kind = OPEN;
  lists_copy(&h->before, &h->now);
  watched(&c, &h->now, &h->before, &out, "opening");
  if (out.verdict.number) lost(h, "opening", &out);
  h->state = out.state;
}

static int is_number_alike(const held *h, uint64_t one_salt, int which, size_t i) {
  uint64_t ours = item(&h->now, which, i), theirs = item(h->one, which, i);
  if (is_same(which, ours, theirs)) return 1;
  return ours == pattern(h->first_salt, which, i) && theirs == pattern(one_salt, which, i);
}

/* Each number is the same, or was written by neither. */
static void compare_list(const held *h, uint64_t one_salt, int which, size_t need) {
  size_t i = 0;
  while (i < need && is_number_alike(h, one_salt, which, i)) i++;
  if (i < need)
    differ("held list", "%s, number %zu: %016llx after the held run, %016llx after the one call", list_names[which], i,
           (unsigned long long)item(&h->now, which, i), (unsigned long long)item(h->one, which, i));
}

static void compare_lists(held *h, uint64_t one_salt) {
  size_t need[LISTS];
  reading_sizes(need, h->g->dims, h->g->rounds, h->g->rows, h->g->entries);
  for (int which = 0; which < LISTS; which++) {
    if (need[which] && breaks_list("held", which)) set_item(&h->now, which, need[which] - 1, item(&h->now, which, need[which] - 1) ^ 1);
    compare_list(h, one_salt, which, need[which]);
    if (breaks_list("held-overrun", which)) set_item(&h->now, which, need[which], item(&h->now, which, need[which]) ^ 1);
  }
  int which = lists_first_overrun(&h->now, need, h->salt);
  if (which < LISTS) differ("overrun", "a held run wrote behind its part of %s", list_names[which]);
}

static void end_run(held *h, uint64_t one_salt, threshcinch_counts counts) {
  call c;
  step(h, &c, CHUNK, 0);
  refused(h, &c, "a chunk after the end");
  step(h, &c, CLOSE, 0);
  refused(h, &c, "closing after the end");
  h->accepted += (size_t)breaks("accepted-calls");
  counts.zeroed += (size_t)breaks("held-counts");
  if (h->accepted != stages_of(h) * (h->chunks + 1))
    differ("calls", "%zu calls were accepted, not %zu", h->accepted, stages_of(h) * (h->chunks + 1));
  if (memcmp(&h->state.counts, &counts, sizeof counts)) differ("held counts", "the held run's counts are not the one call's");
  compare_lists(h, one_salt);
}

/* A run that refreshes every column of every round has twice the column stages. */
static size_t most_calls(const held *h) { return (stages_of(h) + 7 * width(h) * h->g->rounds) * (h->chunks + 1); }

void held_run(const graph *g, const lists *one, uint64_t one_salt, const threshcinch_counts *counts, uint64_t salt, int trials) {
  held h;
  begin(&h, g, one, salt, trials);
  open_run(&h);
  while (!h.is_lost && reading_is_open(&h.state) && h.accepted <= most_calls(&h)) do_stage(&h);
  if (!h.is_lost && reading_is_open(&h.state)) differ("held run", "it does not end");
  if (!h.is_lost) end_run(&h, one_salt, *counts);
  told_report.held_runs++;
  told_report.accepted_calls += h.accepted;
  lists_free(&h.now);
  lists_free(&h.before);
  free(h.record.at);
}
