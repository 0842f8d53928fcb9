#include <string.h>

#include "checks.h"
#include "graphs.h"
#include "guarded.h"
#include "lent_text.h"
#include "reading.h"
#include "tally.h"
#include "written.h"

/* One text in so many that were written goes through the text program's answer. */
enum { TEXT_SHARE = 8, FAR_STARTS = (1 << 20) + 64, FAR_ENTRIES = (1 << 26) + 64 };

/* ---- the first writer */

static void set_list(call *c, int which, const void *at, size_t length) {
  list l = {(void *)(uintptr_t)at, length, length};
  c->lists.of[which] = l;
}

/* Into another text for each part, since what one wrote is still looked at when another is asked. */
static lent_text write_request(const char *part, guarded *room, const call *c, size_t offered, const due_writing *due) {
  const list *of = c->lists.of;
  lent_text lent = {lent_bytes(room, offered), offered};
  threshcinch_written said = threshcinch_write_run(c->dims, c->params, of[STARTS].at, of[STARTS].length, of[COLUMNS].at, of[COLUMNS].length,
                                                   of[VALUES].at, of[VALUES].length, lent.at, lent.room);
  check_lent_text(part, said, lent, due);
  return lent;
}

/* ---- what the reader gave, once more */

static void request_read(call *c, const threshcinch_run_file *file) {
  memset(c, 0, sizeof *c);
  c->dims = file->d;
  c->params = file->params;
  set_list(c, STARTS, file->starts, file->start_count);
  set_list(c, COLUMNS, file->columns, file->column_count);
  set_list(c, VALUES, file->values, file->value_count);
}

uint64_t check_written_again(const char *part, const threshcinch_run_file *file, const text *whole, random_source *r) {
  static guarded room;
  static call c;
  request_read(&c, file);
  due_writing due = {reading_file(&c), whole};
  write_request(part, &room, &c, enough_room(r, whole->length), &due);
  return due.verdict.number;
}

/* ---- a graph */

typedef struct {
  guarded some, far;
} lent_list;

/* A list that ends where a page begins that may not be touched. One that is longer than what was made has zeros only. */
static void lend_list(call *c, int which, lent_list *l, const void *from, size_t length, size_t most) {
  static const size_t far_lengths[] = {FAR_STARTS, FAR_ENTRIES, FAR_ENTRIES};
  size_t size = list_bytes[which];
  if (!l->some.end) {
    l->some = guarded_new(most * size);
    l->far = guarded_new(far_lengths[which] * size);
  }
  uint8_t *at = guarded_last(length <= most ? &l->some : &l->far, length * size);
  if (length <= most) memcpy(at, from, length * size);
  set_list(c, which, at, length);
}

static void lend_graph(call *c, const graph *g) {
  static lent_list starts, columns, values;
  memset(c, 0, sizeof *c);
  c->dims = g->d;
  c->params.rounds = g->rounds;
  c->params.degree = g->degree;
  memcpy(&c->params.seed_std, &g->seed_std, sizeof g->seed_std);
  lend_list(c, STARTS, &starts, g->starts, g->start_count, GRAPH_STARTS);
  lend_list(c, COLUMNS, &columns, g->columns, g->column_count, GRAPH_ENTRIES);
  lend_list(c, VALUES, &values, g->values, g->value_count, GRAPH_ENTRIES);
}

static int is_changed(const list *l, const void *made, size_t most, size_t size) {
  return l->length <= most && memcmp(l->at, made, l->length * size);
}

static void check_lists_stay(const call *c, const graph *g) {
  const list *of = c->lists.of;
  if (of[VALUES].length && breaks("write-list")) ((uint8_t *)of[VALUES].at)[0] ^= 1;
  if (is_changed(&of[STARTS], g->starts, GRAPH_STARTS, sizeof *g->starts) ||
      is_changed(&of[COLUMNS], g->columns, GRAPH_ENTRIES, sizeof *g->columns) ||
      is_changed(&of[VALUES], g->values, GRAPH_ENTRIES, sizeof *g->values))
    differ("write", "a list of the graph was changed");
}

/* ---- what was written is read, and written again */

static void plain_of(plain_run *run, const graph *g) {
  memset(run, 0, sizeof *run);
  run->fault = NO_FAULT;
  run->d = g->d;
  run->rounds = g->rounds;
  run->degree = g->degree;
  run->seed_std = g->seed_std;
  run->start_count = g->start_count;
  run->column_count = g->column_count;
  run->value_count = g->value_count;
  memcpy(run->starts, g->starts, g->start_count * sizeof *g->starts);
  for (size_t i = 0; i < g->column_count; i++) run->columns[i] = g->columns[i];
  memcpy(run->values, g->values, g->value_count * sizeof *g->values);
}

/* "the file is one that seedrun takes" */
static void check_taken(const plain_run *due, const uint8_t *bytes, size_t length, random_source *r) {
  static plain_run run;
  grammar_read(&run, bytes, length);
  if (breaks("taken-grammar")) run.values[MOST_ENTRIES - 1]++;
  if (memcmp(&run, due, sizeof run)) differ("taken", "the grammar's second reading has other numbers, or a fault at line %d", run.fault);
  answer a = check_text(&run, bytes, length, r);
  if (a.number == 0 && breaks("taken-answer")) a.number = 17;
  if (a.number > 0) differ("taken", "the text program refuses it with %d", a.number);
  told.taken += a.number == 0;
}

static void check_round_trip(const graph *g, const call *c, const due_writing *due, random_source *r) {
  static guarded room;
  static plain_run run;
  static threshcinch_run_file file;
  size_t length = due->whole->length;
  lent_text lent = write_request("write", &room, c, enough_room(r, length), due);
  plain_of(&run, g);
  check_library_reading("back", &run, lent.at, length, &file);
  check_written_again("again", &file, due->whole, r);
  if (once_in(r, TEXT_SHARE)) check_taken(&run, lent.at, length, r);
}

/* ---- what was tried */

static void count_values(const graph *g) {
  for (size_t i = 0; i < g->value_count; i++) {
    uint64_t size = g->values[i] << 1, least_normal = UINT64_C(1) << 53;
    told.minus_zeros += g->values[i] == UINT64_C(1) << 63;
    told.subnormals += size != 0 && size < least_normal;
    told.largest += size == UINT64_C(0xffdffffffffffffe);
  }
  told.values += g->value_count;
}

static void count_graph(const graph *g, const due_writing *due) {
  told.graphs++;
  told.several_faults += g->fault_count > 1;
  if (g->fault_count == 1) told.by_graph_fault[g->fault]++;
  told.by_graph_number[due->verdict.number]++;
  if (due->verdict.number == 17) told.by_line[due->verdict.place]++;
  if (due->verdict.number == 0) count_values(g);
  if (due->verdict.number == 0 && told.longest_written < due->whole->length) told.longest_written = due->whole->length;
}

void check_graph(random_source *r) {
  static guarded room;
  static graph g;
  static call c;
  static text whole;
  graph_make(&g, r);
  told.made = "graph";
  told.how = g.fault_count == 0 ? "right" : g.fault_count == 1 ? graph_fault_name(g.fault) : "several faults";
  told.file = &whole;
  lend_graph(&c, &g);
  written_run(&whole, &c);
  due_writing due = {written_run_verdict(&c), &whole};
  count_graph(&g, &due);
  if (due.verdict.number || once_in(r, 2)) {
    size_t offered = any_room(r, whole.length);
    told.write_rooms[due.verdict.number ? 1 : 0][room_kind_of(offered, whole.length)]++;
    write_request("write", &room, &c, offered, &due);
  }
  if (due.verdict.number == 0) check_round_trip(&g, &c, &due, r);
  check_lists_stay(&c, &g);
}
