#include "check.h"

#include <stdlib.h>
#include <string.h>

#include "guarded.h"
#include "tally.h"

static const uint64_t ONE = UINT64_C(0x3ff0000000000000);

/* ---- the lent lists, full of a pattern; a few numbers before each are watched too */

enum { BEFORE = 4, MOST_STARTS = MOST_ROWS + 1 + 64, MOST_PLACED = 1 << 18 };

static uint64_t pattern(size_t i) { return UINT64_C(0xA5C3000000000000) + UINT64_C(0x100000007) * (uint64_t)(i + BEFORE + 1); }

typedef struct {
  size_t lengths[LISTS];
  uint64_t *starts, *values; /* the values as their bits */
  uint32_t *columns;
} lent;

static void *last_of(guarded *g, size_t most, size_t length, size_t size) {
  if (!g->end) *g = guarded_new((most + BEFORE) * size);
  return guarded_last(g, length * size);
}

static void fill_wide(uint64_t *list, size_t length) {
  for (size_t i = 0; i < length + BEFORE; i++) list[(ptrdiff_t)i - BEFORE] = pattern(i - BEFORE);
}

static void fill_narrow(uint32_t *list, size_t length) {
  for (size_t i = 0; i < length + BEFORE; i++) list[(ptrdiff_t)i - BEFORE] = (uint32_t)pattern(i - BEFORE);
}

static lent lend(const size_t lengths[LISTS]) {
  static guarded memory[LISTS];
  lent l = {{lengths[STARTS], lengths[COLUMNS], lengths[VALUES]}, NULL, NULL, NULL};
  l.starts = last_of(&memory[STARTS], MOST_STARTS, lengths[STARTS], sizeof(uint64_t));
  l.columns = last_of(&memory[COLUMNS], MOST_PLACED, lengths[COLUMNS], sizeof(uint32_t));
  l.values = last_of(&memory[VALUES], MOST_PLACED, lengths[VALUES], sizeof(uint64_t));
  fill_wide(l.starts, lengths[STARTS]);
  fill_narrow(l.columns, lengths[COLUMNS]);
  fill_wide(l.values, lengths[VALUES]);
  return l;
}

/* ---- what they must hold */

static void differ_at(const char *list, const char *what, size_t i, uint64_t ours, uint64_t due) {
  differ(list, "%s %zu is %016llx, not %016llx", what, i, (unsigned long long)ours, (unsigned long long)due);
}

/* The numbers from `from` on, and those before the list, are as they were lent. */
static void compare_wide_rest(const char *name, const uint64_t *list, size_t from, size_t length) {
  for (size_t i = from; i < length; i++)
    if (list[i] != pattern(i)) return differ_at(name, "a number that must stay,", i, list[i], pattern(i));
  for (size_t i = 1; i <= BEFORE; i++)
    if (list[-(ptrdiff_t)i] != pattern(-i)) return differ_at(name, "a number before the list,", i, list[-(ptrdiff_t)i], pattern(-i));
}

static void compare_narrow_rest(const char *name, const uint32_t *list, size_t from, size_t length) {
  for (size_t i = from; i < length; i++)
    if (list[i] != (uint32_t)pattern(i)) return differ_at(name, "a number that must stay,", i, list[i], (uint32_t)pattern(i));
  for (size_t i = 1; i <= BEFORE; i++)
    if (list[-(ptrdiff_t)i] != (uint32_t)pattern(-i))
      return differ_at(name, "a number before the list,", i, list[-(ptrdiff_t)i], (uint32_t)pattern(-i));
}

static void compare_starts(const second *due, const lent *l) {
  for (size_t i = 0; i <= due->n; i++)
    if (l->starts[i] != due->starts[i]) return differ_at("starts", "number", i, l->starts[i], due->starts[i]);
}

static void compare_columns(const second *due, const lent *l) {
  for (size_t i = 0; i < due->placed; i++)
    if (l->columns[i] != due->graph[i].column) return differ_at("columns", "number", i, l->columns[i], due->graph[i].column);
}

static void compare_values(const second *due, const lent *l) {
  for (size_t i = 0; i < due->placed; i++)
    if (l->values[i] != ONE) return differ_at("values", "number", i, l->values[i], ONE);
}

static void compare_lists(const second *due, const lent *l, int is_accepted) {
  if (is_accepted) {
    compare_starts(due, l);
    compare_columns(due, l);
    compare_values(due, l);
  }
  compare_wide_rest("starts", l->starts, is_accepted ? (size_t)due->n + 1 : 0, l->lengths[STARTS]);
  compare_narrow_rest("columns", l->columns, is_accepted ? due->placed : 0, l->lengths[COLUMNS]);
  compare_wide_rest("values", l->values, is_accepted ? due->placed : 0, l->lengths[VALUES]);
}

static void compare(const char *call, const char *what, uint64_t ours, uint64_t due) {
  if (ours != due) differ(call, "%s is %llu, not %llu", what, (unsigned long long)ours, (unsigned long long)due);
}

static void compare_verdict(const char *call, market_verdict ours, market_verdict due) {
  if (ours.number == due.number && ours.place == due.place) return;
  differ(call, "answers %llu at %llu, not %llu at %llu", (unsigned long long)ours.number, (unsigned long long)ours.place,
         (unsigned long long)due.number, (unsigned long long)due.place);
}

/* ---- the self-test */

static void break_verdict(market_graph *ours) {
  uint64_t number = ours->verdict.number;
  if (number == 19 && breaks("number")) ours->verdict.number = 17;
  if (number == 2 && breaks("number-2")) ours->verdict.number = 3;
  if (number == 3 && breaks("number-3")) ours->verdict.number = 2;
  if (number == 11 && breaks("number-11")) ours->verdict.number = 3;
  if (number == 19 && breaks("accepted")) ours->verdict.number = 0;
  if (number == 19 && breaks("place")) ours->verdict.place++;
  if (number == 11 && breaks("place-11")) ours->verdict.place++;
  if (number == 2 && breaks("place-2")) ours->verdict.place = 1;
  if (number == 3 && breaks("place-3")) ours->verdict.place = 1;
  if (number == 0 && breaks("place-accepted")) ours->verdict.place = 1;
  if (number == 0 && breaks("rows")) ours->rows++;
  if (number == 0 && breaks("entries")) ours->entries++;
  if (number != 0 && breaks("refused-rows")) ours->rows = 1;
  if (number != 0 && breaks("refused-entries")) ours->entries = 1;
}

static void break_accepted(const second *due, lent *l) {
  size_t entries = due->placed, starts = (size_t)due->n + 1;
  if (breaks("start-first")) l->starts[0] = 1;
  if (breaks("start-last")) l->starts[due->n]++;
  if (starts < l->lengths[STARTS] && breaks("start-behind")) l->starts[l->lengths[STARTS] - 1] = 0;
  if (entries && breaks("column-first")) l->columns[0] ^= 1;
  if (entries > 1 && breaks("column-last")) l->columns[entries - 1]++;
  if (entries < l->lengths[COLUMNS] && breaks("column-behind")) l->columns[entries] = 0;
  if (entries && breaks("value-first")) l->values[0]++;
  if (entries > 1 && breaks("value-last")) l->values[entries - 1] = 0;
  if (entries && breaks("value-sign")) l->values[entries / 2] ^= UINT64_C(1) << 63;
  if (entries < l->lengths[VALUES] && breaks("value-behind")) l->values[entries] = ONE;
}

static void break_refused(lent *l, uint64_t number) {
  if (l->lengths[STARTS] && breaks(number == 11 ? "short-start" : "refused-start")) l->starts[0] = 0;
  if (l->lengths[COLUMNS] && breaks(number == 11 ? "short-column" : "refused-column")) l->columns[l->lengths[COLUMNS] - 1] = 0;
  if (l->lengths[VALUES] && breaks(number == 11 ? "short-value" : "refused-value")) l->values[0] = ONE;
}

static void break_lists(const second *due, lent *l, const market_graph *right) {
  if (right->verdict.number == 0)
    break_accepted(due, l);
  else
    break_refused(l, right->verdict.number);
  if (breaks("start-before")) l->starts[-1] = 0;
  if (breaks("column-before")) l->columns[-1] = 0;
  if (breaks("value-before")) l->values[-2] = ONE;
}

static void break_room(market_room *ours) {
  uint64_t number = ours->verdict.number;
  if (number == 19 && breaks("sizes-number")) ours->verdict.number = 2;
  if (number == 19 && breaks("sizes-place")) ours->verdict.place--;
  if (number == 2 && breaks("sizes-2")) ours->verdict.number = 0;
  if (number == 3 && breaks("sizes-3")) ours->verdict.number = 2;
  if (number == 0 && breaks("sizes-accepted")) ours->verdict.number = 3;
  if (number == 2 && breaks("sizes-place-of-2")) ours->verdict.place = 1;
  if (number == 0 && breaks("sizes-starts")) ours->starts--;
  if (number == 0 && breaks("sizes-entries")) ours->entries--;
  if (number == 0 && ours->entries == MOST_ENTRIES && breaks("sizes-limit")) ours->entries += 2;
  if (number != 0 && breaks("sizes-refused")) ours->starts = 1;
}

/* ---- the calls */

static void count_read(const second *due, const lent *l, const market_graph *right) {
  told.reads[right->verdict.number]++;
  if (right->verdict.number == 11) told.short_lists[right->verdict.place]++;
  if (right->verdict.number != 0) return;
  int is_exact = l->lengths[STARTS] == due->n + 1 && l->lengths[COLUMNS] == due->placed && l->lengths[VALUES] == due->placed;
  if (is_exact)
    told.exact++;
  else
    told.longer++;
  told.placed += due->placed;
}

/* Succeeds if it was refused for a short list. */
static int check_read(const second *due, const uint8_t *text, size_t length, const size_t lengths[LISTS]) {
  lent l = lend(lengths);
  market_graph right = second_answer(due, lengths);
  market_graph ours = threshcinch_read_matrix_market(text, length, l.starts, lengths[STARTS], l.columns, lengths[COLUMNS],
                                                     (double *)(void *)l.values, lengths[VALUES]);
  break_verdict(&ours);
  break_lists(due, &l, &right);
  count_read(due, &l, &right);
  compare_verdict("read", ours.verdict, right.verdict);
  compare("read", "rows", ours.rows, right.rows);
  compare("read", "entries", ours.entries, right.entries);
  compare_lists(due, &l, right.verdict.number == 0);
  return right.verdict.number == 11;
}

static void check_room(const second *due, const uint8_t *text, size_t length) {
  market_room right = second_room(due), ours = threshcinch_matrix_market_sizes(text, length);
  break_room(&ours);
  told.rooms[right.verdict.number]++;
  compare_verdict("sizes", ours.verdict, right.verdict);
  compare("sizes", "starts", ours.starts, right.starts);
  compare("sizes", "entries", ours.entries, right.entries);
}

/* ---- how much is lent */

/* exactly what is needed, more, or less */
static size_t any_length(size_t due, random_source *r) {
  switch (random_below(r, 8)) {
    case 0:
      return due + 1;
    case 1:
      return due + 1 + random_below(r, 30);
    case 2:
      return due - (due > 0);
    case 3:
      return random_below(r, due + 1);
    default:
      return due;
  }
}

/* Where the graph is refused before room counts, little or much is lent. */
static void any_lengths(const second *due, size_t lengths[LISTS], random_source *r) {
  int is_graph = !due->fault && due->n <= MOST_ROWS;
  size_t needed[LISTS];
  needed[STARTS] = is_graph ? (size_t)due->n + 1 : random_below(r, 12);
  needed[COLUMNS] = needed[VALUES] = is_graph ? due->placed : random_below(r, 12);
  for (int i = 0; i < LISTS; i++) lengths[i] = any_length(needed[i], r);
  if (!is_graph || once_in(r, 2)) return;
  for (int i = 0; i < LISTS; i++) lengths[i] = needed[i] + (once_in(r, 3) ? random_below(r, 6) : 0);
}

void check_file(const second *due, const uint8_t *text, size_t length, random_source *r) {
  size_t lengths[LISTS];
  any_lengths(due, lengths, r);
  check_room(due, text, length);
  if (!check_read(due, text, length, lengths) || due->fault || due->n > MOST_ROWS) return;
  for (int i = 0; i < LISTS; i++) lengths[i] = i == STARTS ? (size_t)due->n + 1 : due->placed;
  check_read(due, text, length, lengths);
}

/* ---- as many entries as a graph may have: the full matrix of 8,192 rows has 67,108,864 */

enum { FULL_ROWS = 8192 };

/* "row column\n", for numbers of up to four digits: printf takes minutes for all of them under the emulator */
static size_t put_line(char *at, unsigned row, unsigned column) {
  char digits[12];
  size_t length = 0, count = 0;
  digits[count++] = '\n';
  do digits[count++] = (char)('0' + column % 10);
  while (column /= 10);
  digits[count++] = ' ';
  do digits[count++] = (char)('0' + row % 10);
  while (row /= 10);
  while (count) at[length++] = digits[--count];
  return length;
}

/* The lower triangle, column by column; one more entry in a row of its own if that is asked for. */
static void write_triangle(bytes *b, int has_more) {
  static char lines[FULL_ROWS * 10];
  b->length = 0;
  bytes_add_words(b, "%%%%MatrixMarket matrix coordinate pattern symmetric\n%s\n", has_more ? "8193 8193 33558529" : "8192 8192 33558528");
  for (unsigned column = 1; column <= FULL_ROWS; column++) {
    size_t length = 0;
    for (unsigned row = column; row <= FULL_ROWS; row++) length += put_line(lines + length, row, column);
    bytes_add(b, lines, length);
  }
  if (has_more) bytes_add_words(b, "8193 8193\n");
}

static void compare_full(const uint64_t *starts, const uint32_t *columns, const uint64_t *values) {
  for (size_t i = 0; i <= FULL_ROWS; i++)
    if (starts[i] != FULL_ROWS * i) return differ_at("largest", "start", i, starts[i], FULL_ROWS * i);
  for (size_t i = 0; i < MOST_ENTRIES; i++)
    if (columns[i] != i % FULL_ROWS || values[i] != ONE) return differ_at("largest", "column", i, columns[i], i % FULL_ROWS);
}

static void compare_untouched(const uint64_t *starts, const uint32_t *columns, const uint64_t *values) {
  for (size_t i = 0; i <= FULL_ROWS + 1; i++)
    if (starts[i]) return differ_at("largest", "a start that must stay,", i, starts[i], 0);
  for (size_t i = 0; i < MOST_ENTRIES; i++)
    if (columns[i] || values[i]) return differ_at("largest", "a column or value that must stay,", i, columns[i], 0);
}

static void check_triangle(int has_more) {
  static bytes file;
  size_t rows = FULL_ROWS + (has_more ? 1 : 0);
  market_room due_room = {{0, 0}, rows + 1, MOST_ENTRIES}, room;
  market_graph due = {{has_more ? 3 : 0, 0}, has_more ? 0 : rows, has_more ? 0 : MOST_ENTRIES}, ours;
  uint64_t *starts = calloc(FULL_ROWS + 2, sizeof *starts), *values = calloc(MOST_ENTRIES, sizeof *values);
  uint32_t *columns = calloc(MOST_ENTRIES, sizeof *columns);
  if (!starts || !columns || !values) fail("no memory");
  write_triangle(&file, has_more);
  room = threshcinch_matrix_market_sizes(file.at, file.length);
  ours = threshcinch_read_matrix_market(file.at, file.length, starts, FULL_ROWS + 2, columns, MOST_ENTRIES, (double *)(void *)values,
                                        MOST_ENTRIES);
  told.rooms[due_room.verdict.number]++;
  told.reads[due.verdict.number]++;
  compare_verdict("largest sizes", room.verdict, due_room.verdict);
  compare("largest sizes", "starts", room.starts, due_room.starts);
  compare("largest sizes", "entries", room.entries, due_room.entries);
  compare_verdict("largest read", ours.verdict, due.verdict);
  compare("largest read", "rows", ours.rows, due.rows);
  compare("largest read", "entries", ours.entries, due.entries);
  (has_more ? compare_untouched : compare_full)(starts, columns, values);
  free(starts);
  free(columns);
  free(values);
  free(file.at);
  memset(&file, 0, sizeof file);
}

void check_largest(void) {
  told.file = NULL;
  check_triangle(0);
  check_triangle(1);
}
