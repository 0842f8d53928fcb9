#include "shapes.h"

#include <stdlib.h>
#include <string.h>

#include "market.h"
#include "pick.h"
#include "tally.h"

const char sample[] = "%%MatrixMarket matrix coordinate pattern symmetric\n% a\n\n3 3 3\n2 1\n 3\t3\n3 1\n";

/* ---- numbers */

const char *any_edge(random_source *r) {
  static const char *const list[] = {"0",
                                     "1",
                                     "2",
                                     "3",
                                     "7",
                                     "32767",
                                     "1048575",
                                     "1048576",
                                     "1048577",
                                     "33554432",
                                     "33554433",
                                     "67108864",
                                     "67108865",
                                     "2147483647",
                                     "2147483648",
                                     "4294967295",
                                     "4294967296",
                                     "4294967297",
                                     "9223372036854775807",
                                     "9223372036854775808",
                                     "9223372036854775809",
                                     "18446744073709551614",
                                     "18446744073709551615",
                                     "00000000000000000000000000018446744073709551615",
                                     "0000000000000000000000000000000001"};
  return PICK(r, list);
}

const char *any_wrong_word(random_source *r) {
  static const char *const list[] = {"18446744073709551616",
                                     "18446744073709551617",
                                     "18446744073709551625",
                                     "18446744073709551700",
                                     "18446744073709552000",
                                     "20000000000000000000",
                                     "36893488147419103233",
                                     "99999999999999999999",
                                     "100000000000000000000",
                                     "184467440737095516151",
                                     "340282366920938463463374607431768211456",
                                     "340282366920938463463374607431768211457",
                                     "00018446744073709551616",
                                     "+1",
                                     "-1",
                                     "-0",
                                     "1.0",
                                     "1.",
                                     ".5",
                                     "1e0",
                                     "0x1",
                                     "1,",
                                     "1_0",
                                     "%",
                                     "%1",
                                     "one",
                                     "1/1",
                                     "1:",
                                     "\xd9\xa1",
                                     "1\v",
                                     "\f1",
                                     "1\xc2\xa0",
                                     "nan"};
  return PICK(r, list);
}

/* ---- a graph, before it is written */

typedef struct {
  uint64_t row, column;
} pair;

typedef struct {
  uint64_t n;
  size_t count, room;
  pair *pairs;
} graph;

static void add_pair(graph *g, uint64_t row, uint64_t column) {
  if (g->count == g->room) {
    g->room = 2 * g->room + 64;
    g->pairs = realloc(g->pairs, g->room * sizeof *g->pairs);
    if (!g->pairs) fail("no memory");
  }
  pair p = {row < column ? column : row, row < column ? row : column};
  g->pairs[g->count++] = p;
}

static int by_row(const void *left, const void *right) {
  const pair *x = left, *y = right;
  if (x->row != y->row) return x->row < y->row ? -1 : 1;
  return (x->column > y->column) - (x->column < y->column);
}

static int by_column(const void *left, const void *right) {
  const pair *x = left, *y = right;
  if (x->column != y->column) return x->column < y->column ? -1 : 1;
  return (x->row > y->row) - (x->row < y->row);
}

/* Leaves one of each, by row. */
static void drop_repeats(graph *g) {
  if (g->count < 2) return;
  qsort(g->pairs, g->count, sizeof *g->pairs, by_row);
  size_t kept = 1;
  for (size_t i = 1; i < g->count; i++)
    if (by_row(&g->pairs[i], &g->pairs[kept - 1])) g->pairs[kept++] = g->pairs[i];
  g->count = kept;
}

/* the largest is 2^64 - 1, where one more is none */
static uint64_t any_up_to(random_source *r, uint64_t most) { return most == UINT64_MAX ? random_next(r) : random_below(r, most + 1); }

static uint64_t any_index(random_source *r, uint64_t n) {
  switch (random_below(r, 6)) {
    case 0:
      return 1 + random_below(r, n < 4 ? n : 4);
    case 1:
      return n - random_below(r, n < 4 ? n : 4);
    default:
      return 1 + any_up_to(r, n - 1);
  }
}

/* So many random pairs, fewer where some are the same. */
static void fill_any(graph *g, uint64_t n, size_t count, random_source *r) {
  int has_diagonal = !once_in(r, 5);
  g->n = n;
  g->count = 0;
  for (size_t i = 0; i < count; i++) {
    uint64_t row = any_index(r, n), column = has_diagonal && once_in(r, 5) ? row : any_index(r, n);
    if (row != column || has_diagonal) add_pair(g, row, column);
  }
  drop_repeats(g);
}

/* The whole triangle, each of its places with a chance. */
static void fill_triangle(graph *g, uint64_t n, uint64_t of, uint64_t among, random_source *r) {
  g->n = n;
  g->count = 0;
  for (uint64_t row = 1; row <= n; row++)
    for (uint64_t column = 1; column <= row; column++)
      if (random_below(r, among) < of) add_pair(g, row, column);
}

static void shuffle(graph *g, random_source *r) {
  for (size_t i = g->count; i > 1; i--) {
    size_t j = random_below(r, i);
    pair kept = g->pairs[i - 1];
    g->pairs[i - 1] = g->pairs[j];
    g->pairs[j] = kept;
  }
}

static void exchange(graph *g, size_t i, size_t j) {
  pair kept = g->pairs[i];
  g->pairs[i] = g->pairs[j];
  g->pairs[j] = kept;
}

/* By column or by row as tools write them, falling, in any order, by one for a part and by the other behind it, with two exchanged. */
static void put_in_order(graph *g, random_source *r) {
  if (g->count < 2) return;
  qsort(g->pairs, g->count, sizeof *g->pairs, once_in(r, 2) ? by_row : by_column);
  size_t part = random_below(r, g->count), other = random_below(r, g->count);
  switch (random_below(r, 8)) {
    case 0:
    case 1:
      shuffle(g, r);
      break;
    case 2:
      for (size_t i = 0; i < g->count / 2; i++) exchange(g, i, g->count - 1 - i);
      break;
    case 3:
      qsort(g->pairs + part, g->count - part, sizeof *g->pairs, once_in(r, 2) ? by_row : by_column);
      break;
    case 4:
      exchange(g, part, other);
      break;
    default:
      break;
  }
}

/* ---- how it is written */

enum ends { NEWLINES, RETURNS, BOTH_ENDS };

typedef struct {
  enum ends ends;
  int has_tabs, has_many_blanks, has_outer_blanks, has_zeros, has_any_case;
  int comments, is_mixed_head; /* blank lines before comments */
  uint64_t blank_line_once_in; /* 0: none */
  int has_last_end;
} manner;

static manner any_manner(random_source *r) {
  manner m = {.has_last_end = !once_in(r, 5)};
  if (once_in(r, 3)) return m;
  m.ends = once_in(r, 2) ? NEWLINES : (enum ends)random_below(r, 3);
  m.has_tabs = once_in(r, 3);
  m.has_many_blanks = once_in(r, 3);
  m.has_outer_blanks = once_in(r, 3);
  m.has_zeros = once_in(r, 4);
  m.has_any_case = once_in(r, 3);
  m.comments = once_in(r, 2) ? (int)random_below(r, 5) : 0;
  m.is_mixed_head = once_in(r, 2);
  m.blank_line_once_in = once_in(r, 3) ? 1 + random_below(r, 6) : 0;
  return m;
}

static void add_end(bytes *b, const manner *m, random_source *r) {
  int is_return = m->ends == RETURNS || (m->ends == BOTH_ENDS && once_in(r, 2));
  bytes_add_words(b, is_return ? "\r\n" : "\n");
}

static void add_blanks(bytes *b, const manner *m, size_t least, random_source *r) {
  size_t count = least + (m->has_many_blanks || !least ? random_below(r, 4) : 0);
  for (size_t i = 0; i < count; i++) bytes_add_times(b, m->has_tabs && once_in(r, 2) ? '\t' : ' ', 1);
}

static void add_outer(bytes *b, const manner *m, random_source *r) {
  if (m->has_outer_blanks && once_in(r, 2)) add_blanks(b, m, 0, r);
}

static void add_blank_lines(bytes *b, const manner *m, random_source *r) {
  while (m->blank_line_once_in && once_in(r, m->blank_line_once_in + 1)) {
    if (once_in(r, 2)) add_blanks(b, m, 0, r);
    add_end(b, m, r);
  }
}

static void add_number(bytes *b, const manner *m, const char *word, random_source *r) {
  if (m->has_zeros && once_in(r, 2)) bytes_add_times(b, '0', 1 + random_below(r, once_in(r, 8) ? 40 : 3));
  bytes_add_words(b, "%s", word);
}

static void add_numbers(bytes *b, const manner *m, const char *const *words, size_t count, random_source *r) {
  add_outer(b, m, r);
  for (size_t i = 0; i < count; i++) {
    if (i) add_blanks(b, m, 1, r);
    add_number(b, m, words[i], r);
  }
  add_outer(b, m, r);
}

static void add_banner(bytes *b, const manner *m, random_source *r) {
  static const char *const words[] = {"matrix", "coordinate", "pattern", "symmetric"};
  bytes_add_words(b, "%%%%MatrixMarket");
  for (size_t i = 0; i < sizeof words / sizeof *words; i++) {
    add_blanks(b, m, 1, r);
    int is_upper = m->has_any_case && once_in(r, 2), is_mixed = m->has_any_case && once_in(r, 2);
    for (const char *c = words[i]; *c; c++) bytes_add_times(b, (uint8_t)(*c - ((is_mixed ? once_in(r, 2) : is_upper) ? 32 : 0)), 1);
  }
  add_outer(b, m, r);
  add_end(b, m, r);
}

static void add_comment(bytes *b, const manner *m, random_source *r) {
  static const char *const list[] = {
      "%",  "% a comment",          "%%", "%%MatrixMarket matrix coordinate pattern symmetric", "%1 1 0", "%\t3 3 1", "% 1 1", "%-----",
      "% ", "%\xef\xbb\xbf\xc3\xa4"};
  bytes_add_words(b, "%s", PICK(r, list));
  for (uint64_t left = once_in(r, 3) ? random_below(r, 30) : 0; left > 0; left--) {
    uint8_t byte = (uint8_t)random_below(r, 256);
    if (byte != '\n' && byte != '\r') bytes_add_times(b, byte, 1);
  }
  add_end(b, m, r);
}

static void add_head(bytes *b, const manner *m, random_source *r) {
  add_banner(b, m, r);
  for (int i = 0; i < m->comments; i++) {
    if (m->is_mixed_head) add_blank_lines(b, m, r);
    add_comment(b, m, r);
  }
  add_blank_lines(b, m, r);
}

/* digits of a number */
typedef struct {
  char words[24];
} digits;

static digits digits_of(uint64_t x) {
  digits d;
  char *at = d.words + sizeof d.words - 1;
  *at = '\0';
  do *--at = (char)('0' + x % 10);
  while (x /= 10);
  memmove(d.words, at, strlen(at) + 1);
  return d;
}

/* The size line says these words, and the entries stand in the graph's order. */
static void write_words(bytes *b, const graph *g, const manner *m, const char *const said[3], random_source *r) {
  b->length = 0;
  add_head(b, m, r);
  add_numbers(b, m, said, 3, r);
  add_end(b, m, r);
  for (size_t i = 0; i < g->count; i++) {
    digits row = digits_of(g->pairs[i].row), column = digits_of(g->pairs[i].column);
    const char *const words[] = {row.words, column.words};
    add_blank_lines(b, m, r);
    add_numbers(b, m, words, 2, r);
    add_end(b, m, r);
  }
  add_blank_lines(b, m, r);
  if (m->has_last_end) return;
  b->length--;
  if (b->at[b->length - 1] == '\r') b->length--;
}

static void write_said(bytes *b, const graph *g, const char *entries, random_source *r) {
  manner m = any_manner(r);
  digits n = digits_of(g->n);
  const char *const said[] = {n.words, n.words, entries};
  write_words(b, g, &m, said, r);
  /* a line of as many bytes as may be, or of one less */
  if (!once_in(r, 24)) return;
  size_t line = bytes_any_line(b, r);
  bytes_lengthen(b, line, 1023 + random_below(r, 2), r);
}

static void write_graph(bytes *b, const graph *g, random_source *r) { write_said(b, g, digits_of(g->count).words, r); }

/* ---- the shapes */

static graph made;

static void a_few(bytes *b, random_source *r) {
  uint64_t n = 1 + random_below(r, 12);
  fill_any(&made, n, random_below(r, 16), r);
  put_in_order(&made, r);
  write_graph(b, &made, r);
}

static void whole_triangle(bytes *b, random_source *r) {
  fill_triangle(&made, 1 + random_below(r, 8), 1, 1, r);
  put_in_order(&made, r);
  write_graph(b, &made, r);
}

static void part_of_triangle(bytes *b, random_source *r) {
  uint64_t n = 1 + random_below(r, 16);
  fill_triangle(&made, n, 1 + random_below(r, 9), 10, r);
  put_in_order(&made, r);
  write_graph(b, &made, r);
}

static void hundreds(bytes *b, random_source *r) {
  uint64_t n = 1 + random_below(r, 300);
  fill_any(&made, n, 50 + random_below(r, 350), r);
  put_in_order(&made, r);
  write_graph(b, &made, r);
}

static void no_entries(bytes *b, random_source *r) {
  made.n = 1 + random_below(r, 40);
  made.count = 0;
  write_graph(b, &made, r);
}

/* `0 0 0`, `0 0 3` and the like; some have an entry */
static void no_rows(bytes *b, random_source *r) {
  static const char *const counts[] = {"0", "0", "0", "1", "3", "18446744073709551615", "00"};
  made.n = 0;
  made.count = 0;
  uint64_t row = random_below(r, 2), column = random_below(r, 2);
  if (once_in(r, 4)) add_pair(&made, row, column);
  write_said(b, &made, PICK(r, counts), r);
}

/* n at the limit and beside it */
static void most_rows(bytes *b, random_source *r) {
  static const uint64_t rows[] = {MOST_ROWS - 1, MOST_ROWS, MOST_ROWS, MOST_ROWS + 1, MOST_ROWS + 1};
  uint64_t n = PICK(r, rows);
  fill_any(&made, n, random_below(r, 12), r);
  put_in_order(&made, r);
  write_graph(b, &made, r);
}

static const uint64_t far_rows[] = {UINT64_C(2097152),
                                    UINT64_C(2147483648),
                                    UINT64_C(4294967294),
                                    UINT64_C(4294967295),
                                    UINT64_C(4294967296),
                                    UINT64_C(4294967297),
                                    UINT64_C(4295967297),
                                    UINT64_C(9223372036854775807),
                                    UINT64_C(9223372036854775808),
                                    UINT64_C(9223372036854775809),
                                    UINT64_C(18446744073709551613),
                                    UINT64_C(18446744073709551614),
                                    UINT64_C(18446744073709551615)};

/* The number with this upper half that the reader folds to the same 32 bits as x: of the entries that it keeps it stores but these. */
static uint64_t folded_alike(uint64_t x, uint32_t high) {
  const uint32_t factor = UINT32_C(2654435769), folded = (uint32_t)x + (uint32_t)(x >> 32) * factor;
  return ((uint64_t)high << 32) + (uint32_t)(folded - high * factor);
}

/* One more entry, which has the row or the column of another, and of the other number its lowest 32 bits, or what it is folded to. */
static void add_alike(graph *g, random_source *r) {
  pair p = g->pairs[random_below(r, g->count)];
  uint64_t other = folded_alike(p.row, (uint32_t)random_below(r, (g->n >> 32) + 1));
  if (once_in(r, 2)) {
    if (other && other <= g->n) add_pair(g, other, p.column);
    return;
  }
  uint64_t low = p.column & UINT32_MAX, high = p.row >> 32;
  if (once_in(r, 2) && low && high)
    add_pair(g, p.row, low + (random_below(r, high) << 32));
  else if (p.row & UINT32_MAX)
    add_pair(g, (p.row & UINT32_MAX) + (random_below(r, g->n >> 32) << 32), p.column);
}

static void far_over(bytes *b, random_source *r) {
  uint64_t n = PICK(r, far_rows);
  fill_any(&made, n, random_below(r, 12), r);
  if (n > UINT32_MAX && made.count && once_in(r, 2)) add_alike(&made, r);
  drop_repeats(&made);
  put_in_order(&made, r);
  write_graph(b, &made, r);
}

/* less than a file, or one that has just begun */
static void hardly_any(bytes *b, random_source *r) {
  static const char *const heads[] = {"", "", "%%MatrixMarket matrix coordinate pattern symmetric",
                                      "%%MatrixMarket matrix coordinate pattern symmetric\n"};
  static const char *const tails[] = {"",    "\n", "\r\n", "\r",      "\n\n",      "\n\r",       "%",
                                      "%\n", " ",  "\t\n", "\n0 0 0", "\n1 1 0\r", "\n1 1 0\n\r"};
  b->length = 0;
  bytes_add_words(b, "%s", PICK(r, heads));
  bytes_add_words(b, "%s", PICK(r, tails));
}

/* The size line at and beside n (n + 1) / 2, whatever n is; what is more than 2^64 - 1 is said as such a word. */
static void most_entries(bytes *b, random_source *r) {
  static const uint64_t beside[] = {6074000998, 6074000999, 6074001000, 6074001001, 3037000499, 3037000500, 92681, 92682, 65535, 65536};
  uint64_t n = once_in(r, 2) ? 1 + random_below(r, 9) : once_in(r, 2) ? PICK(r, beside) : PICK(r, far_rows);
  unsigned __int128 most = (unsigned __int128)n * ((unsigned __int128)n + 1) / 2, said = most + random_below(r, 4) - 2;
  fill_any(&made, n, random_below(r, 6), r);
  put_in_order(&made, r);
  if (n < 10 && once_in(r, 2)) fill_triangle(&made, n, 1, 1, r);
  write_said(b, &made, said > UINT64_MAX ? any_edge(r) : digits_of((uint64_t)said).words, r);
}

/* Size lines at the limits of the room that is answered; the entries are missing. */
static void most_room(bytes *b, random_source *r) {
  static const uint64_t rows[] = {8191, 8192, 8193, 11584, 11585, 11586, 65536, MOST_ROWS, MOST_ROWS + 1};
  static const uint64_t counts[] = {33554431, 33554432, 33554433, 33550336, 33558528, 33558529, 67108863, 67108864, 67108865, 134217728};
  uint64_t n = PICK(r, rows);
  fill_any(&made, n, random_below(r, 4), r);
  put_in_order(&made, r);
  write_said(b, &made, digits_of(PICK(r, counts)).words, r);
}

/* a place of an entry: at the ends, or where a block of the search for repeats ends */
static size_t any_spot(size_t count, random_source *r) {
  static const size_t spots[] = {0, 1, BLOCK - 2, BLOCK - 1, BLOCK, BLOCK + 1, 2 * BLOCK - 1, 2 * BLOCK, 2 * BLOCK + 1};
  size_t spot = PICK(r, spots);
  if (once_in(r, 4)) spot = count - 1;
  return spot < count && !once_in(r, 2) ? spot : random_below(r, count);
}

/* none, one, or two or three */
static uint64_t repeats_of(random_source *r) { return once_in(r, 3) ? 0 : once_in(r, 2) ? 1 : 2 + random_below(r, 2); }

/* An entry in the place of another: a block behind it or more where there are so many, right behind it, or anywhere. */
static void repeat_any(random_source *r) {
  size_t from = any_spot(made.count, r), to = any_spot(made.count, r);
  if (made.count > BLOCK && once_in(r, 2)) {
    from = any_spot(made.count - BLOCK, r);
    to = from + BLOCK + (once_in(r, 3) ? 0 : random_below(r, made.count - BLOCK - from));
  } else if (from + 1 < made.count && once_in(r, 2)) {
    to = from + 1;
  }
  made.pairs[to] = made.pairs[from];
}

/* As many entries, four of which are alike in their columns and the lowest 32 bits of their rows. */
static void spread(graph *g) {
  for (size_t i = g->count; i-- > 0;) {
    g->pairs[i] = g->pairs[i / 4];
    g->pairs[i].row += (uint64_t)(i % 4) << 32;
  }
  g->n += UINT64_C(4) << 32;
}

/* Some entries in the places of others, each with the key of an entry that stays, and no repeat: the reader must look into the text. */
static void share_keys(graph *g, random_source *r) {
  g->n += UINT64_C(4) << 32;
  for (uint64_t left = 1 + random_below(r, 40); left > 0; left--) {
    size_t from = any_spot(g->count, r), to = any_spot(g->count, r);
    pair p = g->pairs[from];
    p.row = folded_alike(p.row, (uint32_t)(1 + random_below(r, 3)));
    g->pairs[to] = p;
  }
  drop_repeats(g);
}

/* More entries than a block has, most in no rising order: without a repeat, or with one to three, near and far apart; some with a line that
 * is wrong by itself. */
static void many(bytes *b, random_source *r) {
  static const size_t counts[] = {BLOCK - 1, BLOCK, BLOCK + 1, BLOCK + 2, 2 * BLOCK - 1, 2 * BLOCK, 2 * BLOCK + 1, 0};
  size_t due = PICK(r, counts);
  if (!due) due = BLOCK + random_below(r, 2 * BLOCK);
  uint64_t n = 450 + random_below(r, 60);
  fill_triangle(&made, n, 8 + random_below(r, 3), 10, r);
  shuffle(&made, r);
  if (made.count > due) made.count = due;
  uint64_t alike = random_below(r, 6);
  if (alike == 0) spread(&made);
  if (alike == 1) share_keys(&made, r);
  if (alike <= 1) shuffle(&made, r);
  if (once_in(r, 4)) put_in_order(&made, r);
  for (uint64_t left = repeats_of(r); left > 0; left--) repeat_any(r);
  if (once_in(r, 6)) made.pairs[any_spot(made.count, r)].row += 1000;
  write_graph(b, &made, r);
}

/* ---- all of them */

typedef struct {
  const char *name;
  void (*make)(bytes *, random_source *);
  uint64_t weight;
} shape;

static const shape shapes[] = {{"a few entries", a_few, 900},
                               {"the whole triangle", whole_triangle, 200},
                               {"a part of the triangle", part_of_triangle, 400},
                               {"some hundred entries", hundreds, 60},
                               {"no entries", no_entries, 120},
                               {"no rows", no_rows, 120},
                               {"hardly a byte", hardly_any, 40},
                               {"rows at their limit", most_rows, 12},
                               {"rows far over their limit", far_over, 200},
                               {"as many entries said as the triangle holds", most_entries, 240},
                               {"as much room answered as there may be", most_room, 60},
                               {"more entries than a block of the search", many, 5}};

enum { SHAPES = sizeof shapes / sizeof *shapes };

int shape_count(void) { return SHAPES; }

const char *shape_name(int which) { return shapes[which].name; }

int shape_make(bytes *b, random_source *r) {
  uint64_t all = 0;
  for (int i = 0; i < SHAPES; i++) all += shapes[i].weight;
  uint64_t drawn = random_below(r, all);
  int which = 0;
  while (drawn >= shapes[which].weight) drawn -= shapes[which++].weight;
  shapes[which].make(b, r);
  return which;
}

void shape_make_plain(bytes *b, random_source *r, uint64_t most_rows) {
  uint64_t n = 1 + random_below(r, once_in(r, 4) ? most_rows : 40);
  if (once_in(r, 8))
    fill_triangle(&made, 1 + random_below(r, 12), 1, 1, r);
  else
    fill_any(&made, n, random_below(r, once_in(r, 4) ? 600 : 60), r);
  put_in_order(&made, r);
  manner m = any_manner(r);
  m.is_mixed_head = 0;
  digits rows = digits_of(made.n), entries = digits_of(made.count);
  const char *const said[] = {rows.words, rows.words, entries.words};
  write_words(b, &made, &m, said, r);
}
