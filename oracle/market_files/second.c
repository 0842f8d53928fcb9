#include "second.h"

#include <stdlib.h>
#include <string.h>
#include <strings.h>

#include "tally.h"

/* "No line has more than 1,024 characters"; "2^64 or more is a fault of its line" */
enum { LONGEST = 1024 };
static const char largest[] = "18446744073709551615";

typedef struct {
  const char *at;
  size_t length;
} piece;

/* ---- lines */

/* "A line ends with a newline, or a carriage return and a newline, or the end of the file (an end right after a newline begins no line)" */
static piece take_line(piece *rest) {
  const char *newline = memchr(rest->at, '\n', rest->length);
  piece line = {rest->at, newline ? (size_t)(newline - rest->at) : rest->length};
  size_t taken = line.length + (newline != NULL);
  rest->at += taken;
  rest->length -= taken;
  if (newline && line.length && line.at[line.length - 1] == '\r') line.length--;
  return line;
}

/* "its end does not count among the 1,024; a carriage return elsewhere is a fault" */
static int is_line(piece line) { return line.length <= LONGEST && !memchr(line.at, '\r', line.length); }

/* ---- words: "separated by one or more blanks (spaces or tabs), and may have them before and behind" */

enum { MOST_WORDS = 6 };

static int is_blank(char c) { return c == ' ' || c == '\t'; }

/* How many words there are; six are too many for any line. */
static size_t words_of(piece line, piece words[MOST_WORDS]) {
  size_t count = 0, i = 0;
  while (i < line.length && count < MOST_WORDS) {
    while (i < line.length && is_blank(line.at[i])) i++;
    piece word = {line.at + i, 0};
    while (i < line.length && !is_blank(line.at[i])) i++;
    word.length = (size_t)(line.at + i - word.at);
    if (word.length) words[count++] = word;
  }
  return count;
}

/* "decimal digits, leading zeros allowed, no sign" */
static int read_number(piece word, uint64_t *out) {
  for (size_t i = 0; i < word.length; i++)
    if (word.at[i] < '0' || word.at[i] > '9') return 0;
  while (word.length > 1 && word.at[0] == '0') {
    word.at++;
    word.length--;
  }
  size_t most = strlen(largest);
  if (word.length > most || (word.length == most && memcmp(word.at, largest, most) > 0)) return 0;
  *out = 0;
  for (size_t i = 0; i < word.length; i++) *out = *out * 10 + (uint64_t)(word.at[i] - '0');
  return 1;
}

static int read_numbers(const piece *words, size_t count, uint64_t *out) {
  for (size_t i = 0; i < count; i++)
    if (!read_number(words[i], &out[i])) return 0;
  return 1;
}

/* ---- the lines of a file */

/* "the words matrix, coordinate, pattern, symmetric, by blanks; each letter of the four words in either case"; "the banner's first word
 * stands exactly so", in the line's first place */
static int is_banner(piece line) {
  static const char *const due[] = {"%%MatrixMarket", "matrix", "coordinate", "pattern", "symmetric"};
  enum { WORDS = sizeof due / sizeof *due };
  piece words[MOST_WORDS];
  if (line.length == 0 || is_blank(line.at[0])) return 0;
  if (words_of(line, words) != WORDS) return 0;
  for (size_t i = 0; i < WORDS; i++)
    if (words[i].length != strlen(due[i]) || strncasecmp(words[i].at, due[i], words[i].length)) return 0;
  return strncmp(words[0].at, due[0], words[0].length) == 0;
}

/* "Rows and columns are equal in number"; "more than n (n + 1) / 2 entries is itself at fault" */
static int take_size(second *s, const uint64_t said[3]) {
  unsigned __int128 n = said[0], twice = said[2];
  if (said[0] != said[1] || 2 * twice > n * (n + 1)) return 0;
  s->has_size = 1;
  s->n = said[0];
  s->m = said[2];
  return 1;
}

static void keep_entry(second *s, entry e) {
  if (s->count == s->room) {
    s->room = 2 * s->room + 64;
    s->entries = realloc(s->entries, s->room * sizeof *s->entries);
    if (!s->entries) fail("no memory");
  }
  s->entries[s->count++] = e;
}

/* "each entry's row is at least its column and at most n, its column at least 1, there are exactly as many entries as the size line says"
 */
static int take_entry(second *s, const uint64_t said[2], uint64_t line) {
  uint64_t row = said[0], column = said[1];
  if (row < column || row > s->n || column < 1) return 0;
  if (s->count == s->m) return 0;
  entry e = {row, column, line, s->count};
  keep_entry(s, e);
  return 1;
}

/* "A comment begins with % in its first place, stands between banner and size line only, and holds any byte" */
static int is_comment(const second *s, piece line) { return !s->has_size && line.length && line.at[0] == '%'; }

static int take_behind_banner(second *s, piece line, uint64_t number) {
  piece words[MOST_WORDS];
  uint64_t said[3];
  if (is_comment(s, line)) return 1;
  size_t count = words_of(line, words);
  if (count == 0) return 1;
  if (s->has_size) return count == 2 && read_numbers(words, count, said) && take_entry(s, said, number);
  return count == 3 && read_numbers(words, count, said) && take_size(s, said);
}

static int take(second *s, piece line, uint64_t number) {
  if (!is_line(line)) return 0;
  return number == 1 ? is_banner(line) : take_behind_banner(s, line, number);
}

/* ---- repeats: "for a repeated entry the later of the two lines" */

static int by_number(uint64_t x, uint64_t y) { return (x > y) - (x < y); }

static int by_place(const void *left, const void *right) {
  const entry *x = left, *y = right;
  int by_row = by_number(x->row, y->row), by_column = by_number(x->column, y->column);
  return by_row ? by_row : by_column ? by_column : by_number(x->line, y->line);
}

/* The first line that repeats stands before any other fault. */
static void find_repeat(second *s) {
  uint64_t first = UINT64_MAX;
  if (s->count) qsort(s->entries, s->count, sizeof *s->entries, by_place);
  for (size_t i = 1; i < s->count; i++) {
    const entry *x = &s->entries[i - 1], *y = &s->entries[i];
    if (x->row != y->row || x->column != y->column || y->line >= first) continue;
    first = s->fault = y->line;
    s->why = REPEATED;
    s->apart = y->index - x->index;
  }
}

/* ---- the file */

/* "for too few entries the line that is missing; 19 at 1 for an empty file" */
static void find_fault(second *s, piece rest) {
  uint64_t number = 0;
  while (rest.length) {
    piece line = take_line(&rest);
    int had_size = s->has_size;
    if (take(s, line, ++number)) continue;
    s->fault = number;
    s->why = number == 1 ? BANNER : had_size ? BODY : HEAD;
    return;
  }
  if (s->has_size && s->count == s->m) return;
  s->fault = number + 1;
  s->why = s->has_size ? TOO_FEW : NO_SIZE;
}

/* ---- the graph: "off the diagonal it is placed in both rows, a row's entries rise by column" */

static void place(second *s) {
  size_t starts = (size_t)s->n + 1;
  if (s->placed_room < 2 * s->count) s->graph = realloc(s->graph, (s->placed_room = 2 * s->count) * sizeof *s->graph);
  if (s->starts_room < starts) s->starts = realloc(s->starts, (s->starts_room = starts) * sizeof *s->starts);
  if ((s->placed_room && !s->graph) || !s->starts) fail("no memory");
  for (size_t i = 0; i < s->count; i++) {
    entry e = {s->entries[i].row - 1, s->entries[i].column - 1, 0, 0}, other = {e.column, e.row, 0, 0};
    s->graph[s->placed++] = e;
    if (e.row != e.column) s->graph[s->placed++] = other;
  }
  if (s->placed) qsort(s->graph, s->placed, sizeof *s->graph, by_place);
  size_t at = 0;
  for (size_t row = 0; row < starts; row++) {
    while (at < s->placed && s->graph[at].row < row) at++;
    s->starts[row] = at;
  }
}

void second_read(second *s, const uint8_t *text, size_t length) {
  piece whole = {(const char *)text, length};
  s->fault = s->head_fault = s->n = s->m = s->count = s->placed = s->apart = 0;
  s->why = NO_FAULT;
  s->has_size = 0;
  find_fault(s, whole);
  if (!s->has_size) s->head_fault = s->fault;
  find_repeat(s);
  if (!s->fault && s->n <= MOST_ROWS) place(s);
}

/* ---- the answers */

static market_graph refused(uint64_t number, uint64_t place) {
  market_graph answer = {{number, place}, 0, 0};
  return answer;
}

/* "Then 2 for n = 0, 3 (n over 1,048,576, or more than 67,108,864 entries as placed), then 11 with the first short list." */
market_graph second_answer(const second *s, const size_t lengths[LISTS]) {
  if (s->fault) return refused(19, s->fault);
  if (s->n == 0) return refused(2, 0);
  if (s->n > MOST_ROWS || s->placed > MOST_ENTRIES) return refused(3, 0);
  if (lengths[STARTS] < s->n + 1) return refused(11, STARTS);
  if (lengths[COLUMNS] < s->placed) return refused(11, COLUMNS);
  if (lengths[VALUES] < s->placed) return refused(11, VALUES);
  market_graph answer = {{0, 0}, (size_t)s->n, s->placed};
  return answer;
}

/* "answers n + 1 and room that suffices (twice the entries, no more than the limit), or 19 for those lines, 2 and 3" */
market_room second_room(const second *s) {
  market_room room = {{0, 0}, 0, 0};
  if (s->head_fault) {
    room.verdict.number = 19;
    room.verdict.place = s->head_fault;
  } else if (s->n == 0) {
    room.verdict.number = 2;
  } else if (s->n > MOST_ROWS || s->m > MOST_ENTRIES) {
    room.verdict.number = 3;
  } else {
    room.starts = (size_t)s->n + 1;
    room.entries = 2 * s->m > MOST_ENTRIES ? MOST_ENTRIES : 2 * s->m;
  }
  return room;
}
