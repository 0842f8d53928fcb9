#include "damage.h"

#include <string.h>

#include "pick.h"
#include "shapes.h"

/* No call here draws for two of its arguments: compilers differ in which they draw first, and a number must make the same file everywhere.
 */

/* ---- a byte */

static span byte_at(const bytes *b, size_t at) {
  span s = {at, at + (at < b->length)};
  return s;
}

/* 0 behind the end, so that a file does not depend on the one before it */
static uint8_t byte_of(const bytes *b, size_t at) { return at < b->length ? b->at[at] : 0; }

static void put_byte(bytes *b, size_t at, uint8_t byte) { bytes_replace(b, byte_at(b, at), &byte, 1); }

static void add_byte(bytes *b, size_t at, uint8_t byte) {
  span nothing = {at, at};
  bytes_replace(b, nothing, &byte, 1);
}

static uint8_t any_digit(random_source *r) { return (uint8_t)('0' + random_below(r, 10)); }

static uint8_t any_blank(random_source *r) { return once_in(r, 2) ? ' ' : '\t'; }

/* a byte of any kind that the rules have an opinion about, or any at all */
static uint8_t any_byte(random_source *r) {
  static const char signs[] = "\n\r\t %+-.,/:0\v\f;xM";
  switch (random_below(r, 4)) {
    case 0:
      return any_digit(r);
    case 1:
      return (uint8_t)signs[random_below(r, sizeof signs - 1)];
    default:
      return (uint8_t)random_below(r, 256);
  }
}

static void byte_other(bytes *b, random_source *r) {
  size_t at = bytes_any_place(b, r);
  put_byte(b, at, (uint8_t)(byte_of(b, at) + 1 + random_below(r, 255)));
}

static void byte_kind(bytes *b, random_source *r) {
  size_t at = bytes_any_place(b, r);
  put_byte(b, at, any_byte(r));
}

static void byte_newline(bytes *b, random_source *r) { put_byte(b, bytes_any_place(b, r), '\n'); }

static void byte_return(bytes *b, random_source *r) { put_byte(b, bytes_any_place(b, r), '\r'); }

static void byte_blank(bytes *b, random_source *r) {
  size_t at = bytes_any_place(b, r);
  put_byte(b, at, any_blank(r));
}

static void byte_digit(bytes *b, random_source *r) {
  size_t at = bytes_any_place(b, r);
  put_byte(b, at, any_digit(r));
}

static void byte_percent(bytes *b, random_source *r) { put_byte(b, bytes_any_place(b, r), '%'); }

static void byte_nul(bytes *b, random_source *r) { put_byte(b, bytes_any_place(b, r), 0); }

static void byte_beside(bytes *b, random_source *r) {
  size_t at = bytes_any_place(b, r);
  put_byte(b, at, (uint8_t)(byte_of(b, at) + (once_in(r, 2) ? 1 : 255)));
}

static void byte_bit(bytes *b, random_source *r) {
  size_t at = bytes_any_place(b, r);
  put_byte(b, at, (uint8_t)(byte_of(b, at) ^ 1u << random_below(r, 8)));
}

static void byte_dropped(bytes *b, random_source *r) { bytes_replace(b, byte_at(b, bytes_any_place(b, r)), "", 0); }

static void byte_added(bytes *b, random_source *r) {
  size_t at = bytes_any_place(b, r);
  add_byte(b, at, any_byte(r));
}

static void blank_added(bytes *b, random_source *r) {
  size_t at = bytes_any_place(b, r);
  add_byte(b, at, any_blank(r));
}

static void byte_doubled(bytes *b, random_source *r) {
  size_t at = bytes_any_place(b, r);
  add_byte(b, at, byte_of(b, at));
}

static void bytes_exchanged(bytes *b, random_source *r) {
  size_t at = bytes_any_place(b, r);
  if (at + 1 >= b->length) return;
  uint8_t first = b->at[at];
  b->at[at] = b->at[at + 1];
  b->at[at + 1] = first;
}

static void stretch_dropped(bytes *b, random_source *r) {
  size_t from = bytes_any_place(b, r);
  span gone = {from, from + random_below(r, b->length - from + 1)};
  if (once_in(r, 2) && gone.to > from + 12) gone.to = from + 1 + random_below(r, 12);
  bytes_replace(b, gone, "", 0);
}

/* ---- lines */

/* Copies bytes of the file, which moves as it changes. */
static const bytes *copy_of(const bytes *b, span s) {
  static bytes copies[2];
  static int which;
  bytes *copy = &copies[which = !which];
  copy->length = 0;
  bytes_add(copy, b->at + s.from, s.to - s.from);
  return copy;
}

static void insert_at(bytes *b, size_t at, const bytes *more) {
  span there = {at, at};
  bytes_replace(b, there, more->at, more->length);
}

static void line_dropped(bytes *b, random_source *r) { bytes_replace(b, bytes_line(b, bytes_any_line(b, r)), "", 0); }

static void line_doubled(bytes *b, random_source *r) {
  span line = bytes_line(b, bytes_any_line(b, r));
  insert_at(b, line.from, copy_of(b, line));
}

static void line_copied(bytes *b, random_source *r) {
  const bytes *copy = copy_of(b, bytes_line(b, bytes_any_line(b, r)));
  insert_at(b, bytes_line(b, bytes_any_line(b, r)).from, copy);
}

static void lines_exchanged(bytes *b, random_source *r) {
  size_t count = bytes_line_count(b), i = bytes_any_line(b, r), j = bytes_any_line(b, r);
  if (i == j) j = (i + 1) % count;
  if (i == j) return;
  span first = bytes_line(b, i < j ? i : j), second = bytes_line(b, i < j ? j : i);
  const bytes *x = copy_of(b, first), *y = copy_of(b, second);
  bytes_replace(b, second, x->at, x->length);
  bytes_replace(b, first, y->at, y->length);
}

static void line_emptied(bytes *b, random_source *r) { bytes_replace(b, bytes_inside(b, bytes_line(b, bytes_any_line(b, r))), "", 0); }

static void line_added(bytes *b, random_source *r) {
  static const char *const lines[] = {"\n",     " \n", "\t\n",  "\r\n",    "%\n",   "% x\r\n", " %\n",
                                      "\r\r\n", "\r",  "1 1\n", "1 1 1\n", "0 0\n", "1\n",     "%\rx\n"};
  span line = bytes_line(b, bytes_any_line(b, r)), before = {line.from, line.from};
  bytes_put_words(b, before, PICK(r, lines));
}

static void end_changed(bytes *b, random_source *r) {
  static const char *const ends[] = {"\n", "\r\n", "\r", "", " \n", "\t\r\n", "\r\r\n", "\n\r", "\n\r\n", "\r \n", "\v\n", "\f\n", "\n\n"};
  span line = bytes_line(b, bytes_any_line(b, r)), end = {bytes_inside(b, line).to, line.to};
  bytes_put_words(b, end, PICK(r, ends));
}

/* to as many bytes as may be, and beside that */
static void line_long(bytes *b, random_source *r) {
  size_t due = 1022 + random_below(r, 6);
  if (once_in(r, 8)) due += random_below(r, 4000);
  bytes_lengthen(b, bytes_any_line(b, r), due, r);
}

static void word_dropped(bytes *b, random_source *r) { bytes_replace(b, bytes_any_number(b, r), "", 0); }

static void word_added(bytes *b, random_source *r) {
  static const char *const words[] = {" 1", " 0", "\t2", " x", " %", " % 1", " 1 1"};
  span end = bytes_any_number(b, r);
  end.from = end.to;
  bytes_put_words(b, end, PICK(r, words));
}

/* An entry's row and column, or the size line's first two or last two words. */
static void words_exchanged(bytes *b, random_source *r) {
  size_t count = bytes_line_count(b), size = bytes_size_line(b);
  span line = bytes_line(b, size + random_below(r, count - size));
  size_t words = bytes_word_count(b, line);
  if (words < 2) return;
  size_t i = random_below(r, words - 1);
  span first = bytes_word(b, line, i), second = bytes_word(b, line, i + 1);
  const bytes *x = copy_of(b, first), *y = copy_of(b, second);
  bytes_replace(b, second, x->at, x->length);
  bytes_replace(b, first, y->at, y->length);
}

/* ---- entries */

/* any line behind the size line, or behind the end */
static span any_entry(const bytes *b, random_source *r) {
  size_t count = bytes_line_count(b), size = bytes_size_line(b);
  return bytes_inside(b, bytes_line(b, size + 1 + random_below(r, count > size + 1 ? count - size - 1 : 1)));
}

/* One entry in the place of another, so that as many stand there as before. */
static void entry_repeated(bytes *b, random_source *r) {
  const bytes *copy = copy_of(b, any_entry(b, r));
  bytes_replace(b, any_entry(b, r), copy->at, copy->length);
}

/* ---- numbers */

static void number_edge(bytes *b, random_source *r) {
  span number = bytes_any_number(b, r);
  bytes_put_words(b, number, any_edge(r));
}

static void number_wrong(bytes *b, random_source *r) {
  span number = bytes_any_number(b, r);
  bytes_put_words(b, number, any_wrong_word(r));
}

static void number_small(bytes *b, random_source *r) {
  char word[] = {(char)any_digit(r), '\0'};
  bytes_put_words(b, bytes_any_number(b, r), word);
}

static void zeros_before(bytes *b, random_source *r) {
  static const char zeros[] = "0000000000000000000000000000000000000000";
  span number = bytes_any_number(b, r), before = {number.from, number.from};
  bytes_replace(b, before, zeros, 1 + random_below(r, sizeof zeros - 1));
}

static void digit_behind(bytes *b, random_source *r) {
  span number = bytes_any_number(b, r);
  add_byte(b, number.to, any_digit(r));
}

/* A word of digits, one more or less; other words stay. */
static void step_word(bytes *b, span word, int is_up) {
  for (size_t at = word.to; at > word.from; at--) {
    uint8_t digit = b->at[at - 1];
    if (digit < '0' || digit > '9') return;
    int carries = digit == (is_up ? '9' : '0');
    b->at[at - 1] = (uint8_t)(carries ? (is_up ? '0' : '9') : is_up ? digit + 1 : digit - 1);
    if (!carries) return;
  }
  if (is_up && word.from < word.to) add_byte(b, word.from, '1');
}

static void number_beside(bytes *b, random_source *r) {
  span number = bytes_any_number(b, r);
  step_word(b, number, once_in(r, 2));
}

/* ---- the size line */

static span size_word(const bytes *b, size_t i) { return bytes_word(b, bytes_line(b, bytes_size_line(b)), i); }

static void count_beside(bytes *b, random_source *r) { step_word(b, size_word(b, 2), once_in(r, 2)); }

static void rows_beside(bytes *b, random_source *r) {
  int is_up = once_in(r, 2);
  step_word(b, size_word(b, 0), is_up);
  step_word(b, size_word(b, 1), is_up);
}

static void rows_replaced(bytes *b, random_source *r) {
  const char *with = any_edge(r);
  bytes_put_words(b, size_word(b, 1), with);
  bytes_put_words(b, size_word(b, 0), with);
}

static void count_replaced(bytes *b, random_source *r) { bytes_put_words(b, size_word(b, 2), any_edge(r)); }

/* ---- the banner */

static span banner_word(const bytes *b, random_source *r) {
  span line = bytes_line(b, 0);
  return bytes_word(b, line, random_below(r, bytes_word_count(b, line)));
}

static void banner_replaced(bytes *b, random_source *r) {
  static const char *const words[] = {
      "%%MatrixMarket", "%%matrixmarket", "%%MATRIXMARKET", "%MatrixMarket", "%%%MatrixMarket", "%%MatrixMarke", "matrix",   "MATRIX",
      "vector",         "coordinate",     "array",          "CoOrDiNaTe",    "pattern",         "PATTERN",       "real",     "integer",
      "symmetric",      "Symmetric",      "general",        "hermitian",     "matri",           "matrixx",       "symmetri", "patter\xEE"};
  span word = banner_word(b, r);
  bytes_put_words(b, word, PICK(r, words));
}

static void banner_case(bytes *b, random_source *r) {
  span word = banner_word(b, r);
  size_t at = word.from + random_below(r, word.to - word.from);
  if (at < word.to) b->at[at] ^= 32;
}

static void banner_blanks(bytes *b, random_source *r) {
  static const char *const blanks[] = {" ", "\t", "  ", " \t ", "", "\v", "\r", "\f", "\xa0", ","};
  span line = bytes_inside(b, bytes_line(b, 0)), word = banner_word(b, r), gap = {word.to, word.to};
  while (gap.to < line.to && (b->at[gap.to] == ' ' || b->at[gap.to] == '\t')) gap.to++;
  if (once_in(r, 8)) gap.from = gap.to = 0;
  bytes_put_words(b, gap, PICK(r, blanks));
}

static void banner_word_dropped(bytes *b, random_source *r) { bytes_put_words(b, banner_word(b, r), ""); }

static void banner_word_added(bytes *b, random_source *r) {
  static const char *const words[] = {" x", " symmetric", "\t%", " 1", " general "};
  span end = banner_word(b, r);
  end.from = end.to;
  bytes_put_words(b, end, PICK(r, words));
}

/* ---- the file */

static void begun_with(bytes *b, random_source *r) {
  static const char *const heads[] = {"\xef\xbb\xbf", " ", "\t", "\n", "%\n", "\r\n", "%", "\r"};
  span before = {0, 0};
  bytes_put_words(b, before, PICK(r, heads));
}

static void cut_anywhere(bytes *b, random_source *r) { b->length = bytes_any_place(b, r); }

static void cut_at_line(bytes *b, random_source *r) { b->length = bytes_line(b, bytes_any_line(b, r)).from; }

static void cut_last(bytes *b, random_source *r) {
  size_t gone = 1 + random_below(r, 3);
  b->length -= gone < b->length ? gone : b->length;
}

static void bytes_behind(bytes *b, random_source *r) {
  for (uint64_t left = 1 + random_below(r, 4); left > 0; left--) bytes_add_times(b, any_byte(r), 1);
}

static void line_behind(bytes *b, random_source *r) {
  static const char *const lines[] = {"\n",  "\r\n", "\r",     " ",    "\t\n",   " \r\n", "1 1\n",   "1 1",
                                      "%\n", "%",    "\n\n\n", "\n\r", "\n\r\n", "0",     "\n1 1\n", "\n%\n"};
  bytes_add_words(b, "%s", PICK(r, lines));
}

static void begun_again(bytes *b, random_source *r) {
  span whole = {0, b->length};
  (void)r;
  insert_at(b, b->length, copy_of(b, whole));
}

/* The head of one file and the tail of another. */
static void spliced(bytes *b, random_source *r) {
  static bytes other;
  shape_make(&other, r);
  size_t from = bytes_line(&other, bytes_any_line(&other, r)).from;
  b->length = bytes_line(b, bytes_any_line(b, r)).from;
  bytes_add(b, other.at + from, other.length - from);
}

/* ---- all of them */

static void nothing(bytes *b, random_source *r) {
  (void)b;
  (void)r;
}

typedef struct {
  const char *name;
  void (*apply)(bytes *, random_source *);
} damage;

static const damage damages[] = {{"none", nothing},
                                 {"a byte changed to any other", byte_other},
                                 {"a byte changed to one of some kind", byte_kind},
                                 {"a byte changed to a newline", byte_newline},
                                 {"a byte changed to a carriage return", byte_return},
                                 {"a byte changed to a blank", byte_blank},
                                 {"a byte changed to a digit", byte_digit},
                                 {"a byte changed to %", byte_percent},
                                 {"a byte changed to NUL", byte_nul},
                                 {"a byte changed to one beside it", byte_beside},
                                 {"a byte with a bit turned", byte_bit},
                                 {"a byte dropped", byte_dropped},
                                 {"a byte added", byte_added},
                                 {"a blank added", blank_added},
                                 {"a byte doubled", byte_doubled},
                                 {"two bytes exchanged", bytes_exchanged},
                                 {"a stretch of bytes dropped", stretch_dropped},
                                 {"a line dropped", line_dropped},
                                 {"a line doubled", line_doubled},
                                 {"a line copied elsewhere", line_copied},
                                 {"two lines exchanged", lines_exchanged},
                                 {"a line emptied", line_emptied},
                                 {"a line added", line_added},
                                 {"a line's end changed", end_changed},
                                 {"a line lengthened to 1,024 bytes or so", line_long},
                                 {"a number dropped", word_dropped},
                                 {"a word added", word_added},
                                 {"two numbers of a line exchanged", words_exchanged},
                                 {"an entry in the place of another", entry_repeated},
                                 {"a number replaced by one at an edge", number_edge},
                                 {"a number replaced by a wrong word", number_wrong},
                                 {"a number replaced by a digit", number_small},
                                 {"zeros before a number", zeros_before},
                                 {"a digit behind a number", digit_behind},
                                 {"a number one off", number_beside},
                                 {"the count of entries one off", count_beside},
                                 {"the rows one off", rows_beside},
                                 {"the rows replaced", rows_replaced},
                                 {"the count of entries replaced", count_replaced},
                                 {"a word of the banner replaced", banner_replaced},
                                 {"a letter of the banner in its other case", banner_case},
                                 {"blanks of the banner changed", banner_blanks},
                                 {"a word of the banner dropped", banner_word_dropped},
                                 {"a word added to the banner", banner_word_added},
                                 {"something before the beginning", begun_with},
                                 {"cut anywhere", cut_anywhere},
                                 {"cut at the end of a line", cut_at_line},
                                 {"the last bytes cut", cut_last},
                                 {"bytes behind the end", bytes_behind},
                                 {"a line behind the end", line_behind},
                                 {"the file once more behind the end", begun_again},
                                 {"gone on with in another file", spliced}};

enum { DAMAGES = sizeof damages / sizeof *damages, TWICE = DAMAGES, SAMPLE_CHANGED, SAMPLE_DROPPED, SAMPLE_ADDED, ALL_NAMES };

static const char *const other_names[ALL_NAMES - DAMAGES] = {"two or three of these at once",
                                                             "the sample with any byte changed to any other",
                                                             "the sample with any byte dropped", "the sample with any byte added anywhere"};

int damage_count(void) { return ALL_NAMES; }

const char *damage_name(int which) { return which < DAMAGES ? damages[which].name : other_names[which - DAMAGES]; }

/* ---- the sample with every single byte changed to every other, dropped, and added everywhere */

enum { SAMPLE_SHARE = 3, OTHERS = 255, BYTES = 256 };

static uint64_t sample_files(void) {
  uint64_t length = strlen(sample);
  return length * OTHERS + length + (length + 1) * BYTES;
}

static made_by damage_sample(bytes *b, uint64_t which) {
  made_by made = {SAMPLE, SAMPLE_CHANGED};
  uint64_t length = strlen(sample);
  b->length = 0;
  bytes_add(b, sample, length);
  if (which < length * OTHERS) {
    b->at[which / OTHERS] = (uint8_t)(b->at[which / OTHERS] + 1 + which % OTHERS);
    return made;
  }
  which -= length * OTHERS;
  made.damage = which < length ? SAMPLE_DROPPED : SAMPLE_ADDED;
  if (which < length)
    bytes_replace(b, byte_at(b, which), "", 0);
  else
    add_byte(b, (which - length) / BYTES, (uint8_t)((which - length) % BYTES));
  return made;
}

/* ---- any */

/* Long files have faults of their own, and most stay as they are: so the search for repeats is reached. */
enum { NONE_ONCE_IN = 8, LONG = 100000, LONG_DAMAGED_ONCE_IN = 4 };

static int damage_shape(bytes *b, random_source *r) {
  if (b->length < LONG ? once_in(r, NONE_ONCE_IN) : !once_in(r, LONG_DAMAGED_ONCE_IN)) return 0;
  int which = 1 + (int)random_below(r, DAMAGES - 1);
  damages[which].apply(b, r);
  if (!once_in(r, 6)) return which;
  for (uint64_t left = 1 + random_below(r, 2); left > 0; left--) damages[1 + random_below(r, DAMAGES - 1)].apply(b, r);
  return TWICE;
}

static made_by damage_any(bytes *b, uint64_t number) {
  random_source r = {random_hash(number)};
  made_by made;
  made.shape = shape_make(b, &r);
  made.damage = damage_shape(b, &r);
  return made;
}

/* The sample's files are one in three, until they are all made. */
made_by damage_make(bytes *b, uint64_t number) {
  if (number % SAMPLE_SHARE == 0 && number / SAMPLE_SHARE < sample_files()) return damage_sample(b, number / SAMPLE_SHARE);
  return damage_any(b, number);
}
