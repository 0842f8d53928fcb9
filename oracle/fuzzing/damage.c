#include "damage.h"

#include <ctype.h>
#include <string.h>

#include "bases.h"
#include "pick.h"
#include "proved.h"

/* ---- a byte */

static span byte_at(const text *t, size_t at) {
  span s = {at, at + (at < t->length)};
  return s;
}

/* 0 behind the end, so that a file does not depend on the one before it */
static uint8_t byte_of(const text *t, size_t at) { return at < t->length ? t->bytes[at] : 0; }

static void put_byte(text *t, size_t at, uint8_t byte) { text_replace(t, byte_at(t, at), &byte, 1); }

static void add_byte(text *t, size_t at, uint8_t byte) {
  span nothing = {at, at};
  text_replace(t, nothing, &byte, 1);
}

static uint8_t any_sign(random_source *r) {
  static const char signs[] = {' ', '\t', '\r', '+', '-', '.', '=', '_', 'x', ';', ':', '/', '`', 'g', '@', 'G', '\'', '"', '\\', '\v'};
  return (uint8_t)PICK(r, signs);
}

static uint8_t any_digit(random_source *r) { return (uint8_t)('0' + random_below(r, 10)); }

/* a byte of any kind that the grammar has an opinion about, or any at all */
static uint8_t any_byte(random_source *r) {
  switch (random_below(r, 6)) {
    case 0:
      return any_digit(r);
    case 1:
      return (uint8_t)("\n,=af0"[random_below(r, 6)]);
    case 2:
      return any_sign(r);
    default:
      return (uint8_t)random_below(r, 256);
  }
}

static void byte_other(text *t, random_source *r) {
  size_t at = text_any_place(t, r);
  put_byte(t, at, (uint8_t)(byte_of(t, at) + 1 + random_below(r, 255)));
}

static void byte_newline(text *t, random_source *r) { put_byte(t, text_any_place(t, r), '\n'); }

static void byte_comma(text *t, random_source *r) { put_byte(t, text_any_place(t, r), ','); }

static void byte_digit(text *t, random_source *r) { put_byte(t, text_any_place(t, r), any_digit(r)); }

static void byte_nul(text *t, random_source *r) { put_byte(t, text_any_place(t, r), 0); }

static void byte_high(text *t, random_source *r) { put_byte(t, text_any_place(t, r), (uint8_t)(128 + random_below(r, 128))); }

static void byte_sign(text *t, random_source *r) { put_byte(t, text_any_place(t, r), any_sign(r)); }

/* The next letter, if there is one. */
static void byte_upper(text *t, random_source *r) {
  size_t at = text_any_place(t, r);
  while (at < t->length && !islower(t->bytes[at])) at++;
  if (at < t->length) put_byte(t, at, (uint8_t)toupper(t->bytes[at]));
}

static void byte_beside(text *t, random_source *r) {
  size_t at = text_any_place(t, r);
  put_byte(t, at, (uint8_t)(byte_of(t, at) + (once_in(r, 2) ? 1 : 255)));
}

static void byte_bit(text *t, random_source *r) {
  size_t at = text_any_place(t, r);
  put_byte(t, at, (uint8_t)(byte_of(t, at) ^ 1u << random_below(r, 8)));
}

static void byte_dropped(text *t, random_source *r) { text_replace(t, byte_at(t, text_any_place(t, r)), "", 0); }

static void byte_added(text *t, random_source *r) { add_byte(t, text_any_place(t, r), any_byte(r)); }

static void byte_doubled(text *t, random_source *r) {
  size_t at = text_any_place(t, r);
  add_byte(t, at, byte_of(t, at));
}

static void bytes_exchanged(text *t, random_source *r) {
  size_t at = text_any_place(t, r);
  if (at + 1 >= t->length) return;
  uint8_t first = t->bytes[at];
  t->bytes[at] = t->bytes[at + 1];
  t->bytes[at + 1] = first;
}

static void stretch_dropped(text *t, random_source *r) {
  size_t from = text_any_place(t, r);
  span gone = {from, from + random_below(r, t->length - from + 1)};
  if (once_in(r, 2) && gone.to > from + 40) gone.to = from + 1 + random_below(r, 40);
  text_replace(t, gone, "", 0);
}

/* ---- lines */

static void line_dropped(text *t, random_source *r) { text_replace(t, text_line(t, text_any_line(t, r)), "", 0); }

static void line_doubled(text *t, random_source *r) {
  static text copy;
  span line = text_line(t, text_any_line(t, r)), before = {line.from, line.from};
  text_set(&copy, t->bytes + line.from, line.to - line.from);
  text_replace(t, before, copy.bytes, copy.length);
}

static void lines_exchanged(text *t, random_source *r) {
  static text first, second;
  size_t count = text_line_count(t), i = text_any_line(t, r), j = text_any_line(t, r);
  if (i == j) j = (i + 1) % count;
  span a = text_line(t, i < j ? i : j), b = text_line(t, i < j ? j : i);
  text_set(&first, t->bytes + a.from, a.to - a.from);
  text_set(&second, t->bytes + b.from, b.to - b.from);
  text_replace(t, b, first.bytes, first.length);
  text_replace(t, a, second.bytes, second.length);
}

static void line_emptied(text *t, random_source *r) { text_replace(t, text_line_inside(t, text_any_line(t, r)), "", 0); }

static void empty_line_added(text *t, random_source *r) { add_byte(t, text_line(t, text_any_line(t, r)).from, '\n'); }

static void end_changed(text *t, random_source *r) {
  static const char *const ends[] = {"\r\n", "\r", "", " \n", ",\n", "\n\n", ";\n", "0\n", "#\n"};
  size_t i = text_any_line(t, r);
  span end = {text_line_inside(t, i).to, text_line(t, i).to};
  const char *with = PICK(r, ends);
  text_replace(t, end, with, strlen(with));
}

static void name_changed(text *t, random_source *r) {
  static const char *const names[] = {"d=",    "rounds=", "degree=", "seed_std=", "starts=", "columns=", "values=", "D=",     "Rounds=",
                                      "n=",    "=",       "",        "d",         "d =",     " d=",      "d= ",     "d==",    "d:",
                                      "start", "starts",  "column=", "seed-std=", "seedstd", "row=",     "answer=", "value=", "rounds =1"};
  size_t i = text_any_line(t, r);
  span name = {text_line(t, i).from, text_list(t, i).from};
  const char *with = PICK(r, names);
  text_replace(t, name, with, strlen(with));
}

static void begun_with(text *t, random_source *r) {
  static const char *const heads[] = {"\xef\xbb\xbf", " ", "\n", "#\n", "\r\n", "case sample\n", "d", "=", "0"};
  span before = {0, 0};
  const char *with = PICK(r, heads);
  text_replace(t, before, with, strlen(with));
}

/* ---- the end */

static void cut_anywhere(text *t, random_source *r) { t->length = text_any_place(t, r); }

static void cut_at_line(text *t, random_source *r) { t->length = text_line(t, text_any_line(t, r)).from; }

static void cut_newline(text *t, random_source *r) {
  (void)r;
  t->length -= t->length > 0;
}

static void bytes_behind(text *t, random_source *r) {
  for (uint64_t left = 1 + random_below(r, 5); left > 0; left--) {
    uint8_t byte = any_byte(r);
    text_add(t, &byte, 1);
  }
}

static void line_behind(text *t, random_source *r) {
  static const char *const lines[] = {"\n", "d=1\n", "values=\n", "end\n", "row=0000000000000000\n", " \n", "values=3ff0000000000000"};
  const char *with = PICK(r, lines);
  text_add(t, with, strlen(with));
}

static void begun_again(text *t, random_source *r) {
  static text other;
  bases_pick(&other, r);
  text_add(t, other.bytes, other.length);
}

/* The head of one file and the tail of another. */
static void spliced(text *t, random_source *r) {
  static text other;
  bases_pick(&other, r);
  size_t from = text_line(&other, text_any_line(&other, r)).from;
  t->length = text_line(t, text_any_line(t, r)).from;
  text_add(t, other.bytes + from, other.length - from);
}

/* ---- numbers and lists */

static int is_float_line(size_t line) { return line == 3 || line == 6; }

static void number_replaced(text *t, random_source *r) {
  size_t line;
  span number = text_any_number(t, r, &line);
  int is_float = is_float_line(line) ^ once_in(r, 20);
  const char *with = is_float ? any_right_float(r) : any_right_decimal(r);
  text_replace(t, number, with, strlen(with));
}

static void number_wrong(text *t, random_source *r) {
  size_t line;
  span number = text_any_number(t, r, &line);
  const char *with = is_float_line(line) ? any_wrong_float(r) : any_wrong_decimal(r);
  text_replace(t, number, with, strlen(with));
}

static void number_small(text *t, random_source *r) {
  static const char *const list[] = {"0", "1", "2", "3", "4", "5", "6", "7", "8"};
  size_t line;
  span number = text_any_number(t, r, &line);
  const char *with = is_float_line(line) ? any_right_float(r) : PICK(r, list);
  text_replace(t, number, with, strlen(with));
}

/* Line 2 has a limit of its own. */
static void rounds_replaced(text *t, random_source *r) {
  const char *with = any_rounds(r);
  text_replace(t, text_list(t, 1), with, strlen(with));
}

static void leading_zero(text *t, random_source *r) {
  size_t line;
  add_byte(t, text_any_number(t, r, &line).from, '0');
}

static void digit_behind(text *t, random_source *r) {
  size_t line;
  add_byte(t, text_any_number(t, r, &line).to, any_digit(r));
}

static void number_dropped(text *t, random_source *r) {
  size_t line;
  span number = text_any_number(t, r, &line);
  if (number.to < t->length && t->bytes[number.to] == ',')
    number.to++;
  else if (number.from > 0 && t->bytes[number.from - 1] == ',')
    number.from--;
  text_replace(t, number, "", 0);
}

static void comma_added(text *t, random_source *r) {
  size_t line;
  span number = text_any_number(t, r, &line);
  add_byte(t, once_in(r, 2) ? number.from : number.to, ',');
}

/* `count` numbers more, behind the last of the list. */
static void lengthen(text *t, size_t line, size_t count, random_source *r) {
  static text more;
  span list = text_list(t, line), end = {list.to, list.to};
  int is_empty = list.from == list.to;
  more.length = 0;
  for (size_t i = 0; i < count; i++)
    text_add_words(&more, "%s%s", i || !is_empty ? "," : "", is_float_line(line) ? any_right_float(r) : once_in(r, 2) ? "0" : "1");
  text_replace(t, end, more.bytes, more.length);
}

static size_t any_list_line(random_source *r) { return 4 + random_below(r, 3); }

static void list_lengthened(text *t, random_source *r) { lengthen(t, text_any_line(t, r), 1 + random_below(r, 3), r); }

/* Two lists of entries by as many, so that they still agree. */
static void both_lengthened(text *t, random_source *r) {
  size_t count = 1 + random_below(r, 3);
  lengthen(t, 5, count, r);
  lengthen(t, 6, count, r);
}

/* The list gets as many numbers as its size, or one less, or one or two more. */
static void list_filled(text *t, random_source *r) {
  size_t line = any_list_line(r), size = line == 4 ? MOST_STARTS : MOST_ENTRIES;
  size_t count = text_number_count(t, text_list(t, line)), due = size - 1 + random_below(r, 4);
  if (count < due) lengthen(t, line, due - count, r);
}

static void list_shortened(text *t, random_source *r) {
  span list = text_list(t, any_list_line(r));
  size_t count = text_number_count(t, list);
  if (count < 2) return;
  size_t kept = once_in(r, 2) ? count - 1 : 1 + random_below(r, count - 1);
  list.from = text_number(t, list, kept - 1).to;
  text_replace(t, list, "", 0);
}

static void list_emptied(text *t, random_source *r) { text_replace(t, text_list(t, text_any_line(t, r)), "", 0); }

static void lists_emptied(text *t, random_source *r) {
  (void)r;
  text_replace(t, text_list(t, 6), "", 0);
  text_replace(t, text_list(t, 5), "", 0);
}

static void lists_exchanged(text *t, random_source *r) {
  static text first, second;
  size_t i = text_any_line(t, r), j = text_any_line(t, r);
  span a = text_list(t, i < j ? i : j), b = text_list(t, i < j ? j : i);
  if (i == j) return;
  text_set(&first, t->bytes + a.from, a.to - a.from);
  text_set(&second, t->bytes + b.from, b.to - b.from);
  text_replace(t, b, first.bytes, first.length);
  text_replace(t, a, second.bytes, second.length);
}

/* ---- 32 KiB */

/* The same few bytes again and again at a place, until the file has 32,767 to 32,771 bytes or more. */
static void filled_up(text *t, random_source *r) {
  static const char *const fillers[] = {"0", "1", ",0", ",", "\n", "f", ",3ff0000000000000", "\0x", "d=1\n", "=", " ", "\xff"};
  static text more;
  const char *with = PICK(r, fillers);
  size_t due = MOST_BYTES - 1 + random_below(r, 5), length = strlen(with) ? strlen(with) : 2;
  if (once_in(r, 8)) due += random_below(r, TEXT_ROOM - MOST_BYTES - 5);
  more.length = 0;
  while (t->length + more.length < due) text_add(&more, with, length);
  if (t->length < due) more.length = due - t->length;
  size_t at = once_in(r, 2) ? t->length : text_any_place(t, r);
  if (once_in(r, 4)) at = text_list(t, text_any_line(t, r)).to;
  span there = {at, at};
  text_replace(t, there, more.bytes, more.length);
}

/* ---- all of them */

static void nothing(text *t, random_source *r) {
  (void)t;
  (void)r;
}

typedef struct {
  const char *name;
  void (*apply)(text *, random_source *);
} damage;

static const damage damages[] = {{"none", nothing},
                                 {"a byte changed to any other", byte_other},
                                 {"a byte changed to a newline", byte_newline},
                                 {"a byte changed to a comma", byte_comma},
                                 {"a byte changed to a digit", byte_digit},
                                 {"a byte changed to upper case", byte_upper},
                                 {"a byte changed to NUL", byte_nul},
                                 {"a byte changed to one above 127", byte_high},
                                 {"a byte changed to a sign or space", byte_sign},
                                 {"a byte changed to one beside it", byte_beside},
                                 {"a byte with a bit turned", byte_bit},
                                 {"a byte dropped", byte_dropped},
                                 {"a byte added", byte_added},
                                 {"a byte doubled", byte_doubled},
                                 {"two bytes exchanged", bytes_exchanged},
                                 {"a stretch of bytes dropped", stretch_dropped},
                                 {"two lines exchanged", lines_exchanged},
                                 {"a line dropped", line_dropped},
                                 {"a line doubled", line_doubled},
                                 {"a line emptied", line_emptied},
                                 {"an empty line added", empty_line_added},
                                 {"a line's end changed", end_changed},
                                 {"a line's name changed", name_changed},
                                 {"something before the beginning", begun_with},
                                 {"cut anywhere", cut_anywhere},
                                 {"cut at the end of a line", cut_at_line},
                                 {"the last byte cut", cut_newline},
                                 {"bytes behind the end", bytes_behind},
                                 {"a line behind the end", line_behind},
                                 {"another file behind the end", begun_again},
                                 {"gone on with in another file", spliced},
                                 {"a number replaced by a right one", number_replaced},
                                 {"a number replaced by a small one", number_small},
                                 {"a number replaced by a wrong one", number_wrong},
                                 {"the rounds replaced by some at their limits", rounds_replaced},
                                 {"a leading zero", leading_zero},
                                 {"a digit more", digit_behind},
                                 {"a number dropped", number_dropped},
                                 {"a comma added", comma_added},
                                 {"a list lengthened", list_lengthened},
                                 {"columns and values lengthened", both_lengthened},
                                 {"a list filled to its size or over it", list_filled},
                                 {"a list shortened", list_shortened},
                                 {"a list emptied", list_emptied},
                                 {"columns and values emptied", lists_emptied},
                                 {"two lists exchanged", lists_exchanged},
                                 {"filled up to 32 KiB or over it", filled_up}};

enum { DAMAGES = sizeof damages / sizeof *damages, TWICE = DAMAGES, SAMPLE_CHANGED, SAMPLE_DROPPED, SAMPLE_ADDED, ALL_NAMES };

static const char *const other_names[ALL_NAMES - DAMAGES] = {"two of these at once", "the sample with any byte changed to any other",
                                                             "the sample with any byte dropped", "the sample with any byte added anywhere"};

int damage_count(void) { return ALL_NAMES; }

const char *damage_name(int which) { return which < DAMAGES ? damages[which].name : other_names[which - DAMAGES]; }

/* ---- the sample with every single byte changed to every other, dropped, and added everywhere */

enum { SAMPLE_SHARE = 4, OTHERS = 255, BYTES = 256 };

static uint64_t sample_files(void) {
  uint64_t length = strlen(sample);
  return length * OTHERS + length + (length + 1) * BYTES;
}

static int damage_sample(text *t, uint64_t which) {
  uint64_t length = strlen(sample);
  text_set(t, sample, length);
  if (which < length * OTHERS) {
    size_t at = which / OTHERS;
    t->bytes[at] = (uint8_t)(t->bytes[at] + 1 + which % OTHERS);
    return SAMPLE_CHANGED;
  }
  which -= length * OTHERS;
  if (which < length) {
    text_replace(t, byte_at(t, which), "", 0);
    return SAMPLE_DROPPED;
  }
  which -= length;
  add_byte(t, which / BYTES, (uint8_t)(which % BYTES));
  return SAMPLE_ADDED;
}

/* ---- any */

static int damage_any(text *t, uint64_t number) {
  random_source r = {random_hash(number)};
  bases_pick(t, &r);
  int which = (int)random_below(&r, DAMAGES);
  damages[which].apply(t, &r);
  if (which == 0 || !once_in(&r, 5)) return which;
  damages[1 + random_below(&r, DAMAGES - 1)].apply(t, &r);
  return TWICE;
}

/* The sample's files are one in four, until they are all made. */
int damage_make(text *t, uint64_t number) {
  if (number % SAMPLE_SHARE == 0 && number / SAMPLE_SHARE < sample_files()) return damage_sample(t, number / SAMPLE_SHARE);
  return damage_any(t, number);
}
