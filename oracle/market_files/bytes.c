#include "bytes.h"

#include <stdarg.h>
#include <stdio.h>
#include <stdlib.h>
#include <string.h>

#include "tally.h"

static void grow(bytes *b, size_t length) {
  if (length <= b->room) return;
  b->room = length + length / 2 + 4096;
  b->at = realloc(b->at, b->room);
  if (!b->at) fail("no memory");
}

void bytes_add(bytes *b, const void *more, size_t length) {
  grow(b, b->length + length);
  memcpy(b->at + b->length, more, length);
  b->length += length;
}

void bytes_add_words(bytes *b, const char *format, ...) {
  char words[256];
  va_list arguments;
  va_start(arguments, format);
  int length = vsnprintf(words, sizeof words, format, arguments);
  va_end(arguments);
  bytes_add(b, words, (size_t)length < sizeof words ? (size_t)length : sizeof words - 1);
}

void bytes_add_times(bytes *b, uint8_t byte, size_t times) {
  grow(b, b->length + times);
  memset(b->at + b->length, byte, times);
  b->length += times;
}

void bytes_replace(bytes *b, span gone, const void *with, size_t length) {
  size_t rest = b->length - gone.to;
  grow(b, gone.from + length + rest);
  memmove(b->at + gone.from + length, b->at + gone.to, rest);
  memcpy(b->at + gone.from, with, length);
  b->length = gone.from + length + rest;
}

void bytes_put_words(bytes *b, span gone, const char *words) { bytes_replace(b, gone, words, strlen(words)); }

/* ---- lines */

static size_t next_newline(const bytes *b, size_t from) {
  const uint8_t *at = from < b->length ? memchr(b->at + from, '\n', b->length - from) : NULL;
  return at ? (size_t)(at - b->at) : b->length;
}

size_t bytes_line_count(const bytes *b) {
  size_t count = 0, at = 0;
  while (at < b->length) {
    at = next_newline(b, at) + 1;
    count++;
  }
  return count ? count : 1;
}

span bytes_line(const bytes *b, size_t i) {
  span line = {0, b->length};
  for (size_t seen = 0; seen < i && line.from < b->length; seen++) line.from = next_newline(b, line.from) + 1;
  if (line.from > b->length) line.from = b->length;
  line.to = next_newline(b, line.from);
  line.to += line.to < b->length;
  return line;
}

span bytes_inside(const bytes *b, span line) {
  if (line.from == line.to || b->at[line.to - 1] != '\n') return line;
  line.to--;
  line.to -= line.from < line.to && b->at[line.to - 1] == '\r';
  return line;
}

/* ---- words */

static int is_blank(uint8_t byte) { return byte == ' ' || byte == '\t'; }

/* the next word from a place on, or nothing at the line's end */
static span next_word(const bytes *b, size_t from, size_t to) {
  while (from < to && is_blank(b->at[from])) from++;
  span word = {from, from};
  while (word.to < to && !is_blank(b->at[word.to])) word.to++;
  return word;
}

size_t bytes_word_count(const bytes *b, span line) {
  size_t count = 0;
  span inside = bytes_inside(b, line);
  for (span word = next_word(b, inside.from, inside.to); word.from < word.to; word = next_word(b, word.to, inside.to)) count++;
  return count;
}

span bytes_word(const bytes *b, span line, size_t i) {
  span inside = bytes_inside(b, line), word = next_word(b, inside.from, inside.to);
  for (size_t seen = 0; seen < i; seen++) word = next_word(b, word.to, inside.to);
  return word;
}

size_t bytes_size_line(const bytes *b) {
  size_t line = 1, at = bytes_line(b, 1).from;
  while (at < b->length) {
    span here = {at, next_newline(b, at)};
    span word = next_word(b, here.from, bytes_inside(b, here).to);
    if (word.from < word.to && b->at[here.from] != '%' && b->at[here.from] != '\r') return line;
    at = here.to + 1;
    line++;
  }
  return bytes_line_count(b) - 1;
}

/* ---- any of them */

size_t bytes_any_line(const bytes *b, random_source *r) {
  enum { FIRST = 8 };
  size_t count = bytes_line_count(b);
  return random_below(r, count > FIRST && once_in(r, 2) ? FIRST : count);
}

size_t bytes_any_place(const bytes *b, random_source *r) {
  span line = {0, b->length};
  if (once_in(r, 2)) line = bytes_line(b, bytes_any_line(b, r));
  return line.from + random_below(r, line.to - line.from);
}

span bytes_any_number(const bytes *b, random_source *r) {
  size_t count = bytes_line_count(b), size = bytes_size_line(b), which = size;
  if (!once_in(r, 3) && size + 1 < count) which = size + 1 + random_below(r, count - size - 1);
  span line = bytes_line(b, which);
  return bytes_word(b, line, random_below(r, bytes_word_count(b, line)));
}

/* ---- long lines */

static int is_digit(uint8_t byte) { return byte >= '0' && byte <= '9'; }

static void add_blanks(bytes *more, size_t count, random_source *r) {
  int is_tabs = once_in(r, 3), is_mixed = once_in(r, 3);
  for (size_t i = 0; i < count; i++) bytes_add_times(more, is_mixed ? " \t"[random_below(r, 2)] : is_tabs ? '\t' : ' ', 1);
}

/* bytes that are no line's end */
static void add_any(bytes *more, size_t count, random_source *r) {
  for (size_t i = 0; i < count; i++) {
    uint8_t byte = (uint8_t)random_below(r, 256);
    bytes_add_times(more, byte == '\n' || byte == '\r' ? '%' : byte, 1);
  }
}

void bytes_lengthen(bytes *b, size_t line, size_t due, random_source *r) {
  static bytes more;
  span inside = bytes_inside(b, bytes_line(b, line));
  size_t has = inside.to - inside.from, words = bytes_word_count(b, inside);
  if (has >= due) return;
  int is_comment = line > 0 && has && b->at[inside.from] == '%';
  span word = bytes_word(b, inside, random_below(r, words));
  size_t at = is_comment || once_in(r, 3) ? inside.to : once_in(r, 2) ? word.to : line == 0 ? word.to : word.from;
  more.length = 0;
  if (is_comment)
    add_any(&more, due - has, r);
  else if (word.from < word.to && is_digit(b->at[word.from]) && once_in(r, 3)) {
    at = word.from;
    bytes_add_times(&more, '0', due - has);
  } else
    add_blanks(&more, due - has, r);
  span there = {at, at};
  bytes_replace(b, there, more.at, more.length);
}
