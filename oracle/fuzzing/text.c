#include "text.h"

#include <stdarg.h>
#include <stdio.h>
#include <string.h>

void text_replace(text *t, span gone, const void *with, size_t length) {
  static uint8_t behind[TEXT_ROOM];
  size_t rest = t->length - gone.to;
  memcpy(behind, t->bytes + gone.to, rest);
  if (length > TEXT_ROOM - gone.from) length = TEXT_ROOM - gone.from;
  memcpy(t->bytes + gone.from, with, length);
  size_t at = gone.from + length;
  if (rest > TEXT_ROOM - at) rest = TEXT_ROOM - at;
  memcpy(t->bytes + at, behind, rest);
  t->length = at + rest;
}

void text_set(text *t, const void *bytes, size_t length) {
  t->length = 0;
  text_add(t, bytes, length);
}

void text_add(text *t, const void *bytes, size_t length) {
  if (length > TEXT_ROOM - t->length) length = TEXT_ROOM - t->length;
  memcpy(t->bytes + t->length, bytes, length);
  t->length += length;
}

void text_add_words(text *t, const char *format, ...) {
  char words[256];
  va_list arguments;
  va_start(arguments, format);
  int length = vsnprintf(words, sizeof words, format, arguments);
  va_end(arguments);
  text_add(t, words, (size_t)length < sizeof words ? (size_t)length : sizeof words - 1);
}

size_t text_first_other(const text *t, const uint8_t *bytes, size_t length) {
  size_t most = length < t->length ? length : t->length, i = 0;
  if (!memcmp(t->bytes, bytes, most)) return most;
  while (t->bytes[i] == bytes[i]) i++;
  return i;
}

/* ---- lines */

/* the place of the next such byte, or the end */
static size_t next_of(const text *t, uint8_t byte, span within) {
  const uint8_t *at = within.from < within.to ? memchr(t->bytes + within.from, byte, within.to - within.from) : NULL;
  return at ? (size_t)(at - t->bytes) : within.to;
}

static size_t count_of(const text *t, uint8_t byte, span within) {
  size_t count = 0;
  for (size_t i = within.from; i < within.to; i++) count += t->bytes[i] == byte;
  return count;
}

static int ends_with_newline(const text *t, size_t to) { return to > 0 && t->bytes[to - 1] == '\n'; }

size_t text_line_count(const text *t) {
  span whole = {0, t->length};
  return count_of(t, '\n', whole) + (t->length == 0 || !ends_with_newline(t, t->length));
}

span text_line(const text *t, size_t i) {
  span line = {0, t->length};
  for (size_t seen = 0; seen < i; seen++) {
    line.from = next_of(t, '\n', line);
    line.from += line.from < line.to;
  }
  size_t end = next_of(t, '\n', line);
  line.to = end + (end < line.to);
  return line;
}

span text_line_inside(const text *t, size_t i) {
  span line = text_line(t, i);
  line.to -= line.from < line.to && ends_with_newline(t, line.to);
  return line;
}

span text_list(const text *t, size_t i) {
  span line = text_line_inside(t, i);
  size_t sign = next_of(t, '=', line);
  line.from = sign < line.to ? sign + 1 : line.to;
  return line;
}

/* ---- numbers */

size_t text_number_count(const text *t, span list) { return list.from == list.to ? 0 : count_of(t, ',', list) + 1; }

span text_number(const text *t, span list, size_t i) {
  span number = list;
  for (size_t seen = 0; seen < i; seen++) {
    number.from = next_of(t, ',', number);
    number.from += number.from < number.to;
  }
  number.to = next_of(t, ',', number);
  return number;
}

/* ---- any of them */

size_t text_any_line(const text *t, random_source *r) { return random_below(r, text_line_count(t)); }

size_t text_any_place(const text *t, random_source *r) {
  span line = {0, t->length};
  if (once_in(r, 2)) line = text_line(t, text_any_line(t, r));
  return line.from + random_below(r, line.to - line.from);
}

span text_any_number(const text *t, random_source *r, size_t *line) {
  *line = text_any_line(t, r);
  span list = text_list(t, *line);
  size_t count = text_number_count(t, list);
  if (count < 2) return list;
  if (once_in(r, 4)) return text_number(t, list, 0);
  return text_number(t, list, once_in(r, 3) ? count - 1 : random_below(r, count));
}
