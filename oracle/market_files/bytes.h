/* bytes.h: the bytes of a file that is being made or damaged, and its lines and words as far as it has any. */
#ifndef BYTES_H
#define BYTES_H

#include <stddef.h>
#include <stdint.h>

#include "random.h"

/* It grows as it needs to. */
typedef struct {
  size_t length, room;
  uint8_t *at;
} bytes;

/* from, and the place behind the end */
typedef struct {
  size_t from, to;
} span;

void bytes_add(bytes *b, const void *more, size_t length);
void bytes_add_words(bytes *b, const char *format, ...) __attribute__((format(printf, 2, 3)));
void bytes_add_times(bytes *b, uint8_t byte, size_t times);

/* Puts bytes in the place of others; they stand elsewhere. */
void bytes_replace(bytes *b, span gone, const void *with, size_t length);

void bytes_put_words(bytes *b, span gone, const char *words);

/* Pieces between newlines; the last one may have none. A file has at least one, which may be empty. */
size_t bytes_line_count(const bytes *b);

/* line i, from 0, with its newline */
span bytes_line(const bytes *b, size_t i);

/* the same without its newline, and without a carriage return before it */
span bytes_inside(const bytes *b, span line);

size_t bytes_word_count(const bytes *b, span line);

/* word i of a line, from 0; behind the last nothing, at its end */
span bytes_word(const bytes *b, span line, size_t i);

/* the first line behind the banner that has words and is no comment, which is the size line of a right file; or the last line */
size_t bytes_size_line(const bytes *b);

/* a line, any; half of the time one of the first ones, where they are many */
size_t bytes_any_line(const bytes *b, random_source *r);

/* a place of a byte: half of the time a line is drawn first. 0 in an empty file */
size_t bytes_any_place(const bytes *b, random_source *r);

/* a word of any line behind the banner */
span bytes_any_number(const bytes *b, random_source *r);

/* Makes a line so long, by blanks between its words or around them, zeros before a number, or any bytes in a comment. */
void bytes_lengthen(bytes *b, size_t line, size_t due, random_source *r);

#endif
