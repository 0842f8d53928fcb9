/* text.h: the bytes of a file that is being damaged, and its lines and numbers as far as it still has any. */
#ifndef TEXT_H
#define TEXT_H

#include <stddef.h>
#include <stdint.h>

#include "random.h"

/* Below what a pipe holds, so that a whole file can be laid into one before a program reads it. */
enum { TEXT_ROOM = 60000, TEXT_LINES = 7 };

typedef struct {
  size_t length;
  uint8_t bytes[TEXT_ROOM];
} text;

/* from, and the place behind the end */
typedef struct {
  size_t from, to;
} span;

/* Puts bytes in the place of others. What would not fit is cut off at the end. */
void text_replace(text *t, span gone, const void *with, size_t length);

void text_set(text *t, const void *bytes, size_t length);
void text_add(text *t, const void *bytes, size_t length);
void text_add_words(text *t, const char *format, ...) __attribute__((format(printf, 2, 3)));

/* the first place at which the text and these bytes differ, or where the shorter one ends */
size_t text_first_other(const text *t, const uint8_t *bytes, size_t length);

/* Pieces between newlines; the last one may have none. A text has at least one, which may be empty. */
size_t text_line_count(const text *t);

/* line i, from 0, with its newline */
span text_line(const text *t, size_t i);

/* the same without the newline */
span text_line_inside(const text *t, size_t i);

/* the part of line i behind its first '=', without the newline; empty at the line's end if there is none */
span text_list(const text *t, size_t i);

/* how many numbers by commas a part has; 0 if it is empty */
size_t text_number_count(const text *t, span list);

/* number i of a part, from 0 */
span text_number(const text *t, span list, size_t i);

/* a line, any */
size_t text_any_line(const text *t, random_source *r);

/* a place of a byte: half of the time a line is drawn first, since the last lines have most of the bytes. 0 in an empty text */
size_t text_any_place(const text *t, random_source *r);

/* a number of any line: often the first or last of its list */
span text_any_number(const text *t, random_source *r, size_t *line);

#endif
