/* guarded.h: memory that ends where a page begins that may not be touched, so that a byte read or written behind it stops the program. */
#ifndef GUARDED_H
#define GUARDED_H

#include <stddef.h>
#include <stdint.h>

typedef struct {
  uint8_t *end;
  size_t room;
} guarded;

guarded guarded_new(size_t room);

/* the last `length` bytes */
uint8_t *guarded_last(const guarded *g, size_t length);

/* ---- what is lent to be written */

enum { LENT_ROOM = 40000 };

/* the last `length` bytes, full of a pattern that no text has. The memory, LENT_ROOM bytes, is taken at first. */
uint8_t *lent_bytes(guarded *g, size_t length);

/* the first byte from `from` on that is not the pattern's, or `length` */
size_t lent_first_written(const uint8_t *at, size_t from, size_t length);

#endif
