/* damage.h: what is done to a file. A file's number decides the file it begins with and every damage. */
#ifndef DAMAGE_H
#define DAMAGE_H

#include "bytes.h"

typedef struct {
  int shape;  /* a number below shape_count(), or SAMPLE */
  int damage; /* a number below damage_count(); 0 is none */
} made_by;

enum { SAMPLE = -1 };

/* Makes file `number`. */
made_by damage_make(bytes *b, uint64_t number);

int damage_count(void);
const char *damage_name(int which);

#endif
