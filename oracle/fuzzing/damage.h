/* damage.h: what is done to a run file. A file's number decides the file it begins with and every damage. */
#ifndef DAMAGE_H
#define DAMAGE_H

#include "text.h"

/* Makes file `number`, and answers what was done to it: a number below damage_count(). */
int damage_make(text *t, uint64_t number);

int damage_count(void);
const char *damage_name(int which);

#endif
