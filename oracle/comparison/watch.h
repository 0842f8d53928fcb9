/* watch.h: a call, held to the second reading of the table and to a copy of all lists from before. */
#ifndef WATCH_H
#define WATCH_H

#include "calls.h"

/* Makes the call. Its lists lie in `now`, and `before` holds the same. What it answers and what it changed are compared; `words` tells
 * which call it was. Answers 1 if `now` may differ from `before`: the call was accepted, or something was not as it must be. */
int watched(const call *c, const lists *now, const lists *before, outcome *out, const char *words);

/* the state that an accepted opening answers */
threshcinch_state opened_state(const call *c);

/* the isolated rows in the state that an accepted closing answers; the lists as it found them */
size_t isolated_closed(const threshcinch_state *old, const lists *l);

#endif
