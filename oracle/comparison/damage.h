/* damage.h: calls with one thing in them changed (sometimes two, for the order of the tests), each held to the second reading. */
#ifndef DAMAGE_H
#define DAMAGE_H

#include "calls.h"
#include "random.h"
#include "stream.h"

/* Some damaged calls of one kind or of one and its neighbour: EMBED and OPEN, or CHUNK and CLOSE. `base` is a call whose lists lie in
 * `now`; `before` holds the same. Both are so again afterwards. */
void damage_requests(const call *base, lists *now, lists *before, random_source *random, int trials);
void damage_steps(const call *base, lists *now, lists *before, random_source *random, int trials);

/* The degrees closed with another count of isolated rows in the state, which must be set and not added to; and with other roots in v0, at
 * and beside 1e-12 and not numbers, which must be the ones that are counted. `base` is the closing. */
void damage_degrees(const call *base, lists *now, lists *before, random_source *random);

/* The setters and the sizes at and beside their limits. */
void damage_numbers(random_source *random, int trials);

/* One graph of as many entries as are allowed: reads 768 MB of zeros. */
void damage_at_most_entries(void);

#endif
