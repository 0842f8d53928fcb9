/* random.h: splitmix64 in sequence, so that a graph's number decides everything that is drawn for it. */
#ifndef RANDOM_H
#define RANDOM_H

#include <stdint.h>

typedef struct {
  uint64_t state;
} random_source;

static inline uint64_t random_hash(uint64_t index) {
  uint64_t z = index + UINT64_C(0x9E3779B97F4A7C15);
  z = (z ^ (z >> 30)) * UINT64_C(0xBF58476D1CE4E5B9);
  z = (z ^ (z >> 27)) * UINT64_C(0x94D049BB133111EB);
  return z ^ (z >> 31);
}

static inline uint64_t random_next(random_source *r) {
  uint64_t out = random_hash(r->state);
  r->state += UINT64_C(0x9E3779B97F4A7C15);
  return out;
}

/* below `most`, or 0 */
static inline uint64_t random_below(random_source *r, uint64_t most) { return most == 0 ? 0 : random_next(r) % most; }

static inline int once_in(random_source *r, uint64_t among) { return random_below(r, among) == 0; }

#endif
