#include "guarded.h"

#include <string.h>
#include <sys/mman.h>
#include <unistd.h>

#include "tally.h"

guarded guarded_new(size_t room) {
  size_t page = (size_t)sysconf(_SC_PAGESIZE), pages = (room + page - 1) / page * page;
  uint8_t *at = mmap(NULL, pages + page, PROT_READ | PROT_WRITE, MAP_PRIVATE | MAP_ANONYMOUS | MAP_NORESERVE, -1, 0);
  if (at == MAP_FAILED || mprotect(at + pages, page, PROT_NONE)) fail("no memory");
  guarded g = {at + pages, room};
  return g;
}

uint8_t *guarded_last(const guarded *g, size_t length) {
  if (length > g->room) fail("more bytes than were planned");
  return g->end - length;
}

static const uint8_t *pattern(void) {
  static uint8_t bytes[LENT_ROOM];
  if (bytes[0]) return bytes;
  for (size_t i = 0; i < LENT_ROOM; i++) bytes[i] = (uint8_t)(0xA0 + i % 31);
  return bytes;
}

uint8_t *lent_bytes(guarded *g, size_t length) {
  if (!g->end) *g = guarded_new(LENT_ROOM);
  uint8_t *at = guarded_last(g, length);
  memcpy(at, pattern(), length);
  return at;
}

size_t lent_first_written(const uint8_t *at, size_t from, size_t length) {
  const uint8_t *due = pattern();
  if (from < length && !memcmp(at + from, due + from, length - from)) return length;
  while (from < length && at[from] == due[from]) from++;
  return from;
}
