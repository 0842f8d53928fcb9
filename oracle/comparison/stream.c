#include "stream.h"

#include <stdarg.h>
#include <string.h>

void fail(const char *format, ...) {
  va_list arguments;
  va_start(arguments, format);
  fflush(stdout);
  fputs("compare: ", stderr);
  vfprintf(stderr, format, arguments);
  fputc('\n', stderr);
  va_end(arguments);
  exit(2);
}

void *taken(size_t bytes) {
  void *at = malloc(bytes ? bytes : 1);
  if (!at) fail("no memory for %zu bytes", bytes);
  return at;
}

static void get(FILE *in, void *to, size_t bytes) {
  if (bytes && fread(to, 1, bytes, in) != bytes) fail("the stream is cut short");
}

static void get_word(FILE *in, const char *word) {
  char found[8];
  get(in, found, sizeof found);
  if (memcmp(found, word, sizeof found)) fail("the stream has no %s where it must", word);
}

static uint64_t get_number(FILE *in) {
  uint64_t x;
  get(in, &x, sizeof x);
  return x;
}

void stream_begin(FILE *in, uint64_t *from, uint64_t *count) {
  get_word(in, "TCSTREAM");
  *from = get_number(in);
  *count = get_number(in);
}

static void get_numbers(FILE *in, graph *g) {
  uint64_t head[16];
  get(in, head, sizeof head);
  g->number = head[0];
  g->family = head[1];
  g->dims = head[2];
  g->rows = head[3];
  g->entries = head[4];
  g->rounds = head[5];
  g->degree = head[6];
  memcpy(&g->seed_std, &head[7], sizeof g->seed_std);
  g->twice = head[8];
  g->nan = head[9];
  g->falls = head[10];
  g->empty = head[11];
  memcpy(&g->counts, &head[12], sizeof g->counts);
}

static void *get_list(FILE *in, size_t length, size_t bytes) {
  void *at = taken(length * bytes);
  get(in, at, length * bytes);
  return at;
}

void stream_graph(FILE *in, graph *g) {
  get_word(in, "TCGRAPH2");
  get_numbers(in, g);
  if (g->family > 15 || g->dims < 1 || g->dims > 7 || g->rows < 1 || g->rows > 1048576 || g->entries > 67108864 || g->rounds < 1 ||
      g->rounds > 1000)
    fail("the stream has a graph out of the limits");
  g->starts = get_list(in, g->rows + 1, 8);
  g->columns = get_list(in, g->entries, 4);
  g->values = get_list(in, g->entries, 8);
  g->seed = get_list(in, g->rows * g->dims, 8);
  g->record = get_list(in, g->rounds * (g->dims + 9), 8);
}

void stream_end(FILE *in, uint64_t count) {
  get_word(in, "TCENDING");
  if (get_number(in) != count) fail("the stream ends with another count");
  if (fgetc(in) != EOF) fail("the stream goes on behind its end");
}

void graph_free(graph *g) {
  free(g->starts);
  free(g->columns);
  free(g->values);
  free(g->seed);
  free(g->record);
}
