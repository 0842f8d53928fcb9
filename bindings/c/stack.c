/* stack: how much stack a call takes, and that it is no more than the header says.
 *
 * Each call is made in a thread of its own, whose stack is filled with a pattern first: what lies below the frame that makes the call and has
 * another byte was used. It is the short form that is measured, with its copies of the state and the answer.
 * Status: 0, or 1 where a call takes more or cannot be made.
 */
#define _POSIX_C_SOURCE 200809L
#include <pthread.h>

#include "check.h"

/* What the header says at most; of reading a Matrix Market file it says more. */
enum { STACK = 96 * 1024, SAID = 56000, MARKET_STACK = 1024 * 1024, MARKET_SAID = 400000, PATTERN = 0xA5 };

/* A call to be made, and the frame that made it. */
typedef struct Call {
  void (*make)(struct Call *);
  uint64_t d;
  threshcinch_params params;
  const threshcinch_graph *graph;
  const threshcinch_memory *memory;
  size_t number;
  threshcinch_answer answer;
  threshcinch_embedded embedded;
  size_t calls;
  uint8_t *text;
  size_t room;
  threshcinch_written written;
  threshcinch_run_file file;
  const char *market_text;
  size_t market_length;
  threshcinch_graph_lists lists;
  threshcinch_matrix_market_room market_room;
  threshcinch_matrix_market market;
  const unsigned char *frame;
} Call;

/* Not inlined, so that the frame is that of the call alone. */
#define MAKES(name, call_itself)                                         \
  __attribute__((noinline)) static void name(Call *call) {               \
    call->frame = (const unsigned char *)__builtin_frame_address(0);     \
    call_itself;                                                         \
  }

MAKES(nothing, call->calls = 0)
MAKES(embed, call->embedded = threshcinch_embed(call->d, call->params, call->graph, call->memory))
MAKES(open_run, call->answer = threshcinch_run_open(call->d, call->params, call->graph, call->memory))
MAKES(chunk, call->answer = threshcinch_run_chunk(&call->answer.state, call->number, call->graph, call->memory))
MAKES(close_stage, call->answer = threshcinch_run_close(&call->answer.state, call->graph, call->memory))
MAKES(owed, call->calls = threshcinch_run_owed(&call->answer.state))
MAKES(write_file, call->written = threshcinch_file_write(call->d, call->params, call->graph, call->text, call->room))
MAKES(read_file, threshcinch_file_read(call->text, call->room, &call->file))
MAKES(write_answer, call->written = threshcinch_answer_write(call->embedded, call->d, call->graph->starts_length - 1, call->memory->output,
                                                             call->memory->output_length, call->text, call->room))
MAKES(market_sizes, call->market_room = threshcinch_market_sizes(call->market_text, call->market_length))
MAKES(read_market, call->market = threshcinch_market_read(call->market_text, call->market_length, &call->lists))

static void *thread_main(void *given) {
  Call *call = (Call *)given;
  call->make(call);
  return NULL;
}

/* Bytes used below the frame that made the call, of a stack of this size. */
static size_t used_of(size_t size, Call *call, void (*make)(Call *)) {
  static unsigned char stack[MARKET_STACK] __attribute__((aligned(4096)));
  pthread_attr_t attributes;
  pthread_t thread;
  size_t untouched = 0;
  call->make = make;
  memset(stack, PATTERN, size);
  if (pthread_attr_init(&attributes) || pthread_attr_setstack(&attributes, stack, size)) fail("no stack of its own");
  if (pthread_create(&thread, &attributes, thread_main, call) || pthread_join(thread, NULL)) fail("no thread");
  pthread_attr_destroy(&attributes);
  while (untouched < size && stack[untouched] == PATTERN) untouched++;
  if (!untouched) fail("a call takes more than %zu bytes", size);
  return (size_t)(call->frame - (stack + untouched));
}

static size_t used(Call *call, void (*make)(Call *)) { return used_of(STACK, call, make); }

/* The most that each kind of call took. */
typedef struct {
  size_t embed;
  size_t open;
  size_t chunk;
  size_t close;
  size_t owed;
  size_t write_file;
  size_t read_file;
  size_t write_answer;
  size_t market_sizes;
  size_t market;
} Most;

static void raise_to(size_t *most, size_t bytes) {
  if (*most < bytes) *most = bytes;
}

/* A whole held run of one chunk, and the one call. */
static void measure(uint64_t d, const threshcinch_graph *graph, Most *most) {
  Call call;
  memset(&call, 0, sizeof call);
  call.d = d;
  call.params = threshcinch_params_new();
  call.params.rounds = 1;
  call.params.degree = 2;
  threshcinch_memory memory = memory_for(d, call.params.rounds, graph);
  call.graph = graph;
  call.memory = &memory;
  raise_to(&most->embed, used(&call, embed));
  accept("the one call", call.embedded.verdict);
  raise_to(&most->open, used(&call, open_run));
  accept("opening", call.answer.verdict);
  while (threshcinch_is_open(&call.answer.state)) {
    raise_to(&most->owed, used(&call, owed));
    raise_to(&most->chunk, used(&call, chunk));
    accept("a chunk", call.answer.verdict);
    raise_to(&most->close, used(&call, close_stage));
    accept("closing", call.answer.verdict);
  }
  threshcinch_memory_free(&memory);
}

/* A run file both ways, and an answer; from one that is refused no text comes. */
static void measure_texts(uint64_t d, const threshcinch_graph *graph, Most *most) {
  static uint8_t text[THRESHCINCH_FILE_BYTES];
  Call call;
  memset(&call, 0, sizeof call);
  call.d = d;
  call.params = threshcinch_params_new();
  threshcinch_memory memory = memory_for(d, call.params.rounds, graph);
  call.graph = graph;
  call.memory = &memory;
  call.text = text;
  call.room = sizeof text;
  raise_to(&most->write_file, used(&call, write_file));
  accept("writing a run file", call.written.verdict);
  call.room = call.written.length;
  raise_to(&most->read_file, used(&call, read_file));
  accept("reading a run file", call.file.verdict);
  call.room = sizeof text;
  raise_to(&most->write_answer, used(&call, write_answer));
  accept("writing an answer", call.written.verdict);
  threshcinch_memory_free(&memory);
}

/* A Matrix Market file. */
static void measure_market(const char *text, Most *most) {
  Call call;
  memset(&call, 0, sizeof call);
  call.market_text = text;
  call.market_length = strlen(text);
  raise_to(&most->market_sizes, used(&call, market_sizes));
  accept("the room for a Matrix Market file", call.market_room.verdict);
  if (!threshcinch_graph_lists_new(&call.lists, call.market_room)) fail("no memory for the lists");
  raise_to(&most->market, used_of(MARKET_STACK, &call, read_market));
  accept("reading a Matrix Market file", call.market.verdict);
  threshcinch_graph_lists_free(&call.lists);
}

/* Every row has every column, the last one first: the most work for the sorting. */
static threshcinch_graph dense(size_t rows) {
  uint64_t *starts = (uint64_t *)calloc(rows + 1, sizeof *starts);
  uint32_t *columns = (uint32_t *)calloc(rows * rows, sizeof *columns);
  double *values = (double *)calloc(rows * rows, sizeof *values);
  if (!starts || !columns || !values) fail("no memory for the graph");
  for (size_t entry = 0; entry < rows * rows; entry++) {
    columns[entry] = (uint32_t)(rows - 1 - entry % rows);
    values[entry] = ring_value(0, entry);
    starts[entry / rows + 1] = entry + 1;
  }
  return threshcinch_graph_of(rows, starts, rows * rows, columns, values);
}

int main(void) {
  const threshcinch_graph one_row = dense(1), large_rows = dense(200), small_rows = ring(30), full = dense(32);
  Most most = {0, 0, 0, 0, 0, 0, 0, 0, 0, 0};
  Call idle;
  memset(&idle, 0, sizeof idle);
  /* with one row columns collapse, so that they are refreshed and zeroed */
  measure(7, &one_row, &most);
  measure(7, &small_rows, &most);
  measure(1, &large_rows, &most);
  measure_texts(7, &one_row, &most);
  measure_texts(7, &full, &most);
  /* entries in rising order, and in none, so that repeats are looked for and rows are sorted */
  measure_market("%%MatrixMarket matrix coordinate pattern symmetric\n3 3 3\n2 1\n3 1\n3 3\n", &most);
  measure_market("%%MatrixMarket matrix coordinate pattern symmetric\n3 3 3\n3 3\n3 1\n2 1\n", &most);
  printf("stack: the one call %zu bytes, opening %zu, a chunk %zu, closing %zu, calls owed %zu; a thread that calls nothing %zu\n", most.embed,
         most.open, most.chunk, most.close, most.owed, used(&idle, nothing));
  printf("stack: writing a run file %zu bytes, reading one %zu, writing an answer %zu\n", most.write_file, most.read_file, most.write_answer);
  printf("stack: reading a Matrix Market file %zu bytes, the room for one %zu\n", most.market, most.market_sizes);
  const size_t all[] = {most.embed,      most.open,      most.chunk,        most.close,       most.owed,
                        most.write_file, most.read_file, most.write_answer, most.market_sizes};
  for (size_t at = 0; at < sizeof all / sizeof *all; at++)
    if (all[at] > SAID) fail("a call takes more than the %d bytes that the header says", SAID);
  if (most.market > MARKET_SAID) fail("reading a Matrix Market file takes more than the %d bytes that the header says", MARKET_SAID);
  return 0;
}
