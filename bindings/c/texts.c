/* texts: run files and answers. What is written for which numbers, what is read from which bytes, who is refused by which number at which place
 * and in which order, and which bytes of the text stay.
 * Status: 0, or 1 with the first thing that is wrong. */
#include "check.h"

/* Bits of numbers: a program that was compiled with -Ofast takes no NaN for one. */
#define ONE 0x3FF0000000000000u
#define LEAST 0x0000000000000001u
#define MINUS_ZERO 0x8000000000000000u
#define INFINITE 0x7FF0000000000000u
#define A_NAN 0xFFF8000000000123u
#define DEFAULT_STD 0x3F1A36E2EB1C432Du /* 1e-4 */

static uint64_t bits_of(double number) {
  uint64_t bits;
  memcpy(&bits, &number, sizeof bits);
  return bits;
}

/* ---- lent text, every byte known */

enum { LENT = THRESHCINCH_FILE_BYTES + 64 };

static uint8_t text[LENT];

static uint8_t lent_byte(size_t place) {
  return (uint8_t)(mixed(place) | 0x80); /* in no text that is written */
}

static void lend(void) {
  for (size_t place = 0; place < LENT; place++) text[place] = lent_byte(place);
}

static void stays_from(const char *call, size_t from) {
  for (size_t place = from; place < LENT; place++)
    if (text[place] != lent_byte(place)) fail("%s: byte %zu was written", call, place);
}

static void refused_text(const char *call, threshcinch_written written, uint64_t number, uint64_t place) {
  refuse(call, written.verdict, number, place);
  if (written.length) fail("%s: refused, with length %zu", call, written.length);
  stays_from(call, 0);
}

static void written_text(const char *call, threshcinch_written written, const void *expected, size_t length) {
  refuse(call, written.verdict, THRESHCINCH_ACCEPTED, 0);
  if (written.length != length || memcmp(text, expected, length)) fail("%s: %zu bytes, not these %zu:\n%.*s", call, written.length, length, 600, text);
  stays_from(call, length);
}

/* ---- a request, all of whose lists can be too long */

typedef struct {
  uint64_t d;
  threshcinch_params params;
  uint64_t starts[THRESHCINCH_FILE_STARTS + 1];
  size_t starts_length;
  uint32_t columns[THRESHCINCH_FILE_ENTRIES + 1];
  size_t columns_length;
  double values[THRESHCINCH_FILE_ENTRIES + 1];
  size_t values_length;
} Request;

static threshcinch_graph graph_of(const Request *request) {
  threshcinch_graph graph;
  graph.starts = request->starts;
  graph.starts_length = request->starts_length;
  graph.columns = request->columns;
  graph.columns_length = request->columns_length;
  graph.values = request->values;
  graph.values_length = request->values_length;
  return graph;
}

/* Into text that is lent anew. */
static threshcinch_written write_in(const Request *request, size_t room) {
  const threshcinch_graph graph = graph_of(request);
  lend();
  return threshcinch_file_write(request->d, request->params, &graph, text, room);
}

/* Document 01's file: one row with one entry. */
static Request papers_request(void) {
  Request request;
  memset(&request, 0, sizeof request);
  request.d = request.params.rounds = request.params.degree = 1;
  request.params.seed_std = number_of_bits(DEFAULT_STD);
  request.starts[1] = 1;
  request.starts_length = 2;
  request.values[0] = number_of_bits(ONE);
  request.columns_length = request.values_length = 1;
  return request;
}

static const char papers_file[] =
    "d=1\nrounds=1\ndegree=1\nseed_std=3f1a36e2eb1c432d\nstarts=0,1\ncolumns=0\nvalues=3ff0000000000000\n";

/* Three rows, the second one empty; a column twice in a row, and values at the ends of what a number can be. */
static Request edges_request(void) {
  static const uint64_t starts[] = {0, 3, 3, 4}, values[] = {MINUS_ZERO, LEAST, 0x7FEFFFFFFFFFFFFFu, 0xFFEFFFFFFFFFFFFFu};
  static const uint32_t columns[] = {2, 0, 2, 1};
  Request request = papers_request();
  request.d = 7;
  request.params.rounds = THRESHCINCH_FILE_ROUNDS;
  request.params.degree = 1000;
  request.params.seed_std = number_of_bits(LEAST);
  memcpy(request.starts, starts, sizeof starts);
  memcpy(request.columns, columns, sizeof columns);
  memcpy(request.values, values, sizeof values);
  request.starts_length = request.columns_length = request.values_length = 4;
  return request;
}

static const char edges_file[] =
    "d=7\nrounds=400\ndegree=1000\nseed_std=0000000000000001\nstarts=0,3,3,4\ncolumns=2,0,2,1\n"
    "values=8000000000000000,0000000000000001,7fefffffffffffff,ffefffffffffffff\n";

/* No entries: two lists are empty. */
static Request bare_request(void) {
  Request request = papers_request();
  request.starts[1] = 0;
  request.columns_length = request.values_length = 0;
  return request;
}

static const char bare_file[] = "d=1\nrounds=1\ndegree=1\nseed_std=3f1a36e2eb1c432d\nstarts=0,0\ncolumns=\nvalues=\n";

/* As much as a run file holds: 64 rows, 1,024 entries, 400 rounds. */
static Request full_request(void) {
  Request request = edges_request();
  request.starts_length = THRESHCINCH_FILE_STARTS;
  request.columns_length = request.values_length = THRESHCINCH_FILE_ENTRIES;
  for (size_t row = 0; row < THRESHCINCH_FILE_STARTS; row++) request.starts[row] = row ? 960 + row : 0;
  for (size_t entry = 0; entry < THRESHCINCH_FILE_ENTRIES; entry++) {
    request.columns[entry] = (uint32_t)(mixed(entry) % 64);
    request.values[entry] = number_of_bits(mixed(entry) & 0xBFFFFFFFFFFFFFFFu);
  }
  return request;
}

/* ---- the first writer */

static void writes(const char *name, const Request *request, const char *file) {
  const size_t length = strlen(file);
  written_text(name, write_in(request, LENT), file, length);
  written_text(name, write_in(request, length), file, length);
  for (size_t room = 0; room < length; room++) refused_text(name, write_in(request, room), THRESHCINCH_ROOM, 0);
}

static void run_files(void) {
  const Request papers = papers_request(), edges = edges_request(), bare = bare_request();
  writes("document 01's file", &papers, papers_file);
  writes("a file of extreme numbers", &edges, edges_file);
  writes("a file without entries", &bare, bare_file);
}

static void null_lists(void) {
  const Request bare = bare_request(), papers = papers_request();
  threshcinch_graph graph = graph_of(&bare);
  graph.columns = NULL;
  graph.values = NULL;
  lend();
  written_text("NULL entries", threshcinch_file_write(bare.d, bare.params, &graph, text, LENT), bare_file, strlen(bare_file));
  graph.starts = NULL;
  lend();
  refused_text("NULL starts", threshcinch_file_write(bare.d, bare.params, &graph, text, LENT), THRESHCINCH_NO_ROWS, 0);
  graph = graph_of(&papers);
  refused_text("NULL text", threshcinch_file_write(papers.d, papers.params, &graph, NULL, LENT), THRESHCINCH_ROOM, 0);
}

static void refused_request(const Request *request, size_t room, uint64_t number, uint64_t place) {
  refused_text("writing a file", write_in(request, room), number, place);
}

/* Every fault at once, and then one less after the other: what is tested first is what is answered. 3 cannot be met: 17 comes before it. */
static Request without_sizes_faults(void) {
  Request request = full_request();
  request.d = 8;
  request.params.rounds = 401;
  request.params.degree = 0;
  request.params.seed_std = number_of_bits(A_NAN);
  request.starts[0] = 1;
  request.columns[1] = request.columns[2] = 2;
  request.values[1] = number_of_bits(A_NAN);
  request.values[2] = number_of_bits(INFINITE);
  request.starts_length = 66;
  request.columns_length = request.values_length = 1025;
  refused_request(&request, 0, THRESHCINCH_TEXT, 2);
  request.params.rounds = UINT64_MAX;
  refused_request(&request, 0, THRESHCINCH_TEXT, 2);
  request.params.rounds = 0;
  refused_request(&request, 0, THRESHCINCH_TEXT, 5);
  request.starts_length = 1;
  refused_request(&request, 0, THRESHCINCH_TEXT, 6);
  request.columns_length = 3;
  refused_request(&request, 0, THRESHCINCH_TEXT, 7);
  request.values_length = 4;
  return request;
}

static void without_graph_faults(Request *request) {
  refused_request(request, 0, THRESHCINCH_DIMS, 0);
  request->d = 0;
  refused_request(request, 0, THRESHCINCH_DIMS, 0);
  request->d = 1;
  refused_request(request, 0, THRESHCINCH_NO_ROWS, 0);
  request->starts_length = 3; /* starts 1, 961, 962 over three columns */
  refused_request(request, 0, THRESHCINCH_LENGTHS, 0);
  request->values_length = 3;
  refused_request(request, 0, THRESHCINCH_STARTS, 0);
  request->starts[0] = 0;
  request->starts[2] = 3;
  refused_request(request, 0, THRESHCINCH_STARTS, 2);
  request->starts[1] = 1;
  request->starts[2] = 4;
  refused_request(request, 0, THRESHCINCH_STARTS, 2);
  request->starts[2] = 3;
  request->columns[0] = 1;
  refused_request(request, 0, THRESHCINCH_COLUMN, 1);
  request->columns[1] = 0;
  refused_request(request, 0, THRESHCINCH_COLUMN, 2);
  request->columns[2] = 1;
  refused_request(request, 0, THRESHCINCH_VALUE, 1);
  request->values[1] = number_of_bits(LEAST);
  refused_request(request, 0, THRESHCINCH_VALUE, 2);
  request->values[2] = number_of_bits(ONE);
}

static void without_params_faults(Request *request) {
  static const uint64_t wrong_stds[] = {A_NAN, INFINITE, 0, MINUS_ZERO, 0xBFF0000000000000u, 0xFFF0000000000000u};
  refused_request(request, 0, THRESHCINCH_ROUNDS, 0);
  request->params.rounds = 1;
  refused_request(request, 0, THRESHCINCH_DEGREE, 0);
  request->params.degree = 1001;
  refused_request(request, 0, THRESHCINCH_DEGREE, 0);
  request->params.degree = UINT64_MAX;
  refused_request(request, 0, THRESHCINCH_DEGREE, 0);
  request->params.degree = 1;
  for (size_t at = 0; at < sizeof wrong_stds / sizeof *wrong_stds; at++) {
    request->params.seed_std = number_of_bits(wrong_stds[at]);
    refused_request(request, 0, THRESHCINCH_SEED_STD, 0);
  }
  request->params.seed_std = number_of_bits(ONE);
}

static void refusals_of_run_files(void) {
  Request request = without_sizes_faults();
  without_graph_faults(&request);
  without_params_faults(&request);
  refused_request(&request, 0, THRESHCINCH_ROOM, 0);
  accept("without a fault", write_in(&request, LENT).verdict);
}

/* Each size by itself, one more than a file holds and just as much. */
static void sizes_of_run_files(void) {
  Request request = full_request();
  accept("a full file", write_in(&request, THRESHCINCH_FILE_BYTES).verdict);
  request.params.rounds = 401;
  refused_request(&request, LENT, THRESHCINCH_TEXT, 2);
  request = full_request();
  request.starts_length = 66;
  refused_request(&request, LENT, THRESHCINCH_TEXT, 5);
  request = full_request();
  request.columns_length = 1025;
  refused_request(&request, LENT, THRESHCINCH_TEXT, 6);
  request = full_request();
  request.values_length = 1025;
  refused_request(&request, LENT, THRESHCINCH_TEXT, 7);
}

/* ---- the reader */

/* Into a record that is full of other bytes. */
static threshcinch_run_file read_of(const char *name, const void *bytes, size_t length) {
  threshcinch_run_file file;
  memset(&file, 0xA5, sizeof file);
  const threshcinch_verdict verdict = threshcinch_file_read(bytes, length, &file);
  refuse(name, verdict, file.verdict.number, file.verdict.place);
  return file;
}

static int all_zeros(const void *memory, size_t length) {
  const unsigned char *bytes = (const unsigned char *)memory;
  while (length > 0 && !bytes[length - 1]) length--;
  return !length;
}

/* The record holds the request's numbers, and zeros behind those of each list. */
static void holds(const char *name, const threshcinch_run_file *file, const Request *request) {
  accept(name, file->verdict);
  if (file->d != request->d || memcmp(&file->params, &request->params, sizeof file->params)) fail("%s: other parameters were read", name);
  if (file->start_count != request->starts_length || file->column_count != request->columns_length || file->value_count != request->values_length)
    fail("%s: %zu starts, %zu columns, %zu values were read", name, file->start_count, file->column_count, file->value_count);
  if (memcmp(file->starts, request->starts, file->start_count * sizeof *file->starts)) fail("%s: other starts were read", name);
  if (memcmp(file->columns, request->columns, file->column_count * sizeof *file->columns)) fail("%s: other columns were read", name);
  if (memcmp(file->values, request->values, file->value_count * sizeof *file->values)) fail("%s: other values were read", name);
  if (!all_zeros(file->starts + file->start_count, sizeof file->starts - file->start_count * sizeof *file->starts) ||
      !all_zeros(file->columns + file->column_count, sizeof file->columns - file->column_count * sizeof *file->columns) ||
      !all_zeros(file->values + file->value_count, sizeof file->values - file->value_count * sizeof *file->values))
    fail("%s: behind a list are no zeros", name);
}

/* Written, read, and written again from what was read: the same bytes, where there is just room for them. */
static void both_ways(const char *name, const Request *request) {
  static uint8_t first[LENT];
  const threshcinch_written written = write_in(request, LENT);
  accept(name, written.verdict);
  memcpy(first, text, sizeof first);
  const threshcinch_run_file file = read_of(name, first, written.length);
  holds(name, &file, request);
  const threshcinch_graph graph = threshcinch_file_graph(&file);
  lend();
  written_text(name, threshcinch_file_write(file.d, file.params, &graph, text, written.length), first, written.length);
  lend();
  refused_text(name, threshcinch_file_write(file.d, file.params, &graph, text, written.length - 1), THRESHCINCH_ROOM, 0);
}

/* A graph by rule, of so many rows: rows of 0 to 15 entries, numbers of any bits that are finite. */
static Request some_request(uint64_t number) {
  Request request = papers_request();
  const size_t rows = 1 + mixed(number) % 64;
  request.d = 1 + mixed(number + 1) % 7;
  request.params.rounds = 1 + mixed(number + 2) % 400;
  request.params.degree = 1 + mixed(number + 3) % 1000;
  request.params.seed_std = number_of_bits(1 + mixed(number + 4) % (INFINITE - 1));
  request.starts_length = rows + 1;
  for (size_t row = 0; row < rows; row++) request.starts[row + 1] = request.starts[row] + mixed(number + 5 + row) % 16;
  request.columns_length = request.values_length = request.starts[rows];
  for (size_t entry = 0; entry < request.columns_length; entry++) {
    request.columns[entry] = (uint32_t)(mixed(number + 100 + entry) % rows);
    request.values[entry] = number_of_bits(mixed(number + 2000 + entry) % INFINITE | mixed(number + entry) << 63);
  }
  return request;
}

static void round_trips(void) {
  const Request papers = papers_request(), edges = edges_request(), bare = bare_request(), full = full_request();
  both_ways("document 01's file", &papers);
  both_ways("a file of extreme numbers", &edges);
  both_ways("a file without entries", &bare);
  both_ways("a full file", &full);
  for (uint64_t number = 0; number < 200; number++) {
    const Request request = some_request(number * 10000);
    both_ways("a file by rule", &request);
  }
}

static void no_run_file(const char *words, const void *bytes, size_t length, uint64_t line) {
  threshcinch_run_file file = read_of(words, bytes, length);
  refuse(words, file.verdict, THRESHCINCH_TEXT, line);
  memset(&file.verdict, 0, sizeof file.verdict);
  if (!all_zeros(&file, sizeof file)) fail("%s: beside the refusal are numbers", words);
}

typedef struct {
  uint64_t line;
  const char *bytes;
} Fault;

/* A fault for each line; of two the first is named. */
static const Fault faults[] = {
    {1, ""},
    {1, "\n"},
    {1, "d=01\nrounds=1\ndegree=1\nseed_std=3f1a36e2eb1c432d\nstarts=0,1\ncolumns=0\nvalues=3ff0000000000000\n"},
    {1, "d=18446744073709551616\nrounds=1\ndegree=1\nseed_std=3f1a36e2eb1c432d\nstarts=0,1\ncolumns=0\nvalues=3ff0000000000000\n"},
    {1, "d=1\r\nrounds=401\ndegree=1\nseed_std=3f1a36e2eb1c432d\nstarts=0,1\ncolumns=0\nvalues=3ff0000000000000\n"},
    {2, "d=1\nrounds=401\ndegree=\nseed_std=3f1a36e2eb1c432d\nstarts=0,1\ncolumns=0\nvalues=3ff0000000000000\n"},
    {3, "d=1\nrounds=1\ndegree=\nseed_std=3f1a36e2eb1c432d\nstarts=0,1\ncolumns=0\nvalues=3ff0000000000000\n"},
    {4, "d=1\nrounds=1\ndegree=1\nseed_std=3F1A36E2EB1C432D\nstarts=0,1\ncolumns=0\nvalues=3ff0000000000000\n"},
    {5, "d=1\nrounds=1\ndegree=1\nseed_std=3f1a36e2eb1c432d\nstarts=0,1,\ncolumns=0\nvalues=3ff0000000000000\n"},
    {6, "d=1\nrounds=1\ndegree=1\nseed_std=3f1a36e2eb1c432d\nstarts=0,1\ncolumns=4294967296\nvalues=3ff0000000000000\n"},
    {7, "d=1\nrounds=1\ndegree=1\nseed_std=3f1a36e2eb1c432d\nstarts=0,1\ncolumns=0\nvalues=3ff000000000000\n"},
    {7, "d=1\nrounds=1\ndegree=1\nseed_std=3f1a36e2eb1c432d\nstarts=0,1\ncolumns=0\nvalues=3ff0000000000000"},
    {7, "d=1\nrounds=1\ndegree=1\nseed_std=3f1a36e2eb1c432d\nstarts=0,1\ncolumns=0\n"},
    {8, "d=1\nrounds=1\ndegree=1\nseed_std=3f1a36e2eb1c432d\nstarts=0,1\ncolumns=0\nvalues=3ff0000000000000\n\n"},
};

static void refusals_of_the_reader(void) {
  for (size_t at = 0; at < sizeof faults / sizeof *faults; at++) no_run_file(faults[at].bytes, faults[at].bytes, strlen(faults[at].bytes), faults[at].line);
  for (size_t length = 0; length < strlen(papers_file); length++) {
    uint64_t line = 1;
    for (size_t place = 0; place < length; place++) line += papers_file[place] == '\n';
    no_run_file("a file that was cut", papers_file, length, line);
  }
  lend();
  no_run_file("too long", text, THRESHCINCH_FILE_BYTES + 1, 0);
  no_run_file("just not too long", text, THRESHCINCH_FILE_BYTES, 1);
  no_run_file("NULL", NULL, 100, 1);
}

/* The first line that has one number more than it may, in a file whose later lines are right. */
static void lists_that_are_too_long(void) {
  const Request full = full_request();
  static char longer[LENT + 32];
  const size_t length = write_in(&full, LENT).length;
  static const char *const names[] = {"starts=", "columns=", "values="}, *const more[] = {"0,", "0,", "3ff0000000000000,"};
  for (size_t list = 0; list < 3; list++) {
    text[length] = 0;
    const size_t before = (size_t)(strstr((const char *)text, names[list]) - (const char *)text) + strlen(names[list]);
    memcpy(longer, text, before);
    memcpy(longer + before, more[list], strlen(more[list]));
    memcpy(longer + before + strlen(more[list]), text + before, length - before);
    no_run_file(names[list], longer, length + strlen(more[list]), 5 + list);
  }
}

/* 1 to 10 are not the reader's, which takes what no run takes; and every NaN is one to it. */
static void what_no_run_takes(void) {
  static const char file[] =
      "d=0\nrounds=0\ndegree=18446744073709551615\nseed_std=8000000000000000\nstarts=18446744073709551615\ncolumns=4294967295,7\n"
      "values=7ff0000000000000,fff8000000000001,7ff0000000000001\n";
  const threshcinch_run_file read = read_of("a file that no run takes", file, strlen(file));
  accept("a file that no run takes", read.verdict);
  if (read.d || read.params.rounds || read.params.degree != UINT64_MAX || bits_of(read.params.seed_std) != MINUS_ZERO) fail("other parameters were read");
  if (read.start_count != 1 || read.column_count != 2 || read.value_count != 3) fail("other counts were read");
  if (read.starts[0] != UINT64_MAX || read.columns[0] != UINT32_MAX || read.columns[1] != 7) fail("other places were read");
  if (bits_of(read.values[0]) != INFINITE) fail("infinity was read as another number");
  for (size_t at = 1; at < 3; at++)
    if ((bits_of(read.values[at]) & ~MINUS_ZERO) <= INFINITE) fail("a NaN was read as a number");
  const threshcinch_graph graph = threshcinch_file_graph(&read);
  if (graph.starts_length != 1 || graph.columns_length != 2 || graph.values_length != 3) fail("the graph has other lengths than were read");
  lend();
  refused_text("writing it", threshcinch_file_write(read.d, read.params, &graph, text, LENT), THRESHCINCH_DIMS, 0);
}

/* ---- the second writer */

static threshcinch_embedded answer_with(uint64_t number, uint64_t place, size_t passes, size_t refreshed, size_t zeroed, size_t isolated) {
  threshcinch_embedded answer;
  answer.verdict.number = number;
  answer.verdict.place = place;
  answer.counts.passes = passes;
  answer.counts.refreshed = refreshed;
  answer.counts.zeroed = zeroed;
  answer.counts.isolated = isolated;
  return answer;
}

/* A seed that is printed. */
typedef struct {
  threshcinch_embedded answer;
  uint64_t d;
  size_t rows;
  const double *seed;
  size_t seed_length;
} Printed;

static Printed printed_of(threshcinch_embedded answer, uint64_t d, size_t rows, const double *seed, size_t seed_length) {
  Printed printed;
  printed.answer = answer;
  printed.d = d;
  printed.rows = rows;
  printed.seed = seed;
  printed.seed_length = seed_length;
  return printed;
}

static threshcinch_written print_in(const Printed *printed, size_t room) {
  lend();
  return threshcinch_answer_write(printed->answer, printed->d, printed->rows, printed->seed, printed->seed_length, text, room);
}

static void prints(const char *name, Printed printed, const char *expected) {
  const size_t length = strlen(expected);
  written_text(name, print_in(&printed, LENT), expected, length);
  written_text(name, print_in(&printed, length), expected, length);
  for (size_t room = 0; room < length; room++) refused_text(name, print_in(&printed, room), THRESHCINCH_ROOM, 0);
  lend();
  refused_text(name, threshcinch_answer_write(printed.answer, printed.d, printed.rows, printed.seed, printed.seed_length, NULL, LENT), THRESHCINCH_ROOM, 0);
}

/* The seed of document 01's file, computed, and its answer. */
static void papers_answer(void) {
  const threshcinch_run_file file = read_of("document 01's file", papers_file, strlen(papers_file));
  const threshcinch_graph graph = threshcinch_file_graph(&file);
  threshcinch_memory memory = memory_for(file.d, file.params.rounds, &graph);
  const threshcinch_embedded answer = threshcinch_embed(file.d, file.params, &graph, &memory);
  prints("document 01's answer", printed_of(answer, file.d, 1, memory.output, memory.output_length),
         "answer=0\nn=1\npasses=2\nrefreshed=9\nzeroed=9\nisolated=0\nrow=0000000000000000\n");
  threshcinch_memory_free(&memory);
}

static void answers(void) {
  static const uint64_t bits[] = {ONE, MINUS_ZERO, A_NAN, LEAST, 0x7FF0000000000001u, 0xFFF0000000000000u, 0x7FF8000000000000u, ONE};
  double seed[8];
  memcpy(seed, bits, sizeof seed);
  prints("an answer with NaN", printed_of(answer_with(0, 0, 1, 20, 300, 4000), 3, 2, seed, 8),
         "answer=0\nn=2\npasses=1\nrefreshed=20\nzeroed=300\nisolated=4000\n"
         "row=3ff0000000000000,8000000000000000,7ff8000000000000\nrow=0000000000000001,7ff8000000000000,fff0000000000000\n");
  prints("the largest counts, and a place beside an accepted verdict", printed_of(answer_with(0, 5, SIZE_MAX, 0, SIZE_MAX, 1), 1, 1, seed, 1),
         "answer=0\nn=1\npasses=18446744073709551615\nrefreshed=0\nzeroed=18446744073709551615\nisolated=1\nrow=3ff0000000000000\n");
  prints("a refusal", printed_of(answer_with(5, 2, 1, 2, 3, 4), 1, 1, seed, 8), "answer=5\nat=2\n");
  prints("a refusal of this writer's own", printed_of(answer_with(17, 0, 0, 0, 0, 0), 1, 1, seed, 8), "answer=17\nat=0\n");
  prints("a refusal that there is not, beside nothing", printed_of(answer_with(UINT64_MAX, UINT64_MAX, 0, 0, 0, 0), 0, SIZE_MAX, NULL, 8),
         "answer=18446744073709551615\nat=18446744073709551615\n");
}

static void refused_print(Printed printed, size_t room, uint64_t number, uint64_t place) {
  refused_text("writing an answer", print_in(&printed, room), number, place);
}

/* Every fault at once, and then one less after the other. */
static void refusals_of_answers(void) {
  static double seed[64 * 7];
  const threshcinch_embedded answer = answer_with(0, 0, SIZE_MAX, SIZE_MAX, SIZE_MAX, SIZE_MAX);
  refused_print(printed_of(answer, 0, 0, seed, 0), 0, THRESHCINCH_DIMS, 0);
  refused_print(printed_of(answer, 8, 65, seed, 0), 0, THRESHCINCH_DIMS, 0);
  refused_print(printed_of(answer, UINT64_MAX, SIZE_MAX, seed, 0), 0, THRESHCINCH_DIMS, 0);
  refused_print(printed_of(answer, 7, 0, seed, 0), 0, THRESHCINCH_NO_ROWS, 0);
  refused_print(printed_of(answer, 7, 65, seed, 0), 0, THRESHCINCH_TEXT, 0);
  refused_print(printed_of(answer, 7, SIZE_MAX, seed, 0), 0, THRESHCINCH_TEXT, 0);
  refused_print(printed_of(answer, 7, 64, seed, 64 * 7 - 1), 0, THRESHCINCH_MEMORY, 9);
  refused_print(printed_of(answer, 7, 64, NULL, 64 * 7), LENT, THRESHCINCH_MEMORY, 9);
  refused_print(printed_of(answer, 7, 64, seed, 64 * 7), 0, THRESHCINCH_ROOM, 0);
  const Printed largest = printed_of(answer, 7, 64, seed, 64 * 7);
  const threshcinch_written written = print_in(&largest, THRESHCINCH_ANSWER_BYTES);
  accept("the largest answer", written.verdict);
  refused_print(largest, written.length - 1, THRESHCINCH_ROOM, 0);
  refuse("the largest answer in just its room", print_in(&largest, written.length).verdict, THRESHCINCH_ACCEPTED, 0);
}

int main(void) {
  run_files();
  null_lists();
  refusals_of_run_files();
  sizes_of_run_files();
  round_trips();
  refusals_of_the_reader();
  lists_that_are_too_long();
  what_no_run_takes();
  papers_answer();
  answers();
  refusals_of_answers();
  printf("texts: run files both ways, answers, each refusal in its turn, and the text that stays\n");
  return 0;
}
