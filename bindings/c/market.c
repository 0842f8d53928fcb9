/* market: Matrix Market files. Which texts are read as which graphs, who is refused by which number at which place and in which order, which
 * numbers of the lent lists stay, and which room is said to suffice.
 * Status: 0, or 1 with the first thing that is wrong. */
#include "check.h"

#define BANNER "%%MatrixMarket matrix coordinate pattern symmetric\n"
#define ONE 0x3FF0000000000000u

enum { ROWS_MOST = 1048576, ENTRIES_MOST = 67108864, LINE_MOST = 1024 };

/* ---- lent lists, every number known */

enum { LENT = 2048 };

static uint64_t starts[LENT];
static uint32_t columns[LENT];
static double values[LENT];

static uint64_t lent_number(size_t place) {
  return mixed(place) | 1; /* as bits of a value: never those of 1.0 */
}

static void lend(void) {
  for (size_t place = 0; place < LENT; place++) {
    starts[place] = lent_number(place);
    columns[place] = (uint32_t)lent_number(place);
    values[place] = number_of_bits(lent_number(place));
  }
}

/* As they were lent, from these places on. */
static void stay_from(const char *call, size_t start, size_t entry) {
  for (size_t place = start; place < LENT; place++)
    if (starts[place] != lent_number(place)) fail("%s: start %zu was written", call, place);
  for (size_t place = entry; place < LENT; place++) {
    const uint64_t bits = lent_number(place);
    if (columns[place] != (uint32_t)bits) fail("%s: column %zu was written", call, place);
    if (memcmp(&values[place], &bits, sizeof bits)) fail("%s: value %zu was written", call, place);
  }
}

/* How much of each list is lent. */
typedef struct {
  size_t starts, columns, values;
} Room;

static Room room_of(size_t for_starts, size_t for_columns, size_t for_values) {
  Room room;
  room.starts = for_starts;
  room.columns = for_columns;
  room.values = for_values;
  return room;
}

/* Into lists that are lent anew. */
static threshcinch_matrix_market read_in(const void *text, size_t length, Room room) {
  threshcinch_graph_lists lists;
  lists.starts = starts;
  lists.starts_length = room.starts;
  lists.columns = columns;
  lists.columns_length = room.columns;
  lists.values = values;
  lists.values_length = room.values;
  lend();
  return threshcinch_market_read(text, length, &lists);
}

static void refused_market(const char *call, threshcinch_matrix_market market, uint64_t number, uint64_t place) {
  refuse(call, market.verdict, number, place);
  if (market.rows || market.entries) fail("%s: refused, with %zu rows and %zu entries", call, market.rows, market.entries);
  stay_from(call, 0, 0);
}

/* The same whatever the lists are: 19, 2 and 3 come before 11. */
static void refused_text(const char *call, const void *text, size_t length, uint64_t number, uint64_t place) {
  refused_market(call, read_in(text, length, room_of(LENT, LENT, LENT)), number, place);
  refused_market(call, read_in(text, length, room_of(0, 0, 0)), number, place);
}

/* What the small call answers. */
static void room_is(const char *call, const void *text, size_t length, size_t for_starts, size_t for_entries) {
  const threshcinch_matrix_market_room room = threshcinch_market_sizes(text, length);
  accept(call, room.verdict);
  if (room.starts != for_starts || room.entries != for_entries)
    fail("%s: room for %zu starts and %zu entries, not %zu and %zu", call, room.starts, room.entries, for_starts, for_entries);
}

static void refused_room(const char *call, const void *text, size_t length, uint64_t number, uint64_t place) {
  const threshcinch_matrix_market_room room = threshcinch_market_sizes(text, length);
  refuse(call, room.verdict, number, place);
  if (room.starts || room.entries) fail("%s: refused, with room for %zu starts and %zu entries", call, room.starts, room.entries);
}

/* ---- what is read */

/* A graph of so many rows; columns row after row. */
typedef struct {
  size_t rows, entries;
  uint64_t starts[LENT];
  uint32_t columns[LENT];
} Expected;

static void holds(const char *name, threshcinch_matrix_market market, const Expected *expected) {
  const uint64_t one = ONE;
  accept(name, market.verdict);
  if (market.rows != expected->rows || market.entries != expected->entries)
    fail("%s: %zu rows and %zu entries were read, not %zu and %zu", name, market.rows, market.entries, expected->rows, expected->entries);
  if (memcmp(starts, expected->starts, (expected->rows + 1) * sizeof *starts)) fail("%s: other starts were read", name);
  if (memcmp(columns, expected->columns, expected->entries * sizeof *columns)) fail("%s: other columns were read", name);
  for (size_t entry = 0; entry < expected->entries; entry++)
    if (memcmp(&values[entry], &one, sizeof one)) fail("%s: value %zu is not 1.0", name, entry);
  stay_from(name, expected->rows + 1, expected->entries);
}

/* With room to spare, with just enough, and with one number too few in each list; of several short lists the first is named. */
static void reads(const char *name, const void *text, size_t length, const Expected *expected) {
  const size_t for_starts = expected->rows + 1, entries = expected->entries;
  holds(name, read_in(text, length, room_of(LENT, LENT, LENT)), expected);
  holds(name, read_in(text, length, room_of(for_starts, entries, entries)), expected);
  refused_market(name, read_in(text, length, room_of(for_starts - 1, entries, entries)), THRESHCINCH_MEMORY, 0);
  refused_market(name, read_in(text, length, room_of(0, 0, 0)), THRESHCINCH_MEMORY, 0);
  if (!entries) return;
  refused_market(name, read_in(text, length, room_of(for_starts, entries - 1, entries)), THRESHCINCH_MEMORY, 1);
  refused_market(name, read_in(text, length, room_of(LENT, 0, 0)), THRESHCINCH_MEMORY, 1);
  refused_market(name, read_in(text, length, room_of(for_starts, entries, entries - 1)), THRESHCINCH_MEMORY, 2);
  refused_market(name, read_in(text, length, room_of(LENT, LENT, 0)), THRESHCINCH_MEMORY, 2);
}

/* Three rows: 0 and 1 linked, 2 with itself alone. */
static Expected small_graph(void) {
  static const uint64_t small_starts[] = {0, 1, 2, 3};
  static const uint32_t small_columns[] = {1, 0, 2};
  Expected expected;
  memset(&expected, 0, sizeof expected);
  expected.rows = expected.entries = 3;
  memcpy(expected.starts, small_starts, sizeof small_starts);
  memcpy(expected.columns, small_columns, sizeof small_columns);
  return expected;
}

typedef struct {
  const char *bytes;
  size_t length;
} Text;

/* zeros within it count */
#define TEXT(bytes) {bytes, sizeof(bytes) - 1}

/* Each is the small graph. */
static const Text forms[] = {
    TEXT(BANNER "3 3 2\n2 1\n3 3\n"),
    TEXT(BANNER "3 3 2\n3 3\n2 1\n"),
    TEXT(BANNER "3 3 2\n2 1\n3 3"),
    TEXT("%%MatrixMarket matrix coordinate pattern symmetric\r\n3 3 2\r\n2 1\r\n3 3\r\n"),
    TEXT("%%MatrixMarket matrix coordinate pattern symmetric\r\n3 3 2\n2 1\r\n3 3"),
    TEXT("%%MatrixMarket MATRIX Coordinate pAttERN symmetriC\n3 3 2\n2 1\n3 3\n"),
    TEXT("%%MatrixMarket\tmatrix  \tcoordinate \t pattern\t\tsymmetric \t\n3 3 2\n2 1\n3 3\n"),
    TEXT(BANNER "%\n% any byte: \0\x01\x7F\x80\xFF\t%%MatrixMarket\n%1 1\n3 3 2\n2 1\n3 3\n"),
    TEXT(BANNER "% a comment\r\n\n \t\r\n%\r\n3 3 2\n\n2 1\n\t\n \n3 3\n\n \t \n"),
    TEXT(BANNER "3 3 2\n2 1\n3 3\n\n\r\n \t"),
    TEXT(BANNER " \t3\t3  2 \n\t2 1\t\n  3\t \t3 \n"),
    TEXT(BANNER "003 3 0000000000000000000000000000002\n02 1\n3 000000000000000000000003\n"),
};

static void forms_of_a_file(void) {
  const Expected expected = small_graph();
  for (size_t at = 0; at < sizeof forms / sizeof *forms; at++) {
    reads(forms[at].bytes, forms[at].bytes, forms[at].length, &expected);
    room_is(forms[at].bytes, forms[at].bytes, forms[at].length, 4, 4);
  }
}

/* Without entries two lists may be empty, and NULL. */
static void no_entries(void) {
  static const char text[] = BANNER "2 2 0\n";
  static uint64_t two_starts[3];
  threshcinch_graph_lists lists;
  Expected expected;
  memset(&expected, 0, sizeof expected);
  memset(&lists, 0, sizeof lists);
  expected.rows = 2;
  reads("no entries", text, strlen(text), &expected);
  room_is("no entries", text, strlen(text), 3, 0);
  lists.starts = two_starts;
  lists.starts_length = 3;
  lists.columns_length = lists.values_length = 7;
  memset(two_starts, 0xA5, sizeof two_starts);
  const threshcinch_matrix_market market = threshcinch_market_read(text, strlen(text), &lists);
  accept("NULL entries", market.verdict);
  if (market.rows != 2 || market.entries || two_starts[0] || two_starts[1] || two_starts[2]) fail("NULL entries: another graph was read");
}

static void null_lists(void) {
  const Text text = forms[0];
  threshcinch_graph_lists lists;
  lists.starts = NULL;
  lists.columns = NULL;
  lists.values = NULL;
  lists.starts_length = lists.columns_length = lists.values_length = LENT;
  lend();
  refused_market("NULL lists", threshcinch_market_read(text.bytes, text.length, &lists), THRESHCINCH_MEMORY, 0);
  lists.starts = starts;
  refused_market("NULL columns", threshcinch_market_read(text.bytes, text.length, &lists), THRESHCINCH_MEMORY, 1);
  lists.columns = columns;
  refused_market("NULL values", threshcinch_market_read(text.bytes, text.length, &lists), THRESHCINCH_MEMORY, 2);
  refused_text("NULL text", NULL, 100, THRESHCINCH_MATRIX_MARKET, 1);
  refused_room("NULL text", NULL, 100, THRESHCINCH_MATRIX_MARKET, 1);
}

/* ---- what is no such file */

typedef struct {
  uint64_t line;
  Text text;
} Fault;

/* Of several faults the first is named. Up to the size line both calls refuse. */
static const Fault faults_up_to_the_size_line[] = {
    {1, TEXT("")},
    {1, TEXT("\n")},
    {1, TEXT("\n" BANNER "1 1 0\n")},
    {1, TEXT(" " BANNER "1 1 0\n")},
    {1, TEXT("\t" BANNER "1 1 0\n")},
    {1, TEXT("\xEF\xBB\xBF" BANNER "1 1 0\n")},
    {1, TEXT("%matrixmarket matrix coordinate pattern symmetric\n1 1 0\n")},
    {1, TEXT("%%matrixmarket matrix coordinate pattern symmetric\n1 1 0\n")},
    {1, TEXT("%% MatrixMarket matrix coordinate pattern symmetric\n1 1 0\n")},
    {1, TEXT("%%MatrixMarket matrix coordinate pattern general\n1 1 0\n")},
    {1, TEXT("%%MatrixMarket matrix coordinate real symmetric\n1 1 0\n")},
    {1, TEXT("%%MatrixMarket matrix array pattern symmetric\n1 1 0\n")},
    {1, TEXT("%%MatrixMarket vector coordinate pattern symmetric\n1 1 0\n")},
    {1, TEXT("%%MatrixMarket matrix coordinate pattern\n1 1 0\n")},
    {1, TEXT("%%MatrixMarket matrix coordinate pattern symmetric more\n1 1 0\n")},
    {1, TEXT("%%MatrixMarket matrix coordinate patternsymmetric\n1 1 0\n")},
    {1, TEXT("%%MatrixMarket matrix coordinate pattern symmetrics\n1 1 0\n")},
    {1, TEXT("%%MatrixMarket matrix coordinate pattern symmetric\r")},
    {1, TEXT("%%MatrixMarket matrix coordinate pattern symmetric\r\r\n1 1 0\n")},
    {1, TEXT("%%MatrixMarket\rmatrix coordinate pattern symmetric\n1 1 0\n")},
    {1, TEXT("%%MatrixMarket matrix coordinate pattern symmetric\0\n1 1 0\n")},
    {2, TEXT("%%MatrixMarket matrix coordinate pattern symmetric")},
    {2, TEXT(BANNER)},
    {4, TEXT(BANNER "% a comment\n \n")},
    {3, TEXT(BANNER "% a comment")},
    {2, TEXT(BANNER " % no comment\n1 1 0\n")},
    {2, TEXT(BANNER "% a carriage\rreturn\n1 1 0\n")},
    {2, TEXT(BANNER "% a carriage return\r")},
    {2, TEXT(BANNER "% two\r\r\n1 1 0\n")},
    {2, TEXT(BANNER " \r \n1 1 0\n")},
    {2, TEXT(BANNER "1\n1 1 0\n")},
    {2, TEXT(BANNER "1 1\n1 1 0\n")},
    {2, TEXT(BANNER "1 1 0 0\n")},
    {2, TEXT(BANNER "1 1 0 % more\n")},
    {2, TEXT(BANNER "1 1 -0\n")},
    {2, TEXT(BANNER "+1 1 0\n")},
    {2, TEXT(BANNER "1 1 0.\n")},
    {2, TEXT(BANNER "1 1 0x0\n")},
    {2, TEXT(BANNER "1,1,0\n")},
    {2, TEXT(BANNER "1 1\v0\n")},
    {2, TEXT(BANNER "1 1 0\r")},
    {2, TEXT(BANNER "2 3 1\n1 1\n")},
    {2, TEXT(BANNER "3 2 1\n1 1\n")},
    {2, TEXT(BANNER "0 0 1\n")},
    {2, TEXT(BANNER "0 0 3\n")},
    {2, TEXT(BANNER "1 1 2\n1 1\n1 1\n")},
    {2, TEXT(BANNER "3 3 7\n")},
    {2, TEXT(BANNER "18446744073709551616 18446744073709551616 0\n")},
    {2, TEXT(BANNER "1 1 18446744073709551616\n")},
    {2, TEXT(BANNER "99999999999999999999999999 1 0\n")},
    {2, TEXT(BANNER "4294967296 4294967296 9223372039002259457\n")},
    {2, TEXT(BANNER "4294967295 4294967295 9223372034707292161\n")},
};

/* Behind it the small call has read enough. */
static const Fault faults_of_entries[] = {
    {3, TEXT(BANNER "3 3 2\n")},
    {3, TEXT(BANNER "3 3 2")},
    {3, TEXT(BANNER "3 3 2\n% no comment here\n2 1\n3 3\n")},
    {4, TEXT(BANNER "3 3 2\n2 1\n%\n3 3\n")},
    {5, TEXT(BANNER "3 3 2\n2 1\n3 3\n%\n")},
    {4, TEXT(BANNER "3 3 2\n2 1\n")},
    {4, TEXT(BANNER "3 3 2\n2 1")},
    {6, TEXT(BANNER "3 3 2\n2 1\n\n \n")},
    {5, TEXT(BANNER "3 3 2\n2 1\n3 3\n1 1\n")},
    {7, TEXT(BANNER "3 3 2\n2 1\n3 3\n\n\n2 1\n")},
    {5, TEXT(BANNER "3 3 2\n2 1\n3 3\nmore")},
    {5, TEXT(BANNER "3 3 2\n2 1\n3 3\n\r")},
    {3, TEXT(BANNER "3 3 2\n1 2\n3 3\n")},
    {4, TEXT(BANNER "3 3 2\n2 1\n2 3\n")},
    {3, TEXT(BANNER "3 3 2\n2 0\n3 3\n")},
    {3, TEXT(BANNER "3 3 2\n0 0\n3 3\n")},
    {4, TEXT(BANNER "3 3 2\n2 1\n4 3\n")},
    {4, TEXT(BANNER "3 3 2\n2 1\n4 4\n")},
    {3, TEXT(BANNER "3 3 2\n2\n3 3\n")},
    {3, TEXT(BANNER "3 3 2\n2 1 1\n3 3\n")},
    {3, TEXT(BANNER "3 3 2\n2 1 1.0\n3 3\n")},
    {3, TEXT(BANNER "3 3 2\n2 +1\n3 3\n")},
    {3, TEXT(BANNER "3 3 2\n2 1.\n3 3\n")},
    {3, TEXT(BANNER "3 3 2\n2 1\r\r\n3 3\n")},
    {3, TEXT(BANNER "3 3 2\n2\r1\n3 3\n")},
    {4, TEXT(BANNER "3 3 2\n2 1\n3 3\r")},
    {3, TEXT(BANNER "3 3 2\n18446744073709551618 1\n3 3\n")},
    {3, TEXT(BANNER "3 3 2\n2 18446744073709551617\n3 3\n")},
    {3, TEXT(BANNER "3 3 2\n4294967298 1\n3 3\n")},
    {3, TEXT(BANNER "3 3 2\n2 4294967297\n3 3\n")},
    {4, TEXT(BANNER "3 3 2\n2 1\n2 1\n")},
    {6, TEXT(BANNER "3 3 2\n2 1\n\n\n02 \t1\n")},
    {6, TEXT(BANNER "3 3 4\n2 1\n3 3\n1 1\n2 1\n")},
    {5, TEXT(BANNER "3 3 5\n3 3\n1 1\n3 3\n1 1\nx\n")},
    {4, TEXT(BANNER "3 3 4\n3 3\nx\n1 1\n1 1\n")},
    {4, TEXT(BANNER "3 3 2\n2 1\n2 1\n3 3\n")},
};

static void each_fault(void) {
  for (size_t at = 0; at < sizeof faults_up_to_the_size_line / sizeof *faults_up_to_the_size_line; at++) {
    const Fault *fault = &faults_up_to_the_size_line[at];
    refused_text(fault->text.bytes, fault->text.bytes, fault->text.length, THRESHCINCH_MATRIX_MARKET, fault->line);
    refused_room(fault->text.bytes, fault->text.bytes, fault->text.length, THRESHCINCH_MATRIX_MARKET, fault->line);
  }
  for (size_t at = 0; at < sizeof faults_of_entries / sizeof *faults_of_entries; at++) {
    const Fault *fault = &faults_of_entries[at];
    refused_text(fault->text.bytes, fault->text.bytes, fault->text.length, THRESHCINCH_MATRIX_MARKET, fault->line);
    accept(fault->text.bytes, threshcinch_market_sizes(fault->text.bytes, fault->text.length).verdict);
  }
}

/* The line that is cut, or the one that is missing. */
static void a_file_that_was_cut(void) {
  static const char text[] = BANNER "3 3 4\n1 1\n2 1\n3 1\n3 2\n";
  uint64_t line = 1;
  for (size_t length = 0; length + 1 < strlen(text); length++) {
    const int is_whole = text[length] == '\n';
    refused_text("a file that was cut", text, length, THRESHCINCH_MATRIX_MARKET, line + (uint64_t)is_whole);
    line += (uint64_t)is_whole;
  }
}

/* A line of so many bytes without its end, in the place of line 1, 2 (a comment), 3 (the size line), 4 (an entry) or 5 (a blank one). */
static size_t with_a_long_line(char *text, size_t line, size_t bytes, const char *end) {
  static const char *const lines[] = {"%%MatrixMarket matrix coordinate pattern symmetric", "% a comment", "3 3 2", "2 1", " ", "3 3"};
  size_t length = 0;
  for (size_t at = 0; at < sizeof lines / sizeof *lines; at++) {
    const size_t own = strlen(lines[at]), whole = at + 1 == line ? bytes : own;
    memcpy(text + length, lines[at], own);
    memset(text + length + own, ' ', whole - own);
    memcpy(text + length + whole, end, strlen(end));
    length += whole + strlen(end);
  }
  return length;
}

static void long_lines(void) {
  static const char *const ends[] = {"\n", "\r\n"};
  static char text[2 * LINE_MOST];
  const Expected expected = small_graph();
  for (size_t end = 0; end < 2; end++)
    for (size_t line = 1; line <= 6; line++) {
      size_t length = with_a_long_line(text, line, LINE_MOST, ends[end]);
      reads("a line of 1,024 bytes", text, length, &expected);
      length = with_a_long_line(text, line, LINE_MOST + 1, ends[end]);
      refused_text("a line of 1,025 bytes", text, length, THRESHCINCH_MATRIX_MARKET, line);
      if (line <= 3) refused_room("a line of 1,025 bytes", text, length, THRESHCINCH_MATRIX_MARKET, line);
    }
  /* the last line, without an end */
  size_t length = with_a_long_line(text, 6, LINE_MOST, "\n") - 1;
  reads("a last line of 1,024 bytes", text, length, &expected);
  text[length] = ' ';
  refused_text("a last line of 1,025 bytes", text, length + 1, THRESHCINCH_MATRIX_MARKET, 6);
}

/* ---- numbers at the limits */

typedef struct {
  const char *lines;
  uint64_t number, place;             /* reading's, whatever the lists are */
  uint64_t room_number;               /* the small call's, at 0 */
  size_t for_starts, for_entries;
} Limit;

static const Limit limits[] = {
    {"0 0 0\n", THRESHCINCH_NO_ROWS, 0, THRESHCINCH_NO_ROWS, 0, 0},
    {"00 0 000\n\n", THRESHCINCH_NO_ROWS, 0, THRESHCINCH_NO_ROWS, 0, 0},
    {"0 0 0\n1 1\n", THRESHCINCH_MATRIX_MARKET, 3, THRESHCINCH_NO_ROWS, 0, 0},
    {"1048577 1048577 0\n", THRESHCINCH_LIMITS, 0, THRESHCINCH_LIMITS, 0, 0},
    {"1048577 1048577 1\n1048577 1\n", THRESHCINCH_LIMITS, 0, THRESHCINCH_LIMITS, 0, 0},
    {"1048577 1048577 1\n1048578 1\n", THRESHCINCH_MATRIX_MARKET, 3, THRESHCINCH_LIMITS, 0, 0},
    {"1048577 1048577 1\n", THRESHCINCH_MATRIX_MARKET, 3, THRESHCINCH_LIMITS, 0, 0},
    {"1048577 1048577 3\n5 4\n4 4\n5 4\n", THRESHCINCH_MATRIX_MARKET, 5, THRESHCINCH_LIMITS, 0, 0},
    {"18446744073709551615 18446744073709551615 0\n", THRESHCINCH_LIMITS, 0, THRESHCINCH_LIMITS, 0, 0},
    {"18446744073709551615 18446744073709551615 1\n18446744073709551615 18446744073709551615\n", THRESHCINCH_LIMITS, 0, THRESHCINCH_LIMITS, 0, 0},
    {"18446744073709551615 18446744073709551615 18446744073709551615\n", THRESHCINCH_MATRIX_MARKET, 3, THRESHCINCH_LIMITS, 0, 0},
    {"4294967296 4294967296 9223372039002259456\n", THRESHCINCH_MATRIX_MARKET, 3, THRESHCINCH_LIMITS, 0, 0},
    {"4294967295 4294967295 9223372034707292160\n", THRESHCINCH_MATRIX_MARKET, 3, THRESHCINCH_LIMITS, 0, 0},
    {"1048576 1048576 67108865\n", THRESHCINCH_MATRIX_MARKET, 3, THRESHCINCH_LIMITS, 0, 0},
    {"1048576 1048576 67108864\n", THRESHCINCH_MATRIX_MARKET, 3, THRESHCINCH_ACCEPTED, ROWS_MOST + 1, ENTRIES_MOST},
    {"1048576 1048576 33554433\n", THRESHCINCH_MATRIX_MARKET, 3, THRESHCINCH_ACCEPTED, ROWS_MOST + 1, ENTRIES_MOST},
    {"1048576 1048576 33554432\n", THRESHCINCH_MATRIX_MARKET, 3, THRESHCINCH_ACCEPTED, ROWS_MOST + 1, ENTRIES_MOST},
    {"1048576 1048576 33554431\n", THRESHCINCH_MATRIX_MARKET, 3, THRESHCINCH_ACCEPTED, ROWS_MOST + 1, ENTRIES_MOST - 2},
    {"11585 11585 67108864\n", THRESHCINCH_MATRIX_MARKET, 3, THRESHCINCH_ACCEPTED, 11586, ENTRIES_MOST},
    {"11585 11585 67111905\n", THRESHCINCH_MATRIX_MARKET, 3, THRESHCINCH_LIMITS, 0, 0},
};

static void numbers_at_the_limits(void) {
  static char text[256];
  for (size_t at = 0; at < sizeof limits / sizeof *limits; at++) {
    const Limit *limit = &limits[at];
    const size_t length = (size_t)snprintf(text, sizeof text, "%s%s", BANNER, limit->lines);
    refused_text(limit->lines, text, length, limit->number, limit->place);
    if (limit->room_number)
      refused_room(limit->lines, text, length, limit->room_number, 0);
    else
      room_is(limit->lines, text, length, limit->for_starts, limit->for_entries);
  }
}

/* As many rows as are allowed, and an entry in the last ones. */
static void the_most_rows(void) {
  static const char text[] = BANNER "1048576 1048576 2\n1048576 1\n1048576 1048576\n";
  const threshcinch_matrix_market_room room = threshcinch_market_sizes(text, strlen(text));
  threshcinch_graph_lists lists;
  room_is("the most rows", text, strlen(text), ROWS_MOST + 1, 4);
  if (!threshcinch_graph_lists_new(&lists, room)) fail("no memory for the most rows");
  const threshcinch_matrix_market market = threshcinch_market_read(text, strlen(text), &lists);
  accept("the most rows", market.verdict);
  if (market.rows != ROWS_MOST || market.entries != 3) fail("the most rows: %zu rows, %zu entries", market.rows, market.entries);
  for (size_t row = 0; row <= ROWS_MOST; row++)
    if (lists.starts[row] != (row == 0 ? 0u : row < ROWS_MOST ? 1u : 3u)) fail("the most rows: row %zu starts at %u", row, (unsigned)lists.starts[row]);
  if (lists.columns[0] != ROWS_MOST - 1 || lists.columns[1] != 0 || lists.columns[2] != ROWS_MOST - 1) fail("the most rows: other columns");
  threshcinch_graph_lists_free(&lists);
}

/* ---- graphs by rule, in each order of their entries */

enum { SIDE = 40, TRIANGLE = SIDE * (SIDE + 1) / 2, TEXT_MOST = 1 << 16 };

typedef struct {
  size_t row, column; /* from 1 */
} Entry;

typedef struct {
  size_t rows, count, said; /* the size line says so many entries */
  Entry entries[TRIANGLE];
  size_t lines[TRIANGLE]; /* where each entry stands once it is written */
  size_t line_count;
  char text[TEXT_MOST];
  size_t length;
} File;

enum Order { BY_ROW, BY_COLUMN, FALLING, MIXED, ORDERS };

static void swap_entries(File *file, size_t one, size_t other) {
  const Entry entry = file->entries[one];
  file->entries[one] = file->entries[other];
  file->entries[other] = entry;
}

/* About every third place of the lower triangle; of some rows none. */
static void make_entries(File *file, uint64_t number, enum Order order) {
  file->rows = 1 + mixed(number) % SIDE;
  file->count = 0;
  for (size_t outer = 1; outer <= file->rows; outer++)
    for (size_t inner = 1; inner <= file->rows; inner++) {
      const size_t row = order == BY_COLUMN ? inner : outer, column = order == BY_COLUMN ? outer : inner;
      if (column > row || mixed(number + row * SIDE + column) % 3 || mixed(number + row) % 7 == 0) continue;
      file->entries[file->count].row = row;
      file->entries[file->count].column = column;
      file->count++;
    }
  for (size_t at = 0; order == FALLING && at < file->count / 2; at++) swap_entries(file, at, file->count - 1 - at);
  for (size_t at = file->count; order == MIXED && at > 1; at--) swap_entries(file, at - 1, mixed(number * 77 + at) % at);
  file->said = file->count;
}

static void put(File *file, const char *bytes) {
  const size_t length = strlen(bytes);
  if (file->length + length > TEXT_MOST) fail("no room for the text");
  memcpy(file->text + file->length, bytes, length);
  file->length += length;
  for (size_t at = 0; at < length; at++) file->line_count += bytes[at] == '\n';
}

/* What may stand between two lines: comments before the size line, blank lines. */
static void put_between(File *file, uint64_t number, int comments) {
  static const char *const blank[] = {"", "", "\n", " \t\n", "\r\n", "\n\n"}, *const comment[] = {"", "%\n", "% 1 1\r\n", "%%\n\n", "\n% \t\n"};
  put(file, comments ? comment[mixed(number) % 5] : blank[mixed(number) % 6]);
}

/* Plain, or with all that may stand between and around. */
static void write_file(File *file, uint64_t number, int is_plain) {
  static const char *const formats[] = {"%zu %zu\n", "%zu\t%zu \n", " %zu  %zu\r\n", "0%zu 00%zu\n"};
  char line[100];
  file->length = file->line_count = 0;
  put(file, BANNER);
  if (!is_plain) put_between(file, number, 1);
  snprintf(line, sizeof line, "%zu %zu %zu\n", file->rows, file->rows, file->said);
  put(file, line);
  for (size_t at = 0; at < file->count; at++) {
    if (!is_plain) put_between(file, number + at, 0);
    snprintf(line, sizeof line, formats[is_plain ? 0 : mixed(number - at) % 4], file->entries[at].row, file->entries[at].column);
    file->lines[at] = file->line_count + 1;
    put(file, line);
  }
}

/* By the definition's words, from a table of places. */
static Expected graph_of(const File *file) {
  static unsigned char linked[SIDE][SIDE];
  Expected expected;
  memset(&expected, 0, sizeof expected);
  memset(linked, 0, sizeof linked);
  for (size_t at = 0; at < file->count; at++) {
    const Entry entry = file->entries[at];
    linked[entry.row - 1][entry.column - 1] = linked[entry.column - 1][entry.row - 1] = 1;
  }
  expected.rows = file->rows;
  for (size_t row = 0; row < file->rows; row++) {
    for (size_t column = 0; column < file->rows; column++)
      if (linked[row][column]) expected.columns[expected.entries++] = (uint32_t)column;
    expected.starts[row + 1] = expected.entries;
  }
  return expected;
}

static void wrong_at(const char *name, const File *file, size_t line) {
  refused_text(name, file->text, file->length, THRESHCINCH_MATRIX_MARKET, line);
}

/* A size line that says one more or one less. */
static void wrong_counts(File *file, uint64_t number, int is_plain) {
  file->said = file->count + 1;
  write_file(file, number, is_plain);
  const int is_too_large = file->said > file->rows * (file->rows + 1) / 2;
  if (!is_too_large) wrong_at("an entry is missing", file, file->line_count + 1);
  if (file->count) {
    file->said = file->count - 1;
    write_file(file, number, is_plain);
    wrong_at("an entry too many", file, file->lines[file->count - 1]);
  }
  file->said = file->count;
}

/* The entry of one place once more at a later place; and one above the diagonal. */
static void wrong_entries(File *file, uint64_t number, int is_plain) {
  for (size_t trial = 0; trial < 4 && file->count >= 2; trial++) {
    const size_t later = 1 + mixed(number + trial) % (file->count - 1), sooner = mixed(number - trial) % later;
    const Entry kept = file->entries[later];
    file->entries[later] = file->entries[sooner];
    write_file(file, number, is_plain);
    wrong_at("a repeated entry", file, file->lines[later]);
    file->entries[later] = kept;
  }
  for (size_t at = 0; at < file->count; at++) {
    const Entry kept = file->entries[at];
    if (kept.row == kept.column || mixed(number + at) % 20) continue;
    file->entries[at].row = kept.column;
    file->entries[at].column = kept.row;
    write_file(file, number, is_plain);
    wrong_at("an entry above the diagonal", file, file->lines[at]);
    file->entries[at] = kept;
  }
}

/* The end of the file ends a line too, but with a carriage return before it not. */
static void without_last_newline(const File *file, const Expected *expected) {
  size_t length = file->length - 1;
  if (file->text[length - 1] == '\r') {
    refused_text("a last carriage return", file->text, length, THRESHCINCH_MATRIX_MARKET, file->line_count);
    length--;
  }
  reads("no last newline", file->text, length, expected);
}

static void graphs_by_rule(void) {
  static File file;
  for (uint64_t number = 0; number < 240; number++) {
    const int is_plain = number % 2 == 0;
    make_entries(&file, number / 8 * 100000, (enum Order)(number / 2 % ORDERS));
    const Expected expected = graph_of(&file);
    write_file(&file, number, is_plain);
    reads("a graph by rule", file.text, file.length, &expected);
    room_is("a graph by rule", file.text, file.length, file.rows + 1, 2 * file.count);
    without_last_newline(&file, &expected);
    wrong_counts(&file, number, is_plain);
    wrong_entries(&file, number, is_plain);
  }
}

/* ---- more entries than are looked for in one pass over the text, 32,767 */

enum { LARGE = 400, LARGE_TRIANGLE = LARGE * (LARGE + 1) / 2, LARGE_TEXT = LARGE_TRIANGLE * 8 + 100 };

/* Place `at` of an order of the whole triangle; 7,919 is a prime that does not divide the number of places. */
static size_t place_of(size_t at, int is_mixed) { return is_mixed ? at * 7919 % LARGE_TRIANGLE : at; }

/* The whole triangle, with the entry of line `again` taken from line `from` of the entries; answers the length. */
static size_t write_triangle(char *text, int is_mixed, size_t from, size_t again) {
  static Entry entries[LARGE_TRIANGLE];
  size_t length = 0, count = 0;
  for (size_t row = 1; row <= LARGE; row++)
    for (size_t column = 1; column <= row; column++, count++) {
      entries[count].row = row;
      entries[count].column = column;
    }
  length = (size_t)snprintf(text, LARGE_TEXT, "%s%d %d %d\n", BANNER, LARGE, LARGE, LARGE_TRIANGLE);
  for (size_t at = 0; at < LARGE_TRIANGLE; at++) {
    const Entry entry = entries[place_of(at == again ? from : at, is_mixed)];
    length += (size_t)snprintf(text + length, LARGE_TEXT - length, "%zu %zu\n", entry.row, entry.column);
  }
  return length;
}

/* Every row has every column. */
static void is_whole(const threshcinch_matrix_market market, const threshcinch_graph_lists *lists) {
  accept("a whole triangle", market.verdict);
  if (market.rows != LARGE || market.entries != LARGE * LARGE) fail("a whole triangle: %zu rows, %zu entries", market.rows, market.entries);
  for (size_t row = 0; row <= LARGE; row++)
    if (lists->starts[row] != row * LARGE) fail("a whole triangle: row %zu starts elsewhere", row);
  for (size_t entry = 0; entry < LARGE * LARGE; entry++)
    if (lists->columns[entry] != entry % LARGE || lists->values[entry] != 1.0) fail("a whole triangle: entry %zu is another", entry);
}

/* Repeats that lie far apart: in a file that rises but for one line, and in one that does not rise at all. */
static void far_repeats(void) {
  enum { LAST = LARGE_TRIANGLE - 1 };
  static const size_t repeats[][2] = {{0, LAST}, {0, 1}, {32765, 32766}, {32766, 32767}, {0, 32767}, {32767, 65534}, {70000, LAST}};
  char *const text = (char *)malloc(LARGE_TEXT);
  threshcinch_graph_lists lists;
  if (!text) fail("no memory for the text");
  for (int is_mixed = 0; is_mixed < 2; is_mixed++) {
    size_t length = write_triangle(text, is_mixed, 0, 0);
    if (!threshcinch_graph_lists_new(&lists, threshcinch_market_sizes(text, length))) fail("no memory for the lists");
    is_whole(threshcinch_market_read(text, length, &lists), &lists);
    threshcinch_graph_lists_free(&lists);
    for (size_t at = 0; at < sizeof repeats / sizeof *repeats; at++) {
      length = write_triangle(text, is_mixed, repeats[at][0], repeats[at][1]);
      refused_text("a repeat far off", text, length, THRESHCINCH_MATRIX_MARKET, 3 + repeats[at][1]);
    }
  }
  free(text);
}

/* ---- from the text to a run */

static void a_run_over_it(void) {
  static const char text[] = BANNER "4 4 5\n2 1\n3 2\n4 3\n4 1\n4 4\n";
  threshcinch_graph_lists lists;
  if (!threshcinch_graph_lists_new(&lists, threshcinch_market_sizes(text, strlen(text)))) fail("no memory for the lists");
  const threshcinch_matrix_market market = threshcinch_market_read(text, strlen(text), &lists);
  accept("reading", market.verdict);
  const threshcinch_graph graph = threshcinch_market_graph(market, &lists);
  if (graph.starts_length != 5 || graph.columns_length != 9 || graph.values_length != 9) fail("the graph has other lengths than were read");
  threshcinch_memory memory = memory_for(1, 5, &graph);
  accept("the one call", threshcinch_embed(1, threshcinch_params_new(), &graph, &memory).verdict);
  threshcinch_memory_free(&memory);
  threshcinch_graph_lists_free(&lists);
}

/* Room that was refused is none; reading with it says why, and what it answers is no graph. */
static void no_graph(void) {
  static const char text[] = BANNER "0 0 0\n1 1\n";
  threshcinch_graph_lists lists;
  if (!threshcinch_graph_lists_new(&lists, threshcinch_market_sizes(text, strlen(text)))) fail("no memory for empty lists");
  if (lists.starts_length || lists.columns_length || lists.values_length) fail("lists for refused room are not empty");
  const threshcinch_matrix_market market = threshcinch_market_read(text, strlen(text), &lists);
  refuse("a text that was refused", market.verdict, THRESHCINCH_MATRIX_MARKET, 3);
  const threshcinch_graph graph = threshcinch_market_graph(market, &lists);
  if (graph.starts_length >= 2 || graph.columns_length || graph.values_length) fail("a refused reading has a graph");
  threshcinch_graph_lists_free(&lists);
  if (lists.starts || lists.columns || lists.values) fail("lists that were given back are still held");
}

int main(void) {
  forms_of_a_file();
  no_entries();
  null_lists();
  each_fault();
  a_file_that_was_cut();
  long_lines();
  numbers_at_the_limits();
  the_most_rows();
  graphs_by_rule();
  far_repeats();
  a_run_over_it();
  no_graph();
  printf("market: Matrix Market files of each form, each refusal in its turn, the room that suffices, and the numbers that stay\n");
  return 0;
}
