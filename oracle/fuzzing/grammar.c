#include "grammar.h"

#include <string.h>

/* "Decimals without leading zeros, below 2^64 (columns below 2^32); floats as 16 lower-case hex digits of their bits" */
static const char largest64[] = "18446744073709551615", largest32[] = "4294967295", hex_digits[] = "0123456789abcdef";

/* Request W1: "`seedrun` takes at most 400 rounds from now", above that 17 at line 2 */
static const char most_rounds[] = "400";

enum { LINES = 7, HEX_LENGTH = 16 };

typedef struct {
  const char *at;
  size_t length;
} piece;

/* One line of the grammar. `largest` is NULL for floats. */
typedef struct {
  const char *name;
  const char *largest;
  int is_list;
  size_t most;
} line_rule;

static const line_rule rules[LINES] = {
    {"d=", largest64, 0, 1},           {"rounds=", most_rounds, 0, 1},         {"degree=", largest64, 0, 1},
    {"seed_std=", NULL, 0, 1},         {"starts=", largest64, 1, MOST_STARTS}, {"columns=", largest32, 1, MOST_ENTRIES},
    {"values=", NULL, 1, MOST_ENTRIES}};

/* ---- numbers */

static int has_only(piece p, const char *allowed) {
  size_t i = 0;
  while (i < p.length && p.at[i] != '\0' && strchr(allowed, p.at[i])) i++;
  return i == p.length;
}

static int is_decimal(piece p, const char *largest) {
  size_t most = strlen(largest);
  if (p.length == 0 || p.length > most || !has_only(p, "0123456789")) return 0;
  if (p.at[0] == '0' && p.length > 1) return 0;
  return p.length < most || memcmp(p.at, largest, most) <= 0;
}

static int is_float(piece p) { return p.length == HEX_LENGTH && has_only(p, hex_digits); }

static uint64_t value_of(piece p, uint64_t base) {
  uint64_t value = 0;
  for (size_t i = 0; i < p.length; i++) value = value * base + (uint64_t)(strchr(hex_digits, p.at[i]) - hex_digits);
  return value;
}

static int read_number(const line_rule *rule, piece p, uint64_t *out) {
  int is_right = rule->largest ? is_decimal(p, rule->largest) : is_float(p);
  if (is_right) *out = value_of(p, rule->largest ? 10 : 16);
  return is_right;
}

/* ---- lines */

static size_t count_of(piece p, char c) {
  size_t count = 0;
  for (size_t i = 0; i < p.length; i++) count += p.at[i] == c;
  return count;
}

/* Takes the part before the next `c` off, and the `c`; or all, if there is none. */
static piece take_before(piece *rest, char c) {
  const char *end = rest->length ? memchr(rest->at, c, rest->length) : NULL;
  piece first = {rest->at, end ? (size_t)(end - rest->at) : rest->length};
  size_t taken = first.length + (end != NULL);
  rest->at += taken;
  rest->length -= taken;
  return first;
}

/* A line without its newline: the numbers go to `out`, how many to `count`. */
static int read_line(const line_rule *rule, piece line, uint64_t *out, size_t *count) {
  size_t name = strlen(rule->name);
  if (line.length < name || memcmp(line.at, rule->name, name)) return 0;
  piece rest = {line.at + name, line.length - name};
  *count = rest.length == 0 && rule->is_list ? 0 : count_of(rest, ',') + 1;
  if (*count > rule->most) return 0;
  size_t i = 0;
  while (i < *count && read_number(rule, take_before(&rest, ','), &out[i])) i++;
  return i == *count;
}

static int read_line_numbered(plain_run *run, int number, piece line) {
  uint64_t *const places[LINES] = {&run->d, &run->rounds, &run->degree, &run->seed_std, run->starts, run->columns, run->values};
  size_t only_one, *const counts[LINES] = {&only_one,         &only_one,          &only_one,        &only_one,
                                           &run->start_count, &run->column_count, &run->value_count};
  return read_line(&rules[number - 1], line, places[number - 1], counts[number - 1]);
}

/* "a newline ends each line": what has none is no line. */
static int find_fault(plain_run *run, piece rest) {
  for (int number = 1; number <= LINES; number++) {
    if (count_of(rest, '\n') == 0) return number;
    if (!read_line_numbered(run, number, take_before(&rest, '\n'))) return number;
  }
  return rest.length ? LINES + 1 : NO_FAULT;
}

void grammar_read(plain_run *run, const uint8_t *bytes, size_t length) {
  piece whole = {(const char *)bytes, length};
  memset(run, 0, sizeof *run);
  run->fault = length > MOST_BYTES ? 0 : find_fault(run, whole);
  if (run->fault == NO_FAULT) return;
  int fault = run->fault;
  memset(run, 0, sizeof *run);
  run->fault = fault;
}
