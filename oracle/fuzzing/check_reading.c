#include <string.h>

#include "checks.h"
#include "tally.h"

static const uint64_t INFINITE = UINT64_C(0x7ff0000000000000), NOT_SIGN = UINT64_C(0x7fffffffffffffff);

static uint64_t bits_of(double x) {
  uint64_t bits;
  memcpy(&bits, &x, sizeof bits);
  return bits;
}

static int is_nan(uint64_t bits) { return (bits & NOT_SIGN) > INFINITE; }

/* whose numbers are compared */
static const char *reader;

static void compare(const char *name, uint64_t ours, uint64_t due) {
  if (ours != due) differ(name, "%s has %llu, not %llu", reader, (unsigned long long)ours, (unsigned long long)due);
}

/* "a NaN equals any NaN" */
static void compare_float(const char *name, double ours, uint64_t due) {
  uint64_t bits = bits_of(ours);
  if (bits == due || (is_nan(bits) && is_nan(due))) return;
  differ(name, "%s has %016llx, not %016llx", reader, (unsigned long long)bits, (unsigned long long)due);
}

/* The lists are compared whole: behind their numbers both have zeros. */
static void compare_starts(const run_file *ours, const plain_run *due) {
  for (size_t i = 0; i < MOST_STARTS; i++) compare(i < due->start_count ? "start" : "start behind", ours->starts[i], due->starts[i]);
}

static void compare_columns(const run_file *ours, const plain_run *due) {
  for (size_t i = 0; i < MOST_ENTRIES; i++) compare(i < due->column_count ? "column" : "column behind", ours->columns[i], due->columns[i]);
}

static void compare_values(const run_file *ours, const plain_run *due) {
  for (size_t i = 0; i < MOST_ENTRIES; i++) compare_float(i < due->value_count ? "value" : "value behind", ours->values[i], due->values[i]);
}

static void compare_all(const run_file *ours, const plain_run *due) {
  compare("is_right", ours->is_right, due->fault == NO_FAULT);
  compare("line", ours->line, due->fault == NO_FAULT ? 0 : (uint64_t)due->fault);
  compare("d", ours->d, due->d);
  compare("rounds", ours->rounds, due->rounds);
  compare("degree", ours->degree, due->degree);
  compare_float("seed_std", ours->seed_std, due->seed_std);
  compare("start_count", ours->start_count, due->start_count);
  compare("column_count", ours->column_count, due->column_count);
  compare("value_count", ours->value_count, due->value_count);
  compare_starts(ours, due);
  compare_columns(ours, due);
  compare_values(ours, due);
}

/* ---- the self-test */

static void break_head(run_file *ours, const plain_run *due) {
  int is_right = due->fault == NO_FAULT;
  if (breaks_in(reader, "right")) ours->is_right ^= 1;
  if (is_right && breaks_in(reader, "right-byte")) ours->is_right = 3;
  if (!is_right && breaks_in(reader, "line")) ours->line++;
  if (due->fault == 0 && breaks_in(reader, "line-0")) ours->line = 1;
  if (due->fault == 8 && breaks_in(reader, "line-8")) ours->line = 7;
  if (is_right && breaks_in(reader, "line-of-right")) ours->line = 1;
  if (breaks_in(reader, "d")) ours->d++;
  if (breaks_in(reader, "rounds")) ours->rounds++;
  if (breaks_in(reader, "degree")) ours->degree++;
  if (is_right && breaks_in(reader, "seed_std")) ours->seed_std = -ours->seed_std;
  if (!is_right && breaks_in(reader, "seed_std-of-fault")) ours->seed_std = -0.0;
}

static void break_lists(run_file *ours, const plain_run *due) {
  if (breaks_in(reader, "start_count")) ours->start_count++;
  if (breaks_in(reader, "column_count")) ours->column_count++;
  if (breaks_in(reader, "value_count")) ours->value_count++;
  if (due->start_count && breaks_in(reader, "start")) ours->starts[due->start_count - 1] ^= 1;
  if (due->column_count && breaks_in(reader, "column")) ours->columns[due->column_count - 1] ^= 1;
  if (due->value_count && !is_nan(due->values[0]) && breaks_in(reader, "value")) ours->values[0] = -ours->values[0];
  if (due->value_count && is_nan(due->values[0]) && breaks_in(reader, "value-nan")) ours->values[0] = 1.0;
  if (due->start_count < MOST_STARTS && breaks_in(reader, "start-behind")) ours->starts[due->start_count] = 1;
  if (due->column_count < MOST_ENTRIES && breaks_in(reader, "column-behind")) ours->columns[MOST_ENTRIES - 1] = 1;
  if (due->value_count < MOST_ENTRIES && breaks_in(reader, "value-behind")) ours->values[due->value_count] = -0.0;
  if (due->fault != NO_FAULT && breaks_in(reader, "fault-list")) ours->columns[0] = 1;
}

static void check_record(const char *name, run_file *ours, const plain_run *due) {
  reader = name;
  break_head(ours, due);
  break_lists(ours, due);
  compare_all(ours, due);
}

void check_reading(const plain_run *due, const uint8_t *bytes, size_t length) {
  run_file ours = reading_read_run(bytes, length);
  check_record("reading", &ours, due);
}

/* ---- the library's reader: the same, with a verdict and parameters */

/* 17 at the line, or 0 at 0 */
static int is_verdict(threshcinch_verdict v) { return v.number == 17 || (v.number == 0 && v.place == 0); }

static void record_of(run_file *ours, const threshcinch_run_file *file) {
  memset(ours, 0, sizeof *ours);
  ours->is_right = file->verdict.number == 0;
  ours->line = file->verdict.place;
  ours->d = file->d;
  ours->rounds = file->params.rounds;
  ours->degree = file->params.degree;
  ours->seed_std = file->params.seed_std;
  ours->start_count = file->start_count;
  ours->column_count = file->column_count;
  ours->value_count = file->value_count;
  memcpy(ours->starts, file->starts, sizeof ours->starts);
  memcpy(ours->columns, file->columns, sizeof ours->columns);
  memcpy(ours->values, file->values, sizeof ours->values);
}

void check_library_reading(const char *part, const plain_run *due, const uint8_t *bytes, size_t length, threshcinch_run_file *file) {
  static run_file ours;
  *file = threshcinch_read_run(bytes, length);
  threshcinch_verdict verdict = file->verdict;
  if (verdict.number && breaks_in(part, "number")) verdict.number = 16;
  if (!verdict.number && breaks_in(part, "place")) verdict.place = 1;
  if (!is_verdict(verdict))
    differ(part, "the reader answers %llu at %llu", (unsigned long long)verdict.number, (unsigned long long)verdict.place);
  record_of(&ours, file);
  check_record(part, &ours, due);
}
