/* trials: Matrix Market files, right and damaged, through the library's two readers, against a second reading of request W5.
 *
 *   trials [--from NUMBER] [--count FILES] [--largest] [--keep FOLDER] [--first] [--break KIND]
 *   trials --print NUMBER
 *   trials --plain NUMBER FILES MOST_ROWS
 *
 *   --largest  two files of 33,558,528 and 33,558,529 entries as well: as many as a graph may have, and one more
 *   --keep     where the first files that differ are kept
 *   --first    ends at the first difference
 *   --break    the fault that the self-test puts in; `trials --breaks` prints the kinds
 *   --print    that file on standard output
 *   --plain    right files that SciPy reads too, from a number on, each behind its length of 8 bytes, lowest byte first, and the length
 * 2^64 - 1 at the end
 *
 * Status 0: no difference. 1: some, or a crash. 2: it could not be done. */
#include <signal.h>
#include <stdio.h>
#include <stdlib.h>
#include <string.h>
#include <sys/time.h>
#include <unistd.h>

#include "check.h"
#include "guarded.h"
#include "shapes.h"
#include "tally.h"

enum { TOLD_EVERY = 100000, LONGEST_CALL = 60, SIGNAL_STACK = 1 << 17, MOST_TEXT = 1 << 24 };

typedef struct {
  uint64_t from, count;
  int ends_at_first; /* difference */
  int has_largest;
} options;

/* ---- a crash, or a call that does not end */

/* The proved code calls nothing of C's, so that printing is safe when it is what was interrupted. The emulator on Arm begins a handler with
 * a stack that is not aligned as printing needs it, so that it is aligned here. */
#if defined(__x86_64__)
__attribute__((force_align_arg_pointer))
#endif
static void
on_signal(int signal) {
  differ(signal == SIGVTALRM ? "endless" : "crash", "signal %d", signal);
  fflush(stdout);
  _exit(1);
}

static void watch_signals(void) {
  static const int signals[] = {SIGSEGV, SIGBUS, SIGILL, SIGFPE, SIGABRT, SIGTRAP, SIGVTALRM};
  static uint8_t stack[SIGNAL_STACK];
  stack_t other = {.ss_sp = stack, .ss_size = sizeof stack};
  struct sigaction action = {.sa_handler = on_signal, .sa_flags = SA_ONSTACK};
  if (sigaltstack(&other, NULL)) fail("no stack for signals");
  for (size_t i = 0; i < sizeof signals / sizeof *signals; i++) sigaction(signals[i], &action, NULL);
}

/* Time of this process alone: on a busy machine a call may wait for minutes, and what never ends computes. 0 is no limit. */
static void limit_seconds(time_t seconds) {
  struct itimerval limit = {{0, 0}, {seconds, 0}};
  if (setitimer(ITIMER_VIRTUAL, &limit, NULL)) fail("no timer");
}

/* ---- a file */

static void check_number(uint64_t number, const guarded *input) {
  static bytes file;
  static second read;
  random_source r = {random_hash(~number)};
  told.number = number;
  told.file = &file;
  told.by = damage_make(&file, number);
  uint8_t *text = guarded_last(input, file.length);
  memcpy(text, file.at, file.length);
  second_read(&read, text, file.length);
  tally_file(&read);
  if (breaks("crash")) raise(SIGSEGV);
  if (breaks("endless")) raise(SIGVTALRM);
  check_file(&read, text, file.length, &r);
  if (file.length && breaks("text")) text[file.length / 2] ^= 1;
  if (memcmp(text, file.at, file.length)) differ("text", "the bytes of the file were changed");
}

static void check_numbers(const options *o) {
  guarded input = guarded_new(MOST_TEXT);
  for (uint64_t i = 0; i < o->count && !(o->ends_at_first && told.differences); i++) {
    limit_seconds(LONGEST_CALL);
    check_number(o->from + i, &input);
    if ((i + 1) % TOLD_EVERY == 0)
      fprintf(stderr, "%llu files, %llu differences\n", (unsigned long long)(i + 1), (unsigned long long)told.differences);
  }
  limit_seconds(0);
}

/* ---- files for others */

static void put(const void *from, size_t length) {
  if (length && fwrite(from, 1, length, stdout) != length) fail("standard output cannot be written");
}

static void put_length(uint64_t x) {
  uint8_t low_first[8];
  for (int i = 0; i < 8; i++) low_first[i] = (uint8_t)(x >> 8 * i);
  put(low_first, sizeof low_first);
}

static void print_file(uint64_t number) {
  static bytes file;
  damage_make(&file, number);
  put(file.at, file.length);
}

static void print_plain(uint64_t from, uint64_t count, uint64_t most_rows) {
  static bytes file;
  for (uint64_t i = 0; i < count; i++) {
    random_source r = {random_hash(random_hash(from + i))};
    shape_make_plain(&file, &r, most_rows);
    put_length(file.length);
    put(file.at, file.length);
  }
  put_length(UINT64_MAX);
}

/* ---- the command */

/* Succeeds if the word takes the next one. */
static int read_option(options *o, const char *word, const char *next) {
  if (!strcmp(word, "--from"))
    o->from = strtoull(next, NULL, 10);
  else if (!strcmp(word, "--count"))
    o->count = strtoull(next, NULL, 10);
  else if (!strcmp(word, "--keep"))
    keep_in(next);
  else if (!strcmp(word, "--break"))
    break_choose(next);
  else
    return 0;
  return 1;
}

static void read_options(options *o, int count, char **words) {
  for (int i = 1; i < count; i++) {
    if (!strcmp(words[i], "--first"))
      o->ends_at_first = 1;
    else if (!strcmp(words[i], "--largest"))
      o->has_largest = 1;
    else if (i + 1 < count && read_option(o, words[i], words[i + 1]))
      i++;
    else
      fail("%s is not understood", words[i]);
  }
}

/* Succeeds if the words ask for files and not for trials. */
static int is_for_others(int count, char **words) {
  if (count == 2 && !strcmp(words[1], "--breaks"))
    breakages_print();
  else if (count == 3 && !strcmp(words[1], "--print"))
    print_file(strtoull(words[2], NULL, 10));
  else if (count == 5 && !strcmp(words[1], "--plain"))
    print_plain(strtoull(words[2], NULL, 10), strtoull(words[3], NULL, 10), strtoull(words[4], NULL, 10));
  else
    return 0;
  if (fflush(stdout)) fail("standard output cannot be written");
  return 1;
}

int main(int count, char **words) {
  options o = {0, 0, 0, 0};
  if (is_for_others(count, words)) return 0;
  read_options(&o, count, words);
  watch_signals();
  check_numbers(&o);
  if (o.has_largest) check_largest();
  tally_print();
  return told.differences ? 1 : 0;
}
