/* fuzz: damaged run files through the proved readers and the proved text program, and graphs and answers through the proved writers,
 * against second readings of document 01 and request W2.
 *
 *   fuzz [--from NUMBER] [--count FILES] [--writers GRAPHS] [--program PATH --programs FILES] [--script PATH] [--keep FOLDER] [--first]
 *        [--break KIND] --cases RUNS [FILE...]
 *
 *   --count                how many files from the number on
 *   --writers              how many graphs, and as many answers, from the number on
 *   --cases RUNS, FILE     what is damaged: stored cases (oracle/vectors/runs.txt), and run files
 *   --program, --programs  seedrun, and how many of the files it gets
 *   --script               seedrun's script, which gets one in twenty of those as well
 *   --keep                 where the first files that differ are kept
 *   --first                ends at the first difference
 *   --break                the fault that the self-test puts in; `fuzz --breaks files` and `fuzz --breaks writers` print the kinds
 *
 * Status 0: no difference. 1: some, or a crash. 2: it could not be done. */
#include <signal.h>
#include <stdio.h>
#include <stdlib.h>
#include <string.h>
#include <sys/time.h>
#include <unistd.h>

#include "bases.h"
#include "breakages.h"
#include "checks.h"
#include "damage.h"
#include "guarded.h"
#include "program.h"
#include "tally.h"

enum { TOLD_EVERY = 100000, WRITERS_TOLD_EVERY = 20000, SCRIPT_SHARE = 20, LONGEST_CALL = 20, SIGNAL_STACK = 1 << 17 };

typedef struct {
  uint64_t from, count, writers, programs;
  const char *program, *script;
  int ends_at_first; /* difference */
} options;

/* ---- a crash, or a call that does not end */

/* The proved code calls nothing of C's, so that printing is safe when it is what was interrupted. The emulator on Arm begins a handler with
 * a stack that is not aligned as printing needs it, so that it is aligned here. */
__attribute__((force_align_arg_pointer)) static void on_signal(int signal) {
  program_stop();
  if (signal == SIGALRM)
    fail("%s %llu: a program did not end in %d seconds, and may only have waited", told.made, (unsigned long long)told.number,
         LONGEST_WAIT);
  differ(signal == SIGVTALRM ? "endless" : "crash", "signal %d", signal);
  fflush(stdout);
  _exit(1);
}

static void watch_signals(void) {
  static const int signals[] = {SIGSEGV, SIGBUS, SIGILL, SIGFPE, SIGABRT, SIGTRAP, SIGVTALRM, SIGALRM};
  static uint8_t stack[SIGNAL_STACK];
  stack_t other = {.ss_sp = stack, .ss_size = sizeof stack};
  struct sigaction action = {.sa_handler = on_signal, .sa_flags = SA_ONSTACK};
  if (sigaltstack(&other, NULL)) fail("no stack for signals");
  for (size_t i = 0; i < sizeof signals / sizeof *signals; i++) sigaction(signals[i], &action, NULL);
}

/* Time of this process alone: on a busy machine a call may wait for minutes, and what never ends computes. 0 is no limit. */
static void limit_seconds(time_t seconds) {
  struct itimerval limit = {{0, 0}, {seconds, 0}};
  if (setitimer(ITIMER_VIRTUAL, &limit, NULL)) fail("no timer");
}

/* ---- a file */

static void count_file(const text *file, const plain_run *run) {
  told.files++;
  if (told.most_bytes < file->length) told.most_bytes = file->length;
  if (run->fault == NO_FAULT) {
    told.right++;
    told.right_by_damage[told.damage]++;
  } else {
    told.by_fault[run->fault]++;
    told.wrong_by_damage[told.damage]++;
  }
}

static uint64_t programs_done(void) { return told.program_ways[WHOLE] + told.program_ways[PIECES]; }

static void through_program(const options *o, const text *file, const answer *due, random_source *r) {
  enum way way = once_in(r, 3) ? PIECES : WHOLE;
  check_program(o->program, PROGRAM, file, due, way, r);
  told.programs[due->number]++;
  told.program_ways[way]++;
  if (!o->script || programs_done() % SCRIPT_SHARE != 1) return;
  check_program(o->script, SCRIPT, file, due, way, r);
  told.scripts++;
}

/* The program's files are spread over all. Text faults are most of them, so that one waits a little for another answer. */
static int is_programs_turn(const options *o, uint64_t i, const answer *a, random_source *r) {
  uint64_t due = o->programs * (i + 1) / o->count, done = programs_done();
  if (!o->program || a->number == NOT_ASKED || done >= due) return 0;
  return a->number != 17 || done + 1 < due || i + 1 == o->count || once_in(r, 16);
}

static void raise_some(void) {
  if (breaks("crash")) raise(SIGSEGV);
  if (breaks("endless")) raise(SIGVTALRM);
}

/* What the library reads is written again where the file is right. */
static void through_library(const text *file, const plain_run *run, const uint8_t *bytes, random_source *r) {
  static threshcinch_run_file read;
  check_library_reading("library", run, bytes, file->length, &read);
  if (run->fault == NO_FAULT) told.rewritten[check_written_again("rewrite", &read, file, r)]++;
}

static void check_file(const options *o, uint64_t i, const guarded *input) {
  static text file;
  static plain_run run;
  random_source r = {random_hash(~(o->from + i))}, library = {random_hash(r.state)};
  told.number = o->from + i;
  told.made = "file";
  told.file = &file;
  told.damage = damage_make(&file, told.number);
  told.how = damage_name(told.damage);
  uint8_t *bytes = guarded_last(input, file.length);
  memcpy(bytes, file.bytes, file.length);
  grammar_read(&run, bytes, file.length);
  count_file(&file, &run);
  raise_some();
  check_reading(&run, bytes, file.length);
  through_library(&file, &run, bytes, &library);
  answer a = check_text(&run, bytes, file.length, &r);
  if (memcmp(bytes, file.bytes, file.length)) differ("input", "the bytes of the file were changed");
  random_source pieces = {random_next(&r)}; /* the same ones, whether or not a turn was drawn before */
  if (is_programs_turn(o, i, &a, &r)) through_program(o, &file, &a, &pieces);
}

static void check_files(const options *o) {
  guarded input = guarded_new(TEXT_ROOM);
  for (uint64_t i = 0; i < o->count && !(o->ends_at_first && told.differences); i++) {
    limit_seconds(LONGEST_CALL);
    check_file(o, i, &input);
    if ((i + 1) % TOLD_EVERY == 0)
      fprintf(stderr, "%llu files, %llu differences\n", (unsigned long long)(i + 1), (unsigned long long)told.differences);
  }
  limit_seconds(0);
}

/* ---- a graph and an answer */

static void check_number(uint64_t number) {
  random_source of_graph = {random_hash(random_hash(number) ^ 1)}, of_answer = {random_hash(random_hash(number) ^ 2)};
  told.number = number;
  check_graph(&of_graph);
  raise_some();
  check_answer_parts(&of_answer);
}

static void check_numbers(const options *o) {
  for (uint64_t i = 0; i < o->writers && !(o->ends_at_first && told.differences); i++) {
    limit_seconds(LONGEST_CALL);
    check_number(o->from + i);
    if ((i + 1) % WRITERS_TOLD_EVERY == 0)
      fprintf(stderr, "%llu graphs and answers, %llu differences\n", (unsigned long long)(i + 1), (unsigned long long)told.differences);
  }
  limit_seconds(0);
}

/* ---- the command */

/* Succeeds if the word takes the next one. */
static int read_option(options *o, const char *word, const char *next) {
  if (!strcmp(word, "--from"))
    o->from = strtoull(next, NULL, 10);
  else if (!strcmp(word, "--count"))
    o->count = strtoull(next, NULL, 10);
  else if (!strcmp(word, "--writers"))
    o->writers = strtoull(next, NULL, 10);
  else if (!strcmp(word, "--programs"))
    o->programs = strtoull(next, NULL, 10);
  else if (!strcmp(word, "--program"))
    o->program = next;
  else if (!strcmp(word, "--script"))
    o->script = next;
  else if (!strcmp(word, "--keep"))
    keep_in(next);
  else if (!strcmp(word, "--break"))
    break_choose(next);
  else if (strcmp(word, "--cases"))
    return 0;
  else if (!bases_load_cases(next))
    fail("no cases in %s", next);
  return 1;
}

static void read_options(options *o, int count, char **words) {
  for (int i = 1; i < count; i++) {
    if (!strcmp(words[i], "--first"))
      o->ends_at_first = 1;
    else if (i + 1 < count && read_option(o, words[i], words[i + 1]))
      i++;
    else if (words[i][0] == '-')
      fail("%s is not understood", words[i]);
    else if (!bases_load_file(words[i]))
      fail("%s cannot be read", words[i]);
  }
}

int main(int count, char **words) {
  options o = {0, 0, 0, 0, NULL, NULL, 0};
  if (count == 3 && !strcmp(words[1], "--breaks")) return breakages_print(words[2]) ? 0 : 2;
  read_options(&o, count, words);
  watch_signals();
  check_files(&o);
  check_numbers(&o);
  tally_print();
  return told.differences ? 1 : 0;
}
