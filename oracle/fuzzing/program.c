#define _GNU_SOURCE /* pipe2 */
#include "program.h"

#include <errno.h>
#include <fcntl.h>
#include <signal.h>
#include <spawn.h>
#include <stdio.h>
#include <string.h>
#include <sys/socket.h>
#include <sys/wait.h>
#include <unistd.h>

enum { VARIED_PIECES = 24, SHORT_PIECE = 16, LONGEST_PIECE = 1024, SOCKET_ROOM = 200000, SEEN_ROOM = 2 * LEAST_ROOM, LONGEST_REFUSAL = 63 };

extern char **environ;

static volatile sig_atomic_t running;

void program_stop(void) {
  if (running) kill((pid_t)running, SIGKILL);
}

/* ---- standard input: the whole file lies ready before the program begins, so that nothing waits for anything */

static void send_all(int to, const uint8_t *bytes, size_t length) {
  size_t sent = 0;
  while (sent < length) {
    ssize_t got = write(to, bytes + sent, length - sent);
    if (got <= 0) fail("a pipe takes fewer than %zu bytes", length);
    sent += (size_t)got;
  }
}

static int input_whole(const text *file) {
  int ends[2];
  if (pipe2(ends, O_CLOEXEC)) fail("no pipe");
  send_all(ends[1], file->bytes, file->length);
  close(ends[1]);
  return ends[0];
}

/* On this kind of socket one call reads what one call wrote, and loses what it has no room for: so the pieces are smaller than any
 * program's room. An empty one would be the end. */
static size_t any_piece(size_t rest, int is_short, random_source *r) {
  size_t most = is_short ? SHORT_PIECE : LONGEST_PIECE;
  return 1 + random_below(r, rest < most ? rest : most);
}

static void send_pieces(int to, const text *file, random_source *r) {
  size_t sent = 0;
  for (int i = 0; sent < file->length; i++) {
    size_t rest = file->length - sent, piece = rest < LONGEST_PIECE ? rest : LONGEST_PIECE;
    if (i < VARIED_PIECES) piece = any_piece(rest, once_in(r, 2), r);
    if (send(to, file->bytes + sent, piece, MSG_DONTWAIT) != (ssize_t)piece) fail("a socket takes fewer than %zu bytes", file->length);
    sent += piece;
  }
}

static int input_pieces(const text *file, random_source *r) {
  int ends[2], room = SOCKET_ROOM;
  if (socketpair(AF_UNIX, SOCK_SEQPACKET | SOCK_CLOEXEC, 0, ends)) fail("no socket");
  setsockopt(ends[1], SOL_SOCKET, SO_SNDBUF, &room, sizeof room);
  send_pieces(ends[1], file, r);
  close(ends[1]);
  return ends[0];
}

/* ---- what the program says goes to files without a name */

typedef struct {
  int fd;
  size_t length;
  uint8_t bytes[SEEN_ROOM];
} seen;

static void seen_clear(seen *s) {
  if (s->fd == 0) {
    FILE *new = tmpfile();
    s->fd = new ? fcntl(fileno(new), F_DUPFD_CLOEXEC, 3) : -1;
    if (new) fclose(new);
  }
  if (s->fd < 0 || ftruncate(s->fd, 0) || lseek(s->fd, 0, SEEK_SET)) fail("no file for what the program says");
}

static void seen_take(seen *s) {
  ssize_t got = pread(s->fd, s->bytes, SEEN_ROOM, 0);
  if (got < 0) fail("what the program said cannot be read");
  s->length = (size_t)got;
}

/* ---- the program */

static int run(const char *path, int in, int out, int error) {
  posix_spawn_file_actions_t actions;
  char *const words[] = {(char *)(uintptr_t)path, NULL};
  pid_t pid;
  int status;
  posix_spawn_file_actions_init(&actions);
  posix_spawn_file_actions_adddup2(&actions, in, 0);
  posix_spawn_file_actions_adddup2(&actions, out, 1);
  posix_spawn_file_actions_adddup2(&actions, error, 2);
  /* Under the emulator on Arm a program that cannot be begun looks like one that ended, so that it is asked for first. */
  int failure = access(path, X_OK) ? errno : posix_spawn(&pid, path, &actions, NULL, words, environ);
  posix_spawn_file_actions_destroy(&actions);
  if (failure) fail("%s cannot be run: %s", path, strerror(failure));
  running = pid;
  alarm(LONGEST_WAIT);
  if (waitpid(pid, &status, 0) != pid) fail("%s was lost", path);
  alarm(0);
  running = 0;
  return status;
}

/* Begins the line of words that the script says of a refusal; the words themselves have their home in include/threshcinch.h. */
static void refusal_begins(char *begins, size_t room, const answer *due) {
  char text[LONGEST_REFUSAL + 1] = "";
  unsigned long long number, place;
  memcpy(text, due->text, due->length < LONGEST_REFUSAL ? due->length : LONGEST_REFUSAL);
  if (sscanf(text, "answer=%llu\nat=%llu\n", &number, &place) != 2) fail("a refusal with no place: %s", text);
  snprintf(begins, room, "seedrun: refusal %llu at %s%llu", number, number == 17 && place ? "line " : "", place);
}

static void check_refusal_words(const seen *error, const answer *due) {
  char begins[LONGEST_REFUSAL];
  refusal_begins(begins, sizeof begins, due);
  size_t length = strlen(begins);
  int is_begun = error->length > length + 1 && !memcmp(error->bytes, begins, length) && strchr(": ", error->bytes[length]);
  int is_line = is_begun && memchr(error->bytes, '\n', error->length) == error->bytes + error->length - 1;
  if (!is_line) differ("script error", "no line '%s' with words, but %.*s", begins, (int)error->length, (const char *)error->bytes);
}

/* The program itself says nothing on standard error, and the script only a refusal in words. */
static void check_error(const seen *error, const answer *due, enum speaker speaker) {
  if (speaker == SCRIPT && due->number)
    check_refusal_words(error, due);
  else if (error->length)
    differ("program error", "it says %zu bytes: %.60s", error->length, error->bytes);
}

static void break_some(seen *out, seen *error, int *status, enum speaker speaker) {
  if (breaks("program-byte")) out->bytes[out->length - 2] ^= 1;
  if (breaks("program-shorter")) out->length--;
  if (breaks("program-longer")) out->length++;
  if (breaks("program-status")) *status = 1 << 8;
  if (breaks("program-signal")) *status = SIGSEGV;
  if (breaks("program-error")) error->length = 1;
  if (speaker == SCRIPT && error->length && breaks("script-silent")) error->length = 0;
  if (speaker == SCRIPT && error->length && breaks("script-number")) error->bytes[strlen("seedrun: refusal ")] ^= 1;
  if (speaker == SCRIPT && error->length && breaks("script-lines")) error->bytes[error->length - 2] = '\n';
}

void check_program(const char *path, enum speaker speaker, const text *file, const answer *due, enum way way, random_source *r) {
  static seen out, error;
  int in = way == WHOLE ? input_whole(file) : input_pieces(file, r);
  seen_clear(&out);
  seen_clear(&error);
  int status = run(path, in, out.fd, error.fd);
  close(in);
  seen_take(&out);
  seen_take(&error);
  break_some(&out, &error, &status, speaker);
  if (WIFSIGNALED(status))
    differ("program crash", "signal %d", WTERMSIG(status));
  else if (status)
    differ("program status", "it is %d", WEXITSTATUS(status));
  check_error(&error, due, speaker);
  if (out.length != due->length || memcmp(out.bytes, due->text, out.length))
    differ("program", "%zu bytes, not text_answer's %zu", out.length, due->length);
}
