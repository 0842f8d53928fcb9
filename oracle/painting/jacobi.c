/* jacobi: how much stack a call of ritz_jacobi_eigen takes, for each width and several kinds of matrices.
 *
 * Each call is made in a thread of its own, whose stack is painted first: what lies below the frame that makes the call and has another byte
 * was used. It is made twice, over two patterns, so that a byte which the call leaves like the paint is not taken for an unused one.
 * Status: 0, or 1 where a call cannot be made or has other numbers the second time.
 */
#define _POSIX_C_SOURCE 200809L
#include <math.h>
#include <pthread.h>
#include <stdint.h>
#include <stdio.h>
#include <stdlib.h>
#include <string.h>

enum { LARGEST = 225, LEAST = 9, MOST = 15, STACK = 96 * 1024, KINDS = 4 };

/* k is from 9 to 15; the matrix is turned in place and the vectors are written whole. */
extern void ritz_jacobi_eigen(size_t k, double *matrix, double *vectors);

typedef struct {
  size_t k;
  double matrix[LARGEST];
  double vectors[LARGEST];
  const unsigned char *frame;
} Call;

static void fail(const char *words) {
  fprintf(stderr, "jacobi: %s\n", words);
  exit(1);
}

/* Not inlined, so that the frame is that of the call alone; the empty statement behind the call keeps the frame while it lasts. */
__attribute__((noinline)) static void make(Call *call) {
  call->frame = (const unsigned char *)__builtin_frame_address(0);
  ritz_jacobi_eigen(call->k, call->matrix, call->vectors);
  __asm__ volatile("");
}

/* The same with no call in it: what a thread takes anyhow. */
__attribute__((noinline)) static void make_none(Call *call) { call->frame = (const unsigned char *)__builtin_frame_address(0); }

static void *thread_main(void *given) {
  Call *call = (Call *)given;
  if (call->k) make(call);
  else make_none(call);
  return NULL;
}

/* Bytes used below the frame that made the call, on a stack painted so. */
static size_t used_over(Call *call, unsigned char paint) {
  static unsigned char stack[STACK] __attribute__((aligned(4096)));
  pthread_attr_t attributes;
  pthread_t thread;
  size_t untouched = 0;
  memset(stack, paint, sizeof stack);
  if (pthread_attr_init(&attributes) || pthread_attr_setstack(&attributes, stack, sizeof stack)) fail("no stack of its own");
  if (pthread_create(&thread, &attributes, thread_main, call) || pthread_join(thread, NULL)) fail("no thread");
  pthread_attr_destroy(&attributes);
  while (untouched < STACK && stack[untouched] == paint) untouched++;
  if (!untouched) fail("a call takes more than the painted stack");
  return (size_t)(call->frame - (stack + untouched));
}

static size_t used(const Call *given) {
  Call first = *given, second = *given;
  size_t bytes = used_over(&first, 0xA5), again = used_over(&second, 0x5A);
  if (memcmp(first.matrix, second.matrix, sizeof first.matrix) || memcmp(first.vectors, second.vectors, sizeof first.vectors))
    fail("the same call has other numbers the second time");
  return bytes < again ? again : bytes;
}

/* From -0.5 up to 0.5, the same in every run. */
static double next_number(uint64_t *state) {
  *state = *state * 6364136223846793005u + 1442695040888963407u;
  return (double)(*state >> 11) / 9007199254740992.0 - 0.5;
}

/* Kind 0: any symmetric matrix. 1: nearly diagonal, as a late round's. 2: diagonal, so that no sweep is made. 3: one with NaN, so that all are. */
static void fill(Call *call, size_t k, size_t kind) {
  uint64_t state = k * KINDS + kind;
  memset(call, 0, sizeof *call);
  call->k = k;
  for (size_t p = 0; p < k; p++)
    for (size_t q = p; q < k; q++) {
      double x = next_number(&state);
      if (kind == 1) x = p == q ? 1.0 - (double)p / 40.0 : x / 1e6;
      if (kind == 2 && p != q) x = 0.0;
      if (kind == 3 && p == 0 && q == 1) x = NAN;
      call->matrix[p * k + q] = call->matrix[q * k + p] = x;
    }
  memset(call->vectors, 0x7F, sizeof call->vectors);
}

int main(void) {
  Call idle;
  memset(&idle, 0, sizeof idle);
  for (size_t k = LEAST; k <= MOST; k++) {
    size_t most = 0;
    for (size_t kind = 0; kind < KINDS; kind++) {
      Call call;
      fill(&call, k, kind);
      size_t bytes = used(&call);
      if (most < bytes) most = bytes;
    }
    printf("k=%zu stack=%zu\n", k, most);
  }
  printf("a thread that calls nothing: %zu\n", used(&idle));
  return 0;
}
