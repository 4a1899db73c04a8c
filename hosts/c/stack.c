/* How much stack the two entries use: each runs on a painted stack of its own, on the longest card and its list, and what is no longer
 * paint was used. It is to stay under STRATELYN_MOST_STACK_BYTES. */
#define _GNU_SOURCE
#include <pthread.h>
#include <stdio.h>
#include <stdlib.h>
#include <string.h>

#include "longest.h"
#include "stratelyn.h"

#define STACK (1 << 20)
#define PAINT 0xA5
#define NOT_RUN 99

static uint8_t report[STRATELYN_MOST_REPORT_BYTES], scratch[sizeof report], reply[STRATELYN_REPLY_BYTES];
static uint64_t refused;

static void *run_card(void *unused) {
  (void)unused;
  refused = stratelyn_run_card((const uint8_t *)card, sizeof card - 1, report, sizeof report, scratch, sizeof scratch, reply,
                               sizeof reply);
  return NULL;
}

static void *run_list(void *unused) {
  (void)unused;
  refused = stratelyn_run_list((const uint8_t *)list, sizeof list, report, sizeof report, scratch, sizeof scratch, reply,
                               sizeof reply);
  return NULL;
}

static void *run_nothing(void *unused) { return unused; }

static size_t used(void *(*run)(void *)) {
  uint8_t *stack = aligned_alloc(4096, STACK);
  if (!stack) abort();
  memset(stack, PAINT, STACK);
  pthread_attr_t attributes;
  pthread_t thread;
  if (pthread_attr_init(&attributes) || pthread_attr_setstack(&attributes, stack, STACK)) abort();
  if (pthread_create(&thread, &attributes, run, NULL) || pthread_join(thread, NULL)) abort();
  size_t untouched = 0;
  while (untouched < STACK && stack[untouched] == PAINT) untouched++;
  free(stack);
  return STACK - untouched;
}

static int entry(const char *name, void *(*run)(void *), size_t thread) {
  refused = NOT_RUN;
  size_t bytes = used(run) - thread;
  printf("%s: %s, %zu bytes of stack\n", name, refused ? "refused" : "accepted", bytes);
  return !refused && bytes < STRATELYN_MOST_STACK_BYTES;
}

int main(void) {
  size_t thread = used(run_nothing);
  int passed = entry("stratelyn_run_card", run_card, thread) + entry("stratelyn_run_list", run_list, thread);
  printf("%d passed, %d failed\n", passed, 2 - passed);
  return passed != 2;
}
