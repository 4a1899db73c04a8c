/* Runs the sample card with guard bytes around every buffer, at every length up to one age more than it needs, and checks that the
 * guards, the input and what a refusal must leave alone are as they were. */
#include <stdio.h>
#include <stdlib.h>
#include <string.h>

#include "sample.h"
#include "stratelyn.h"

#define GUARD 32
#define FILL 0xA5
#define DUE (AGES * STRATELYN_BYTES_PER_AGE)
#define MOST (DUE + STRATELYN_BYTES_PER_AGE)

struct guarded {
  uint8_t *all, *bytes;
  size_t length;
};

static struct guarded guarded(size_t length) {
  struct guarded g = {malloc(length + 2 * GUARD), NULL, length};
  if (!g.all) abort();
  memset(g.all, FILL, length + 2 * GUARD);
  g.bytes = g.all + GUARD;
  return g;
}

static int filled(const uint8_t *bytes, size_t length) {
  for (size_t i = 0; i < length; i++)
    if (bytes[i] != FILL) return 0;
  return 1;
}

/* Whether the guards stand, and what lies from `from` on is as it was. */
static int kept(struct guarded g, size_t from) {
  size_t start = from < g.length ? from : g.length;
  return filled(g.all, GUARD) && filled(g.bytes + start, g.length - start + GUARD);
}

static int runs(size_t report_length, size_t scratch_length, size_t reply_length) {
  struct guarded report = guarded(report_length), scratch = guarded(scratch_length), reply = guarded(reply_length);
  uint64_t refused = stratelyn_run_card((const uint8_t *)card, sizeof card - 1, report.bytes, report.length, scratch.bytes,
                                        scratch.length, reply.bytes, reply.length);
  int replies = reply_length >= STRATELYN_REPLY_BYTES;
  uint64_t due = replies && report_length >= DUE && scratch_length >= DUE ? STRATELYN_ACCEPTED : STRATELYN_BUFFER;
  int fine = refused == due && kept(report, refused ? 0 : DUE) && kept(scratch, 0);
  fine = fine && kept(reply, replies ? STRATELYN_REPLY_BYTES : 0);
  free(report.all), free(scratch.all), free(reply.all);
  return fine;
}

int main(void) {
  size_t passed = 0, failed = 0;
  for (size_t length = 0; length <= MOST; length++) {
    *(runs(length, MOST, STRATELYN_REPLY_BYTES) ? &passed : &failed) += 1;
    *(runs(MOST, length, STRATELYN_REPLY_BYTES) ? &passed : &failed) += 1;
    *(runs(length, length, length) ? &passed : &failed) += 1;
  }
  printf("%zu passed, %zu failed\n", passed, failed);
  return failed != 0;
}
