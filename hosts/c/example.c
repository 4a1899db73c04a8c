/* Runs document 01's sample beam, as a card and as a list of doubles, and prints psi. */
#include <inttypes.h>
#include <stdio.h>
#include <string.h>

#include "sample.h"
#include "stratelyn.h"

static uint64_t number(const uint8_t *bytes, size_t at) {
  uint64_t n = 0;
  for (size_t i = 8; i > 0; i--) n = n << 8 | bytes[8 * at + i - 1];
  return n;
}

static double psi(const uint8_t *bytes, size_t at) { return (double)number(bytes, at) / STRATELYN_TICKS_PER_PSI; }

static void print(const char *what, uint64_t refused, const uint8_t *report, const uint8_t *reply) {
  if (refused != STRATELYN_ACCEPTED) {
    printf("%s: refused %" PRIu64 " at %" PRIu64 "\n", what, refused, number(reply, STRATELYN_PLACE));
    return;
  }
  printf("%s: shortening %.3f psi, %.3f psi before the ages\n", what, psi(reply, STRATELYN_SHORTENING),
         psi(reply, STRATELYN_STRESS_BEFORE_AGES));
  for (size_t age = 0; age < AGES; age++) {
    const uint8_t *row = report + age * STRATELYN_BYTES_PER_AGE;
    printf("  age %zu: creep %.3f, shrinkage %.3f, relaxation %.3f, stress %.3f, gain %.3f psi\n", age + 1,
           psi(row, STRATELYN_ROW_CREEP), psi(row, STRATELYN_ROW_SHRINKAGE), psi(row, STRATELYN_ROW_RELAXATION),
           psi(row, STRATELYN_ROW_STRESS), psi(row, STRATELYN_ROW_GAIN));
  }
  uint64_t bits = number(reply, STRATELYN_LAST_STRESS);
  double last;
  memcpy(&last, &bits, sizeof last);
  printf("  last stress %.10f psi\n", last);
}

int main(void) {
  uint8_t report[AGES * STRATELYN_BYTES_PER_AGE] = {0}, scratch[sizeof report] = {0}, reply[STRATELYN_REPLY_BYTES] = {0};
  uint64_t refused = stratelyn_run_card((const uint8_t *)card, sizeof card - 1, report, sizeof report, scratch, sizeof scratch,
                                        reply, sizeof reply);
  print("card", refused, report, reply);

  uint8_t bytes[sizeof list];
  memcpy(bytes, list, sizeof list); /* this host is little-endian */
  refused = stratelyn_run_list(bytes, sizeof bytes, report, sizeof report, scratch, sizeof scratch, reply, sizeof reply);
  print("list", refused, report, reply);

  refused = stratelyn_run_card((const uint8_t *)card, sizeof card - 2, report, sizeof report, scratch, sizeof scratch, reply,
                               sizeof reply);
  print("cut card", refused, report, reply);
  return 0;
}
