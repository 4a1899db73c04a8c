/* Runs the card on standard input: prints the last stress, or the refusal's number and place. */
#include <inttypes.h>
#include <stdio.h>
#include <string.h>

#include "stratelyn.h"

int main(void) {
  uint8_t card[STRATELYN_MOST_CARD_BYTES + 1]; /* what follows cannot change the answer: the card is too long already */
  uint8_t report[STRATELYN_MOST_REPORT_BYTES], scratch[STRATELYN_MOST_REPORT_BYTES], reply[STRATELYN_REPLY_BYTES];
  size_t length = fread(card, 1, sizeof card, stdin);
  uint64_t place, refused = stratelyn_run_card(card, length, report, sizeof report, scratch, sizeof scratch, reply, sizeof reply);
  double last_stress;
  memcpy(&place, reply + 8 * STRATELYN_PLACE, sizeof place); /* this host is little-endian */
  memcpy(&last_stress, reply + 8 * STRATELYN_LAST_STRESS, sizeof last_stress);
  if (refused == STRATELYN_ACCEPTED) printf("last stress %.3f psi\n", last_stress);
  else printf("refused: %" PRIu64 " at %" PRIu64 "\n", refused, place);
  return 0;
}
