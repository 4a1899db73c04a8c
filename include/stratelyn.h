/* The loss core for C and C++ hosts.
 *
 * A number is eight bytes, lowest first; a double is given by its bits. Each slice is a pointer and a length in bytes.
 * Pointers are never null, also for length 0, and report, scratch and reply do not overlap each other or the input.
 * There is no state: the functions may be called from any thread.
 */
#ifndef STRATELYN_H
#define STRATELYN_H

#include <stddef.h>
#include <stdint.h>

#ifdef __cplusplus
extern "C" {
#endif

/* What the sizes below are made of: a number; the numbers of a reply, and of an age in report and scratch; the columns of a card's field;
 * the lines of a card before its segments, and their fields; the fields of a segment and of an age; the most paths to the section, one from
 * each end of the tendon, the most segments of a path, and the most ages. */
#define STRATELYN_BYTES_PER_NUMBER 8
#define STRATELYN_NUMBERS_PER_REPLY 8
#define STRATELYN_NUMBERS_PER_AGE 5
#define STRATELYN_COLUMNS_PER_FIELD 14
#define STRATELYN_HEAD_LINES 4
#define STRATELYN_HEAD_FIELDS 25
#define STRATELYN_FIELDS_PER_SEGMENT 3
#define STRATELYN_FIELDS_PER_AGE 2
#define STRATELYN_MOST_PATHS 2
#define STRATELYN_MOST_SEGMENTS 64
#define STRATELYN_MOST_AGES 48

/* The fields of the longest card or list, and the lines of the longest card: each segment and each age has one. */
#define STRATELYN_MOST_FIELDS \
  (STRATELYN_HEAD_FIELDS + STRATELYN_FIELDS_PER_SEGMENT * STRATELYN_MOST_PATHS * STRATELYN_MOST_SEGMENTS + \
   STRATELYN_FIELDS_PER_AGE * STRATELYN_MOST_AGES)
#define STRATELYN_MOST_LINES (STRATELYN_HEAD_LINES + STRATELYN_MOST_PATHS * STRATELYN_MOST_SEGMENTS + STRATELYN_MOST_AGES)

/* Sizes to allocate, in bytes. The report and the scratch need STRATELYN_BYTES_PER_AGE for each age; a line feed ends each line of a
 * card. */
#define STRATELYN_REPLY_BYTES (STRATELYN_BYTES_PER_NUMBER * STRATELYN_NUMBERS_PER_REPLY)
#define STRATELYN_BYTES_PER_AGE (STRATELYN_BYTES_PER_NUMBER * STRATELYN_NUMBERS_PER_AGE)
#define STRATELYN_MOST_REPORT_BYTES (STRATELYN_MOST_AGES * STRATELYN_BYTES_PER_AGE)
#define STRATELYN_MOST_CARD_BYTES (STRATELYN_COLUMNS_PER_FIELD * STRATELYN_MOST_FIELDS + STRATELYN_MOST_LINES)
#define STRATELYN_MOST_LIST_BYTES (STRATELYN_BYTES_PER_NUMBER * STRATELYN_MOST_FIELDS)

#define STRATELYN_TICKS_PER_PSI 1024

/* What a card's blank slip field reads, in ticks of 1/1024 inch: 3/8 inch. Older wedges draw in 1/4 inch, which a blank field once read:
 * a yard that has them writes 256. */
#define STRATELYN_BLANK_SLIP 384

/* Each function uses less than this much stack; hosts/c/stack.c measures it. */
#define STRATELYN_MOST_STACK_BYTES 16384

/* What a run returns. 13 is a refusal of the elongation sheet, for which there is no entry here. */
enum stratelyn_refusal {
  STRATELYN_ACCEPTED = 0,
  STRATELYN_CODE = 1,         /* a code that is not listed; place: field */
  STRATELYN_RANGE = 2,        /* out of range; place: field */
  STRATELYN_HOURS = 3,        /* a rule of hours is broken; place: field */
  STRATELYN_DUCT = 4,         /* place 1: a pretensioned member with segments on its first path; 2: an X of either path over 1.5 */
  STRATELYN_SECTION = 5,      /* too much steel for the section; place 14 */
  STRATELYN_CREEP = 6,        /* too much creep for the section; place 17 */
  STRATELYN_STRESS = 7,       /* under 1,000 psi after a loss, before a gain; place 0 before the ages, else the age's number */
  STRATELYN_SHAPE = 8,        /* a wrong or missing line of a card, the place; a wrong length of a list, place 0 */
  STRATELYN_DOUBLE = 9,       /* a double that is not finite, negative, 2^31 or more, or not whole; place: field */
  STRATELYN_BUFFER = 10,      /* place 1: the report is too short; 2: the scratch; or the reply is under 64 bytes */
  STRATELYN_OVERSTRESS = 11,  /* above 0.80 F after a gain; place: the age's number */
  STRATELYN_ANCHOR_SET = 12,  /* the slip reaches further along a duct than the tendon is long; place 7 */
  STRATELYN_SECOND_PATH = 14, /* a pretensioned member with a second path; place 2 */
  STRATELYN_PATH_LENGTHS = 15 /* two paths that together are over a foot longer or shorter than the tendon; place 7 */
};

/* The numbers of a reply. On a refusal all but the place are 0. */
enum stratelyn_reply {
  STRATELYN_PLACE = 0,
  STRATELYN_FRICTION = 1, /* of two paths, that of the one with the larger stress after slip; so is the slip */
  STRATELYN_SLIP = 2,     /* the drop at the section: 0 where friction lets the slip die out before it */
  STRATELYN_DEFLECTOR = 3,
  STRATELYN_EARLY_RELAXATION = 4,
  STRATELYN_SHORTENING = 5,
  STRATELYN_STRESS_BEFORE_AGES = 6,
  STRATELYN_LAST_STRESS = 7 /* a double, in psi; the others are in ticks of 1/1024 psi */
};

/* The numbers of an age in the report, in ticks of psi. The stress is that after the gain. */
enum stratelyn_row {
  STRATELYN_ROW_CREEP = 0,
  STRATELYN_ROW_SHRINKAGE = 1,
  STRATELYN_ROW_RELAXATION = 2,
  STRATELYN_ROW_STRESS = 3,
  STRATELYN_ROW_GAIN = 4
};

/* Runs a card, as text. */
uint64_t stratelyn_run_card(const uint8_t *card, size_t card_len, uint8_t *report, size_t report_len, uint8_t *scratch,
                            size_t scratch_len, uint8_t *reply, size_t reply_len);

/* Runs a list of doubles, in units. */
uint64_t stratelyn_run_list(const uint8_t *list, size_t list_len, uint8_t *report, size_t report_len, uint8_t *scratch,
                            size_t scratch_len, uint8_t *reply, size_t reply_len);

#ifdef __cplusplus
}
#endif

#endif
