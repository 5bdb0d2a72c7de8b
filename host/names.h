/* Answers and causes of tollmeander.h in words, for logs and tables. */
#ifndef TOLLMEANDER_NAMES_H
#define TOLLMEANDER_NAMES_H

#include <stdint.h>

#include "tollmeander.h"

/* Answers and causes below these numbers have names, 16 apart, which no call answers. */
#define TOLLMEANDER_NAMED_ANSWERS   (TOLLMEANDER_BAD_RECORDS + 1u)
#define TOLLMEANDER_NAMED_CAUSES    (TOLLMEANDER_CAUSE_GSO + 1u)

#ifdef __cplusplus
extern "C" {
#endif

/* "unknown" for a number that no call answers. Never null. */
const char *tollmeander_answer_name(uint32_t answer);

/* Of the cause in a report: "none" for 0, "unknown" for a number that is no cause. */
const char *tollmeander_cause_name(uint32_t cause);

#ifdef __cplusplus
}
#endif

#endif
