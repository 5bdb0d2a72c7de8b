#include "names.h"

#include <stdbool.h>
#include <stddef.h>

static const char *const answers[TOLLMEANDER_NAMED_ANSWERS] = {
    [TOLLMEANDER_DONE] = "done",
    [TOLLMEANDER_BAD_PAGE] = "bad page",
    [TOLLMEANDER_HALTED] = "halted",
    [TOLLMEANDER_OVERFLOW] = "overflow",
    [TOLLMEANDER_EMPTY] = "empty",
    [TOLLMEANDER_MISSHAPEN] = "misshapen",
    [TOLLMEANDER_WAITING] = "waiting",
    [TOLLMEANDER_SPOILED] = "spoiled",
    [TOLLMEANDER_NO_ROOM] = "no room",
    [TOLLMEANDER_BAD_LENGTH] = "bad frame length",
    [TOLLMEANDER_NO_BUFFERS] = "no buffers",
    [TOLLMEANDER_NO_SLOTS] = "no slots",
    [TOLLMEANDER_BAD_PAGES] = "bad pages",
    [TOLLMEANDER_BAD_GSO] = "bad gso",
    [TOLLMEANDER_NO_RECORD] = "no record",
    [TOLLMEANDER_BAD_TICKET] = "bad ticket",
    [TOLLMEANDER_BAD_RECORDS] = "bad records"
};

static const char *const causes[TOLLMEANDER_NAMED_CAUSES] = {
    [0] = "none",
    [TOLLMEANDER_CAUSE_SHORT] = "frame too short",
    [TOLLMEANDER_CAUSE_LONG] = "reserved",
    [TOLLMEANDER_CAUSE_SIZES] = "sizes above total",
    [TOLLMEANDER_CAUSE_GRANT] = "page not granted",
    [TOLLMEANDER_CAUSE_OFFSET] = "part leaves its range",
    [TOLLMEANDER_CAUSE_GSO] = "bad gso"
};

const char *tollmeander_answer_name(uint32_t answer)
{
    bool is_named = answer < TOLLMEANDER_NAMED_ANSWERS && answers[answer] != NULL;

    return is_named ? answers[answer] : "unknown";
}

const char *tollmeander_cause_name(uint32_t cause)
{
    return cause < TOLLMEANDER_NAMED_CAUSES ? causes[cause] : "unknown";
}
