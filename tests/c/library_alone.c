/* The library by itself, as its pkg-config file serves it: an empty ring page of the host's own. */
#include <tollmeander.h>

int main(void)
{
    static uint8_t ring[TOLLMEANDER_PAGE_SIZE], frame[TOLLMEANDER_FRAME_MAX];
    static uint8_t grants[TOLLMEANDER_GRANT_WORD_SIZE], window[TOLLMEANDER_PAGE_SIZE];
    static struct tollmeander_held held[1];
    uint32_t consumed = 0, replied = 0, halted = 0;
    struct tollmeander_report report;

    tollmeander_transmit_take(&consumed, &replied, &halted, ring, sizeof ring, grants,
                              sizeof grants, window, sizeof window, held, 1, frame, sizeof frame,
                              &report);
    if (report.answer != TOLLMEANDER_EMPTY)
        return 1;
    tollmeander_transmit_finish(consumed, &replied, ring, sizeof ring, held, 1, 0,
                                TOLLMEANDER_REPLY_OKAY, &report);
    return report.answer == TOLLMEANDER_BAD_TICKET ? 0 : 1;
}
