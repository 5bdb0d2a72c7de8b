#include "rows.h"

enum {
    ETHERNET = 1514,
    PAGE = TOLLMEANDER_PAGE_SIZE,
    LARGEST = TOLLMEANDER_FRAME_MAX,
    /* Where a guest's frame begins, so that its IP header stands at a multiple of 4. */
    IP_ALIGN = 2,
    /* Records lent where the row is not about them. */
    FEW = 8
};

/* A packet is spoiled by the grant of its last slot. */
static const struct row cases[CASE_ROWS] = {
    { "tx 64 B, 1 slot", TRANSMIT, TOLLMEANDER_DONE, 64, 1, 0, IP_ALIGN, FEW, 0 },
    { "tx 1514 B, 1 slot", TRANSMIT, TOLLMEANDER_DONE, ETHERNET, 1, 0, IP_ALIGN, FEW, 0 },
    { "tx 1514 B, 2 slots, odd", TRANSMIT, TOLLMEANDER_DONE, ETHERNET, 2, 0, 1, FEW, 0 },
    { "tx 14600 B, 4 slots + gso", TRANSMIT, TOLLMEANDER_DONE, 14600, 4, 1, 0, FEW, 0 },
    { "tx 65535 B, 18 slots", TRANSMIT, TOLLMEANDER_DONE, LARGEST, 18, 0, 0, FEW, 0 },
    { "tx spoiled, 1 slot", TRANSMIT, TOLLMEANDER_SPOILED, ETHERNET, 1, 0, IP_ALIGN, FEW, 0 },
    { "tx spoiled, 18 slots", TRANSMIT, TOLLMEANDER_SPOILED, LARGEST, 18, 0, 0, FEW, 0 },
    { "tx empty", TRANSMIT, TOLLMEANDER_EMPTY, ETHERNET, 1, 0, IP_ALIGN, FEW, 0 },
    { "tx waiting, 1 of 2", TRANSMIT, TOLLMEANDER_WAITING, ETHERNET, 2, 0, IP_ALIGN, FEW, 0 },
    { "tx waiting, 17 of 18", TRANSMIT, TOLLMEANDER_WAITING, LARGEST, 18, 0, 0, FEW, 0 },
    { "tx 64 B, 4 of 8 held", TRANSMIT, TOLLMEANDER_DONE, 64, 1, 0, IP_ALIGN, 8, 4 },
    { "tx 64 B, 7 of 8 held", TRANSMIT, TOLLMEANDER_DONE, 64, 1, 0, IP_ALIGN, 8, 7 },
    { "tx 64 B, 2 of 32 held", TRANSMIT, TOLLMEANDER_DONE, 64, 1, 0, IP_ALIGN, 32, 2 },
    { "tx 64 B, 31 of 32 held", TRANSMIT, TOLLMEANDER_DONE, 64, 1, 0, IP_ALIGN, 32, 31 },
    { "tx 64 B, 2 of 256 held", TRANSMIT, TOLLMEANDER_DONE, 64, 1, 0, IP_ALIGN, 256, 2 },
    { "tx 64 B, 32 of 256 held", TRANSMIT, TOLLMEANDER_DONE, 64, 1, 0, IP_ALIGN, 256, 32 },
    { "tx 64 B, 255 of 256 held", TRANSMIT, TOLLMEANDER_DONE, 64, 1, 0, IP_ALIGN, 256, 255 },
    { "finish, all 7 leave", LEAVE, TOLLMEANDER_DONE, 64, 1, 0, IP_ALIGN, 8, 7 },
    { "finish, all 31 leave", LEAVE, TOLLMEANDER_DONE, 64, 1, 0, IP_ALIGN, 32, 31 },
    { "finish, all 255 leave", LEAVE, TOLLMEANDER_DONE, 64, 1, 0, IP_ALIGN, 256, 255 },
    { "rx 64 B", RECEIVE, TOLLMEANDER_DONE, 64, 1, 0, 0, 0, 0 },
    { "rx 1514 B", RECEIVE, TOLLMEANDER_DONE, ETHERNET, 1, 0, 0, 0, 0 },
    { "rx 65535 B", RECEIVE, TOLLMEANDER_DONE, LARGEST, 16, 0, 0, 0, 0 },
    { "rx no buffers", RECEIVE, TOLLMEANDER_NO_BUFFERS, ETHERNET, 1, 0, 0, 0, 0 },
    { "post 64 B", POST, TOLLMEANDER_DONE, 64, 1, 0, 0, 0, 0 },
    { "post 64 B + gso", POST, TOLLMEANDER_DONE, 64, 1, 1, 0, 0, 0 },
    { "post 1514 B", POST, TOLLMEANDER_DONE, ETHERNET, 1, 0, 0, 0, 0 },
    { "post 4096 B", POST, TOLLMEANDER_DONE, PAGE, 1, 0, 0, 0, 0 },
    { "post 4097 B", POST, TOLLMEANDER_DONE, PAGE + 1, 2, 0, 0, 0, 0 },
    { "post 65535 B", POST, TOLLMEANDER_DONE, LARGEST, 16, 0, 0, 0, 0 },
    { "post no slots", POST, TOLLMEANDER_NO_SLOTS, ETHERNET, 1, 0, 0, 0, 0 },
    { "post bad pages, 16 pages", POST, TOLLMEANDER_BAD_PAGES, LARGEST, 16, 0, 0, 0, 0 },
};

static const uint32_t bytes[BYTE_ROWS] = {
    64, 256, 1024, 2048, 4096, 8192, 16384, 32768, LARGEST
};

void rows_describe(struct results *results)
{
    for (int i = 0; i < CASE_ROWS; i++)
        results->cases[i].row = cases[i];
    for (uint32_t i = 0; i < SLOT_ROWS; i++)
        results->slots[i].row = (struct row){ "tx by slots", TRANSMIT, TOLLMEANDER_DONE,
                                              ETHERNET, i + 1, 0, 0, FEW, 0 };
    for (int i = 0; i < BYTE_ROWS; i++) {
        uint32_t slots = (bytes[i] + TOLLMEANDER_PAGE_SIZE - 1) / TOLLMEANDER_PAGE_SIZE;

        results->transmit[i].row = (struct row){ "tx by bytes", TRANSMIT, TOLLMEANDER_DONE,
                                                 bytes[i], slots, 0, 0, FEW, 0 };
        results->receive[i].row = (struct row){ "rx by bytes", RECEIVE, TOLLMEANDER_DONE,
                                                bytes[i], slots, 0, 0, 0, 0 };
    }
}
