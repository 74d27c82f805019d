/* How far ahead the modulator reads in a frame of zeros, in one that begins with 110111000001, and two frames that are refused. */
#include "bdre.h"

#include <stdio.h>

static void ahead(const char *name, const uint8_t *row, size_t length, uint32_t dc) {
    struct bdre_ahead answer = bdre_most_needed(row, length, dc);
    printf("%s: %u, place %zu, bits %u\n", name, (unsigned)answer.number, answer.place, (unsigned)answer.bits);
}

int main(void) {
    uint8_t row[BDRE_ROW] = {0};
    ahead("zeros", row, sizeof row, 0);

    row[0] = 0xDC;
    row[1] = 0x10;
    ahead("110111000001, then zeros", row, sizeof row, 0);
    ahead("a row of 154 bytes", row, sizeof row - 1, 0);
    ahead("dc word 10000000h", row, sizeof row, 0x10000000);
    return 0;
}
