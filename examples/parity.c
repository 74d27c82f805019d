/* The parity of a column that is neither LDC's nor BIS's, and two lengths that are refused. */
#include "bdre.h"

#include <stdio.h>

int main(void) {
    uint8_t data[100], parity[BDRE_PARITY] = {0};
    for (size_t i = 0; i < sizeof data; i++) {
        data[i] = (uint8_t)(i + 1);
    }

    struct bdre_answer answer = bdre_parity(data, sizeof data, parity, sizeof parity);
    printf("100 data bytes: %u, parity ", (unsigned)answer.number);
    for (size_t i = 0; i < sizeof parity; i++) {
        printf("%02X", (unsigned)parity[i]);
    }
    printf("\n");

    answer = bdre_parity(data, 0, parity, sizeof parity);
    printf("no data: %u, place %zu\n", (unsigned)answer.number, answer.place);

    answer = bdre_parity(data, sizeof data, parity, sizeof parity - 1);
    printf("a parity slice of 31: %u, place %zu\n", (unsigned)answer.number, answer.place);
    return 0;
}
