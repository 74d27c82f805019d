/* A sheet that is accepted, and three that are refused: one with too many PSNs, one with a repetition, one with a PSN that none may have. */
#include "bdre.h"

#include <stdio.h>

static void judge(const char *name, const uint32_t *psns, size_t count) {
    struct bdre_answer answer = bdre_sheet(psns, count);
    printf("%s: %u, place %zu\n", name, (unsigned)answer.number, answer.place);
}

int main(void) {
    uint32_t psns[BDRE_SHEET + 1];
    for (size_t i = 0; i < BDRE_SHEET + 1; i++) {
        psns[i] = (uint32_t)(0x00100000 + 32 * i);
    }
    judge("4 PSNs", psns, 4);
    judge("65 PSNs", psns, BDRE_SHEET + 1);

    psns[3] = psns[1];
    judge("entry 3 with the PSN of entry 1", psns, 4);

    psns[2] += 1;
    judge("the same, and entry 2 no multiple of 32", psns, 4);
    return 0;
}
