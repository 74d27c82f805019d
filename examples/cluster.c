/* Writes the image of a cluster, reads it back, marks it, and has a damaged image and a wrong PSN refused. */
#include "bdre.h"

#include <stdio.h>
#include <string.h>

static uint8_t user[BDRE_USER], side[BDRE_SIDE], image[BDRE_IMAGE], work[BDRE_WORK];
static uint8_t given_user[BDRE_USER], given_side[BDRE_SIDE];
static uint32_t dc[BDRE_DC];

static struct bdre_answer write_at(uint32_t psn, bool first) {
    return bdre_write_image(user, BDRE_USER, psn, side, BDRE_SIDE, dc, BDRE_DC, first, image, BDRE_IMAGE, work, BDRE_WORK);
}

static struct bdre_read_answer read_back(void) {
    return bdre_read_image(image, BDRE_IMAGE, user, BDRE_USER, side, BDRE_SIDE, dc, BDRE_DC, work, BDRE_WORK);
}

static struct bdre_marking mark_at(uint32_t psn) {
    return bdre_mark_image(psn, given_user, BDRE_USER, given_side, BDRE_SIDE, image, BDRE_IMAGE, user, BDRE_USER, side, BDRE_SIDE, dc,
                           BDRE_DC, work, BDRE_WORK);
}

int main(void) {
    memcpy(user, "reference disk", 14);
    dc[7] = 0x0FFFFFFF;

    struct bdre_answer written = write_at(0x00100000, true);
    printf("written: %u\n", (unsigned)written.number);

    memset(user, 0, BDRE_USER);
    memset(dc, 0, sizeof dc);
    struct bdre_read_answer found = read_back();
    printf("read: %u, PSN %08X, \"%.14s\", dc word 7 is %07X, first # %d\n", (unsigned)found.number, (unsigned)found.psn,
           (const char *)user, (unsigned)dc[7], found.first);

    memcpy(given_user, "reference disk", 14);
    printf("marked: %u\n", (unsigned)mark_at(0x00100000).verdict);
    given_user[10] = 'D';
    struct bdre_marking marking = mark_at(0x00100000);
    printf("marked by other user data: %u, place %zu\n", (unsigned)marking.verdict, marking.place);

    image[60000] ^= 0x10;
    found = read_back();
    printf("damaged: %u, place %zu, first # %d\n", (unsigned)found.number, found.place, found.first);

    written = write_at(0x01089C00, true);
    printf("outside the data zones: %u\n", (unsigned)written.number);

    struct bdre_conversion paa = bdre_psn_to_paa(0x00100000);
    printf("PAA: %06X\n", (unsigned)paa.value);
    return 0;
}
