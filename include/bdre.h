/* BD-RE clusters (ISO/IEC 30193:2021, clause 13) written, strictly read and marked, parity of columns, sheets of PSNs, a queue of four
 * benches, how far ahead the modulator reads: the functions of libbdre.a.
 *
 * A slice is a pointer and the number of its elements. Two things are asked of a caller, here and nowhere else: each pointer is valid
 * (not null, even for 0 elements) for that many elements, and a slice that a call writes overlaps no other slice of that call. Every
 * length, number and content gets an answer. Nothing is kept from call to call, so threads may call at the same time.
 *
 * Stack that a call takes, in bytes (measured by bench/stack; 128 KiB are the limit): write 89,776, read 96,096, mark 96,176,
 * a conversion 40, parity 66,240, sheet 568, record 388, ahead 312. No memory is allocated.
 *
 * `number` is 0 where it is done, else it says what was refused; the place is 0 unless one is named; at 6 and 7 of a sheet it is the entry.
 *
 *    1  user is not 65,536 bytes long            9  the image's last two bits are not zero
 *    2  side is not 592 bytes long              10  the sync of frame `place` is wrong (496: the closing one)
 *    3  dc has not 496 words                    11  no bits give frame `place` and the next sync's first bit, its #
 *    4  image is not 119,788 bytes long         12  the parity of BIS column `place` is wrong
 *    5  work is not 76,880 bytes long           13  the parity of the address field of unit `place` is wrong
 *    6  the PSN is no multiple of 32            14  no PSN in a data zone has these 16 address unit numbers
 *    7  the PSN lies in no data zone            15  the parity of LDC column `place` is wrong
 *    8  dc word `place` is above 0FFFFFFFh      16  the error-detection code of sector `place` is wrong
 *   21  row is not 155 bytes long
 *   22  the data are not 1 to 223 bytes, or the parity slice is not 32 bytes long
 *   23  the sheet has not 1 to 64 PSNs
 *   24  entry `place` of the sheet has the PSN of an earlier one
 *   26  the record is no submit and no serve
 *   27  the bench is above 3
 *   28  the bench has a waiting order
 */
#ifndef BDRE_H
#define BDRE_H

#include <stdbool.h>
#include <stddef.h>
#include <stdint.h>

#ifdef __cplusplus
extern "C" {
#endif

/* The version of this interface, for a libbdre.a of the same version; README.md, 'Versions'. */
#define BDRE_VERSION "2.3.0"

#define BDRE_USER 65536      /* user data: 32 sectors of 2,048 bytes */
#define BDRE_SIDE 592        /* side data: 16 flag bytes, then 32 x 18 bytes of user control data */
#define BDRE_DC 496          /* dc words, one for each frame; bit 27 is the frame's first dc-control bit, bit 0 its last */
#define BDRE_IMAGE 119788    /* image: 496 frames of 1,932 bits, the sync that follows, two zero bits; msb first */
#define BDRE_WORK 76880      /* work: the ECC cluster */
#define BDRE_COLUMN_DATA 223 /* the most data bytes of a column */
#define BDRE_PARITY 32       /* the parity bytes of a column */
#define BDRE_SHEET 64        /* the most PSNs of a sheet */
#define BDRE_BENCHES 4       /* the benches that share a queue */
#define BDRE_ROW 155         /* row: the bytes of a frame */

struct bdre_answer {
    uint32_t number;
    size_t place;
};

struct bdre_read_answer {
    uint32_t number;
    uint32_t psn; /* 0 unless number is 0 */
    size_t place;
    bool first; /* # of the first frame sync, true for ONE; false unless number is 0 */
};

struct bdre_marking {
    uint32_t verdict; /* 0: pass. 1: refused. 2: another PSN. 3: other user data. 4: other side data */
    uint32_t number;  /* at 1, the number of the refusal; else 0 */
    uint32_t psn;     /* at 2, the image's own PSN; else 0 */
    size_t place;     /* at 1, the place of the refusal; at 3 and 4, the first byte that differs; else 0 */
};

struct bdre_conversion {
    uint32_t number;
    uint32_t value; /* 0 unless number is 0 */
};

struct bdre_order {
    uint8_t waiting; /* 0: no order. Any other number: one is waiting; 1 in what is given back */
    uint32_t psn;    /* counts where one is waiting; 0 behind a serve of it */
};

/* Any queue gets an answer. With every field 0 it is the empty one, bench 0's turn. Bytes between the fields are not fixed. */
struct bdre_queue {
    struct bdre_order orders[BDRE_BENCHES]; /* of benches 0 to 3 */
    uint8_t turn;                           /* the bench at which the next serve begins; above 3 it stands for 0 */
};

struct bdre_handled {
    struct bdre_queue queue; /* as it is behind the record */
    uint32_t number;
    size_t place;  /* 0 */
    uint8_t bench; /* the bench served, 255 where none is waiting; 0 for a submit and on refusal */
    uint32_t psn;  /* of the order served; else 0 */
};

struct bdre_ahead {
    uint32_t number;
    size_t place;  /* 0 */
    uint32_t bits; /* 0 unless number is 0 */
};

/* Writes the image of a cluster, from its user data, the PSN of its first sector, its side data, its dc words and # of its first frame
 * sync, true for ONE. 0: image holds the image, work the ECC cluster. 1 to 8: both are as they were. */
struct bdre_answer bdre_write_image(const uint8_t *user, size_t user_length, uint32_t psn, const uint8_t *side, size_t side_length,
                                    const uint32_t *dc, size_t dc_length, bool first, uint8_t *image, size_t image_length,
                                    uint8_t *work, size_t work_length);

/* Reads an image strictly. 0: user, side and dc hold what the image was made of, work its ECC cluster; psn is its PSN, and first is # of
 * its first frame sync. 1 to 5: all are as they were. 9 to 16: work is all zeros, the others are as they were. */
struct bdre_read_answer bdre_read_image(const uint8_t *image, size_t image_length, uint8_t *user, size_t user_length, uint8_t *side,
                                        size_t side_length, uint32_t *dc, size_t dc_length, uint8_t *work, size_t work_length);

/* Marks an image: whether it is the image of this PSN, this user data and this side data, under any dc words and either first #. It is read
 * into the four slices lent for that, which are left as bdre_read_image leaves them; where user or side has a wrong length (verdict 1,
 * number 1 or 2) they are as they were. */
struct bdre_marking bdre_mark_image(uint32_t psn, const uint8_t *user, size_t user_length, const uint8_t *side, size_t side_length,
                                    const uint8_t *image, size_t image_length, uint8_t *user_read, size_t user_read_length,
                                    uint8_t *side_read, size_t side_read_length, uint32_t *dc_read, size_t dc_read_length,
                                    uint8_t *work, size_t work_length);

/* The groove address (PAA) of the first word of the cluster at a PSN. 0, 6 or 7. */
struct bdre_conversion bdre_psn_to_paa(uint32_t psn);

/* The PSN of the cluster whose first word has a groove address (PAA). 6: the PAA is no multiple of 4. 7: its PSN lies in no data zone. */
struct bdre_conversion bdre_paa_to_psn(uint32_t paa);

/* The address unit number (AUN) of unit 0 to 15 of the cluster at a PSN; the value is 0 for a unit above 15. 0, 6 or 7. */
struct bdre_conversion bdre_psn_to_aun(uint32_t psn, uint32_t unit);

/* The PSN of the cluster that holds the address unit with an AUN. 6: the AUN is odd. 7: the PSN lies in no data zone. */
struct bdre_conversion bdre_aun_to_psn(uint32_t aun);

/* The parity of a Reed-Solomon column with 1 to 223 data bytes (LDC columns have 216, BIS columns 30; a plant's embossed clusters have
 * others). 0: parity holds the only 32 bytes that, behind the data, give the column its roots alpha^0 to alpha^31. 22: no data, more than
 * 223 bytes of it, or a parity slice that is not 32 long; the slice is as it was. */
struct bdre_answer bdre_parity(const uint8_t *data, size_t data_length, uint8_t *parity, size_t parity_length);

/* Judges a sheet of PSNs as a whole. 0: each would pass alone and none occurs twice; no two of its clusters have equal images. Else the first that
 * fits: 23, not 1 to 64 PSNs; 6, no multiple of 32; 7, in no data zone; 24, the PSN of an earlier entry. Place of 6, 7, 24: the lowest entry, from 0. */
struct bdre_answer bdre_sheet(const uint32_t *psns, size_t count);

/* Handles a record of the queue in which four benches wait for one marking machine, an order each. 01h, a bench and four PSN bytes, high byte first,
 * submit an order; 02h serves the first waiting bench from the turn on, going round: its place is free again, and the turn is that of the bench after
 * it. Where none is waiting nothing changes. Else the first that fits, and the queue is as it was, a waiting order given back as 1: 26, a short, long or
 * unknown record; 27, the bench is above 3; 28, it has a waiting order; 6 or 7 for the PSN. */
struct bdre_handled bdre_handle_record(struct bdre_queue queue, const uint8_t *record, size_t record_length);

/* How far ahead the modulator reads in a frame, given by its 155 bytes and its dc word. 0: bits is the most that any word of it needs, 2 to 12. A word
 * needs the least number of frame bits, counted from its start in whole pairs, after which no further bits, up to the frame's end, could change its
 * modulation bits; what is before the frame makes no difference. Else the first that fits: 21, the row is not 155 bytes long; 8, the dc word is above
 * 0FFFFFFFh. */
struct bdre_ahead bdre_most_needed(const uint8_t *row, size_t row_length, uint32_t dc);

#ifdef __cplusplus
}
#endif

#endif
