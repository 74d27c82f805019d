/* Four benches and one marking machine: two orders, a bench that has one already, a PSN that none may have, and serves until none is waiting. */
#include "bdre.h"

#include <stdio.h>

static struct bdre_queue handle(struct bdre_queue queue, const char *name, const uint8_t *record, size_t length) {
    struct bdre_handled handled = bdre_handle_record(queue, record, length);
    printf("%s: %u, place %zu, bench %u, PSN %08lx\n", name, (unsigned)handled.number, handled.place, (unsigned)handled.bench,
           (unsigned long)handled.psn);
    return handled.queue;
}

int main(void) {
    const uint8_t three[6] = {0x01, 3, 0x00, 0x10, 0x00, 0x00};
    const uint8_t one[6] = {0x01, 1, 0x00, 0x10, 0x00, 0x20};
    const uint8_t wrong[6] = {0x01, 2, 0x06, 0x00, 0x00, 0x00};
    const uint8_t serve[1] = {0x02};
    struct bdre_queue queue = {0};

    queue = handle(queue, "bench 3 submits", three, sizeof three);
    queue = handle(queue, "bench 1 submits", one, sizeof one);
    queue = handle(queue, "bench 3 again", three, sizeof three);
    queue = handle(queue, "bench 2 submits", wrong, sizeof wrong);
    for (int i = 0; i < 3; i++) {
        queue = handle(queue, "serve", serve, sizeof serve);
    }
    printf("the next serve begins at bench %u\n", (unsigned)queue.turn);
    return 0;
}
