/*
 * Drives a list while crates send demands: those that came with an operation are added to a queue, and between two steps one is served, the oldest
 * first. Then more come than a queue keeps: the overflow mark says that some were dropped, until the host clears the queue.
 *
 * `tools/build host` in the repository's root, then `make run` here.
 */
#include <inttypes.h>
#include <stdio.h>

#include "camlist.h"

#define READS 3
#define BURST 2100

static uint8_t queue[CAMLIST_QUEUE_BYTES]; /* all zero: empty */

/* Adds demands, crate and SGL of each. Where another thread does this, lock the queue here and in serve. */
static void add(const uint8_t *demands, size_t length)
{
    uint64_t answer[CAMLIST_DEMAND_NUMBERS];

    camlist_demand_row(queue, sizeof queue, demands, length, answer);
    if (answer[CAMLIST_NUMBER] != CAMLIST_NOT_REFUSED) {
        printf("  refused %" PRIu64 ": %s\n", answer[CAMLIST_NUMBER], camlist_refusal_text(answer[CAMLIST_NUMBER]));
    } else {
        printf("  %" PRIu64 " wait%s\n", answer[CAMLIST_DEMAND_WAITING], answer[CAMLIST_DEMAND_OVERFLOW] ? ", others were dropped" : "");
    }
}

/* Serves up to so many demands. */
static void serve(unsigned most)
{
    uint64_t answer[CAMLIST_TAKE_NUMBERS];

    while (most-- > 0) {
        camlist_demand_take(queue, sizeof queue, answer);
        if (!answer[CAMLIST_TAKE_FOUND]) return;
        printf("  crate %2" PRIu64 ", SGL %02" PRIX64 "; %" PRIu64 " wait%s\n", answer[CAMLIST_TAKE_CRATE], answer[CAMLIST_TAKE_SGL],
               answer[CAMLIST_DEMAND_WAITING], answer[CAMLIST_DEMAND_OVERFLOW] ? ", others were dropped" : "");
    }
}

int main(void)
{
    /* The demands that come with each operation; the last has crate 63, which is none, so that all three are refused. */
    static const uint8_t come[READS][6] = {{1, 0x05, 62, 0x1F, 3, 0x01}, {3, 0x02, 1, 0x05, 1, 0x04}, {2, 0x01, 63, 0x01, 2, 0x02}};
    uint8_t list_room[64], reply_room[CAMLIST_REPLY_BYTES], incoming[2 * READS], burst[2 * BURST];
    camlist_bytes list = {list_room, sizeof list_room, 0, 0}, reply = {reply_room, sizeof reply_room, 0, 0};
    uint64_t record[CAMLIST_RECORD_NUMBERS], answer[CAMLIST_CALL_NUMBERS], cleared[CAMLIST_DEMAND_NUMBERS];

    camlist_put_head(&list, 1);
    camlist_put_block(&list, 3, 6, 0, 2, CAMLIST_IGNORE | CAMLIST_16_BIT, READS);
    camlist_put_halt(&list);
    camlist_put_answer(&reply, CAMLIST_Q | CAMLIST_X, 0x1234);
    camlist_start(list.bytes, list.length, incoming, sizeof incoming, NULL, 0, record, answer);
    if (list.failed || reply.failed || answer[CAMLIST_NUMBER] != CAMLIST_NOT_REFUSED) return 1;
    for (size_t k = 0; !record[CAMLIST_RECORD_ENDED]; k++) {
        printf("operation %zu: crate %" PRIu64 ", N %" PRIu64 "\n", k + 1, answer[CAMLIST_CALL_CRATE], answer[CAMLIST_CALL_N]);
        add(come[k], sizeof come[k]);
        camlist_step(list.bytes, list.length, record, incoming, sizeof incoming, NULL, 0, reply.bytes, reply.length, answer);
        serve(1);
    }
    printf("after the end\n");
    serve(2 * READS);
    printf("%d at once\n", BURST);
    for (size_t k = 0; k < BURST; k++) {
        burst[2 * k] = (uint8_t)(1 + k % 62);
        burst[2 * k + 1] = (uint8_t)k;
    }
    add(burst, sizeof burst);
    serve(2);
    camlist_demand_clear(queue, sizeof queue, cleared);
    printf("cleared: %" PRIu64 " wait, overflow %" PRIu64 "\n", cleared[CAMLIST_DEMAND_WAITING], cleared[CAMLIST_DEMAND_OVERFLOW]);
    return 0;
}
