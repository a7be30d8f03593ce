/*
 * Makes calls on a queue of demands: one call on a line of the input, `add`, `row`, `take` or `clear`, or `empty` for a new queue, and its bytes in
 * hexadecimal, `-` for none. The queue lies at an odd address between bytes that must stay. Prints for each call `ok`, `none`, the demand taken, or
 * `refused` with number and place; how many wait and the overflow mark, which after a refusal are the queue's; the refusal's text; and a sum of the
 * queue's bytes.
 */
#include "camlist.h"

#include <inttypes.h>
#include <stdio.h>
#include <stdlib.h>

enum { MOST = 8192, AROUND = 17, UNTOUCHED = 0xC5 };

static uint8_t room[AROUND + CAMLIST_QUEUE_BYTES + AROUND];
static uint8_t *const queue = room + AROUND;
static uint8_t row[MOST];

static size_t read_row(const char *text)
{
    size_t length = 0;
    unsigned byte;

    for (; sscanf(text, "%2x", &byte) == 1; text += 2) {
        if (length == MOST) abort();
        row[length++] = (uint8_t)byte;
    }
    return length;
}

static void make_empty(void)
{
    memset(room, UNTOUCHED, sizeof room);
    memset(queue, 0, CAMLIST_QUEUE_BYTES);
}

static void print_queue(const uint64_t *answer)
{
    uint64_t waiting = answer[CAMLIST_DEMAND_WAITING], overflow = answer[CAMLIST_DEMAND_OVERFLOW];
    int is_refused = answer[CAMLIST_NUMBER] != CAMLIST_NOT_REFUSED;
    uint32_t sum = 2166136261u;
    size_t at;

    if (is_refused) {
        if (waiting != 0 || overflow != 0) abort();
        waiting = queue[4098] | (uint64_t)queue[4099] << 8;
        overflow = queue[4100];
    }
    printf(" %" PRIu64 " %" PRIu64, waiting, overflow);
    if (is_refused) {
        printf(" (%s)", camlist_refusal_text(answer[CAMLIST_NUMBER]));
    }
    for (at = 0; at < CAMLIST_QUEUE_BYTES; at++) {
        sum = (sum ^ queue[at]) * 16777619u;
    }
    for (at = 0; at < AROUND; at++) {
        if (room[at] != UNTOUCHED || queue[CAMLIST_QUEUE_BYTES + at] != UNTOUCHED) abort();
    }
    printf(", %08" PRIX32 "\n", sum);
}

/* Takes a demand or makes another call with a row, and prints all but what is left. */
static void call(const char *name, size_t length, uint64_t answer[CAMLIST_TAKE_NUMBERS])
{
    memset(answer, 0, CAMLIST_TAKE_NUMBERS * sizeof *answer);
    if (strcmp(name, "add") == 0) {
        camlist_demand_add(queue, CAMLIST_QUEUE_BYTES, row[0], row[1], answer);
    } else if (strcmp(name, "row") == 0) {
        camlist_demand_row(queue, CAMLIST_QUEUE_BYTES, row, length, answer);
    } else if (strcmp(name, "clear") == 0) {
        camlist_demand_clear(queue, CAMLIST_QUEUE_BYTES, answer);
    } else {
        camlist_demand_take(queue, CAMLIST_QUEUE_BYTES, answer);
    }
    if (answer[CAMLIST_NUMBER] != CAMLIST_NOT_REFUSED) {
        printf("refused %" PRIu64 " %" PRIu64, answer[CAMLIST_NUMBER], answer[CAMLIST_PLACE]);
    } else if (answer[CAMLIST_TAKE_FOUND]) {
        printf("%02" PRIX64 "%02" PRIX64, answer[CAMLIST_TAKE_CRATE], answer[CAMLIST_TAKE_SGL]);
    } else {
        printf(strcmp(name, "take") == 0 ? "none" : "ok");
    }
}

int main(void)
{
    static char text[2 * MOST + 2];
    char name[6];
    uint64_t answer[CAMLIST_TAKE_NUMBERS];

    while (scanf("%5s %16385s", name, text) == 2) {
        size_t length = read_row(text);

        if (strcmp(name, "empty") == 0) {
            make_empty();
        } else {
            call(name, length, answer);
            print_queue(answer);
        }
    }
    return 0;
}
