/*
 * Puts lists and rows by the functions of the header, as its input says: one call on a line, `room N` first. For each room it prints what
 * the calls returned, `failed`, the bytes used in hexadecimal, and whether the others were left alone.
 */
#include "camlist.h"

#include <stdio.h>
#include <stdlib.h>

enum { MOST = 512, UNTOUCHED = 0xC5 };

static uint8_t room[MOST];
static camlist_bytes put;

static void begin(size_t size)
{
    memset(room, UNTOUCHED, sizeof room);
    put.bytes = room;
    put.room = size;
    put.length = 0;
    put.failed = 0;
}

static void end(void)
{
    size_t at;
    int left_alone = 1;

    for (at = put.length; at < MOST; at++) {
        left_alone = left_alone && room[at] == UNTOUCHED;
    }
    printf(" %d ", put.failed);
    for (at = 0; at < put.length; at++) {
        printf("%02X", room[at]);
    }
    printf(" %d\n", left_alone);
}

static int call(const char *name, const unsigned n[6])
{
    if (strcmp(name, "head") == 0) return camlist_put_head(&put, n[0]);
    if (strcmp(name, "single") == 0) return camlist_put_single(&put, n[0], n[1], n[2], n[3], n[4]);
    if (strcmp(name, "block") == 0) return camlist_put_block(&put, n[0], n[1], n[2], n[3], n[4], n[5]);
    if (strcmp(name, "enhanced") == 0) return camlist_put_enhanced(&put, n[0], n[1], n[2], n[3], n[4], n[5]);
    if (strcmp(name, "sequencer") == 0) return camlist_put_sequencer(&put, n[0], n[1], n[2], n[3]);
    if (strcmp(name, "inline") == 0) return camlist_put_inline(&put, n[0], n[1], n[2], n[3], n[4], n[5]);
    if (strcmp(name, "jump") == 0) return camlist_put_jump(&put, n[0]);
    if (strcmp(name, "literal") == 0) return camlist_put_literal(&put, n[0]);
    if (strcmp(name, "halt") == 0) return camlist_put_halt(&put);
    if (strcmp(name, "answer") == 0) return camlist_put_answer(&put, n[0], n[1]);
    if (strcmp(name, "timeout") == 0) return camlist_put_timeout(&put);
    if (strcmp(name, "not_recognised") == 0) return camlist_put_not_recognised(&put);
    if (strcmp(name, "no_sync") == 0) return camlist_put_no_sync(&put);
    abort();
}

int main(void)
{
    char line[128], name[32];

    while (fgets(line, sizeof line, stdin) != NULL) {
        unsigned n[6] = {0, 0, 0, 0, 0, 0};

        if (sscanf(line, "%31s %u %u %u %u %u %u", name, &n[0], &n[1], &n[2], &n[3], &n[4], &n[5]) < 1) abort();
        if (strcmp(name, "room") == 0) {
            begin(n[0] < MOST ? n[0] : MOST);
        } else if (strcmp(name, "end") == 0) {
            end();
        } else {
            putchar('0' + call(name, n));
        }
    }
    return 0;
}
