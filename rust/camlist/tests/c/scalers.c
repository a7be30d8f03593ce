/*
 * Converts rows of scalers by the calls of the header: one row on a line of the input, `bin` or `dec` and its bytes in hexadecimal, `-` for none.
 * Each is put at an odd address between bytes that must stay. Prints for each `ok` and the bytes, or `refused` with number, place, text and bytes.
 */
#include "camlist.h"

#include <inttypes.h>
#include <stdio.h>
#include <stdlib.h>

enum { MOST = 512, AROUND = 17, UNTOUCHED = 0xC5 };

static uint8_t room[AROUND + MOST + AROUND];
static uint8_t *const row = room + AROUND;

static size_t read_row(const char *text)
{
    size_t length = 0;
    unsigned byte;

    memset(room, UNTOUCHED, sizeof room);
    for (; sscanf(text, "%2x", &byte) == 1; text += 2) {
        if (length == MOST) abort();
        row[length++] = (uint8_t)byte;
    }
    return length;
}

static void print_row(size_t length)
{
    size_t at;

    for (at = 0; at < length; at++) {
        printf("%02X", row[at]);
    }
    for (at = 0; at < sizeof room; at++) {
        if ((at < AROUND || at >= AROUND + length) && room[at] != UNTOUCHED) abort();
    }
    printf(length == 0 ? "-\n" : "\n");
}

int main(void)
{
    char way[4], text[2 * MOST + 2];
    uint64_t answer[CAMLIST_SCALERS_NUMBERS];

    while (scanf("%3s %1025s", way, text) == 2) {
        size_t length = read_row(text);

        if (strcmp(way, "bin") == 0) {
            camlist_to_binary(row, length, answer);
        } else {
            camlist_to_decimal(row, length, answer);
        }
        if (answer[CAMLIST_NUMBER] == CAMLIST_NOT_REFUSED && answer[CAMLIST_PLACE] == 0) {
            printf("ok ");
        } else {
            printf("refused %" PRIu64 " %" PRIu64 " (%s) ", answer[CAMLIST_NUMBER], answer[CAMLIST_PLACE],
                   camlist_refusal_text(answer[CAMLIST_NUMBER]));
        }
        print_row(length);
    }
    return 0;
}
