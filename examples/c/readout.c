/*
 * Admits lists, runs them over replies that stand for a crate's, and prints the samples and how each run ended: document 01's worked
 * case, a digitizer read in one block, one with fewer samples than asked, a crate that falls silent, a list that is refused, 24-bit scalers
 * of which one does not answer, and scalers that count in decimal digits.
 *
 * `tools/build host` in the repository's root, then `make run` here.
 */
#include <inttypes.h>
#include <stdio.h>

#include "camlist.h"

#define SAMPLES 64
#define FEWER 40
#define TRY_LIMIT 3

static void print_refusal(const uint64_t *answer)
{
    printf("  refused %" PRIu64 ", place %" PRIu64 ": %s\n", answer[CAMLIST_NUMBER], answer[CAMLIST_PLACE],
           camlist_refusal_text(answer[CAMLIST_NUMBER]));
}

static void print_samples(uint8_t *incoming, uint64_t mark)
{
    for (uint64_t at = 0; at + 2 <= mark; at += 2) {
        unsigned sample = incoming[at] | (unsigned)incoming[at + 1] << 8;
        printf("%s%5u%s", at % 32 == 0 ? "  " : " ", sample, at % 32 == 30 || at + 2 == mark ? "\n" : "");
    }
}

/* 24-bit words: which came with X = 0, from a station that did not answer, and which with Q = 0. */
static void print_wide(uint8_t *incoming, uint64_t mark)
{
    for (uint64_t at = 0; at + 4 <= mark; at += 4) {
        uint32_t longword = camlist_longword(incoming + at);
        printf("  %08" PRIX32 ": %8" PRIu32 "%s%s\n", longword, camlist_word_data(longword), camlist_word_q(longword) ? "" : ", Q = 0",
               camlist_word_x(longword) ? "" : ", X = 0");
    }
}

/* The same of words that are six decimal digits, converted first. */
static void print_decimal(uint8_t *incoming, uint64_t mark)
{
    uint64_t answer[CAMLIST_SCALERS_NUMBERS];

    camlist_to_binary(incoming, mark, answer);
    if (answer[CAMLIST_NUMBER] != CAMLIST_NOT_REFUSED) {
        print_refusal(answer);
    }
    print_wide(incoming, mark);
}

static void print_ending(const uint64_t record[CAMLIST_RECORD_NUMBERS])
{
    uint64_t status = record[CAMLIST_RECORD_STATUS];
    unsigned code = camlist_code(status);
    char name[CAMLIST_NAME_BYTES + 1];

    if (record[CAMLIST_RECORD_ENDED]) {
        printf("  ended with code %X, %s, at instruction %" PRIu64, code, camlist_code_text(code, name),
               record[CAMLIST_RECORD_INSTRUCTION]);
    } else {
        printf("  waits for %" PRIu64 " words of instruction %" PRIu64, record[CAMLIST_RECORD_WORDS_LEFT],
               record[CAMLIST_RECORD_INSTRUCTION]);
    }
    printf(" after %" PRIu64 " operations, status %08" PRIX64 "%s\n", record[CAMLIST_RECORD_OPERATIONS], status,
           status & CAMLIST_STATUS_NO_Q ? ", Q = 0 met" : "");
}

/* Admits and runs a list of reads, all of one word size. */
static void read_out(const char *title, const camlist_bytes *list, const uint8_t *replies, size_t replies_len,
                     void (*print)(uint8_t *incoming, uint64_t mark))
{
    uint8_t incoming[2 * SAMPLES] = {0};
    uint64_t admission[CAMLIST_ADMIT_NUMBERS];
    uint64_t answer[CAMLIST_RUN_NUMBERS];
    const uint64_t *record = answer + CAMLIST_RUN_RECORD;

    printf("%s\n", title);
    camlist_admit(list->bytes, list->length, sizeof incoming, 0, admission);
    if (admission[CAMLIST_NUMBER] != CAMLIST_NOT_REFUSED) {
        print_refusal(admission);
        return;
    }
    printf("  admitted: at most %" PRIu64 " operations, %" PRIu64 " bytes\n", admission[CAMLIST_ADMIT_WORST],
           admission[CAMLIST_ADMIT_INCOMING]);
    camlist_run(list->bytes, list->length, incoming, sizeof incoming, NULL, 0, replies, replies_len, answer);
    if (answer[CAMLIST_NUMBER] != CAMLIST_NOT_REFUSED) {
        print_refusal(answer);
        return;
    }
    print(incoming, record[CAMLIST_RECORD_INCOMING_MARK]);
    print_ending(record);
}

/* Reads scalers that give 123456, X = 0, and this word. */
static void read_decimal(const char *title, const camlist_bytes *list, uint32_t last)
{
    uint8_t room[3 * CAMLIST_REPLY_BYTES];
    camlist_bytes counts = {room, sizeof room, 0, 0};

    camlist_put_answer(&counts, CAMLIST_Q | CAMLIST_X, 0x123456);
    camlist_put_answer(&counts, 0, 0);
    camlist_put_answer(&counts, CAMLIST_X, last);
    read_out(title, list, counts.bytes, counts.length, print_decimal);
}

int main(void)
{
    uint8_t room[5][32];
    camlist_bytes worked = {room[0], sizeof room[0], 0, 0};
    camlist_bytes digitizer = {room[1], sizeof room[1], 0, 0};
    camlist_bytes nowhere = {room[2], sizeof room[2], 0, 0};
    camlist_bytes scalers = {room[3], sizeof room[3], 0, 0};
    camlist_bytes stopping = {room[4], sizeof room[4], 0, 0};
    uint8_t worked_room[CAMLIST_REPLY_BYTES];
    camlist_bytes worked_row = {worked_room, sizeof worked_room, 0, 0};
    uint8_t counts_room[3 * CAMLIST_REPLY_BYTES];
    camlist_bytes counts = {counts_room, sizeof counts_room, 0, 0};
    uint8_t pulse_room[SAMPLES * CAMLIST_REPLY_BYTES];
    camlist_bytes pulse = {pulse_room, sizeof pulse_room, 0, 0};
    unsigned height = 100;

    camlist_put_head(&worked, TRY_LIMIT);
    camlist_put_single(&worked, 1, 1, 0, 0, CAMLIST_STOP | CAMLIST_16_BIT);
    camlist_put_halt(&worked);
    camlist_put_answer(&worked_row, CAMLIST_Q | CAMLIST_X, 0x1234);

    camlist_put_head(&digitizer, TRY_LIMIT);
    camlist_put_block(&digitizer, 3, 6, 0, 2, CAMLIST_IGNORE | CAMLIST_16_BIT, SAMPLES);
    camlist_put_halt(&digitizer);

    /* The same in stop: Q = 0 says that there are no more samples, and closes the block. */
    camlist_put_head(&stopping, TRY_LIMIT);
    camlist_put_block(&stopping, 3, 6, 0, 2, CAMLIST_STOP | CAMLIST_16_BIT, SAMPLES);
    camlist_put_halt(&stopping);

    /* The digitizer's list at station 24, which no crate has. */
    camlist_put_head(&nowhere, TRY_LIMIT);
    camlist_put_block(&nowhere, 3, 24, 0, 2, CAMLIST_IGNORE | CAMLIST_16_BIT, SAMPLES);
    camlist_put_halt(&nowhere);

    for (size_t i = 0; i < SAMPLES; i++) {
        height = i == 16 ? 40000 : height > 100 ? height - (height - 100) / 4 : 100;
        camlist_put_answer(&pulse, i == SAMPLES - 1 ? CAMLIST_X : CAMLIST_Q | CAMLIST_X, height);
    }

    /* Scalers at three stations; there is none at station 10, and the one at 11 is still counting. AD = 1: the run goes on. */
    camlist_put_head(&scalers, TRY_LIMIT);
    for (unsigned n = 9; n <= 11; n++) {
        camlist_put_single(&scalers, 3, n, 0, 0, CAMLIST_IGNORE | CAMLIST_ABORT_DISABLE);
    }
    camlist_put_halt(&scalers);
    camlist_put_answer(&counts, CAMLIST_Q | CAMLIST_X, 1234567);
    camlist_put_answer(&counts, 0, 0);
    camlist_put_answer(&counts, CAMLIST_X, 890);

    if (worked.failed || digitizer.failed || nowhere.failed || scalers.failed || stopping.failed || worked_row.failed || counts.failed ||
        pulse.failed) {
        return 1;
    }
    read_out("Worked case", &worked, worked_row.bytes, worked_row.length, print_samples);
    read_out("Digitizer", &digitizer, pulse.bytes, pulse.length, print_samples);
    read_out("Digitizer, first 20 replies", &digitizer, pulse.bytes, 20 * CAMLIST_REPLY_BYTES, print_samples);
    pulse.length = FEWER * CAMLIST_REPLY_BYTES;
    camlist_put_answer(&pulse, CAMLIST_X, 0);
    read_out("Digitizer with fewer samples", &stopping, pulse.bytes, pulse.length, print_samples);
    pulse.length = 8 * CAMLIST_REPLY_BYTES;
    camlist_put_timeout(&pulse);
    pulse.length = sizeof pulse_room;
    read_out("Digitizer that falls silent", &digitizer, pulse.bytes, pulse.length, print_samples);
    read_out("Station 24", &nowhere, pulse.bytes, pulse.length, print_samples);
    read_out("Half a reply", &digitizer, pulse.bytes, CAMLIST_REPLY_BYTES / 2, print_samples);
    read_out("Scalers", &scalers, counts.bytes, counts.length, print_wide);
    read_decimal("Decimal scalers", &scalers, 0x000890);
    read_decimal("Decimal scalers, a binary one behind them", &scalers, 0x00089A);
    return 0;
}
