/*
 * Drives a list one operation at a time: starts it, makes each operation that is wanted on a crate, which is simulated here, and gives the crate's
 * reply to the engine. Then the same replies once more, the first six by steps and the others at once from that record on.
 *
 * `tools/build host` in the repository's root, then `make run` here.
 */
#include <inttypes.h>
#include <stdio.h>
#include <string.h>

#include "camlist.h"

#define CRATE 2
#define ADC 5        /* a station: A 0 control, A 1 result, A 2 thresholds */
#define SEQUENCER 30 /* the list sequencer's station */
#define TRY_LIMIT 4
#define SCALERS 5
#define LISTED 2 /* words that the sequencer's list 0 reads */
#define FIRST 6  /* replies taken by steps, the second time */

/* A run: what a host keeps between two calls. */
struct run {
    uint8_t incoming[64];
    uint64_t record[CAMLIST_RECORD_NUMBERS];
};

static uint8_t list_room[128], row_room[64 * CAMLIST_REPLY_BYTES];
static camlist_bytes list = {list_room, sizeof list_room, 0, 0};
static camlist_bytes replies = {row_room, sizeof row_room, 0, 0};
static const uint8_t outgoing[] = {64, 0, 128, 0}; /* two thresholds */

static void put_list(void)
{
    camlist_put_head(&list, TRY_LIMIT);
    camlist_put_inline(&list, CRATE, ADC, 0, 16, CAMLIST_STOP | CAMLIST_16_BIT, 1);    /* 0: start a conversion */
    camlist_put_single(&list, CRATE, ADC, 1, 2, CAMLIST_REPEAT);                       /* 1: its result, 24 bits */
    camlist_put_block(&list, CRATE, 8, 0, 0, CAMLIST_SCAN | CAMLIST_16_BIT, SCALERS);  /* 2: scalers, wherever they stand */
    camlist_put_enhanced(&list, CRATE, ADC, 2, 17, CAMLIST_STOP | CAMLIST_16_BIT, 2);  /* 3: thresholds, an enhanced block */
    camlist_put_single(&list, CRATE, ADC, 0, 26, CAMLIST_STOP | CAMLIST_16_BIT);       /* 4: enable, no data */
    camlist_put_sequencer(&list, CRATE, 0, CAMLIST_16_BIT, LISTED);                    /* 5: list 0 of the sequencer */
    camlist_put_literal(&list, 0xCAFEF00Du);                                           /* 6: end of the event */
    camlist_put_halt(&list);                                                           /* 7 */
}

/* The crate: an ADC that is busy twice after its start, a module with two scalers at station 8 and one with three at station 10, and a list
   sequencer. */
static void make_operation(uint64_t n, uint64_t a, uint64_t f)
{
    static int busy;
    static uint32_t listed;
    int is_scaler = (n == 8 && a < 2) || (n == 10 && a < 3);

    if (n == ADC && f == 16) {
        busy = 2;
    }
    if (n == ADC && a == 1 && busy > 0) {
        busy--;
        camlist_put_answer(&replies, CAMLIST_X, 0);
    } else if (n == ADC) {
        camlist_put_answer(&replies, CAMLIST_Q | CAMLIST_X, a == 1 ? 0x012345 : 0);
    } else if (n == SEQUENCER) {
        camlist_put_answer(&replies, CAMLIST_Q | CAMLIST_X, 0x0A00 + ++listed);
    } else if (is_scaler) {
        camlist_put_answer(&replies, CAMLIST_Q | CAMLIST_X, (uint32_t)(100 * n + a));
    } else {
        camlist_put_answer(&replies, n == 8 || n == 10 ? CAMLIST_X : 0, 0);
    }
}

static void start(struct run *run, uint64_t answer[CAMLIST_CALL_NUMBERS])
{
    memset(run, 0, sizeof *run);
    camlist_start(list.bytes, list.length, run->incoming, sizeof run->incoming, outgoing, sizeof outgoing, run->record, answer);
}

static void step(struct run *run, const uint8_t *reply, uint64_t answer[CAMLIST_CALL_NUMBERS])
{
    camlist_step(list.bytes, list.length, run->record, run->incoming, sizeof run->incoming, outgoing, sizeof outgoing, reply,
                 CAMLIST_REPLY_BYTES, answer);
}

/* All replies behind the first, or all but some bytes of them. */
static void steps(struct run *run, size_t bytes_short, uint64_t answer[CAMLIST_STEPS_NUMBERS])
{
    camlist_steps(list.bytes, list.length, run->record, run->incoming, sizeof run->incoming, outgoing, sizeof outgoing,
                  replies.bytes + FIRST * CAMLIST_REPLY_BYTES, replies.length - FIRST * CAMLIST_REPLY_BYTES - bytes_short, answer);
}

static void print_refusal(const char *what, const uint64_t *answer)
{
    printf("%s: refused %" PRIu64 ", %s\n", what, answer[CAMLIST_NUMBER], camlist_refusal_text(answer[CAMLIST_NUMBER]));
}

static void print_record(const uint64_t record[CAMLIST_RECORD_NUMBERS])
{
    uint64_t status = record[CAMLIST_RECORD_STATUS];
    char name[CAMLIST_NAME_BYTES + 1];

    printf("%s at instruction %" PRIu64 " after %" PRIu64 " operations, %" PRIu64 " bytes in and %" PRIu64 " out, status %08" PRIX64 "%s%s\n",
           record[CAMLIST_RECORD_ENDED] ? "ended" : "waits", record[CAMLIST_RECORD_INSTRUCTION], record[CAMLIST_RECORD_OPERATIONS],
           record[CAMLIST_RECORD_INCOMING_MARK], record[CAMLIST_RECORD_OUTGOING_MARK], status, record[CAMLIST_RECORD_ENDED] ? ", " : "",
           record[CAMLIST_RECORD_ENDED] ? camlist_code_text(camlist_code(status), name) : "");
}

/* One operation at a time. */
static void drive(struct run *run)
{
    uint64_t answer[CAMLIST_CALL_NUMBERS];
    uint32_t result; /* stored first, at offset 0 */

    start(run, answer);
    while (answer[CAMLIST_NUMBER] == CAMLIST_NOT_REFUSED && !run->record[CAMLIST_RECORD_ENDED] && !replies.failed) {
        const uint8_t *reply = replies.bytes + replies.length;
        make_operation(answer[CAMLIST_CALL_N], answer[CAMLIST_CALL_A], answer[CAMLIST_CALL_F]);
        printf("%3" PRIu64 ": N %2" PRIu64 " A %" PRIu64 " F %2" PRIu64 " data %06" PRIX64 ", reply%s%s %02X%02X%02X%s\n",
               run->record[CAMLIST_RECORD_OPERATIONS] + 1, answer[CAMLIST_CALL_N], answer[CAMLIST_CALL_A], answer[CAMLIST_CALL_F],
               answer[CAMLIST_CALL_DATA], reply[1] & CAMLIST_Q ? " Q" : "  ", reply[1] & CAMLIST_X ? " X" : "  ", reply[6], reply[5], reply[4],
               answer[CAMLIST_CALL_ENHANCED] ? ", enhanced" : "");
        step(run, reply, answer);
    }
    if (answer[CAMLIST_NUMBER] != CAMLIST_NOT_REFUSED) {
        print_refusal("run", answer);
        return;
    }
    print_record(run->record);
    for (uint64_t at = 0; at < run->record[CAMLIST_RECORD_INCOMING_MARK]; at++) {
        printf("%02X%s", run->incoming[at], at + 1 < run->record[CAMLIST_RECORD_INCOMING_MARK] ? " " : "\n");
    }
    result = camlist_longword(run->incoming);
    printf("the ADC's result: %06" PRIX32 " with Q = %d, X = %d\n", camlist_word_data(result), camlist_word_q(result), camlist_word_x(result));
    step(run, replies.bytes, answer);
    print_refusal("a reply after the end", answer);
}

/* The same replies: the first by steps, the others at once, with two that come too late. */
static void go_on(struct run *run)
{
    uint64_t answer[CAMLIST_CALL_NUMBERS], several[CAMLIST_STEPS_NUMBERS];

    start(run, answer);
    for (size_t k = 0; k < FIRST; k++) {
        step(run, replies.bytes + k * CAMLIST_REPLY_BYTES, answer);
    }
    print_record(run->record);
    camlist_put_timeout(&replies);
    camlist_put_no_sync(&replies);
    steps(run, 1, several);
    print_refusal("a byte short", several);
    run->record[CAMLIST_RECORD_N] += 256;
    steps(run, 0, several);
    print_refusal("a station above 255", several);
    run->record[CAMLIST_RECORD_N] -= 256;
    steps(run, 0, several);
    printf("%" PRIu64 " of %zu replies taken\n", several[CAMLIST_STEPS_TAKEN], replies.length / CAMLIST_REPLY_BYTES - FIRST);
    print_record(run->record);
}

int main(void)
{
    struct run first, second;
    uint64_t admission[CAMLIST_ADMIT_NUMBERS];

    put_list();
    camlist_admit(list.bytes, list.length, sizeof first.incoming, sizeof outgoing, admission);
    if (list.failed || admission[CAMLIST_NUMBER] != CAMLIST_NOT_REFUSED) {
        print_refusal("list", admission);
        return 1;
    }
    printf("at most %" PRIu64 " operations, %" PRIu64 " bytes in and %" PRIu64 " out\n", admission[CAMLIST_ADMIT_WORST],
           admission[CAMLIST_ADMIT_INCOMING], admission[CAMLIST_ADMIT_OUTGOING]);
    drive(&first);
    go_on(&second);
    printf("the same bytes: %s\n", memcmp(first.incoming, second.incoming, sizeof first.incoming) == 0 ? "yes" : "no");
    return replies.failed;
}
