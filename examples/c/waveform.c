/*
 * Drives a simulated crate (examples/crate) as a host drives an adapter: a digitizer is set up and its waveform read, once operation by operation
 * and once by rows of replies, and shown; then fewer samples than asked, the crate's other modules, a crate that falls silent and is read again, and
 * every other way in which a run ends. Demands are kept while a list runs and served after it.
 *
 * `tools/build host` in the repository's root, then `make run` here. With a path as its argument the program writes the waveform there as a
 * picture. rust/simulated has the same program in Rust, which prints the same.
 */
#include <inttypes.h>
#include <stdio.h>
#include <stdlib.h>
#include <string.h>

#include "camlist.h"
#include "crate.h"
#include "lists.h"
#include "picture.h"
#include "words.h"

#define ROW 100 /* the most replies that are collected before the engine takes them */

/* Where the other modules' words lie in the incoming buffer: longwords, then 16-bit words. */
#define SCALER_AT 0
#define DECIMAL_AT 24
#define LISTED_AT 32
#define ADC_AT 52
#define SCAN_AT 58
#define BLOCK_AT 100

/* The crate and the demands that it sent. */
struct host {
    struct simulated_crate crate;
    uint8_t demands[CAMLIST_QUEUE_BYTES];
};

/* A run: what a host keeps between two calls. */
struct run {
    uint8_t incoming[2 * CRATE_SAMPLES + 8];
    uint64_t record[CAMLIST_RECORD_NUMBERS];
    uint64_t made; /* operations made on the crate */
};

static const uint8_t outgoing[] = {0x56, 0x34, 0x12, 0, 0x90, 0x08, 0, 0}; /* for the two decimal scalers, in digits */

static void power_up(struct host *host)
{
    memset(host, 0, sizeof *host);
    crate_init(&host->crate, CRATE);
}

/* The lists here are right and the calls too: a refusal is an error in this program. */
static void require(const char *call, const uint64_t *answer)
{
    if (answer[CAMLIST_NUMBER] != CAMLIST_NOT_REFUSED) {
        fprintf(stderr, "%s: refused %" PRIu64 ", place %" PRIu64 ": %s\n", call, answer[CAMLIST_NUMBER], answer[CAMLIST_PLACE],
                camlist_refusal_text(answer[CAMLIST_NUMBER]));
        exit(1);
    }
}

/* Demands ---------------------------------------------------------------------------------------------------------------------------------- */

/* Keeps the demands that came with an operation. */
static void keep_demands(struct host *host, uint64_t operation)
{
    uint64_t answer[CAMLIST_DEMAND_NUMBERS];
    uint8_t row[2 * CRATE_DEMANDS];
    size_t length = crate_demands(&host->crate, row, sizeof row);

    camlist_demand_row(host->demands, sizeof host->demands, row, length, answer);
    require("camlist_demand_row", answer);
    for (size_t at = 0; at < length; at += 2) {
        printf("  operation %" PRIu64 ": a demand of crate %u, SGL %02X\n", operation, row[at], row[at + 1]);
    }
}

/* A run ------------------------------------------------------------------------------------------------------------------------------------ */

/* Makes an operation that an answer wants: its six numbers. */
static void make_operation(struct host *host, struct run *run, const uint64_t *wanted, uint8_t *reply)
{
    struct crate_operation operation = {(uint32_t)wanted[0], (uint32_t)wanted[1], (uint32_t)wanted[2],
                                        (uint32_t)wanted[3], (uint32_t)wanted[4], (uint32_t)wanted[5]};

    crate_operate(&host->crate, &operation, reply);
    run->made++;
    keep_demands(host, run->made);
}

static void start(struct run *run, const camlist_bytes *list, uint64_t answer[CAMLIST_CALL_NUMBERS])
{
    if (list->failed) {
        fprintf(stderr, "a list has no room, or a part of it is too wide\n");
        exit(1);
    }
    memset(run, 0, sizeof *run);
    camlist_start(list->bytes, list->length, run->incoming, sizeof run->incoming, outgoing, sizeof outgoing, run->record, answer);
    require("camlist_start", answer);
}

/* Runs a list operation by operation. The first few are printed. */
static void run_by_step(struct host *host, struct run *run, const camlist_bytes *list, uint64_t printed)
{
    uint64_t answer[CAMLIST_CALL_NUMBERS];
    uint8_t reply[CAMLIST_REPLY_BYTES];

    start(run, list, answer);
    while (!run->record[CAMLIST_RECORD_ENDED]) {
        if (run->made < printed) {
            printf("  operation %" PRIu64 ": N %" PRIu64 " A %" PRIu64 " F %" PRIu64 ", data %" PRIu64 "\n", run->made + 1,
                   answer[CAMLIST_CALL_N], answer[CAMLIST_CALL_A], answer[CAMLIST_CALL_F], answer[CAMLIST_CALL_DATA]);
        }
        make_operation(host, run, answer + CAMLIST_CALL_CRATE, reply);
        camlist_step(list->bytes, list->length, run->record, run->incoming, sizeof run->incoming, outgoing, sizeof outgoing, reply,
                     sizeof reply, answer);
        require("camlist_step", answer);
    }
}

/* Makes an operation again and again, and collects the replies. The first that is not a plain answer with Q = X = 1 is the last of its row. */
static size_t collect(struct host *host, struct run *run, const uint64_t *wanted, uint64_t most, uint8_t row[ROW * CAMLIST_REPLY_BYTES])
{
    const uint8_t *reply;
    size_t length = 0;

    do {
        reply = row + length;
        make_operation(host, run, wanted, row + length);
        length += CAMLIST_REPLY_BYTES;
    } while (--most > 0 && reply[0] == 0 && reply[1] == (CAMLIST_Q | CAMLIST_X));
    return length;
}

/*
 * Runs a list of which one instruction, `block`, is a block of reads in stop, and yields how many rows it took. An adapter may make operations before
 * the engine has seen the replies to those before them only where it knows that they will be wanted. All words that are left of such a block want the
 * same operation, while each answer has Q = X = 1 and no other flag. Any other reply closes the block or ends the run: behind it the engine may want
 * another operation or none, and a word read too early would be lost. So the row ends there. The other instructions here want one operation each.
 * In a scan the answer decides on the next subaddress, and in a block of writes every operation has other data: those go operation by operation.
 */
static unsigned run_by_rows(struct host *host, struct run *run, const camlist_bytes *list, uint64_t block)
{
    uint64_t started[CAMLIST_CALL_NUMBERS], answer[CAMLIST_STEPS_NUMBERS];
    const uint64_t *wanted = started + CAMLIST_CALL_CRATE, *record = run->record;
    uint8_t row[ROW * CAMLIST_REPLY_BYTES];
    unsigned rows = 0;

    start(run, list, started);
    while (!record[CAMLIST_RECORD_ENDED]) {
        uint64_t left = record[CAMLIST_RECORD_INSTRUCTION] == block ? record[CAMLIST_RECORD_WORDS_LEFT] : 1;
        size_t length = collect(host, run, wanted, left < ROW ? left : ROW, row);
        camlist_steps(list->bytes, list->length, run->record, run->incoming, sizeof run->incoming, outgoing, sizeof outgoing, row, length,
                      answer);
        require("camlist_steps", answer);
        wanted = answer + CAMLIST_STEPS_CRATE;
        rows++;
    }
    return rows;
}

/* Serves the demands that wait, the oldest first: the SGL byte is the station. */
static void serve_demands(struct host *host)
{
    uint64_t answer[CAMLIST_TAKE_NUMBERS];
    struct run run;

    for (;;) {
        uint8_t room[32];
        camlist_bytes list = {room, sizeof room, 0, 0};
        camlist_demand_take(host->demands, sizeof host->demands, answer);
        require("camlist_demand_take", answer);
        if (!answer[CAMLIST_TAKE_FOUND]) return;
        put_service(&list, (unsigned)answer[CAMLIST_TAKE_CRATE], (unsigned)answer[CAMLIST_TAKE_SGL]);
        run_by_step(host, &run, &list, 0);
        printf("  served the demand of station %" PRIu64 ", ", answer[CAMLIST_TAKE_SGL]);
        print_code(run.record[CAMLIST_RECORD_STATUS]);
        printf("\n");
    }
}

/* What the program shows ------------------------------------------------------------------------------------------------------------------- */

static int is_whole(const struct run *run)
{
    return camlist_code(run->record[CAMLIST_RECORD_STATUS]) == CAMLIST_CODE_NO_ERROR;
}

/* The samples of an event: all bytes stored but those of the scaler and the literal behind them, if it came to these. Here the samples are an even
   number; an odd one would have a pad behind it. */
static size_t samples_stored(const struct run *run)
{
    size_t mark = (size_t)run->record[CAMLIST_RECORD_INCOMING_MARK];

    return (is_whole(run) ? mark - 8 : mark) / 2;
}

static void show_event(struct host *host, const struct run *run)
{
    print_ending(run->record);
    printf("  %zu samples stored", samples_stored(run));
    if (is_whole(run)) printf(", scaler %" PRIu32, camlist_word_data(camlist_longword(run->incoming + 2 * samples_stored(run))));
    printf("\n");
    serve_demands(host);
}

static int show_waveform(struct host *host, struct run *run, const camlist_bytes *event, const char *picture)
{
    uint64_t admission[CAMLIST_ADMIT_NUMBERS];

    printf("The digitizer, operation by operation\n");
    camlist_admit(event->bytes, event->length, sizeof run->incoming, sizeof outgoing, admission);
    require("camlist_admit", admission);
    printf("  at most %" PRIu64 " operations, %" PRIu64 " bytes in and %" PRIu64 " out\n", admission[CAMLIST_ADMIT_WORST],
           admission[CAMLIST_ADMIT_INCOMING], admission[CAMLIST_ADMIT_OUTGOING]);
    power_up(host);
    run_by_step(host, run, event, SET_UP + 1);
    show_event(host, run);
    print_waveform(run->incoming, samples_stored(run));
    return !picture || write_picture(picture, run->incoming, samples_stored(run));
}

/* The same once more on a new crate, and whether buffer and record are those of before. */
static void show_rows(struct host *host, struct run *run, const camlist_bytes *event, const struct run *before)
{
    unsigned rows;
    int is_same;

    printf("The same by rows of up to %d replies\n", ROW);
    power_up(host);
    rows = run_by_rows(host, run, event, SAMPLES_BLOCK);
    is_same = memcmp(run->incoming, before->incoming, sizeof run->incoming) == 0 && memcmp(run->record, before->record, sizeof run->record) == 0;
    printf("  %" PRIu64 " operations in %u rows; the same bytes and the same record: %s\n", run->made, rows, is_same ? "yes" : "no");
    show_event(host, run);
}

static void show_fewer(struct host *host, struct run *run)
{
    uint8_t room[128];
    camlist_bytes list = {room, sizeof room, 0, 0};
    unsigned rows;

    printf("Fewer samples than asked\n");
    power_up(host);
    put_event(&list, 700);
    rows = run_by_rows(host, run, &list, SAMPLES_BLOCK);
    printf("  %" PRIu64 " operations in %u rows\n", run->made, rows);
    show_event(host, run);
}

/* 24-bit words with Q and X of their answers. */
static void show_longwords(const char *title, const uint8_t *longwords, size_t words)
{
    for (size_t k = 0; k < words; k++) {
        uint32_t longword = camlist_longword(longwords + 4 * k);
        printf("  %-14s %08" PRIX32 ": %8" PRIu32 ", Q = %d, X = %d\n", k == 0 ? title : "", longword, camlist_word_data(longword),
               camlist_word_q(longword), camlist_word_x(longword));
    }
}

/* Longwords in hexadecimal. */
static void show_hexadecimal(const char *title, const uint8_t *longwords, size_t words)
{
    printf("  %-14s", title);
    for (size_t k = 0; k < words; k++) {
        printf(" %08" PRIX32, camlist_longword(longwords + 4 * k));
    }
    printf("\n");
}

/* 16-bit words. */
static void show_words(const char *title, const uint8_t *bytes, size_t words)
{
    for (size_t k = 0; k < words; k++) {
        if (k % 12 == 0) printf("%s  %-14s", k == 0 ? "" : "\n", k == 0 ? title : "");
        printf(" %4u", bytes[2 * k] | (unsigned)bytes[2 * k + 1] << 8);
    }
    printf("\n");
}

static void show_modules(struct host *host, struct run *run)
{
    uint64_t answer[CAMLIST_SCALERS_NUMBERS];
    uint8_t room[256];
    camlist_bytes list = {room, sizeof room, 0, 0};

    printf("The other modules\n");
    power_up(host);
    put_modules(&list);
    run_by_step(host, run, &list, 0);
    print_ending(run->record);
    show_longwords("scaler", run->incoming + SCALER_AT, SCALER_WORDS);
    show_hexadecimal("decimal digits", run->incoming + DECIMAL_AT, CRATE_DECIMALS);
    camlist_to_binary(run->incoming + DECIMAL_AT, 4 * CRATE_DECIMALS, answer);
    require("camlist_to_binary", answer);
    show_longwords("in binary", run->incoming + DECIMAL_AT, CRATE_DECIMALS);
    show_longwords("sequencer", run->incoming + LISTED_AT, LISTED_WORDS);
    show_words("ADC", run->incoming + ADC_AT, ADC_WORDS);
    show_words("scan", run->incoming + SCAN_AT, SCAN_WORDS);
    show_words("enhanced", run->incoming + BLOCK_AT, BLOCK_SAMPLES);
    show_hexadecimal("literal", run->incoming + run->record[CAMLIST_RECORD_INCOMING_MARK] - 4, 1);
}

/* The crate does not answer the operation of sample 1,001. The same list is started again. */
static void show_silence(struct host *host, struct run *run, const camlist_bytes *event)
{
    printf("A crate that falls silent\n");
    power_up(host);
    crate_ask_fault(&host->crate, CRATE_TIMEOUT, SET_UP + 1001);
    run_by_rows(host, run, event, SAMPLES_BLOCK);
    show_event(host, run);
    printf("The same list again\n");
    run_by_rows(host, run, event, SAMPLES_BLOCK);
    show_event(host, run);
}

/* A run for each way to end: a fault of operation 7, or a list that asks too much. A delayed error ends nothing. */
static void show_endings(struct host *host, struct run *run)
{
    static const struct {
        const char *title;
        enum crate_fault fault;
        void (*put)(camlist_bytes *list);
    } endings[] = {
        {"no fault", CRATE_NO_FAULT, put_pulse},
        {"no sync", CRATE_NO_SYNC, put_pulse},
        {"an address lost", CRATE_NOT_RECOGNISED, put_pulse},
        {"another crate", CRATE_NO_FAULT, put_other_crate},
        {"a busy ADC", CRATE_NO_FAULT, put_busy},
        {"transverse parity", CRATE_TPE, put_pulse},
        {"longitudinal parity", CRATE_LPE, put_pulse},
        {"a scan too long", CRATE_NO_FAULT, put_long_scan},
        {"an empty station", CRATE_NO_FAULT, put_empty_station},
        {"no sample", CRATE_NO_FAULT, put_no_sample},
        {"a damaged command", CRATE_ERR, put_pulse},
        {"a delayed error", CRATE_DERR, put_pulse},
    };

    printf("Other endings\n");
    for (size_t k = 0; k < sizeof endings / sizeof endings[0]; k++) {
        uint8_t room[64];
        camlist_bytes list = {room, sizeof room, 0, 0};
        power_up(host);
        endings[k].put(&list);
        crate_ask_fault(&host->crate, endings[k].fault, 7);
        run_by_step(host, run, &list, 0);
        printf("  %-19s %2" PRIu64 " bytes, ", endings[k].title, run->record[CAMLIST_RECORD_INCOMING_MARK]);
        print_code(run->record[CAMLIST_RECORD_STATUS]);
        printf("\n%22s", "");
        print_status(run->record[CAMLIST_RECORD_STATUS]);
    }
}

int main(int argc, char **argv)
{
    static struct host host;
    static struct run first, run;
    uint8_t room[128];
    camlist_bytes event = {room, sizeof room, 0, 0};
    const char *picture = argc > 1 ? argv[1] : NULL;

    put_event(&event, CRATE_SAMPLES);
    if (!show_waveform(&host, &first, &event, picture)) {
        fprintf(stderr, "%s can't be written\n", picture);
        return 1;
    }
    show_rows(&host, &run, &event, &first);
    show_fewer(&host, &run);
    show_modules(&host, &run);
    show_silence(&host, &run, &event);
    show_endings(&host, &run);
    return 0;
}
