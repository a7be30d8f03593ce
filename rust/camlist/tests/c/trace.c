/*
 * Shows that no branch of the library's machine code depends on a mark's remainder modulo 4. By the processor's trap flag it records the address of
 * every instruction that a call runs, in pairs of calls whose marks have the remainders 2 and 0: both traces must be the same. It prints a line for
 * each pair and returns 1 where one is not as it must be.
 *
 * The lists of a pair: a block of 16-bit words, the instructions of the case, a second block of 16-bit words, halt. The blocks have 3 and 4 words or
 * 4 and 3, so that the worst count is the same and the first one leaves a mark of 6 or 8. A call on a record begins behind the first block. A whole
 * run makes both blocks, the longer one first or last: there each instruction must be run as often, in whatever order.
 *
 * With a short block both lists of a pair are the same: the first block asks for more words, and Q = 0 closes it behind 3 or 4 of them, before the call
 * or by it. Whole runs are not among these, since their rows would have Q = 0 in other places.
 */
#define _GNU_SOURCE /* for REG_RIP */
#include "camlist.h"

#include <signal.h>
#include <stdio.h>
#include <stdlib.h>
#include <ucontext.h>
#include <x86intrin.h>

enum { CRATE = 1, STATION = 6, TRY_LIMIT = 3, READ = 2, WRITE = 16, CLEAN = CAMLIST_Q | CAMLIST_X };
enum { ODD = 3, EVEN = 4, ASKED = 8, WIDE_BLOCK = 4, SCAN_WORDS = 2, MOST_REPLIES = 16, LIST_ROOM = 64, BUFFER = 64 };
enum { SHORTEST = 100, LONGEST = 1 << 14, TRAP_FLAG = 1 << 8 };

enum kind { ADMIT, STEP, STEPS, RUN };

/* The first block of a pair's lists: whole, closed before the call, or closed by it. */
enum first_block { WHOLE, CLOSED, CLOSING };

struct test_case {
    const char *name;
    enum kind kind;
    unsigned f;
    const char *between; /* the instructions between the blocks, see put_between */
    unsigned before;     /* replies to them that are taken before the call */
    unsigned replies;    /* replies to them that the call is given */
};

static const struct test_case cases[] = {
    {"admission: 16-bit read", ADMIT, READ, "n", 0, 0},
    {"admission: 24-bit read", ADMIT, READ, "w", 0, 0},
    {"admission: 24-bit read block", ADMIT, READ, "b", 0, 0},
    {"admission: literal", ADMIT, READ, "l", 0, 0},
    {"admission: 24-bit write", ADMIT, WRITE, "w", 0, 0},
    {"admission: 24-bit write block", ADMIT, WRITE, "b", 0, 0},
    {"step: 16-bit read", STEP, READ, "n", 0, 1},
    {"step: 24-bit read", STEP, READ, "w", 0, 1},
    {"step: 16-bit read, 24-bit read next", STEP, READ, "nw", 0, 1},
    {"step: 16-bit read, literal next", STEP, READ, "nl", 0, 1},
    {"step: 24-bit read block, first word", STEP, READ, "b", 0, 1},
    {"step: 24-bit read block, third word", STEP, READ, "b", 2, 1},
    {"step: 16-bit read behind a 24-bit read", STEP, READ, "wn", 1, 1},
    {"step: 16-bit read behind a literal", STEP, READ, "ln", 0, 1},
    {"step: 24-bit scan, word at its last position", STEP, READ, "s", 0, 1},
    {"step: 16-bit write", STEP, WRITE, "n", 0, 1},
    {"step: 24-bit write", STEP, WRITE, "w", 0, 1},
    {"step: 16-bit write, 24-bit write next", STEP, WRITE, "nw", 0, 1},
    {"step: 24-bit write block, first word", STEP, WRITE, "b", 0, 1},
    {"step: 24-bit write block, third word", STEP, WRITE, "b", 2, 1},
    {"step: 16-bit write behind a 24-bit write", STEP, WRITE, "wn", 1, 1},
    {"steps: 16-bit read", STEPS, READ, "n", 0, 1},
    {"steps: 24-bit read", STEPS, READ, "w", 0, 1},
    {"steps: 16-bit read, literal next", STEPS, READ, "nl", 0, 1},
    {"steps: 16-bit read, 24-bit read", STEPS, READ, "nw", 0, 2},
    {"steps: 24-bit read block", STEPS, READ, "b", 0, WIDE_BLOCK},
    {"steps: 24-bit read block from its third word", STEPS, READ, "b", 2, WIDE_BLOCK - 2},
    {"steps: 24-bit scan, word at its last position", STEPS, READ, "s", 0, 1},
    {"steps: no reply, 24-bit write wanted", STEPS, WRITE, "w", 0, 0},
    {"steps: 24-bit write", STEPS, WRITE, "w", 0, 1},
    {"steps: 16-bit write, 24-bit write", STEPS, WRITE, "nw", 0, 2},
    {"steps: 24-bit write block", STEPS, WRITE, "b", 0, WIDE_BLOCK},
    {"run: 16-bit read", RUN, READ, "n", 0, 1},
    {"run: 24-bit read", RUN, READ, "w", 0, 1},
    {"run: 24-bit read block", RUN, READ, "b", 0, WIDE_BLOCK},
    {"run: literal", RUN, READ, "l", 0, 0},
    {"run: 24-bit write", RUN, WRITE, "w", 0, 1},
    {"run: 24-bit write block", RUN, WRITE, "b", 0, WIDE_BLOCK},
    {"admission: enhanced 24-bit read block", ADMIT, READ, "e", 0, 0},
    {"admission: 24-bit sequencer, write", ADMIT, WRITE, "q", 0, 0},
    {"step: enhanced 24-bit read block, first word", STEP, READ, "e", 0, 1},
    {"step: enhanced 24-bit write block, first word", STEP, WRITE, "e", 0, 1},
    {"step: 24-bit sequencer, first word read", STEP, READ, "q", 0, 1},
    {"step: 24-bit sequencer, first word written", STEP, WRITE, "q", 0, 1},
    {"steps: enhanced 24-bit read block", STEPS, READ, "e", 0, WIDE_BLOCK},
    {"steps: 24-bit sequencer, write", STEPS, WRITE, "q", 0, WIDE_BLOCK},
    {"run: enhanced 24-bit write block", RUN, WRITE, "e", 0, WIDE_BLOCK},
    {"run: 24-bit sequencer, read", RUN, READ, "q", 0, WIDE_BLOCK},
};

/* Behind a block that was closed before the call. */
static const struct test_case behind_closed[] = {
    {"step: 16-bit read behind a short block", STEP, READ, "n", 0, 1},
    {"step: 24-bit read behind a short block", STEP, READ, "w", 0, 1},
    {"step: 24-bit read block behind a short block", STEP, READ, "b", 0, 1},
    {"step: 16-bit read, literal next, short block", STEP, READ, "nl", 0, 1},
    {"step: 24-bit write behind a short block", STEP, WRITE, "w", 0, 1},
    {"step: 24-bit write block behind a short block", STEP, WRITE, "b", 0, 1},
    {"steps: 24-bit read behind a short block", STEPS, READ, "w", 0, 1},
    {"steps: 24-bit read block behind a short block", STEPS, READ, "b", 0, WIDE_BLOCK},
    {"steps: 24-bit write behind a short block", STEPS, WRITE, "w", 0, 1},
    {"steps: 24-bit write block behind a short block", STEPS, WRITE, "b", 0, WIDE_BLOCK},
};

/* The call is given the answer that closes the block, and then the replies. */
static const struct test_case closing[] = {
    {"step: block closed, 24-bit read next", STEP, READ, "w", 0, 0},
    {"step: block closed, literal next", STEP, READ, "l", 0, 0},
    {"step: block closed, 24-bit write next", STEP, WRITE, "w", 0, 0},
    {"steps: block closed, literal next", STEPS, READ, "l", 0, 0},
    {"steps: block closed, 24-bit read", STEPS, READ, "w", 0, 1},
    {"steps: block closed, 24-bit write", STEPS, WRITE, "w", 0, 1},
};

/* Pairs whose traces must differ: words of 16 and of 24 bits. */
static const struct test_case different[][2] = {
    {{"step: reads of 16 and 24 bits", STEP, READ, "n", 0, 1}, {"", STEP, READ, "w", 0, 1}},
    {{"steps: reads of 16 and 24 bits", STEPS, READ, "n", 0, 1}, {"", STEPS, READ, "w", 0, 1}},
    {{"run: reads of 16 and 24 bits", RUN, READ, "n", 0, 1}, {"", RUN, READ, "w", 0, 1}},
};

/* Traces ---------------------------------------------------------------------------------------------------------------------------------- */

struct trace {
    uintptr_t at[LONGEST];
    size_t length;
};

static struct trace traces[2], *tracing;

/* The linker's: between them lies this program with the library, and the C library does not. */
extern const char __executable_start[], etext[];

/* After each instruction while the trap flag is set; the flag is clear in here. */
static void on_trap(int number, siginfo_t *info, void *context)
{
    const ucontext_t *stopped = context;
    uintptr_t at = (uintptr_t)stopped->uc_mcontext.gregs[REG_RIP];

    (void)number;
    (void)info;
    if (at < (uintptr_t)__executable_start || at >= (uintptr_t)etext) {
        return;
    }
    if (tracing->length == LONGEST) {
        abort();
    }
    tracing->at[tracing->length++] = at;
}

/* The linker gives the library this memset, which is not traced: 8 KiB, a trap for each byte. */
void *__real_memset(void *to, int byte, size_t length);
void *__wrap_memset(void *to, int byte, size_t length);

void *__wrap_memset(void *to, int byte, size_t length)
{
    unsigned long long flags = __readeflags();

    __writeeflags(flags & ~(unsigned long long)TRAP_FLAG);
    __real_memset(to, byte, length);
    __writeeflags(flags);
    return to;
}

/* Calls ----------------------------------------------------------------------------------------------------------------------------------- */

static uint8_t list_room[LIST_ROOM], row_room[MOST_REPLIES * CAMLIST_REPLY_BYTES], incoming[BUFFER], outgoing[BUFFER];
static camlist_bytes list, row;
static enum first_block first_block;
static uint64_t record[CAMLIST_RECORD_NUMBERS], answer[CAMLIST_RUN_NUMBERS];

/* A letter for each: a single of 16 bits (n) or 24 (w), a block of 24-bit words (b), the same as a scan (s), enhanced (e) or by the list
   sequencer (q), a literal (l). */
static void put_between(const char *between, unsigned f)
{
    for (; *between; between++) {
        switch (*between) {
        case 'n': camlist_put_single(&list, CRATE, STATION, 0, f, CAMLIST_STOP | CAMLIST_16_BIT); break;
        case 'w': camlist_put_single(&list, CRATE, STATION, 0, f, CAMLIST_STOP); break;
        case 'b': camlist_put_block(&list, CRATE, STATION, 0, f, CAMLIST_STOP, WIDE_BLOCK); break;
        case 'e': camlist_put_enhanced(&list, CRATE, STATION, 0, f, CAMLIST_STOP, WIDE_BLOCK); break;
        case 'q': camlist_put_sequencer(&list, CRATE, f == READ ? 0 : 2, 0, WIDE_BLOCK); break;
        case 's': camlist_put_block(&list, CRATE, STATION, 0, f, CAMLIST_SCAN, SCAN_WORDS); break;
        case 'l': camlist_put_literal(&list, 0xAABBCCDDu); break;
        default: abort();
        }
    }
}

static void put_list(const struct test_case *of, unsigned first)
{
    int is_whole = first_block == WHOLE;

    list = (camlist_bytes){list_room, sizeof list_room, 0, 0};
    camlist_put_head(&list, TRY_LIMIT);
    camlist_put_block(&list, CRATE, STATION, 0, of->f, CAMLIST_STOP | CAMLIST_16_BIT, is_whole ? first : ASKED);
    put_between(of->between, of->f);
    camlist_put_block(&list, CRATE, STATION, 0, of->f, CAMLIST_STOP | CAMLIST_16_BIT, is_whole ? ODD + EVEN - first : ODD);
    camlist_put_halt(&list);
}

/* Words, an answer that closes a block or none, words. */
static void put_row(unsigned words, int is_closed, unsigned more)
{
    row = (camlist_bytes){row_room, sizeof row_room, 0, 0};
    while (words-- > 0) {
        camlist_put_answer(&row, CLEAN, 0x563412);
    }
    if (is_closed) {
        camlist_put_answer(&row, CAMLIST_X, 0x999999);
    }
    while (more-- > 0) {
        camlist_put_answer(&row, CLEAN, 0x563412);
    }
}

static void check(int is_right, const struct test_case *of, const char *what)
{
    if (!is_right) {
        printf("%s: %s\n", of->name, what);
        exit(1);
    }
}

static void check_taken(const struct test_case *of)
{
    check(!list.failed && !row.failed, of, "too little room");
    check(answer[CAMLIST_NUMBER] == CAMLIST_NOT_REFUSED, of, camlist_refusal_text(answer[CAMLIST_NUMBER]));
}

/* A run over the first block and the replies `before`. A scan is put at its last position: that record fits too. */
static void begin(const struct test_case *of, unsigned first)
{
    int mark = of->f == READ ? CAMLIST_RECORD_INCOMING_MARK : CAMLIST_RECORD_OUTGOING_MARK;
    int is_behind_first = first_block == CLOSING || (of->before == 0 && of->between[0] != 'l');

    put_list(of, first);
    put_row(first, first_block == CLOSED, of->before);
    camlist_start(list.bytes, list.length, incoming, sizeof incoming, outgoing, sizeof outgoing, record, answer);
    check_taken(of);
    camlist_steps(list.bytes, list.length, record, incoming, sizeof incoming, outgoing, sizeof outgoing, row.bytes, row.length, answer);
    check_taken(of);
    check(!is_behind_first || record[mark] == 2 * first, of, "another mark");
    if (of->between[0] == 's') {
        record[CAMLIST_RECORD_N] = 23;
        record[CAMLIST_RECORD_A] = 15;
    }
}

/* The call of a case, with so many words in the first block. */
static void trace_call(const struct test_case *of, unsigned first, struct trace *trace)
{
    begin(of, first);
    trace->length = 0;
    tracing = trace;
    put_row(of->kind == RUN ? ODD + EVEN : 0, first_block == CLOSING, of->replies);
    __writeeflags(__readeflags() | TRAP_FLAG);
    switch (of->kind) {
    case ADMIT: camlist_admit(list.bytes, list.length, sizeof incoming, sizeof outgoing, answer); break;
    case STEP:
        camlist_step(list.bytes, list.length, record, incoming, sizeof incoming, outgoing, sizeof outgoing, row.bytes, row.length, answer);
        break;
    case STEPS:
        camlist_steps(list.bytes, list.length, record, incoming, sizeof incoming, outgoing, sizeof outgoing, row.bytes, row.length, answer);
        break;
    case RUN:
        camlist_run(list.bytes, list.length, incoming, sizeof incoming, outgoing, sizeof outgoing, row.bytes, row.length, answer);
        break;
    }
    __writeeflags(__readeflags() & ~(unsigned long long)TRAP_FLAG);
    check_taken(of);
    check(trace->length >= SHORTEST, of, "no trace");
}

/* Comparison ------------------------------------------------------------------------------------------------------------------------------ */

static int by_address(const void *a, const void *b)
{
    uintptr_t one = *(const uintptr_t *)a, other = *(const uintptr_t *)b;

    return (one > other) - (one < other);
}

/* Whether both traces are the same; where not, the last address before they part. */
static int is_same(const char *name)
{
    const struct trace *a = &traces[0], *b = &traces[1];
    size_t at = 0;

    while (at < a->length && at < b->length && a->at[at] == b->at[at]) {
        at++;
    }
    printf("%-46s %5zu and %5zu instructions, ", name, a->length, b->length);
    if (at == a->length && at == b->length) {
        printf("the same\n");
        return 1;
    }
    printf("parted behind %#lx\n", at == 0 ? 0ul : (unsigned long)a->at[at - 1]);
    return 0;
}

static int compare(const struct test_case *a, unsigned first, const struct test_case *b, unsigned other)
{
    int i;

    trace_call(a, first, &traces[0]);
    trace_call(b, other, &traces[1]);
    for (i = 0; i < 2 && a->kind == RUN; i++) {
        qsort(traces[i].at, traces[i].length, sizeof traces[i].at[0], by_address);
    }
    return is_same(a->name);
}

/* How many of some cases are not as they must be. */
static int compare_all(enum first_block of, const struct test_case *some, size_t count)
{
    size_t i;
    int wrong = 0;

    first_block = of;
    for (i = 0; i < count; i++) {
        wrong += !compare(&some[i], ODD, &some[i], EVEN);
    }
    return wrong;
}

int main(void)
{
    struct sigaction action = {0};
    size_t i;
    int wrong = 0;

    action.sa_sigaction = on_trap;
    action.sa_flags = SA_SIGINFO;
    sigaction(SIGTRAP, &action, NULL);
    wrong += compare_all(CLOSED, behind_closed, sizeof behind_closed / sizeof behind_closed[0]);
    wrong += compare_all(CLOSING, closing, sizeof closing / sizeof closing[0]);
    wrong += compare_all(WHOLE, cases, sizeof cases / sizeof cases[0]);
    for (i = 0; i < sizeof different / sizeof different[0]; i++) {
        wrong += compare(&different[i][0], EVEN, &different[i][1], EVEN);
    }
    return wrong != 0;
}
