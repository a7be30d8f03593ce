/*
 * The crate list engine for hosts in C and C++. docs/MANUAL.md has the rules: lists, replies, packing, status, refusals, and what an adapter does.
 * examples/c/drive.c is the shortest host, and examples/crate is a simulated crate to try one on. The rules are document 01's with requests E1, E2,
 * E3, E4, E8, E9 and E10 of document 02.
 * Link libhost.a, which `tools/build host` makes for x86-64 Linux; every function that is declared and not defined here is proved.
 *
 * Which call. camlist_admit says whether a list is well formed and what it can need. A host that drives a crate calls camlist_start, makes the
 * operation that its answer wants, gives the reply to camlist_step, and so on until the record has ended. A host whose replies come many at a
 * time (an adapter's FIFO) gives them to camlist_steps, which goes on from a record as camlist_step does. camlist_run is start and all replies in
 * one call: it begins at the list's start each time, and camlist_step goes on from the record in its answer. camlist_to_binary and
 * camlist_to_decimal convert words that were stored, and take no list. camlist_demand_add and camlist_demand_row keep the demands that crates send
 * while a list runs, camlist_demand_take yields the oldest and camlist_demand_clear drops them all: they take a queue alone.
 *
 * Cost. Every call on a list reads the whole of it and follows its walk anew: a step takes some 10,000 instructions for a short list and 0.6 million
 * for one of 4,000 fields. For many replies prefer camlist_steps or camlist_run, which read it once and take some 10 to 700 instructions a reply. A
 * row of scalers is gone over twice, once to judge it and once to convert it: some 10 to 16 instructions a longword of a long row. A demand takes
 * some 40 instructions to add and to take, 17 in a long row.
 *
 * Arguments. A slice is a pointer and its length in bytes; NULL is fine where the length is 0. Byte slices need no alignment, arrays of uint64_t
 * that of uint64_t; arrays may not be NULL. What a call writes (`incoming`, `record`, `answer`, `name`, a row of scalers, a queue) overlaps no
 * other argument; slices that are only read may overlap each other. Nothing is kept between calls, so that threads may call at once, each with
 * buffers of its own: a queue to which an interrupt or another thread adds while this one takes wants a lock. A call takes up to 10 KiB of stack,
 * never allocates, never blocks and always returns: no list, record, reply, row or queue, however wrong, makes it do anything but refuse.
 *
 * Versions. The names below stand for symbols with the version in them: an object that was compiled with the header of another version does
 * not link. Name the sizes of arrays by their constants. Version 2: the operation wanted has a sixth number, "enhanced", so that the answers of
 * camlist_start, camlist_step and camlist_steps are one number longer. E9 came within version 2: a stored 24-bit word's top byte was zero before it.
 * So did E8: before it Q = 0 ended the run with code 7 in a stop block too. A record that was kept before E8 goes on by its rule. So did E10, which
 * adds two calls and changes none. So did E2, which adds four calls and changes none.
 */
#ifndef CAMLIST_H
#define CAMLIST_H

#include <stddef.h>
#include <stdint.h>
#include <string.h>

#ifdef __cplusplus
extern "C" {
#endif

#define CAMLIST_VERSION 2

#define camlist_admit camlist_admit_v2
#define camlist_start camlist_start_v2
#define camlist_step camlist_step_v2
#define camlist_steps camlist_steps_v2
#define camlist_run camlist_run_v2
#define camlist_code_name camlist_code_name_v2
#define camlist_to_binary camlist_to_binary_v2
#define camlist_to_decimal camlist_to_decimal_v2
#define camlist_demand_add camlist_demand_add_v2
#define camlist_demand_row camlist_demand_row_v2
#define camlist_demand_take camlist_demand_take_v2
#define camlist_demand_clear camlist_demand_clear_v2

/* An answer is one of two things: the numbers that a call writes into its array `answer`, or, where Q, X, flags or words of an answer are meant, a
   crate's reply of kind 0. Every answer of a call begins with these two. After a refusal the numbers behind them are 0, but for a refused run's
   record, which has ended. */
#define CAMLIST_NUMBER 0 /* 0 not refused, else the refusal */
#define CAMLIST_PLACE 1  /* offset in the list of the refused field's first byte; of refusal 32 that of the longword in its row; else 0 */

/* The numbers of camlist_admit's answer. */
#define CAMLIST_ADMIT_WORST 2    /* W, the most operations that a run can make */
#define CAMLIST_ADMIT_INCOMING 3 /* B, the most incoming bytes that a run can store */
#define CAMLIST_ADMIT_OUTGOING 4 /* O, the most outgoing bytes that a run can take */
#define CAMLIST_ADMIT_NUMBERS 5

/* The numbers of the answers of camlist_start and camlist_step: the operation wanted next. All six are 0 once the run has ended.
   An enhanced operation is one word of an enhanced block, by enhanced messages: such a message makes many operations in its crate, a standard one
   makes one. An adapter or crate controller without them cannot run lists with transfer mode 2. No refusal and no reply says so: look for mode 2
   before camlist_start. Enhanced with F 12 is the list sequencer: A 0 and 1 read, A 2 and 3 write, although F 12 else is control. */
#define CAMLIST_CALL_CRATE 2
#define CAMLIST_CALL_N 3 /* station */
#define CAMLIST_CALL_A 4 /* subaddress */
#define CAMLIST_CALL_F 5 /* function: with its 8-bit set control, the sequencer aside; else a write where its 16-bit is set, else a read */
#define CAMLIST_CALL_DATA 6
#define CAMLIST_CALL_ENHANCED 7 /* 1 enhanced, else 0 */
#define CAMLIST_CALL_NUMBERS 8

/* The numbers of camlist_steps's answer. */
#define CAMLIST_STEPS_TAKEN 2 /* replies taken; those past the run's end are not */
#define CAMLIST_STEPS_CRATE 3 /* the operation wanted next, as above */
#define CAMLIST_STEPS_N 4
#define CAMLIST_STEPS_A 5
#define CAMLIST_STEPS_F 6
#define CAMLIST_STEPS_DATA 7
#define CAMLIST_STEPS_ENHANCED 8
#define CAMLIST_STEPS_NUMBERS 9

/* The numbers of camlist_run's answer. */
#define CAMLIST_RUN_TAKEN 2  /* as of camlist_steps */
#define CAMLIST_RUN_RECORD 3 /* from here on the record, which camlist_step takes: answer + CAMLIST_RUN_RECORD */
#define CAMLIST_RUN_NUMBERS 16

/* The answers of camlist_to_binary and camlist_to_decimal have number and place alone. */
#define CAMLIST_SCALERS_NUMBERS 2

/* The numbers of the answers of camlist_demand_add, camlist_demand_row and camlist_demand_clear: the queue after the call. */
#define CAMLIST_DEMAND_WAITING 2  /* how many demands wait, up to 2,048 */
#define CAMLIST_DEMAND_OVERFLOW 3 /* 1 if one was dropped since the last camlist_demand_clear, else 0 */
#define CAMLIST_DEMAND_NUMBERS 4

/* The numbers of camlist_demand_take's answer, behind the two above. */
#define CAMLIST_TAKE_FOUND 4 /* 1 a demand was taken, 0 none waited: then the next two are 0 */
#define CAMLIST_TAKE_CRATE 5
#define CAMLIST_TAKE_SGL 6
#define CAMLIST_TAKE_NUMBERS 7

/* The numbers of a record: the state of a run. A host keeps them between calls, and need not look at them. */
#define CAMLIST_RECORD_ENDED 0         /* 1 ended, 0 waiting for a reply */
#define CAMLIST_RECORD_INSTRUCTION 1   /* the instruction that waits, or that ended the run */
#define CAMLIST_RECORD_WORDS_LEFT 2    /* of that instruction, at most: Q = 0 may close a stop block; 0 after the end, as the next three */
#define CAMLIST_RECORD_TRIES 3         /* made in vain for the current word, in repeat */
#define CAMLIST_RECORD_N 4             /* current station */
#define CAMLIST_RECORD_A 5             /* current subaddress */
#define CAMLIST_RECORD_INCOMING_MARK 6 /* incoming bytes used so far; after a halt B, or less if blocks were short */
#define CAMLIST_RECORD_OUTGOING_MARK 7 /* outgoing bytes used so far; after a halt O, or less */
#define CAMLIST_RECORD_OPERATIONS 8    /* operations made */
#define CAMLIST_RECORD_STATUS 9        /* CAMLIST_STATUS_*, and the code in bits 31 to 28 */
#define CAMLIST_RECORD_NOTE_BUFFER 10  /* where the last moved word lies: 0 incoming, 1 outgoing, */
#define CAMLIST_RECORD_NOTE_OFFSET 11  /* its offset there */
#define CAMLIST_RECORD_NOTE_LENGTH 12  /* and its length; 0 while none was moved */
#define CAMLIST_RECORD_NUMBERS 13

/* Refusals, in the order in which they are judged: fields front to back, each by 1 to 9, then the others. 1 to 10 have the place of their field.
   25 is that of the calls on a queue of demands. 31 and 32 are those of a row of scalers, longwords front to back; 32 has the place of its
   longword. */
#define CAMLIST_NOT_REFUSED 0
#define CAMLIST_REFUSED_CUT 1           /* a field's head or body runs past the end of the list */
#define CAMLIST_REFUSED_FIRST 2         /* no field, or a first field that is not format 1 with a try limit */
#define CAMLIST_REFUSED_TOO_MANY 5      /* instruction 4,097 */
#define CAMLIST_REFUSED_TAG 3           /* unknown tag, or a second first field */
#define CAMLIST_REFUSED_LENGTH 4        /* length wrong for its tag */
#define CAMLIST_REFUSED_ZERO_BIT 6      /* a zero bit of a CAMAC word is set */
#define CAMLIST_REFUSED_ADDRESS 7       /* crate not 1 to 62, N not 1 to 23 or 30, or a scan (the sequencer is none) at N 30 */
#define CAMLIST_REFUSED_MODE 8          /* length not the mode's; block with control; inline not write; enhanced: control, a repeat write, or
                                           a sequencer other than N 30, F 12, A 0 to 3 */
#define CAMLIST_REFUSED_COUNT_OR_DATA 9 /* the count of a block, enhanced or not; a scan past its positions; or inline data above the word size */
#define CAMLIST_REFUSED_JUMP 10         /* a jump's target is not an instruction */
#define CAMLIST_REFUSED_WALK 11         /* the walk repeats or passes the last field */
#define CAMLIST_REFUSED_INCOMING 20     /* incoming buffer shorter than B */
#define CAMLIST_REFUSED_OUTGOING 21     /* outgoing buffer shorter than O */
#define CAMLIST_REFUSED_ENDED 24        /* the record's first number is not 0: its run has ended */
#define CAMLIST_REFUSED_RECORD 23       /* the record does not fit the list, or one of its numbers is too wide for its part; its marks
                                           fit if even and not above those of a run in which no block is short */
#define CAMLIST_REFUSED_REPLY 22        /* a reply, or one anywhere in a row, is not well formed; or the row is no multiple of 8 bytes */
#define CAMLIST_REFUSED_DEMAND 25       /* a queue breaks a limit: its length, its first cell, how many wait, its mark; a demand's crate is not
                                           1 to 62; or a row of demands has odd length */
#define CAMLIST_REFUSED_ROW_LENGTH 31   /* a row of scalers is no multiple of 4 bytes */
#define CAMLIST_REFUSED_SCALER 32       /* a longword has a bit of 29 to 24 set; or, to binary, a digit above 9, to decimal a value above 999,999 */

/* Codes of the status: why a run ended. */
#define CAMLIST_CODE_NO_ERROR 0x0        /* halt, whether or not blocks were short */
#define CAMLIST_CODE_ILLEGAL_COMMAND 0x1 /* never: admission refuses such lists */
#define CAMLIST_CODE_SERIAL_ERROR 0x4    /* a command that reached its crate damaged: ERR with X = 1 and AD = 0 */
#define CAMLIST_CODE_NO_Q 0x7            /* Q = 0 in stop, of a single or an inline write; it closes a stop block */
#define CAMLIST_CODE_NO_X 0x8            /* X = 0 with AD = 0, not in scan */
#define CAMLIST_CODE_N_ABOVE_23 0x9      /* a scan left station 23 */
#define CAMLIST_CODE_STE 0xA             /* parity error (TPE or LPE) with AD = 0 */
#define CAMLIST_CODE_TIMEOUT 0xB         /* timeout, or tries spent in repeat */
#define CAMLIST_CODE_ADNR 0xC            /* address not recognised */
#define CAMLIST_CODE_NO_SYNC 0xD         /* no sync */

/* Bits of the status. Those of answers gather over the run. */
#define CAMLIST_STATUS_DERR 0x04000000u           /* 26: delayed error */
#define CAMLIST_STATUS_TIMEOUT 0x02000000u        /* 25: timeout or tries spent */
#define CAMLIST_STATUS_NO_SYNC 0x01000000u        /* 24 */
#define CAMLIST_STATUS_ERR 0x00800000u            /* 23 */
#define CAMLIST_STATUS_SCAN_LEFT 0x00400000u      /* 22: scan left station 23, even under a greater code */
#define CAMLIST_STATUS_LPE 0x00200000u            /* 21: longitudinal parity error */
#define CAMLIST_STATUS_TPE 0x00100000u            /* 20: transverse parity error */
#define CAMLIST_STATUS_NOT_RECOGNISED 0x00080000u /* 19 */
#define CAMLIST_STATUS_TRANSMISSION 0x00040000u   /* 18: TPE, LPE or ERR */
#define CAMLIST_STATUS_NO_X 0x00020000u           /* 17: X = 0 */
#define CAMLIST_STATUS_NO_Q 0x00010000u           /* 16: Q = 0, of an answer that closed a block too */
#define CAMLIST_STATUS_ENDED 0x00000080u          /* 7 */

/* The calls -------------------------------------------------------------------------------------------------------------------------------- */

/* Whether the list is well formed and fits buffers of these two lengths, which need not exist, and what it can need at most. With UINT64_MAX for both
   lengths no buffer is too short. */
void camlist_admit(const uint8_t *list, size_t list_len, uint64_t incoming_len, uint64_t outgoing_len,
                   uint64_t answer[CAMLIST_ADMIT_NUMBERS]);

/* Starts a run: to its first operation or its end. Refused, it leaves `incoming` as it is and a record that has ended with status 0, so that its code
   reads 0, as after a halt. So look at answer[CAMLIST_NUMBER] first: if it is not 0, number and place say why, and the record's code says
   nothing. */
void camlist_start(const uint8_t *list, size_t list_len, uint8_t *incoming, size_t incoming_len, const uint8_t *outgoing, size_t outgoing_len,
                   uint64_t record[CAMLIST_RECORD_NUMBERS], uint64_t answer[CAMLIST_CALL_NUMBERS]);

/* Takes one reply of 8 bytes. List and buffers are those of the start. Refused, it leaves the record and `incoming` as they are. */
void camlist_step(const uint8_t *list, size_t list_len, uint64_t record[CAMLIST_RECORD_NUMBERS], uint8_t *incoming, size_t incoming_len,
                  const uint8_t *outgoing, size_t outgoing_len, const uint8_t *reply, size_t reply_len,
                  uint64_t answer[CAMLIST_CALL_NUMBERS]);

/* Takes replies, 8 bytes each, until the run ends or they run out; else as camlist_step. A row of none takes none and says what is wanted. */
void camlist_steps(const uint8_t *list, size_t list_len, uint64_t record[CAMLIST_RECORD_NUMBERS], uint8_t *incoming, size_t incoming_len,
                   const uint8_t *outgoing, size_t outgoing_len, const uint8_t *replies, size_t replies_len,
                   uint64_t answer[CAMLIST_STEPS_NUMBERS]);

/* Starts a run and takes replies until it ends or they run out. Refused, it leaves `incoming` as it is, and its record is that of a refused start. */
void camlist_run(const uint8_t *list, size_t list_len, uint8_t *incoming, size_t incoming_len, const uint8_t *outgoing, size_t outgoing_len,
                 const uint8_t *replies, size_t replies_len, uint64_t answer[CAMLIST_RUN_NUMBERS]);

/* Many scalers give six decimal digits in a 24-bit word, the highest in bits 23 to 20. `row` is a part of a buffer that holds such words' longwords
   and nothing else; what lies around it stays. camlist_to_binary puts into bits 23 to 0 of each, camlist_word_data, the number that its digits stand
   for, 0 to 999,999. Bits 31 and 30, Q and X, stay. Refused, 31 or 32, it leaves the whole row as it is, longwords before the one refused too. A row
   of none passes. */
void camlist_to_binary(uint8_t *row, size_t row_len, uint64_t answer[CAMLIST_SCALERS_NUMBERS]);

/* The same from numbers to digits. What either of the two converts, the other converts back. */
void camlist_to_decimal(uint8_t *row, size_t row_len, uint64_t answer[CAMLIST_SCALERS_NUMBERS]);

/* A crate that wants attention sends a demand: its number, 1 to 62, and an SGL byte, its graded look-at-me signals. A queue of yours keeps up to
   2,048, the oldest out first. It is CAMLIST_QUEUE_BYTES bytes, all zero to begin with: 2,048 cells of crate and SGL; the number of the oldest's
   cell, 0 to 2,047; how many wait, 0 to 2,048 (two bytes each, low byte first); and the overflow mark, 0 or 1. Every call asks for these limits,
   but of a cell any two bytes do. Refused, 25 with place 0, it leaves the queue as it is. */
#define CAMLIST_QUEUE_BYTES 4101

/* Adds a demand behind the others. If 2,048 wait it is dropped, and the overflow mark set, which only camlist_demand_clear takes off. */
void camlist_demand_add(uint8_t *queue, size_t queue_len, uint8_t crate, uint8_t sgl, uint64_t answer[CAMLIST_DEMAND_NUMBERS]);

/* Adds the demands of a row, crate and SGL of each, as single calls would, one after the other. Refused for any of them, it adds none. A row of
   none passes. */
void camlist_demand_row(uint8_t *queue, size_t queue_len, const uint8_t *row, size_t row_len, uint64_t answer[CAMLIST_DEMAND_NUMBERS]);

/* Takes the oldest demand. The overflow mark stays. */
void camlist_demand_take(uint8_t *queue, size_t queue_len, uint64_t answer[CAMLIST_TAKE_NUMBERS]);

/* Drops all that wait and takes the overflow mark off. */
void camlist_demand_clear(uint8_t *queue, size_t queue_len, uint64_t answer[CAMLIST_DEMAND_NUMBERS]);

/* The name of a code as the driver manual has it, filled with blanks; all blanks for a number above 15. */
#define CAMLIST_NAME_BYTES 16
void camlist_code_name(uint64_t code, uint8_t name[CAMLIST_NAME_BYTES]);

/* Texts ------------------------------------------------------------------------------------------------------------------------------------ */

/* The code of a status. */
static inline unsigned camlist_code(uint64_t status)
{
    return (unsigned)(status >> 28) & 15u;
}

/* The name of a code as a string, in 17 bytes of yours. */
static inline const char *camlist_code_text(uint64_t code, char text[CAMLIST_NAME_BYTES + 1])
{
    uint8_t name[CAMLIST_NAME_BYTES];
    size_t length = CAMLIST_NAME_BYTES;

    camlist_code_name(code, name);
    while (length > 0 && name[length - 1] == ' ') {
        length--;
    }
    memcpy(text, name, length);
    text[length] = '\0';
    return text;
}

/* A refusal in words. */
static inline const char *camlist_refusal_text(uint64_t number)
{
    switch (number) {
    case CAMLIST_NOT_REFUSED: return "not refused";
    case CAMLIST_REFUSED_CUT: return "a field runs past the end of the list";
    case CAMLIST_REFUSED_FIRST: return "the first field is missing or wrong";
    case CAMLIST_REFUSED_TAG: return "unknown tag, or a second first field";
    case CAMLIST_REFUSED_LENGTH: return "length wrong for its tag";
    case CAMLIST_REFUSED_TOO_MANY: return "more than 4,096 instructions";
    case CAMLIST_REFUSED_ZERO_BIT: return "a bit that must be zero is set";
    case CAMLIST_REFUSED_ADDRESS: return "no such crate or station";
    case CAMLIST_REFUSED_MODE: return "transfer mode does not go with its length, Q-mode, address or function";
    case CAMLIST_REFUSED_COUNT_OR_DATA: return "wrong word count or inline data";
    case CAMLIST_REFUSED_JUMP: return "jump to no instruction";
    case CAMLIST_REFUSED_WALK: return "the list comes to no halt";
    case CAMLIST_REFUSED_INCOMING: return "incoming buffer too short";
    case CAMLIST_REFUSED_OUTGOING: return "outgoing buffer too short";
    case CAMLIST_REFUSED_REPLY: return "a reply is not well formed";
    case CAMLIST_REFUSED_RECORD: return "the record does not fit the list";
    case CAMLIST_REFUSED_ENDED: return "the run has ended";
    case CAMLIST_REFUSED_DEMAND: return "no queue of demands, a crate that is not 1 to 62, or half a demand";
    case CAMLIST_REFUSED_ROW_LENGTH: return "the row is not whole longwords";
    case CAMLIST_REFUSED_SCALER: return "a longword has a bit of 29 to 24, a digit above 9 or a value above 999,999";
    default: return "unknown refusal";
    }
}

/* What was stored is read ------------------------------------------------------------------------------------------------------------------ */

/* A 24-bit word that was read is a longword of the incoming buffer: its data, and Q and X of the answer that brought it; bits 29 to 24 are zero.
   X is 0 only with AD = 1 and never in scan, Q is 0 only in ignore mode and from the list sequencer. This is not so of a 16-bit word, which is
   two bytes of data, low byte first, nor of a literal, which is the longword that the list has. */
#define CAMLIST_WORD_Q 0x80000000u    /* 31 */
#define CAMLIST_WORD_X 0x40000000u    /* 30 */
#define CAMLIST_WORD_DATA 0x00FFFFFFu /* 23 to 0 */

/* The longword of four bytes of a buffer, low byte first on every host. A 24-bit word or a literal lies at a multiple of 4. */
static inline uint32_t camlist_longword(const uint8_t bytes[4])
{
    return bytes[0] | (uint32_t)bytes[1] << 8 | (uint32_t)bytes[2] << 16 | (uint32_t)bytes[3] << 24;
}

/* Of a 24-bit word's longword: its data, and 1 or 0 for Q and for X. */
static inline uint32_t camlist_word_data(uint32_t longword)
{
    return longword & CAMLIST_WORD_DATA;
}

static inline int camlist_word_q(uint32_t longword)
{
    return (longword & CAMLIST_WORD_Q) != 0;
}

static inline int camlist_word_x(uint32_t longword)
{
    return (longword & CAMLIST_WORD_X) != 0;
}

/* Lists and rows of replies are written --------------------------------------------------------------------------------------------------- */

/* Bytes of yours and how many of them are used. Each camlist_put_.. below puts its bytes behind those and returns 1, or puts nothing and returns 0:
   where they have no room, where a part is too wide for its bits, and once one has failed. So a whole list may be put and `failed` looked at once.
   Only widths are asked here; whether a list is right, camlist_admit says.
   Begin with: camlist_bytes list = {room, sizeof room, 0, 0}; then list.bytes and list.length are what the calls take. */
typedef struct camlist_bytes {
    uint8_t *bytes;
    size_t room;
    size_t length;
    int failed;
} camlist_bytes;

/* Q-mode, word size and AD of an instruction, joined by |. Without one of the first four it is stop, without CAMLIST_16_BIT 24-bit. */
#define CAMLIST_STOP 0x00u
#define CAMLIST_IGNORE 0x08u
#define CAMLIST_REPEAT 0x10u
#define CAMLIST_SCAN 0x18u
#define CAMLIST_16_BIT 0x02u
#define CAMLIST_ABORT_DISABLE 0x01u

/* Flags of an answer, joined by |. */
#define CAMLIST_Q 0x01u
#define CAMLIST_X 0x02u
#define CAMLIST_ERR 0x04u
#define CAMLIST_DERR 0x08u
#define CAMLIST_TPE 0x10u
#define CAMLIST_LPE 0x20u

#define CAMLIST_REPLY_BYTES 8

/* For the functions below: a field of a list, its body up to two longwords low byte first. */
static inline int camlist_put_field(camlist_bytes *list, unsigned tag, unsigned size, uint32_t first, uint32_t second, int is_right)
{
    unsigned at;

    if (list->failed || !is_right || list->room - list->length < 3u + size) {
        list->failed = 1;
        return 0;
    }
    list->bytes[list->length++] = (uint8_t)tag;
    list->bytes[list->length++] = (uint8_t)size;
    list->bytes[list->length++] = 0;
    for (at = 0; at < size; at++) {
        list->bytes[list->length++] = (uint8_t)((at < 4 ? first : second) >> (at % 4 * 8));
    }
    return 1;
}

static inline int camlist_put_camac(camlist_bytes *list, unsigned size, unsigned mode, unsigned crate, unsigned n, unsigned a, unsigned f,
                                    unsigned options, uint32_t second, int is_right)
{
    uint32_t first = (uint32_t)n << 25 | (uint32_t)a << 21 | (uint32_t)f << 16 | (uint32_t)crate << 8 | mode << 5 | options;

    is_right = is_right && crate < 64 && n < 32 && a < 16 && f < 32 && options < 32 && !(options & 4u);
    return camlist_put_field(list, 0x10, size, first, second, is_right);
}

/* The first field of every list: the try limit R, 1 to 65,535. */
static inline int camlist_put_head(camlist_bytes *list, unsigned try_limit)
{
    return camlist_put_field(list, 0x01, 4, 1u | (uint32_t)try_limit << 16, 0, try_limit < 65536u);
}

/* One word, read or written, or control. */
static inline int camlist_put_single(camlist_bytes *list, unsigned crate, unsigned n, unsigned a, unsigned f, unsigned options)
{
    return camlist_put_camac(list, 4, 0, crate, n, a, f, options, 0, 1);
}

/* For the functions below: a block in transfer mode 1 or 2. */
static inline int camlist_put_words(camlist_bytes *list, unsigned mode, unsigned crate, unsigned n, unsigned a, unsigned f, unsigned options,
                                    uint32_t words, int is_right)
{
    uint32_t halfwords = options & CAMLIST_16_BIT ? words : 2u * words;

    return camlist_put_camac(list, 8, mode, crate, n, a, f, options, 0u - halfwords, is_right && words <= 65536u);
}

/* A block of words: up to 65,536 of 16 bits, 32,768 of 24. In stop they may be fewer: an answer with Q = 0 and no cause to end the run closes the
   block. That word is not moved, bit 16 of the status is set, and the list goes on at the marks reached. */
static inline int camlist_put_block(camlist_bytes *list, unsigned crate, unsigned n, unsigned a, unsigned f, unsigned options, uint32_t words)
{
    return camlist_put_words(list, 1, crate, n, a, f, options, words, 1);
}

/* The same as an enhanced block: stop, which Q = 0 closes too, ignore, or repeat for reads. */
static inline int camlist_put_enhanced(camlist_bytes *list, unsigned crate, unsigned n, unsigned a, unsigned f, unsigned options, uint32_t words)
{
    return camlist_put_words(list, 2, crate, n, a, f, options, words, 1);
}

/* Words by one of the list sequencer's lists: 0 and 1 read, 2 and 3 write. Of the options, word size and AD count; its Q-mode is its own. */
static inline int camlist_put_sequencer(camlist_bytes *list, unsigned crate, unsigned number, unsigned options, uint32_t words)
{
    return camlist_put_words(list, 2, crate, 30, number, 12, 3u << 3 | options, words, number < 4);
}

/* A write whose data stands in the list. */
static inline int camlist_put_inline(camlist_bytes *list, unsigned crate, unsigned n, unsigned a, unsigned f, unsigned options, uint32_t data)
{
    return camlist_put_camac(list, 8, 3, crate, n, a, f, options, data, 1);
}

/* On with the instruction of this number; the first behind the head is number 0. */
static inline int camlist_put_jump(camlist_bytes *list, unsigned target)
{
    return camlist_put_field(list, 0x20, 2, target, 0, target < 65536u);
}

/* A longword for the incoming buffer. */
static inline int camlist_put_literal(camlist_bytes *list, uint32_t longword)
{
    return camlist_put_field(list, 0x21, 4, longword, 0, 1);
}

static inline int camlist_put_halt(camlist_bytes *list)
{
    return camlist_put_field(list, 0x2F, 0, 0, 0, 1);
}

/* For the functions below: a reply. */
static inline int camlist_put_reply(camlist_bytes *row, unsigned kind, unsigned flags, uint32_t data)
{
    uint8_t *reply;

    if (row->failed || flags > 63u || data >> 24 || row->room - row->length < CAMLIST_REPLY_BYTES) {
        row->failed = 1;
        return 0;
    }
    reply = row->bytes + row->length;
    reply[0] = (uint8_t)kind;
    reply[1] = (uint8_t)flags;
    reply[2] = reply[3] = reply[7] = 0;
    reply[4] = (uint8_t)data;
    reply[5] = (uint8_t)(data >> 8);
    reply[6] = (uint8_t)(data >> 16);
    row->length += CAMLIST_REPLY_BYTES;
    return 1;
}

/* An answer with its flags and 24 bits of data. */
static inline int camlist_put_answer(camlist_bytes *row, unsigned flags, uint32_t data)
{
    return camlist_put_reply(row, 0, flags, data);
}

static inline int camlist_put_timeout(camlist_bytes *row)
{
    return camlist_put_reply(row, 1, 0, 0);
}

/* Address not recognised. */
static inline int camlist_put_not_recognised(camlist_bytes *row)
{
    return camlist_put_reply(row, 2, 0, 0);
}

static inline int camlist_put_no_sync(camlist_bytes *row)
{
    return camlist_put_reply(row, 3, 0, 0);
}

#ifdef __cplusplus
}
#endif

#endif
