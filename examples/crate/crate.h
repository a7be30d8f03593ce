/*
 * A simulated CAMAC crate on a serial highway, on which the engine can be tried without hardware. It stands where the adapter stands: it takes the
 * operations that the engine wants and gives the replies. Its state is in the caller's memory and nowhere else; the same operations on a new crate
 * always draw the same replies. Several crates are several of these structures.
 *
 *  N  Module                   A      Commands
 *  3  digitizer, 16 bits       0      F 2 read the next sample: Q = 0 once there are no more; F 9 clear: no samples; F 25 trigger
 *                              1      F 0 read and F 16 write how many samples a trigger takes: Q = 0 of a write of another number than
 *                                     1 to 2,048; a write clears
 *  5  ADC, 12 bits             0      F 25 start a conversion; F 0 read its result, which starts the next: Q = 0 while it is busy
 *                              1      F 0 read and F 16 write during how many reads a conversion is busy: Q = 0 of a write above 255
 *  8  scaler, 24 bits          0-3    F 0 read, F 2 read and clear, F 9 clear, F 16 write
 * 10  scaler, 6 decimal digits 0-1    the same: Q = 0 of a write with a digit above 9
 * 14  switches, 16 bits        0-2    F 0 read 100 N + A
 * 17  switches, 16 bits        0-15   the same
 * 18  switches, 16 bits        0-1    the same
 * 30  list sequencer           0-3    F 12, by enhanced messages only
 *
 * Q = X = 1 where nothing else is said. Scalers and switches answer their commands with Q = 0, X = 1 beyond their last subaddress. Any other command,
 * and every command at an empty station, is answered with Q = X = 0. Every station answers standard and enhanced messages alike, 30 aside.
 *
 * The digitizer's LAM is set by a trigger, the ADC's by a result that is ready, a scaler's by a channel that overflows to 0. At A 0 of these four,
 * F 8 tests the LAM (Q is the LAM), F 10 clears it, F 24 disables and F 26 enables it. A LAM that is set and enabled sends one demand, the crate's
 * number and as SGL byte the station N, and another only when it was cleared or disabled in between.
 *
 * With every operation on the highway the scaler's channels count 1, 10, 1,000 and 9,000 on, the decimal scaler's 7 and 300.
 *
 * The list sequencer makes commands of its own, one for each word: by A 0 it reads the scaler's four channels, by A 1 the three switches of station
 * 14, by A 2 it writes the decimal scaler's two channels, by A 3 how many samples a trigger takes and how long the ADC is busy. Behind its last
 * command a list answers Q = 0, X = 1. It begins anew after any other operation.
 */
#ifndef SIMULATED_CRATE_H
#define SIMULATED_CRATE_H

#include <stddef.h>
#include <stdint.h>

#include "camlist.h"

#ifdef __cplusplus
extern "C" {
#endif

#define CRATE_DIGITIZER 3
#define CRATE_ADC 5
#define CRATE_SCALER 8
#define CRATE_DECIMAL 10
#define CRATE_SWITCHES 14
#define CRATE_SEQUENCER 30

#define CRATE_SAMPLES 2048 /* the most that a trigger takes */
#define CRATE_CHANNELS 4   /* of the scaler */
#define CRATE_DECIMALS 2   /* of the decimal scaler */
#define CRATE_DEMANDS 32   /* demands kept until they are handed out; more are lost */

/* What can go wrong with an operation. */
enum crate_fault {
    CRATE_NO_FAULT,
    CRATE_TPE,            /* transverse parity error: the operation is made, a bit of the answer's data is wrong */
    CRATE_LPE,            /* longitudinal parity error: the same */
    CRATE_DERR,           /* delayed error: the operation is made, the answer has DERR */
    CRATE_ERR,            /* the command reaches the crate damaged: ERR with X = 1 and Q = 0, nothing is done */
    CRATE_TIMEOUT,        /* the crate is silent, nothing is done; of the next two neither */
    CRATE_NOT_RECOGNISED, /* no crate recognises the address */
    CRATE_NO_SYNC         /* the highway is not in sync */
};

/* An operation that the engine wants: the six numbers of its answer in their order. */
struct crate_operation {
    uint32_t crate;
    uint32_t n;
    uint32_t a;
    uint32_t f;
    uint32_t data;
    uint32_t enhanced;
};

/* To be changed by the functions below alone. */
struct simulated_crate {
    uint32_t number;
    uint32_t samples;         /* that a trigger takes */
    uint32_t samples_left;    /* to be read */
    uint32_t events;          /* triggers so far */
    uint32_t rising, falling; /* the two parts of a pulse, in 256ths of a count */
    uint32_t noise;
    uint32_t busy;      /* reads during which a conversion is busy */
    uint32_t busy_left; /* of this one */
    uint32_t converts;  /* 1 once started */
    uint32_t conversions;
    uint32_t scaler[CRATE_CHANNELS];
    uint32_t decimal[CRATE_DECIMALS]; /* in binary */
    uint32_t lam;                     /* bit N */
    uint32_t lam_enabled;
    uint32_t list; /* of the sequencer, and its next command */
    uint32_t next;
    uint32_t fault;
    uint32_t fault_in; /* operations from now, 0 none */
    uint32_t demands;
    uint8_t demand_row[2 * CRATE_DEMANDS];
};

/* The size of a crate's state, for hosts in other languages. */
size_t crate_bytes(void);

/* A crate as it is after power up: 2,048 samples a trigger, the ADC busy during 2 reads, all else 0 and disabled. Its number is 1 to 62. */
void crate_init(struct simulated_crate *crate, uint32_t number);

/* Makes an operation on the highway. If it is for another crate its address is not recognised. */
void crate_operate(struct simulated_crate *crate, const struct crate_operation *wanted, uint8_t reply[CAMLIST_REPLY_BYTES]);

/* Asks for a fault of one operation to come, 1 for the next. It takes the place of one asked for before; 0 asks for none. */
void crate_ask_fault(struct simulated_crate *crate, enum crate_fault fault, uint32_t operation);

/* Hands out the demands sent since, the oldest first, crate and SGL byte of each: as many as the row has room for. The bytes used. */
size_t crate_demands(struct simulated_crate *crate, uint8_t *row, size_t room);

#ifdef __cplusplus
}
#endif

#endif
