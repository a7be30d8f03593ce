/* The lists that waveform runs. */
#ifndef LISTS_H
#define LISTS_H

#include "camlist.h"

#define CRATE 3
#define TRY_LIMIT 4

#define SET_UP 4        /* operations of an event before its first sample */
#define SAMPLES_BLOCK 4 /* the instruction of an event that reads the samples */

/* Words of the other modules. */
#define SCALER_WORDS 6 /* four channels, a channel that is none, and an empty station */
#define LISTED_WORDS 5 /* by the list sequencer, whose list has four */
#define ADC_WORDS 3
#define SCAN_WORDS 21  /* all switches: 3 at station 14, 16 at 17 and 2 at 18 */
#define BLOCK_WORDS 16 /* of the enhanced block, and the samples that there are */
#define BLOCK_SAMPLES 12

/* A digitizer that is set to so many samples, triggered, and read until it has no more or 2,048 have come; then a scaler, which counts the
   operations so far. Their LAMs are enabled. */
void put_event(camlist_bytes *list, uint32_t samples);

/* Tests and clears the LAM of a station that sent a demand. */
void put_service(camlist_bytes *list, unsigned crate, unsigned n);

/* The other modules, each in its Q-mode. With AD = 1 the run goes on where a station is empty. */
void put_modules(camlist_bytes *list);

/* Sixteen samples. */
void put_pulse(camlist_bytes *list);

/* Lists that ask too much: of a crate that is not there, of an ADC that is busy at every try, of more switches than there are, of an
   empty station, of a digitizer without samples. */
void put_other_crate(camlist_bytes *list);
void put_busy(camlist_bytes *list);
void put_long_scan(camlist_bytes *list);
void put_empty_station(camlist_bytes *list);
void put_no_sample(camlist_bytes *list);

#endif
