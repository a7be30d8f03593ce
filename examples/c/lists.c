#include "lists.h"

#include "crate.h"

#define END_OF_EVENT 0xE0E0E0E0u

void put_event(camlist_bytes *list, uint32_t samples)
{
    camlist_put_head(list, TRY_LIMIT);
    camlist_put_inline(list, CRATE, CRATE_DIGITIZER, 1, 16, CAMLIST_STOP | CAMLIST_16_BIT, samples);     /* 0: how many samples */
    camlist_put_single(list, CRATE, CRATE_DIGITIZER, 0, 26, CAMLIST_STOP);                               /* 1: enable its LAM */
    camlist_put_single(list, CRATE, CRATE_SCALER, 0, 26, CAMLIST_STOP);                                  /* 2: and the scaler's */
    camlist_put_single(list, CRATE, CRATE_DIGITIZER, 0, 25, CAMLIST_STOP);                               /* 3: trigger */
    camlist_put_block(list, CRATE, CRATE_DIGITIZER, 0, 2, CAMLIST_STOP | CAMLIST_16_BIT, CRATE_SAMPLES); /* 4: the samples */
    camlist_put_single(list, CRATE, CRATE_SCALER, 0, 0, CAMLIST_STOP);                                   /* 5: operations so far */
    camlist_put_literal(list, END_OF_EVENT);                                                             /* 6 */
    camlist_put_halt(list);                                                                              /* 7 */
}

void put_service(camlist_bytes *list, unsigned crate, unsigned n)
{
    camlist_put_head(list, TRY_LIMIT);
    camlist_put_single(list, crate, n, 0, 8, CAMLIST_STOP);
    camlist_put_single(list, crate, n, 0, 10, CAMLIST_STOP);
    camlist_put_halt(list);
}

void put_modules(camlist_bytes *list)
{
    camlist_put_head(list, TRY_LIMIT);
    for (unsigned a = 0; a <= CRATE_CHANNELS; a++) {
        camlist_put_single(list, CRATE, CRATE_SCALER, a, 0, CAMLIST_IGNORE | CAMLIST_ABORT_DISABLE);       /* the channels, and one that is none */
    }
    camlist_put_single(list, CRATE, CRATE_SCALER + 1, 0, 0, CAMLIST_IGNORE | CAMLIST_ABORT_DISABLE);       /* an empty station */
    camlist_put_sequencer(list, CRATE, 2, 0, CRATE_DECIMALS);                                              /* presets, from the outgoing buffer */
    for (unsigned a = 0; a < CRATE_DECIMALS; a++) {
        camlist_put_single(list, CRATE, CRATE_DECIMAL, a, 0, CAMLIST_STOP);                                /* six digits each */
    }
    camlist_put_sequencer(list, CRATE, 0, 0, LISTED_WORDS);                                                /* the scaler again, and one word more */
    camlist_put_single(list, CRATE, CRATE_ADC, 0, 25, CAMLIST_STOP);                                       /* start */
    camlist_put_block(list, CRATE, CRATE_ADC, 0, 0, CAMLIST_REPEAT | CAMLIST_16_BIT, ADC_WORDS);           /* busy for some tries */
    camlist_put_block(list, CRATE, CRATE_SWITCHES, 0, 0, CAMLIST_SCAN | CAMLIST_16_BIT, SCAN_WORDS);       /* stations 14 to 18, with gaps */
    camlist_put_inline(list, CRATE, CRATE_DIGITIZER, 1, 16, CAMLIST_STOP | CAMLIST_16_BIT, BLOCK_SAMPLES); /* how many samples */
    camlist_put_single(list, CRATE, CRATE_DIGITIZER, 0, 25, CAMLIST_STOP);                                 /* trigger */
    camlist_put_enhanced(list, CRATE, CRATE_DIGITIZER, 0, 2, CAMLIST_STOP | CAMLIST_16_BIT, BLOCK_WORDS);  /* closed by Q = 0 */
    camlist_put_literal(list, END_OF_EVENT);
    camlist_put_halt(list);
}

void put_pulse(camlist_bytes *list)
{
    camlist_put_head(list, TRY_LIMIT);
    camlist_put_single(list, CRATE, CRATE_DIGITIZER, 0, 25, CAMLIST_STOP);
    camlist_put_block(list, CRATE, CRATE_DIGITIZER, 0, 2, CAMLIST_STOP | CAMLIST_16_BIT, 16);
    camlist_put_halt(list);
}

void put_other_crate(camlist_bytes *list)
{
    camlist_put_head(list, TRY_LIMIT);
    camlist_put_single(list, CRATE + 1, CRATE_DIGITIZER, 0, 25, CAMLIST_STOP);
    camlist_put_halt(list);
}

void put_busy(camlist_bytes *list)
{
    camlist_put_head(list, TRY_LIMIT);
    camlist_put_inline(list, CRATE, CRATE_ADC, 1, 16, CAMLIST_STOP | CAMLIST_16_BIT, TRY_LIMIT);
    camlist_put_single(list, CRATE, CRATE_ADC, 0, 25, CAMLIST_STOP);
    camlist_put_single(list, CRATE, CRATE_ADC, 0, 0, CAMLIST_REPEAT | CAMLIST_16_BIT);
    camlist_put_halt(list);
}

void put_long_scan(camlist_bytes *list)
{
    camlist_put_head(list, TRY_LIMIT);
    camlist_put_block(list, CRATE, CRATE_SWITCHES, 0, 0, CAMLIST_SCAN | CAMLIST_16_BIT, SCAN_WORDS + 1);
    camlist_put_halt(list);
}

void put_empty_station(camlist_bytes *list)
{
    camlist_put_head(list, TRY_LIMIT);
    camlist_put_single(list, CRATE, CRATE_SCALER + 1, 0, 0, CAMLIST_STOP);
    camlist_put_halt(list);
}

void put_no_sample(camlist_bytes *list)
{
    camlist_put_head(list, TRY_LIMIT);
    camlist_put_single(list, CRATE, CRATE_DIGITIZER, 0, 2, CAMLIST_STOP | CAMLIST_16_BIT);
    camlist_put_halt(list);
}
