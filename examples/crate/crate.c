/* The simulated crate. What its modules do stands in crate.h. */
#include "crate.h"

#include <string.h>

#define NO_LIST 4u /* the sequencer has lists 0 to 3 */
#define SCALER_VALUES 0x1000000u
#define DECIMAL_VALUES 1000000u
#define BUSY 2u
#define MOST_BUSY 255u

/* The digitizer's pulses, in counts and samples. */
#define BASELINE 2000u
#define FIRST_HEIGHT 60000u
#define FIRST_SAMPLE 300u
#define SECOND_HEIGHT 20000u
#define SECOND_SAMPLE 1200u

#define COMMAND(f, a) ((f) << 4 | (a))

/* What a module answers. */
struct answer {
    uint32_t q;
    uint32_t x;
    uint32_t data;
};

/* A command in one of the sequencer's lists. */
struct listed {
    uint32_t n;
    uint32_t a;
    uint32_t f;
};

static const struct answer done = {1, 1, 0}, not_done = {0, 1, 0}, not_accepted = {0, 0, 0};

static struct answer read_as(uint32_t data)
{
    struct answer answer = {1, 1, data};

    return answer;
}

/* LAMs and demands ------------------------------------------------------------------------------------------------------------------------- */

static void send_demand(struct simulated_crate *crate, uint32_t n)
{
    if (crate->demands < CRATE_DEMANDS) {
        crate->demand_row[2 * crate->demands] = (uint8_t)crate->number;
        crate->demand_row[2 * crate->demands + 1] = (uint8_t)n;
        crate->demands++;
    }
}

/* Gives both masks their new value for a station; a LAM that is set and enabled and was not both before sends a demand. */
static void change_lam(struct simulated_crate *crate, uint32_t n, uint32_t is_set, uint32_t is_enabled)
{
    uint32_t bit = 1u << n;
    int sent = (crate->lam & crate->lam_enabled & bit) != 0;

    crate->lam = (crate->lam & ~bit) | (is_set ? bit : 0);
    crate->lam_enabled = (crate->lam_enabled & ~bit) | (is_enabled ? bit : 0);
    if (is_set && is_enabled && !sent) send_demand(crate, n);
}

static void set_lam(struct simulated_crate *crate, uint32_t n)
{
    change_lam(crate, n, 1, crate->lam_enabled >> n & 1);
}

/* The commands of a module's LAM at A 0; any other is not accepted. */
static struct answer command_lam(struct simulated_crate *crate, uint32_t n, uint32_t a, uint32_t f)
{
    uint32_t is_set = crate->lam >> n & 1, is_enabled = crate->lam_enabled >> n & 1;

    switch (COMMAND(f, a)) {
    case COMMAND(8, 0): return is_set ? done : not_done;
    case COMMAND(10, 0): change_lam(crate, n, 0, is_enabled); return done;
    case COMMAND(24, 0): change_lam(crate, n, is_set, 0); return done;
    case COMMAND(26, 0): change_lam(crate, n, is_set, 1); return done;
    default: return not_accepted;
    }
}

/* The modules ------------------------------------------------------------------------------------------------------------------------------ */

/* The next sample: a base line, two pulses, each the difference of two exponential decays, and noise of up to 512 counts. */
static uint32_t next_sample(struct simulated_crate *crate)
{
    uint32_t sample = crate->samples - crate->samples_left, height = 0;

    if (sample == FIRST_SAMPLE) height = FIRST_HEIGHT;
    if (sample == SECOND_SAMPLE) height = SECOND_HEIGHT;
    crate->falling += height << 8;
    crate->rising += height << 8;
    crate->falling -= crate->falling / 256;
    crate->rising -= crate->rising / 32;
    crate->noise = crate->noise * 1664525u + 1013904223u;
    crate->samples_left--;
    return BASELINE + (crate->falling - crate->rising) / 256 + (crate->noise >> 23) + (crate->noise >> 14 & 511) - 512;
}

static struct answer trigger(struct simulated_crate *crate)
{
    crate->samples_left = crate->samples;
    crate->rising = crate->falling = 0;
    crate->noise = ++crate->events;
    set_lam(crate, CRATE_DIGITIZER);
    return done;
}

static struct answer digitizer(struct simulated_crate *crate, uint32_t a, uint32_t f, uint32_t data)
{
    switch (COMMAND(f, a)) {
    case COMMAND(2, 0): return crate->samples_left > 0 ? read_as(next_sample(crate)) : not_done;
    case COMMAND(9, 0): crate->samples_left = 0; return done;
    case COMMAND(25, 0): return trigger(crate);
    case COMMAND(0, 1): return read_as(crate->samples);
    case COMMAND(16, 1):
        if (data < 1 || data > CRATE_SAMPLES) return not_done;
        crate->samples = data;
        crate->samples_left = 0;
        return done;
    default: return command_lam(crate, CRATE_DIGITIZER, a, f);
    }
}

static void convert(struct simulated_crate *crate)
{
    crate->converts = 1;
    crate->busy_left = crate->busy;
    if (crate->busy_left == 0) set_lam(crate, CRATE_ADC);
}

static struct answer read_adc(struct simulated_crate *crate)
{
    uint32_t result;

    if (!crate->converts) return not_done;
    if (crate->busy_left > 0) {
        if (--crate->busy_left == 0) set_lam(crate, CRATE_ADC);
        return not_done;
    }
    result = (1000u + 37u * crate->conversions++) & 0xFFF;
    convert(crate);
    return read_as(result);
}

static struct answer adc(struct simulated_crate *crate, uint32_t a, uint32_t f, uint32_t data)
{
    switch (COMMAND(f, a)) {
    case COMMAND(0, 0): return read_adc(crate);
    case COMMAND(25, 0): convert(crate); return done;
    case COMMAND(0, 1): return read_as(crate->busy);
    case COMMAND(16, 1):
        if (data > MOST_BUSY) return not_done;
        crate->busy = data;
        return done;
    default: return command_lam(crate, CRATE_ADC, a, f);
    }
}

/* A channel of a scaler, read or cleared. */
static struct answer read_channel(uint32_t *channel, uint32_t f, uint32_t shown)
{
    if (f != 0) *channel = 0;
    return f == 9 ? done : read_as(shown);
}

static struct answer scaler(struct simulated_crate *crate, uint32_t a, uint32_t f, uint32_t data)
{
    if (f != 0 && f != 2 && f != 9 && f != 16) return command_lam(crate, CRATE_SCALER, a, f);
    if (a >= CRATE_CHANNELS) return not_done;
    if (f == 16) {
        crate->scaler[a] = data % SCALER_VALUES;
        return done;
    }
    return read_channel(&crate->scaler[a], f, crate->scaler[a]);
}

/* Six decimal digits of a number below 1,000,000, the highest in bits 23 to 20. */
static uint32_t digits(uint32_t number)
{
    uint32_t shown = 0, low;

    for (low = 0; low < 24; low += 4) {
        shown |= number % 10 << low;
        number /= 10;
    }
    return shown;
}

static struct answer decimal(struct simulated_crate *crate, uint32_t a, uint32_t f, uint32_t data)
{
    uint32_t number = 0, low;

    if (f != 0 && f != 2 && f != 9 && f != 16) return command_lam(crate, CRATE_DECIMAL, a, f);
    if (a >= CRATE_DECIMALS) return not_done;
    if (f != 16) return read_channel(&crate->decimal[a], f, digits(crate->decimal[a]));
    for (low = 24; low > 0; low -= 4) {
        uint32_t digit = data >> (low - 4) & 15;
        if (digit > 9) return not_done;
        number = 10 * number + digit;
    }
    crate->decimal[a] = number;
    return done;
}

static struct answer switches(uint32_t n, uint32_t subaddresses, uint32_t a, uint32_t f)
{
    if (f != 0) return not_accepted;
    return a < subaddresses ? read_as(100 * n + a) : not_done;
}

static struct answer module(struct simulated_crate *crate, uint32_t n, uint32_t a, uint32_t f, uint32_t data)
{
    switch (n) {
    case CRATE_DIGITIZER: return digitizer(crate, a, f, data);
    case CRATE_ADC: return adc(crate, a, f, data);
    case CRATE_SCALER: return scaler(crate, a, f, data);
    case CRATE_DECIMAL: return decimal(crate, a, f, data);
    case CRATE_SWITCHES: return switches(n, 3, a, f);
    case CRATE_SWITCHES + 3: return switches(n, 16, a, f);
    case CRATE_SWITCHES + 4: return switches(n, 2, a, f);
    default: return not_accepted;
    }
}

/* The next command of one of the sequencer's lists. */
static struct answer sequencer(struct simulated_crate *crate, uint32_t list, uint32_t data)
{
    static const uint32_t lengths[4] = {4, 3, 2, 2};
    static const struct listed commands[4][4] = {
        {{CRATE_SCALER, 0, 0}, {CRATE_SCALER, 1, 0}, {CRATE_SCALER, 2, 0}, {CRATE_SCALER, 3, 0}},
        {{CRATE_SWITCHES, 0, 0}, {CRATE_SWITCHES, 1, 0}, {CRATE_SWITCHES, 2, 0}, {0, 0, 0}},
        {{CRATE_DECIMAL, 0, 16}, {CRATE_DECIMAL, 1, 16}, {0, 0, 0}, {0, 0, 0}},
        {{CRATE_DIGITIZER, 1, 16}, {CRATE_ADC, 1, 16}, {0, 0, 0}, {0, 0, 0}},
    };
    const struct listed *listed;

    if (crate->list != list) {
        crate->list = list;
        crate->next = 0;
    }
    if (crate->next == lengths[list]) return not_done;
    listed = &commands[list][crate->next++];
    return module(crate, listed->n, listed->a, listed->f, data);
}

/* The highway ------------------------------------------------------------------------------------------------------------------------------ */

/* A command that has reached the crate. */
static struct answer make_command(struct simulated_crate *crate, const struct crate_operation *wanted)
{
    if (wanted->n == CRATE_SEQUENCER && wanted->f == 12 && wanted->a < 4 && wanted->enhanced) return sequencer(crate, wanted->a, wanted->data);
    crate->list = NO_LIST;
    if (wanted->a > 15 || wanted->f > 31) return not_accepted;
    return module(crate, wanted->n, wanted->a, wanted->f, wanted->data);
}

/* The scalers count on. */
static void count(struct simulated_crate *crate)
{
    static const uint32_t rates[CRATE_CHANNELS] = {1, 10, 1000, 9000}, decimal_rates[CRATE_DECIMALS] = {7, 300};
    uint32_t k;

    for (k = 0; k < CRATE_CHANNELS; k++) {
        crate->scaler[k] += rates[k];
        if (crate->scaler[k] >= SCALER_VALUES) set_lam(crate, CRATE_SCALER);
        crate->scaler[k] %= SCALER_VALUES;
    }
    for (k = 0; k < CRATE_DECIMALS; k++) {
        crate->decimal[k] += decimal_rates[k];
        if (crate->decimal[k] >= DECIMAL_VALUES) set_lam(crate, CRATE_DECIMAL);
        crate->decimal[k] %= DECIMAL_VALUES;
    }
}

/* The fault of this operation. */
static uint32_t fault_due(struct simulated_crate *crate)
{
    return crate->fault_in > 0 && --crate->fault_in == 0 ? crate->fault : CRATE_NO_FAULT;
}

/* Makes the operation and puts the crate's answer. */
static void put_answer(struct simulated_crate *crate, const struct crate_operation *wanted, uint32_t fault, camlist_bytes *reply)
{
    struct answer answer = make_command(crate, wanted);
    unsigned flags = (answer.q ? CAMLIST_Q : 0) | (answer.x ? CAMLIST_X : 0);

    if (fault == CRATE_TPE) flags |= CAMLIST_TPE;
    if (fault == CRATE_LPE) flags |= CAMLIST_LPE;
    if (fault == CRATE_DERR) flags |= CAMLIST_DERR;
    camlist_put_answer(reply, flags, fault == CRATE_TPE || fault == CRATE_LPE ? answer.data ^ 1u : answer.data);
}

size_t crate_bytes(void)
{
    return sizeof(struct simulated_crate);
}

void crate_init(struct simulated_crate *crate, uint32_t number)
{
    memset(crate, 0, sizeof *crate);
    crate->number = number;
    crate->samples = CRATE_SAMPLES;
    crate->busy = BUSY;
    crate->list = NO_LIST;
}

void crate_operate(struct simulated_crate *crate, const struct crate_operation *wanted, uint8_t reply[CAMLIST_REPLY_BYTES])
{
    camlist_bytes row = {reply, CAMLIST_REPLY_BYTES, 0, 0};
    uint32_t fault = fault_due(crate);

    if (fault == CRATE_NO_SYNC) {
        camlist_put_no_sync(&row);
    } else if (fault == CRATE_TIMEOUT) {
        camlist_put_timeout(&row);
    } else if (fault == CRATE_NOT_RECOGNISED || wanted->crate != crate->number) {
        camlist_put_not_recognised(&row);
    } else if (fault == CRATE_ERR) {
        camlist_put_answer(&row, CAMLIST_X | CAMLIST_ERR, 0);
    } else {
        put_answer(crate, wanted, fault, &row);
    }
    count(crate);
}

void crate_ask_fault(struct simulated_crate *crate, enum crate_fault fault, uint32_t operation)
{
    crate->fault = (uint32_t)fault;
    crate->fault_in = operation;
}

size_t crate_demands(struct simulated_crate *crate, uint8_t *row, size_t room)
{
    uint32_t handed = room / 2 < crate->demands ? (uint32_t)(room / 2) : crate->demands;

    if (handed > 0) {
        memcpy(row, crate->demand_row, 2 * handed);
        crate->demands -= handed;
        memmove(crate->demand_row, crate->demand_row + 2 * handed, 2 * crate->demands);
    }
    return 2 * (size_t)handed;
}
