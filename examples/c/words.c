#include "words.h"

#include <inttypes.h>
#include <stdio.h>

#include "camlist.h"

/* What a code of the status means. */
static const char *code_words(unsigned code)
{
    switch (code) {
    case CAMLIST_CODE_NO_ERROR: return "the list came to its halt";
    case CAMLIST_CODE_SERIAL_ERROR: return "a command reached its crate damaged";
    case CAMLIST_CODE_NO_Q: return "a command that wants Q = 1 got Q = 0";
    case CAMLIST_CODE_NO_X: return "no module accepted the command, X = 0";
    case CAMLIST_CODE_N_ABOVE_23: return "a scan left station 23";
    case CAMLIST_CODE_STE: return "the answer had a parity error";
    case CAMLIST_CODE_TIMEOUT: return "no answer came in time, or all tries were made in vain";
    case CAMLIST_CODE_ADNR: return "no crate recognised the address";
    case CAMLIST_CODE_NO_SYNC: return "the highway was not in sync";
    default: return "a code that no run ends with";
    }
}

void print_status(uint64_t status)
{
    static const struct {
        uint32_t bit;
        const char *words;
    } bits[] = {
        {CAMLIST_STATUS_DERR, "delayed error"},
        {CAMLIST_STATUS_TIMEOUT, "timeout or tries spent"},
        {CAMLIST_STATUS_NO_SYNC, "no sync"},
        {CAMLIST_STATUS_ERR, "ERR"},
        {CAMLIST_STATUS_SCAN_LEFT, "scan left station 23"},
        {CAMLIST_STATUS_LPE, "longitudinal parity error"},
        {CAMLIST_STATUS_TPE, "transverse parity error"},
        {CAMLIST_STATUS_NOT_RECOGNISED, "address not recognised"},
        {CAMLIST_STATUS_TRANSMISSION, "TPE, LPE or ERR"},
        {CAMLIST_STATUS_NO_X, "X = 0"},
        {CAMLIST_STATUS_NO_Q, "Q = 0"},
        {CAMLIST_STATUS_ENDED, "ended"},
    };
    const char *between = "";

    printf("status %08" PRIX64 ": ", status);
    for (size_t k = 0; k < sizeof bits / sizeof bits[0]; k++) {
        if (status & bits[k].bit) {
            printf("%s%s", between, bits[k].words);
            between = "; ";
        }
    }
    printf("\n");
}

void print_code(uint64_t status)
{
    unsigned code = camlist_code(status);
    char name[CAMLIST_NAME_BYTES + 1];

    printf("code %X, %s: %s", code, camlist_code_text(code, name), code_words(code));
}

void print_ending(const uint64_t *record)
{
    uint64_t status = record[CAMLIST_RECORD_STATUS];

    printf("  ended at instruction %" PRIu64 " after %" PRIu64 " operations with ", record[CAMLIST_RECORD_INSTRUCTION],
           record[CAMLIST_RECORD_OPERATIONS]);
    print_code(status);
    printf("\n  ");
    print_status(status);
}
