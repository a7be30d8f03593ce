/*
 * Takes longwords apart by the functions of the header: four bytes of the input at a time, put at an odd address. Prints for each the longword,
 * the data, Q and X.
 */
#include "camlist.h"

#include <inttypes.h>
#include <stdio.h>

int main(void)
{
    uint8_t room[5];
    uint8_t *bytes = room + 1;

    while (fread(bytes, 1, 4, stdin) == 4) {
        uint32_t longword = camlist_longword(bytes);

        printf("%08" PRIX32 " %06" PRIX32 " %d %d\n", longword, camlist_word_data(longword), camlist_word_q(longword), camlist_word_x(longword));
    }
    return 0;
}
