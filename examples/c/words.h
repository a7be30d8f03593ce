/* Why a run ended, in words. */
#ifndef WORDS_H
#define WORDS_H

#include <stdint.h>

/* Prints the code of a status, its name and what it means, without a line's end. */
void print_code(uint64_t status);

/* Prints a status and its bits in words, on a line. */
void print_status(uint64_t status);

/* Prints the instruction, the operations, the code and the status bits of a record that has ended, on two lines. */
void print_ending(const uint64_t *record);

#endif
