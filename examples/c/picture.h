/* Waveforms as text and as a picture. Samples are 16-bit words as the engine stores them: two bytes each, low byte first. */
#ifndef PICTURE_H
#define PICTURE_H

#include <stddef.h>
#include <stdint.h>

/* Prints a waveform of at least 64 samples in 64 columns and 16 rows. Each column stands for equally many, from their least to their greatest. */
void print_waveform(const uint8_t *samples, size_t count);

/* Writes a waveform as a picture in SVG, with a point for the mean of every four samples. 0 if there are fewer or the file can't be written. */
int write_picture(const char *path, const uint8_t *samples, size_t count);

#endif
