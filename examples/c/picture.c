#include "picture.h"

#include <stdio.h>

#define COLUMNS 64u
#define ROWS 16u
#define ROUND 500u /* counts of a row of text are a multiple of this */

/* The picture's parts, in pixels. */
#define LEFT 64u
#define TOP 32u
#define WIDTH 512u
#define HEIGHT 288u
#define LINES 4u /* lines of the grid each way, less one */
#define MEANT 4u /* samples of which a point is the mean */

static unsigned sample(const uint8_t *samples, size_t k)
{
    return samples[2 * k] | (unsigned)samples[2 * k + 1] << 8;
}

/* The greatest of some samples, or the least. */
static unsigned extreme(const uint8_t *samples, size_t first, size_t end, int is_greatest)
{
    unsigned found = sample(samples, first);

    for (size_t k = first; k < end; k++) {
        unsigned other = sample(samples, k);
        if (is_greatest ? other > found : other < found) found = other;
    }
    return found;
}

/* The counts that a row of text stands for, so that the greatest sample has its place. */
static unsigned counts_of_row(const uint8_t *samples, size_t count)
{
    return (extreme(samples, 0, count, 1) / ROWS / ROUND + 1) * ROUND;
}

void print_waveform(const uint8_t *samples, size_t count)
{
    size_t of_column = count / COLUMNS;
    unsigned counts;

    if (of_column == 0) return;
    counts = counts_of_row(samples, count);
    for (unsigned row = ROWS; row-- > 0;) {
        char line[COLUMNS + 1];
        size_t used = 0;
        for (size_t column = 0; column < COLUMNS; column++) {
            size_t first = column * of_column, end = first + of_column;
            int is_met = extreme(samples, first, end, 0) / counts <= row && row <= extreme(samples, first, end, 1) / counts;
            line[column] = is_met ? '*' : ' ';
            if (is_met) used = column + 1;
        }
        line[used] = '\0';
        printf("  %5u |%s\n", row * counts, line);
    }
    printf("        +");
    for (size_t column = 0; column < COLUMNS; column++) {
        putchar('-');
    }
    printf("\n         0%*zu samples\n", (int)COLUMNS - 1, count);
}

/* The lines of the grid with their numbers: samples below, counts at the left. */
static void write_grid(FILE *file, unsigned counts, size_t count)
{
    for (unsigned line = 0; line <= LINES; line++) {
        unsigned x = LEFT + WIDTH / LINES * line, y = TOP + HEIGHT - HEIGHT / LINES * line;
        fprintf(file, "<path d=\"M%u %uV%uM%u %uH%u\" stroke=\"#ccc\"/>\n", x, TOP, TOP + HEIGHT, LEFT, y, LEFT + WIDTH);
        fprintf(file, "<text x=\"%u\" y=\"%u\" text-anchor=\"middle\">%zu</text>\n", x, TOP + HEIGHT + 18, count / LINES * line);
        fprintf(file, "<text x=\"%u\" y=\"%u\" text-anchor=\"end\">%u</text>\n", LEFT - 8, y + 4, counts * ROWS / LINES * line);
    }
}

/* The points, their heights in tenths of a pixel. */
static void write_points(FILE *file, unsigned counts, const uint8_t *samples, size_t count)
{
    fprintf(file, "<polyline fill=\"none\" stroke=\"#036\" points=\"");
    for (size_t first = 0; first + MEANT <= count; first += MEANT) {
        unsigned sum = 0;
        for (size_t k = 0; k < MEANT; k++) {
            sum += sample(samples, first + k);
        }
        unsigned y = 10 * (TOP + HEIGHT) - sum / MEANT * (10 * HEIGHT / ROWS) / counts;
        fprintf(file, "%s%zu,%u.%u", first == 0 ? "" : first / MEANT % 16 == 0 ? "\n" : " ", LEFT + first * WIDTH / count, y / 10, y % 10);
    }
    fprintf(file, "\"/>\n");
}

int write_picture(const char *path, const uint8_t *samples, size_t count)
{
    FILE *file = count < MEANT ? NULL : fopen(path, "wb");
    unsigned counts;
    int is_written;

    if (!file) return 0;
    counts = counts_of_row(samples, count);
    fprintf(file, "<svg xmlns=\"http://www.w3.org/2000/svg\" viewBox=\"0 0 %u %u\" font-family=\"sans-serif\" font-size=\"12\">\n",
            LEFT + WIDTH + 32, TOP + HEIGHT + 48);
    fprintf(file, "<rect width=\"100%%\" height=\"100%%\" fill=\"white\"/>\n");
    write_grid(file, counts, count);
    fprintf(file, "<text x=\"%u\" y=\"20\">counts</text>\n", LEFT);
    fprintf(file, "<text x=\"%u\" y=\"%u\" text-anchor=\"end\">samples</text>\n", LEFT + WIDTH, TOP + HEIGHT + 36);
    write_points(file, counts, samples, count);
    fprintf(file, "</svg>\n");
    is_written = !ferror(file);
    return fclose(file) == 0 && is_written;
}
