/* Measures the chip of a text at positions, once, for a count of instructions: measures X1 Y1 X2 Y2 .. < CHIP
 *
 * The chip is read once more by jizdovel_check_chip, so that what reading takes can be taken off. Prints the number
 * of the answer and the wirelength.
 */
#include <stdio.h>
#include <stdlib.h>

#include "jizdovel.h"

enum { MOST_TEXT = 16384 };

int main(int count, char **words) {
    static uint8_t text[MOST_TEXT + 1];
    static uint64_t positions[JIZDOVEL_POSITIONS];
    size_t text_length = fread(text, 1, sizeof text, stdin), given = count - 1;
    uint64_t line, length, number;
    if (given > JIZDOVEL_POSITIONS)
        return fprintf(stderr, "usage: measures X1 Y1 X2 Y2 .. < CHIP\n"), 2;
    for (size_t k = 0; k < given; k++)
        positions[k] = strtoull(words[k + 1], NULL, 10);
    jizdovel_check_chip(text, text_length, &line);
    number = jizdovel_measure(text, text_length, positions, given, &length);
    printf("%llu %llu\n", (unsigned long long)number, (unsigned long long)length);
    return 0;
}
