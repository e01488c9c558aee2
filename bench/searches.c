/* Times jizdovel_place, or jizdovel_quote where the second word is there: searches SECONDS [quote] < CHIP
 *
 * The chip is placed once and its record kept, then again and again until SECONDS of processor time have
 * passed, and so with jizdovel_check_chip, which only reads the chip. The first line has the microseconds of
 * one call and of one reading; the record follows.
 */
#include <stdio.h>
#include <stdlib.h>
#include <string.h>

#include "clock.h"
#include "jizdovel.h"

enum { MOST_TEXT = 16384 };

static uint8_t text[MOST_TEXT + 1], record[JIZDOVEL_RECORD_BYTES];
static size_t text_length;
static uint64_t number, value;
static uint64_t (*service)(const uint8_t *, size_t, uint8_t *, size_t, uint64_t *) = jizdovel_place;

static void place(void) { number = service(text, text_length, record, sizeof record, &value); }

static void only_read(void) {
    uint64_t line;
    jizdovel_check_chip(text, text_length, &line);
}

int main(int count, char **words) {
    if (count == 3 && !strcmp(words[2], "quote"))
        service = jizdovel_quote;
    else if (count != 2)
        return fprintf(stderr, "usage: searches SECONDS [quote] < CHIP\n"), 2;
    text_length = fread(text, 1, sizeof text, stdin);
    place();
    if (number != JIZDOVEL_YES)
        return fprintf(stderr, "refused, number %d, line %d\n", (int)number, (int)value), 1;
    printf("%.3f ", microseconds(atof(words[1]), place));
    printf("%.3f\n", microseconds(atof(words[1]), only_read));
    fwrite(record, 1, value, stdout);
    return 0;
}
