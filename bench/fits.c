/* Times jizdovel_fit: fits SECONDS < CASES
 *
 * A case is a line: the letters, a blank, the path of the chip. Each case is tried once and its answer
 * printed, `yes LENGTH` or `no`. Then all cases are tried in turn until SECONDS of processor time have
 * passed, and so with jizdovel_check_chip, which only reads the chip. The last line has the microseconds
 * of one fit and of one reading.
 */
#include <stdio.h>
#include <stdlib.h>
#include <string.h>

#include "clock.h"
#include "jizdovel.h"

enum { MOST_CASES = 4096, MOST_TEXT = 16384, MOST_LETTERS = 92 };

struct fit {
    uint8_t text[MOST_TEXT], letters[MOST_LETTERS];
    size_t text_length, letters_length;
};

static struct fit fits[MOST_CASES];
static int cases;

static uint64_t answer(const struct fit *fit, uint64_t *length) {
    static uint16_t slots[JIZDOVEL_SLOTS];
    static uint64_t positions[JIZDOVEL_POSITIONS];
    return jizdovel_fit(fit->text, fit->text_length, fit->letters, fit->letters_length, slots, JIZDOVEL_SLOTS,
                        positions, JIZDOVEL_POSITIONS, length);
}

static int read_case(char *line, struct fit *fit) {
    char *path = strchr(line, ' ');
    FILE *file;
    line[strcspn(line, "\n")] = 0;
    if (!path || path - line > MOST_LETTERS || !(file = fopen(path + 1, "rb")))
        return 0;
    fit->letters_length = path - line;
    memcpy(fit->letters, line, fit->letters_length);
    fit->text_length = fread(fit->text, 1, MOST_TEXT, file);
    fclose(file);
    return 1;
}

static void solve_all(void) {
    uint64_t length;
    for (int k = 0; k < cases; k++)
        answer(&fits[k], &length);
}

static void read_all(void) {
    uint64_t value;
    for (int k = 0; k < cases; k++)
        jizdovel_check_chip(fits[k].text, fits[k].text_length, &value);
}

static int show_answers(void) {
    for (int k = 0; k < cases; k++) {
        uint64_t length, number = answer(&fits[k], &length);
        if (number == JIZDOVEL_YES)
            printf("yes %llu\n", (unsigned long long)length);
        else if (number == JIZDOVEL_NO)
            printf("no\n");
        else
            return fprintf(stderr, "case %d: refused, number %d\n", k + 1, (int)number), 1;
    }
    return 0;
}

int main(int count, char **words) {
    static char line[4096];
    while (cases < MOST_CASES && fgets(line, sizeof line, stdin))
        if (!read_case(line, &fits[cases++]))
            return fprintf(stderr, "case %d: not letters, a blank and a chip\n", cases), 2;
    if (count != 2 || cases == 0)
        return fprintf(stderr, "usage: fits SECONDS < CASES\n"), 2;
    if (show_answers())
        return 1;
    printf("%.3f ", microseconds(atof(words[1]), solve_all) / cases);
    printf("%.3f\n", microseconds(atof(words[1]), read_all) / cases);
    return 0;
}
