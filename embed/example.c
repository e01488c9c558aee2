/* The C interface in use: one chip, through every function of the library, chips at the limits of the
 * quoting page, chips without boxes and with a box off the die, and records beside the chip. */
#include <inttypes.h>
#include <stdio.h>
#include <string.h>

#include "jizdovel.h"

static const char chip[] =
    "die,w,5,h,3\n"
    "fix,x,2,y,0,w,1,h,2\n"
    "mac,w,2,h,2\n"
    "mac,w,2,h,1\n"
    "net,w,3\n"
    "pin,m,1,x,0,y,0\n"
    "pin,m,2,x,0,y,0\n"
    "end\n";
/* No legal placement. */
static const char crowded[] =
    "die,w,3,h,1\n"
    "mac,w,2,h,1\n"
    "mac,w,2,h,1\n"
    "net,w,1\n"
    "pin,m,1,x,0,y,0\n"
    "pin,m,2,x,0,y,0\n"
    "end\n";
/* A net whose pads lie off the die. */
static const char pads[] =
    "die,w,4,h,1\n"
    "net,w,2\n"
    "pin,m,0,x,-2,y,0\n"
    "pin,m,0,x,3,y,1\n"
    "end\n";

/* An answer: yes or no with its value, or the refusal's number and line. */
static void tell(const char *what, uint64_t number, uint64_t value)
{
    if (number == JIZDOVEL_YES)
        printf("%s: yes, %" PRIu64 "\n", what, value);
    else if (number == JIZDOVEL_NO)
        printf("%s: no, %" PRIu64 "\n", what, value);
    else
        printf("%s: refused, number %" PRIu64 ", line %" PRIu64 "\n", what, number, value);
}

/* A record beside the chip, and the text at fault where there is one. */
static void check_beside(const char *what, const uint8_t *text, size_t length,
                         const uint8_t *record, size_t record_length)
{
    uint64_t value, at_fault;
    uint64_t number = jizdovel_check_beside(text, length, record, record_length, &value, &at_fault);

    printf("%s, ", what);
    if (at_fault == JIZDOVEL_CHIP)
        tell("check beside, of the chip", number, value);
    else if (at_fault == JIZDOVEL_RECORD)
        tell("check beside, of the record", number, value);
    else
        tell("check beside", number, value);
}

static void check_text(const char *what, const char *record)
{
    check_beside(what, (const uint8_t *)chip, sizeof chip - 1, (const uint8_t *)record, strlen(record));
}

/* Chip text to record text, and the record checked, by itself and beside the chip. */
static void place(const uint8_t *text, size_t length)
{
    uint8_t record[JIZDOVEL_RECORD_BYTES];
    uint64_t value;
    uint64_t number = jizdovel_place(text, length, record, sizeof record, &value);

    tell("place", number, value);
    if (number != JIZDOVEL_YES)
        return;
    fwrite(record, 1, value, stdout);
    const size_t record_length = value;
    number = jizdovel_check_record(record, record_length, &value);
    tell("check record", number, value);
    check_beside("its record", text, length, record, record_length);
    check_beside("its record and half the chip", text, length / 2, record, record_length);
    check_beside("half its record", text, length, record, record_length / 2);
}

/* The page's answer: the chip, and the record where there is one. */
static void quote(const char *what, const char *text)
{
    uint8_t record[JIZDOVEL_RECORD_BYTES];
    uint64_t value;
    uint64_t number = jizdovel_quote((const uint8_t *)text, strlen(text), record, sizeof record, &value);

    printf("%s, ", what);
    tell("quote", number, value);
    if (number == JIZDOVEL_YES)
        fwrite(record, 1, value, stdout);
}

/* A row of so many fixes, macros and pins that nothing overlaps: each is 1 x 1, each pin is a pad. */
static void quote_row(int fixes, int macros, int pins)
{
    char what[64], text[1024];
    char *end = text + sprintf(text, "die,w,%d,h,1\n", fixes + macros);

    for (int x = 0; x < fixes; x++)
        end += sprintf(end, "fix,x,%d,y,0,w,1,h,1\n", x);
    for (int m = 0; m < macros; m++)
        end += sprintf(end, "mac,w,1,h,1\n");
    end += sprintf(end, "net,w,1\n");
    for (int pin = 0; pin < pins; pin++)
        end += sprintf(end, "pin,m,0,x,0,y,0\n");
    sprintf(end, "end\n");
    sprintf(what, "%d macros, %d fixes, %d pins", macros, fixes, pins);
    quote(what, text);
}

/* The record with its boxes into a buffer of that length; of a refusal, whether the buffer is as it
 * was. */
static void boxes(const char *what, const char *text, size_t length)
{
    uint8_t out[JIZDOVEL_BOXES_BYTES], before[JIZDOVEL_BOXES_BYTES];
    uint64_t value;

    memset(out, '?', sizeof out);
    memset(before, '?', sizeof before);
    uint64_t number = jizdovel_boxes((const uint8_t *)text, strlen(text), out, length, &value);
    printf("%s, ", what);
    tell("boxes", number, value);
    if (number == JIZDOVEL_YES)
        fwrite(out, 1, value, stdout);
    else
        printf("the buffer %s\n", memcmp(out, before, sizeof out) ? "has changed" : "is as it was");
}

static void measure(const uint8_t *text, size_t length, uint64_t x, uint64_t y)
{
    const uint64_t positions[4] = {x, y, 0, 0};
    uint64_t value;
    uint64_t number = jizdovel_measure(text, length, positions, 4, &value);

    printf("macro 1 at %" PRIu64 ",%" PRIu64 ", ", x, y);
    tell("measure", number, value);
}

static void fit(const uint8_t *text, size_t length, const char *letters)
{
    uint16_t slots[JIZDOVEL_SLOTS];
    uint64_t positions[JIZDOVEL_POSITIONS];
    uint64_t value;
    uint64_t number = jizdovel_fit(text, length, (const uint8_t *)letters, strlen(letters),
                                   slots, JIZDOVEL_SLOTS, positions, JIZDOVEL_POSITIONS, &value);

    printf("letters '%s', ", letters);
    tell("fit", number, value);
    if (number == JIZDOVEL_YES)
        printf("macro 1 at %" PRIu64 ",%" PRIu64 ", macro 2 at %" PRIu64 ",%" PRIu64 "\n",
               positions[0], positions[1], positions[2], positions[3]);
}

int main(void)
{
    const uint8_t *text = (const uint8_t *)chip;
    const size_t length = sizeof chip - 1;
    uint64_t value;
    uint64_t number = jizdovel_check_chip(text, length, &value);

    tell("check chip", number, value);
    number = jizdovel_check_chip(text, 12, &value);
    tell("check its first line", number, value);
    place(text, length);
    check_text("none", "none\ndone\n");
    check_text("a longer placement", "least,wl,6\nat,m,1,x,0,y,0\nat,m,2,x,0,y,2\ndone\n");
    check_text("a macro less", "least,wl,0\nat,m,1,x,0,y,1\ndone\n");
    check_text("both at 0,0", "least,wl,0\nat,m,1,x,0,y,0\nat,m,2,x,0,y,0\ndone\n");
    check_text("another wl", "least,wl,4\nat,m,1,x,0,y,1\nat,m,2,x,0,y,0\ndone\n");
    quote("the same chip", chip);
    quote_row(JIZDOVEL_PAGE_FIXES, JIZDOVEL_PAGE_MACROS, JIZDOVEL_PAGE_PINS);
    quote_row(JIZDOVEL_PAGE_FIXES, JIZDOVEL_PAGE_MACROS + 1, JIZDOVEL_PAGE_PINS);
    quote_row(JIZDOVEL_PAGE_FIXES + 1, JIZDOVEL_PAGE_MACROS, JIZDOVEL_PAGE_PINS);
    quote_row(JIZDOVEL_PAGE_FIXES, JIZDOVEL_PAGE_MACROS, JIZDOVEL_PAGE_PINS + 1);
    boxes("the same chip", chip, JIZDOVEL_BOXES_BYTES);
    boxes("room for its record alone", chip, 46);
    boxes("no legal placement", crowded, JIZDOVEL_BOXES_BYTES);
    boxes("pads off the die", pads, JIZDOVEL_BOXES_BYTES);
    measure(text, length, 0, 1);
    measure(text, length, 0, 0);
    fit(text, length, "ALL");
    fit(text, length, "LLL");
    fit(text, length, "AL");
    fit(text, length, "...");
    fit(text, length, "");
    return 0;
}
