/* Processor time of this process, and of a call that is repeated. */
#ifndef CLOCK_H
#define CLOCK_H

#include <time.h>

static double now(void) {
    struct timespec time;
    clock_gettime(CLOCK_PROCESS_CPUTIME_ID, &time);
    return time.tv_sec + time.tv_nsec / 1e9;
}

/* Mean microseconds of a call, repeated until all calls together have taken `enough` seconds, 0 where that is 0.
 * The clock is read after 1, 2, 4 .. calls: reading it takes as long as a short call. */
static double microseconds(double enough, void (*call)(void)) {
    double began = now(), took = 0;
    long calls = 0;
    for (long more = 1; took < enough; more *= 2) {
        for (long k = 0; k < more; k++, calls++)
            call();
        took = now() - began;
    }
    return calls ? took / calls * 1e6 : 0;
}

#endif
