/* Runs a program and says what it took: timed LIMIT TOTAL OUT PROGRAM [WORDS...] < INPUT
 *
 *   LIMIT  processor seconds after which a run is ended, 0 for none
 *   TOTAL  the program is run again until all runs together have taken so many processor seconds
 *   OUT    the file for what the last run writes
 *
 * Prints the number of runs, the mean processor seconds of a run (user and system, the start of the
 * process included), the greatest peak memory of a run in kilobytes, and how the last run ended: its
 * exit status, or 128 and the signal. It is small because a child's peak memory is at least that of
 * the process that starts it.
 */
#include <fcntl.h>
#include <stdio.h>
#include <stdlib.h>
#include <sys/resource.h>
#include <sys/wait.h>
#include <unistd.h>

static void become(const char *limit, const char *out, char **words) {
    struct rlimit processor = {atoi(limit), atoi(limit) + 1}, no_core = {0, 0};
    int file = open(out, O_WRONLY | O_CREAT | O_TRUNC, 0644);
    if (file < 0 || dup2(file, 1) < 0 || lseek(0, 0, SEEK_SET) < 0 || setrlimit(RLIMIT_CORE, &no_core) < 0)
        _exit(127);
    if (processor.rlim_cur > 0 && setrlimit(RLIMIT_CPU, &processor) < 0)
        _exit(127);
    execvp(words[0], words);
    _exit(127);
}

int main(int count, char **words) {
    double total = 0;
    long runs = 0, most = 0;
    int status = 0;
    if (count < 5) {
        fprintf(stderr, "usage: timed LIMIT TOTAL OUT PROGRAM [WORDS...] < INPUT\n");
        return 2;
    }
    do {
        struct rusage used;
        pid_t child = fork();
        if (child == 0)
            become(words[1], words[3], words + 4);
        if (child < 0 || wait4(child, &status, 0, &used) < 0)
            return 1;
        total += used.ru_utime.tv_sec + used.ru_stime.tv_sec + (used.ru_utime.tv_usec + used.ru_stime.tv_usec) / 1e6;
        most = used.ru_maxrss > most ? used.ru_maxrss : most;
        runs++;
    } while (total < atof(words[2]) && WIFEXITED(status) && WEXITSTATUS(status) != 127);
    printf("%ld %.9f %ld %d\n", runs, total / runs, most,
           WIFEXITED(status) ? WEXITSTATUS(status) : 128 + WTERMSIG(status));
    return 0;
}
