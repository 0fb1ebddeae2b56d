/* Runs a program and says on standard error, in one line behind its own, what it took: seconds, processor seconds of
 * the user and of the system, and kilobytes of memory at most. It ends with the program's status.
 *
 * measure PROGRAM WORDS ..      cc -O2 -o measure measure.c
 */
#include <stdio.h>
#include <sys/resource.h>
#include <sys/wait.h>
#include <time.h>
#include <unistd.h>

static double seconds_of(struct timeval time)
{
    return time.tv_sec + time.tv_usec / 1e6;
}

int main(int count, char **args)
{
    struct timespec began, ended;
    struct rusage took;
    int status;
    if (count < 2) return 125;
    clock_gettime(CLOCK_MONOTONIC, &began);
    pid_t child = fork();
    if (child == 0) {
        execv(args[1], args + 1);
        _exit(127);
    }
    if (child < 0 || wait4(child, &status, 0, &took) < 0) return 126;
    clock_gettime(CLOCK_MONOTONIC, &ended);
    fprintf(stderr, "%.6f %.6f %.6f %ld\n", ended.tv_sec - began.tv_sec + (ended.tv_nsec - began.tv_nsec) / 1e9,
            seconds_of(took.ru_utime), seconds_of(took.ru_stime), took.ru_maxrss);
    return WIFEXITED(status) ? WEXITSTATUS(status) : 128 + WTERMSIG(status);
}
