/*
 * Runs a program and writes what it spent.
 *
 *     spend <report> <program> [arguments]
 *
 * The report is one line: the wall time and the processor time (user and system) in microseconds, and the peak memory in
 * KiB. Standard streams and the folder are the program's, and so is the status.
 */
#include <stdio.h>
#include <sys/resource.h>
#include <sys/time.h>
#include <sys/types.h>
#include <sys/wait.h>
#include <time.h>
#include <unistd.h>

static long long microseconds(struct timeval time)
{
    return time.tv_sec * 1000000LL + time.tv_usec;
}

int main(int count, char **words)
{
    struct timespec begun, ended;
    struct rusage usage;
    int status;
    if (count < 3)
        return 125;
    FILE *report = fopen(words[1], "we");
    if (!report)
        return 125;
    clock_gettime(CLOCK_MONOTONIC, &begun);
    pid_t child = fork();
    if (child == 0) {
        execv(words[2], words + 2);
        _exit(127);
    }
    if (child < 0 || waitpid(child, &status, 0) != child)
        return 125;
    clock_gettime(CLOCK_MONOTONIC, &ended);
    getrusage(RUSAGE_CHILDREN, &usage);
    fprintf(report, "%lld %lld %ld\n",
        (ended.tv_sec - begun.tv_sec) * 1000000LL + (ended.tv_nsec - begun.tv_nsec) / 1000,
        microseconds(usage.ru_utime) + microseconds(usage.ru_stime), usage.ru_maxrss);
    return WIFEXITED(status) ? WEXITSTATUS(status) : 126;
}
