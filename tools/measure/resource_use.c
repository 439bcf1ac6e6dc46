/* Runs a command, its standard output to /dev/null, and prints what it used, by the system's account of the child:
 * processor time with the system's and time passed, in microseconds, and the most memory that it held, in kilobytes.
 *
 * A program of its own, since a child begins with the memory of the process that starts it. */

#include <fcntl.h>
#include <stdio.h>
#include <sys/resource.h>
#include <sys/wait.h>
#include <time.h>
#include <unistd.h>

static long microseconds(struct timeval time) { return time.tv_sec * 1000000L + time.tv_usec; }

int main(int count, char **words) {
    struct timespec began, ended;
    struct rusage used;
    int status;

    if (count < 2) {
        fprintf(stderr, "usage: resource_use COMMAND..\n");
        return 2;
    }
    clock_gettime(CLOCK_MONOTONIC, &began);
    pid_t child = fork();
    if (child == 0) {
        int nowhere = open("/dev/null", O_WRONLY);
        if (nowhere >= 0 && dup2(nowhere, STDOUT_FILENO) >= 0) execvp(words[1], words + 1);
        _exit(127);
    }
    if (child < 0 || wait4(child, &status, 0, &used) != child) return 1;
    clock_gettime(CLOCK_MONOTONIC, &ended);
    long passed = (ended.tv_sec - began.tv_sec) * 1000000L + (ended.tv_nsec - began.tv_nsec) / 1000;
    printf("%ld %ld %ld %d\n", microseconds(used.ru_utime) + microseconds(used.ru_stime), passed, used.ru_maxrss,
           WIFEXITED(status) ? WEXITSTATUS(status) : 128);
    return 0;
}
