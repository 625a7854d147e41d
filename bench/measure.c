/* Runs a program once, its output thrown away, and prints its wall time in microseconds, its peak memory in KiB and its
   status. Small, since the peak of a child begins with the memory of the process that it was split from. */
#include <fcntl.h>
#include <stdio.h>
#include <sys/resource.h>
#include <sys/wait.h>
#include <time.h>
#include <unistd.h>

static long long now(void) {
    struct timespec t;
    clock_gettime(CLOCK_MONOTONIC, &t);
    return t.tv_sec * 1000000LL + t.tv_nsec / 1000;
}

int main(int count, char **words) {
    if (count < 2) {
        fputs("usage: measure PROGRAM WORD..\n", stderr);
        return 2;
    }
    long long start = now();
    pid_t child = fork();
    if (child == 0) {
        int sink = open("/dev/null", O_WRONLY);
        dup2(sink, 1);
        execvp(words[1], words + 1);
        _exit(127);
    }
    int status;
    struct rusage used;
    if (child < 0 || wait4(child, &status, 0, &used) < 0) {
        perror("measure");
        return 1;
    }
    long long taken = now() - start;
    int ended = WIFEXITED(status) ? WEXITSTATUS(status) : 128 + WTERMSIG(status);
    printf("%lld %ld %d\n", taken, used.ru_maxrss, ended);
    return 0;
}
