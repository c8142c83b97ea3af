// timed COMMAND [WORDS]: runs the command without standard output, and prints the wall time and the
// processor time in microseconds, the peak memory in KiB, and the exit status (128 and the signal,
// where it was ended by one).
#include <fcntl.h>
#include <stdio.h>
#include <sys/resource.h>
#include <sys/wait.h>
#include <time.h>
#include <unistd.h>

static double wall(void)
{
    struct timespec now;
    clock_gettime(CLOCK_MONOTONIC, &now);
    return now.tv_sec * 1e6 + now.tv_nsec / 1e3;
}

int main(int count, char **words)
{
    if (count < 2)
        return 2;
    double began = wall();
    pid_t child = vfork();
    if (child == 0) {
        dup2(open("/dev/null", O_WRONLY), 1);
        execv(words[1], words + 1);
        _exit(127);
    }
    int end;
    struct rusage used;
    if (child < 0 || wait4(child, &end, 0, &used) != child)
        return 1;
    double passed = wall() - began;
    double processor = (used.ru_utime.tv_sec + used.ru_stime.tv_sec) * 1e6 + used.ru_utime.tv_usec
        + used.ru_stime.tv_usec;
    int status = WIFEXITED(end) ? WEXITSTATUS(end) : 128 + WTERMSIG(end);
    printf("%.0f %.0f %ld %d\n", passed, processor, used.ru_maxrss, status);
    return 0;
}
