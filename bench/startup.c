/* How long a program takes from start to end on one input.
 *
 *   startup TIMES INPUT COMMAND [ARGUMENT ..]
 *
 * writes the best and the middle time in microseconds. */
#define _POSIX_C_SOURCE 200809L
#include <fcntl.h>
#include <stdio.h>
#include <stdlib.h>
#include <sys/wait.h>
#include <time.h>
#include <unistd.h>

enum { MOST_TIMES = 1000 };

static double now(void)
{
    struct timespec t;
    clock_gettime(CLOCK_MONOTONIC, &t);
    return 1e6 * (double)t.tv_sec + 1e-3 * (double)t.tv_nsec;
}

static int rising(const void *a, const void *b)
{
    double x = *(const double *)a, y = *(const double *)b;
    return (x > y) - (x < y);
}

static void become(const char *input, char **command)
{
    int in = open(input, O_RDONLY), out = open("/dev/null", O_WRONLY);
    if (in >= 0 && out >= 0 && dup2(in, 0) == 0 && dup2(out, 1) == 1) {
        execv(command[0], command);
    }
    _exit(127);
}

int main(int argc, char **argv)
{
    static double taken[MOST_TIMES];
    int times = argc > 3 ? atoi(argv[1]) : 0;
    if (times < 1 || times > MOST_TIMES) {
        fputs("startup TIMES INPUT COMMAND [ARGUMENT ..]\n", stderr);
        return 2;
    }
    for (int i = 0; i < times; i++) {
        int status = 0;
        double start = now();
        pid_t child = fork();
        if (child == 0) {
            become(argv[2], argv + 3);
        }
        if (child < 0 || waitpid(child, &status, 0) != child ||
            !WIFEXITED(status) || WEXITSTATUS(status) != 0) {
            fprintf(stderr, "%s did not run\n", argv[3]);
            return 1;
        }
        taken[i] = now() - start;
    }
    qsort(taken, (size_t)times, sizeof taken[0], rising);
    printf("%.0f %.0f\n", taken[0], taken[times / 2]);
    return 0;
}
