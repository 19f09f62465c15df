/* Runs a program on a pipe that delivers a text in pieces, and holds what it
 * writes against what is expected.
 *
 *   pipes TEXT EXPECTED every PROGRAM [WORD ..]
 *   pipes TEXT EXPECTED SEED PROGRAM [WORD ..]
 *
 * TEXT and EXPECTED are files. By `every` the text is delivered once in each way
 * to cut it into two pieces; by a seed in four random ways to cut it into many.
 * A piece is written once the one before has been read to its end, so that a
 * read never gets more than one. The status is 0 where the program wrote what
 * is expected and ended with 0 each time, else 1. */
#define _POSIX_C_SOURCE 200809L
#include <signal.h>
#include <stdint.h>
#include <stdio.h>
#include <stdlib.h>
#include <string.h>
#include <sys/ioctl.h>
#include <sys/wait.h>
#include <time.h>
#include <unistd.h>

enum { MOST_BYTES = 1 << 16, MOST_CUTS = 64, WAYS = 4, TICKS = 200000 };

static uint8_t text[MOST_BYTES], expected[MOST_BYTES], found[MOST_BYTES];
static size_t text_length, expected_length;
static uint64_t dice;

static void give_up(const char *why)
{
    fprintf(stderr, "pipes: %s\n", why);
    exit(2);
}

static size_t load(const char *name, uint8_t *bytes)
{
    FILE *file = fopen(name, "rb");
    size_t length = file == NULL ? 0 : fread(bytes, 1, MOST_BYTES, file);
    if (file == NULL || ferror(file) || length == MOST_BYTES) {
        give_up("a file cannot be read");
    }
    fclose(file);
    return length;
}

/* A number below `bound`. */
static size_t roll(size_t bound)
{
    dice = dice * 6364136223846793005u + 1442695040888963407u;
    return (size_t)((dice >> 33) % bound);
}

/* Starts the program between two pipes. */
static pid_t start(char **program, int *to, int *from)
{
    int in[2], out[2];
    if (pipe(in) != 0 || pipe(out) != 0) {
        give_up("no pipe");
    }
    pid_t child = fork();
    if (child == 0) {
        dup2(in[0], 0);
        dup2(out[1], 1);
        close(in[0]), close(in[1]), close(out[0]), close(out[1]);
        signal(SIGPIPE, SIG_DFL);
        execvp(program[0], program);
        _exit(127);
    }
    close(in[0]), close(out[1]);
    *to = in[1];
    *from = out[0];
    return child;
}

/* Waits until all that was written has been read, or the reader has ended. */
static void drain(int to, pid_t child)
{
    struct timespec tick = {0, 50000};
    for (int ticks = 0; ticks < TICKS; ticks++) {
        int left = 0;
        siginfo_t ended = {0};
        if (ioctl(to, FIONREAD, &left) != 0 || left == 0) {
            return;
        }
        if (waitid(P_PID, (id_t)child, &ended, WEXITED | WNOHANG | WNOWAIT) == 0 && ended.si_pid == child) {
            return;
        }
        nanosleep(&tick, NULL);
    }
    kill(child, SIGKILL);
    give_up("the program does not read");
}

/* Delivers the text cut at the given places, and tells whether the program
 * wrote what is expected and ended with 0. */
static int deliver(char **program, const size_t *cuts, size_t count)
{
    int to, from, status = 0;
    size_t place = 0, length = 0;
    pid_t child = start(program, &to, &from);
    for (size_t i = 0; i <= count; i++) {
        size_t end = i < count ? cuts[i] : text_length;
        if (end > place && write(to, text + place, end - place) != (ssize_t)(end - place)) {
            break; /* it has read enough, or gone */
        }
        place = end;
        drain(to, child);
    }
    close(to);
    for (ssize_t got; (got = read(from, found + length, MOST_BYTES - length)) > 0;) {
        length += (size_t)got;
    }
    close(from);
    if (waitpid(child, &status, 0) != child) {
        give_up("no child");
    }
    if (status == 0 && length == expected_length && memcmp(found, expected, length) == 0) {
        return 1;
    }
    printf("pipes: in %zu pieces, the first of %zu bytes, of %zu in all: status %d\n", count + 1, count > 0 ? cuts[0] : text_length, text_length, status);
    printf("expected %.*sfound    %.*s\n", (int)expected_length, (char *)expected, (int)length, (char *)found);
    return 0;
}

static int rising(const void *a, const void *b)
{
    size_t x = *(const size_t *)a, y = *(const size_t *)b;
    return (x > y) - (x < y);
}

int main(int argc, char **argv)
{
    size_t cuts[MOST_CUTS];
    int well = 1;
    if (argc < 5) {
        give_up("pipes TEXT EXPECTED every|SEED PROGRAM [WORD ..]");
    }
    signal(SIGPIPE, SIG_IGN);
    text_length = load(argv[1], text);
    expected_length = load(argv[2], expected);
    if (strcmp(argv[3], "every") == 0) {
        for (cuts[0] = 1; well && cuts[0] < text_length; cuts[0]++) {
            well = deliver(argv + 4, cuts, 1);
        }
        return !well;
    }
    dice = strtoull(argv[3], NULL, 10);
    for (int way = 0; well && way < WAYS; way++) {
        size_t count = 1 + roll(MOST_CUTS);
        for (size_t i = 0; i < count; i++) {
            cuts[i] = roll(text_length + 1);
        }
        qsort(cuts, count, sizeof cuts[0], rising);
        well = deliver(argv + 4, cuts, count);
    }
    return !well;
}
