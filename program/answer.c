/* pasagumdil-answer: the line that answers a snapshot.
 *
 *   pasagumdil-answer [FILE]
 *
 * It reads, calls pasagumdil_answer(), which is proved and decides all there is
 * to decide, and writes. The status is 0 where a line was written, an answer or
 * a refusal, and 1 where none was; then standard error says why. */
#define _POSIX_C_SOURCE 200809L
#include "pasagumdil.h"

#include <errno.h>
#include <fcntl.h>
#include <signal.h>
#include <stdio.h>
#include <string.h>
#include <unistd.h>

/* A text of one byte more than is read is too long, whatever follows. */
enum { MOST_BYTES = PASAGUMDIL_TEXT_BYTES + 1 };

static const char usage[] =
    "pasagumdil-answer [FILE]     reads a snapshot from FILE, or from standard input where no FILE or - is named,\n"
    "                             and writes its answer or refusal line\n"
    "pasagumdil-answer --version  the version\n"
    "pasagumdil-answer --help     this page, as -h\n"
    "\n"
    "Exit status:\n"
    "    0    a line was written, an answer or a refusal: its first two digits, 03 or 0F, say which\n"
    "    1    no line was written, and standard error says why\n";

/* Says why no line was written. */
static int failed(const char *what, const char *why)
{
    fprintf(stderr, "pasagumdil: %s: %s\n", what, why);
    return 1;
}

/* Reads to the end of the input, to a read that fails, which counts as the end,
 * or until the text is full. */
static size_t read_text(int input, uint8_t *text)
{
    size_t length = 0;
    while (length < MOST_BYTES) {
        ssize_t got = read(input, text + length, MOST_BYTES - length);
        if (got > 0) {
            length += (size_t)got;
        } else if (got == 0 || errno != EINTR) {
            break;
        }
    }
    return length;
}

/* Writes all of it to standard output, and says so where it cannot. */
static int write_all(const void *bytes, size_t length)
{
    const char *next = bytes;
    while (length > 0) {
        ssize_t put = write(STDOUT_FILENO, next, length);
        if (put > 0) {
            next += put;
            length -= (size_t)put;
        } else if (put == 0 || errno != EINTR) {
            return failed("the line could not be written", strerror(errno));
        }
    }
    return 0;
}

/* Opens a file, or standard input by the name -; -1 where it cannot be read,
 * as a folder cannot. */
static int open_text(const char *file)
{
    int input = strcmp(file, "-") == 0 ? STDIN_FILENO : open(file, O_RDONLY);
    if (input > STDIN_FILENO && read(input, &input, 0) < 0) {
        return -1;
    }
    if (input == STDIN_FILENO && isatty(input)) {
        fputs("pasagumdil: reading a snapshot from the terminal; Ctrl-D on a line of its own ends it\n", stderr);
    }
    return input;
}

static int answer(const char *file)
{
    uint8_t text[MOST_BYTES], line[PASAGUMDIL_LINE_BYTES];
    int input = open_text(file);
    if (input < 0) {
        return failed(file, strerror(errno));
    }
    size_t length = read_text(input, text);
    return write_all(line, pasagumdil_answer(text, length, line, sizeof line));
}

int main(int argc, char **argv)
{
    static const char version[] = "pasagumdil-answer " PASAGUMDIL_VERSION "\n";
    const char *word = argc > 1 ? argv[1] : "-";
    signal(SIGPIPE, SIG_IGN);
    if (argc > 2) {
        return failed("one file name at most", "pasagumdil-answer --help says more");
    }
    if (strcmp(word, "--help") == 0 || strcmp(word, "-h") == 0) {
        return write_all(usage, sizeof usage - 1);
    }
    if (strcmp(word, "--version") == 0) {
        return write_all(version, sizeof version - 1);
    }
    if (word[0] == '-' && word[1] != '\0') {
        return failed(word, "there is no such option; a file of that name is ./ and the name");
    }
    return answer(word);
}
