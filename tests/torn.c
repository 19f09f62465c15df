/* A text that another thread changes during the call. The header asks for texts
 * that stay as they are, so no line can be promised then; but a line that names
 * jobs nobody asked about costs a night. This changes the number of jobs of the
 * document's example, from 2 to 0 and back, while calls run, and looks at every
 * line: it is a refusal, "not yet", or the example's own answer. */
#include "pasagumdil.h"

#include <pthread.h>
#include <stdatomic.h>
#include <stdio.h>
#include <stdlib.h>
#include <string.h>

static const char answer[] = "0302000000000000000D000000010000000000000002\n";

static uint8_t text[] = "01000000100001000102020000000040\n"
                        "0200FFFFFFF0000000030102\n"
                        "020100000008000000050201\n";

enum { LAST_DIGIT_OF_N = 19 };

static atomic_int over;

static void *change(void *unused)
{
    volatile uint8_t *digit = text + LAST_DIGIT_OF_N;
    while (!atomic_load_explicit(&over, memory_order_relaxed)) {
        *digit = '0';
        *digit = '2';
    }
    return unused;
}

static int harmless(const uint8_t *line, size_t length)
{
    return (length == 9 && memcmp(line, "0F", 2) == 0)
        || (length == 45 && memcmp(line, answer, 45) == 0)
        || (length == 45 && memcmp(line, "03030000000000000000", 20) == 0
            && memcmp(line + 28, "0000000000000000\n", 17) == 0);
}

int main(int count, char **arguments)
{
    long calls = count > 1 ? atol(arguments[1]) : 2000000;
    pthread_t thread;
    if (pthread_create(&thread, NULL, change, NULL) != 0) {
        puts("torn: no second thread");
        return 1;
    }
    long refused = 0, yet = 0, harmful = 0;
    for (long i = 0; i < calls; i++) {
        uint8_t line[PASAGUMDIL_LINE_BYTES];
        size_t length = pasagumdil_answer(text, sizeof text - 1, line, sizeof line);
        if (!harmless(line, length)) {
            if (harmful == 0) {
                fwrite(line, 1, length, stdout);
            }
            harmful++;
        }
        refused += length == 9;
        yet += length == 45 && line[3] == '3';
    }
    atomic_store(&over, 1);
    pthread_join(thread, NULL);
    printf("torn: %ld calls on a text that changes, %ld refused, %ld not yet, %ld harmful\n",
           calls, refused, yet, harmful);
    return harmful != 0;
}
