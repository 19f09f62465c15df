/* How much stack a call of the C entry takes. Prints the bytes for 8, 16, 32, 48
 * and 64 jobs, and for a text of 64 jobs, and ends with 1 where a call takes more
 * than PASAGUMDIL_STACK_BYTES. x86-64. */
#include "painted.h"
#include "pasagumdil.h"

#include <stdio.h>
#include <string.h>

static uint8_t rows[512], costs[512], work[32768], answer[22];
static size_t jobs;
static char text[4096];
static uint8_t line[45];

/* One ring through all jobs and waits back, so that rounds are made. */
static void make_lists(size_t n)
{
    memset(rows, 0, sizeof rows);
    memset(costs, 0, sizeof costs);
    for (size_t j = 0; j < n; j++) {
        size_t next = (j + 1) % n, back = (j + n - 1) % n;
        rows[8 * j + 7 - next / 8] |= (uint8_t)(1u << next % 8);
        rows[8 * j + 7 - back / 8] |= (uint8_t)(1u << back % 8);
        costs[8 * j + 7] = (uint8_t)(1 + j);
    }
    jobs = n;
}

static void call(void)
{
    uint8_t refusal = pasagumdil_verdict(rows, 8 * jobs, costs, 8 * jobs, 0,
                                         UINT32_MAX, work, sizeof work,
                                         answer, sizeof answer);
    answer[0] = refusal == PASAGUMDIL_ANSWERED ? answer[0] : 0;
}

/* 64 jobs at 16 pools: job j holds pool j % 16 and waits at the next one. */
static void make_text(void)
{
    char *at = text + sprintf(text, "01000003E800010001401000FFFFFFFF\n");
    for (unsigned j = 0; j < 64; j++) {
        at += sprintf(at, "02%02X0000038400000001", j);
        for (unsigned p = 0; p < 16; p++) {
            unsigned state = p == j % 16 ? 1 : p == (j + 1) % 16 ? 2 : 0;
            at += sprintf(at, "%02X", state);
        }
        at += sprintf(at, "\n");
    }
}

static void call_text(void)
{
    pasagumdil_answer((const uint8_t *)text, strlen(text), line, sizeof line);
}

int main(void)
{
    static const size_t sizes[] = {8, 16, 32, 48, 64};
    int bad = 0;
    size_t taken;
    printf("stack:");
    for (size_t i = 0; i < sizeof sizes / sizeof sizes[0]; i++) {
        make_lists(sizes[i]);
        taken = stack_of(call);
        printf(" %zu bytes for %zu jobs,", taken, sizes[i]);
        bad |= answer[0] != 3 || taken > PASAGUMDIL_STACK_BYTES;
    }
    make_text();
    taken = stack_of(call_text);
    printf(" %zu bytes for a text of 64 jobs\n", taken);
    return bad || memcmp(line, "03", 2) != 0 || taken > PASAGUMDIL_STACK_BYTES;
}
