/* The second program: second MODE. README.md tells the modes. */
#include "generate.h"
#include "main.h"
#include "parts.h"
#include "second.h"

#include <inttypes.h>
#include <stdio.h>
#include <stdlib.h>
#include <string.h>

void give_up(const char *why)
{
    fprintf(stderr, "second: %s\n", why);
    exit(2);
}

/* ---- Lines of hexadecimal numbers ---- */

enum { MOST_NUMBERS = 1024, MOST_WORK = 1 << 20 };

struct numbers {
    size_t count;
    uint64_t at[MOST_NUMBERS];
};

/* Reads the next number and tells by `end` what stands behind it: a space, a
 * feed or the end of the input. */
static uint64_t scan_number(int first, int *end)
{
    static const char capital[] = "0123456789ABCDEF";
    uint64_t number = 0;
    unsigned digits = 0;
    int byte = first;
    for (; byte > 0 && strchr(capital, byte) != NULL; byte = getchar()) {
        number = number * 16 + (uint64_t)(strchr(capital, byte) - capital);
        if (++digits > 16 || (digits == 2 && first == '0')) {
            give_up("a number has more digits than it should");
        }
    }
    if (digits == 0 || (byte != ' ' && byte != '\n' && byte != EOF)) {
        give_up("a line is not numbers between single spaces");
    }
    *end = byte;
    return number;
}

/* Reads a line; false at the end of the input. */
static bool scan_line(struct numbers *numbers)
{
    int byte = getchar();
    numbers->count = 0;
    if (byte == EOF) {
        return false;
    }
    for (int end = ' '; end == ' ';) {
        if (numbers->count == MOST_NUMBERS) {
            give_up("a line has too many numbers");
        }
        numbers->at[numbers->count++] = scan_number(byte, &end);
        byte = end == ' ' ? getchar() : 0;
    }
    return true;
}

/* ---- Calls ---- */

/* A verdict call with the work list that was lent to it. */
struct made_call {
    const uint64_t *rows, *costs;
    size_t n_rows, n_costs, n_work;
    uint64_t t;
    uint32_t allowance;
    uint64_t *work;
    int refusal;
    struct answer answer;
};

/* Makes the call of a line `R C W T A r1 .. rR c1 .. cC` over a work list that
 * is filled with 5A bytes before. */
static void make_the_call(const struct numbers *line, struct made_call *call)
{
    const uint64_t *at = line->at;
    if (line->count < 5 || at[0] > MOST_NUMBERS || at[1] > MOST_NUMBERS ||
        line->count != 5 + at[0] + at[1] || at[2] > MOST_WORK ||
        at[4] > UINT32_MAX) {
        give_up("a line is no call");
    }
    call->n_rows = (size_t)at[0];
    call->n_costs = (size_t)at[1];
    call->n_work = (size_t)at[2];
    call->t = at[3];
    call->allowance = (uint32_t)at[4];
    call->rows = at + 5;
    call->costs = at + 5 + call->n_rows;
    call->work = malloc((call->n_work + 1) * sizeof *call->work);
    if (call->work == NULL) {
        give_up("no memory");
    }
    for (size_t i = 0; i < call->n_work; i++) {
        call->work[i] = 0x5A5A5A5A5A5A5A5A;
    }
    call->refusal = second_verdict(call->rows, call->n_rows, call->costs,
                                   call->n_costs, call->t, call->allowance,
                                   call->work, call->n_work, &call->answer);
}

static uint64_t digest(const uint64_t *list, size_t count)
{
    uint64_t d = 0xCBF29CE484222325;
    for (size_t i = 0; i < count; i++) {
        d = (d ^ list[i]) * 0x100000001B3;
        d = d ^ d >> 29;
    }
    return d;
}

static void show_answer(const struct made_call *call)
{
    static const char *const outcome[] = {"wait", "abort-t", "abort-others",
                                          "not-yet"};
    if (call->refusal != 0) {
        printf("refused %d", call->refusal);
    } else {
        printf("%s %" PRIX64 " %" PRIX32 " %" PRIX64,
               outcome[call->answer.outcome], call->answer.price,
               call->answer.rounds, call->answer.victims);
    }
    printf(" %016" PRIX64 "\n", digest(call->work, call->n_work));
}

static void show_flows(const struct made_call *call)
{
    if (call->refusal != 0) {
        printf("refused %d", call->refusal);
    } else if (call->answer.outcome == SECOND_WAIT) {
        printf("wait");
    } else {
        printf("rounds %" PRIX32 " left %s", call->answer.rounds,
               call->answer.outcome == SECOND_NOT_YET ? "YES" : "NO");
        for (size_t i = 0; i < call->n_rows * call->n_rows; i++) {
            if (call->work[i] != 0) {
                printf(" %zu>%zu:%" PRIX64, i / call->n_rows, i % call->n_rows,
                       call->work[i]);
            }
        }
    }
    printf("\n");
}

/* The modes `calls` and `flows`: makes the call of each line and shows it. */
static int mode_calls(void (*show)(const struct made_call *call))
{
    struct numbers line;
    struct made_call call;
    while (scan_line(&line)) {
        make_the_call(&line, &call);
        show(&call);
        free(call.work);
    }
    return 0;
}

/* A row that names a job n or above is 4 here as in a call, T too high is 6. */
static int refusal_of_graph(const uint64_t *rows, uint64_t n, uint64_t t)
{
    if (n == 0 || n > SECOND_MOST_JOBS) {
        return 1;
    }
    for (uint64_t u = 0; u < n; u++) {
        if (n < SECOND_MOST_JOBS && rows[u] >> n != 0) {
            return 4;
        }
    }
    return t >= n ? 6 : 0;
}

static int mode_graph(void)
{
    struct numbers line;
    while (scan_line(&line)) {
        if (line.count < 2 || line.at[0] != line.count - 2) {
            give_up("a line is no graph");
        }
        uint64_t n = line.at[0], t = line.at[1];
        const uint64_t *rows = line.at + 2;
        int refusal = refusal_of_graph(rows, n, t);
        if (refusal != 0) {
            printf("refused %d\n", refusal);
            continue;
        }
        uint64_t reach = second_reach(rows, (size_t)n, (size_t)t);
        uint64_t x = second_on_rings(rows, (size_t)n, (size_t)t);
        bool ring = x != only((unsigned)t) || has(rows[t], (unsigned)t);
        printf("reach %" PRIX64 " x %" PRIX64 " ring %s\n", reach, x,
               ring ? "yes" : "no");
    }
    return 0;
}

/* ---- The answer to one text ---- */

static int mode_answer(void)
{
    uint8_t text[SECOND_MOST_TEXT + 1], line[SECOND_LINE_BYTES];
    size_t len = fread(text, 1, sizeof text, stdin);
    size_t written = second_answer(text, len, line, sizeof line);
    return fwrite(line, 1, written, stdout) == written ? 0 : 1;
}

/* ---- Seeded inputs ---- */

static int mode_gen_calls(uint64_t seed, uint64_t count)
{
    struct dice dice = dice_of_seed(seed);
    struct call call;
    for (uint64_t made = 0; made < count; made++) {
        make_call(&dice, &call);
        printf("%zX %zX %zX %" PRIX64 " %" PRIX32, call.n_rows, call.n_costs,
               call.n_work, call.t, call.allowance);
        for (size_t i = 0; i < call.n_rows; i++) {
            printf(" %" PRIX64, call.rows[i]);
        }
        for (size_t i = 0; i < call.n_costs; i++) {
            printf(" %" PRIX64, call.costs[i]);
        }
        printf("\n");
    }
    return 0;
}

static int mode_gen_texts(uint64_t seed, uint64_t count, const char *folder)
{
    struct dice dice = dice_of_seed(seed);
    struct text text;
    char name[1024];
    for (uint64_t made = 1; made <= count; made++) {
        make_text(&dice, &text);
        int len = snprintf(name, sizeof name, "%s/%04" PRIu64 ".txt", folder,
                           made);
        if (len < 0 || (size_t)len >= sizeof name) {
            give_up("the folder's name is too long");
        }
        FILE *file = fopen(name, "wb");
        if (file == NULL ||
            fwrite(text.byte, 1, text.len, file) != text.len ||
            fclose(file) != 0) {
            give_up("a text cannot be written");
        }
    }
    return 0;
}

/* ---- Modes ---- */

static uint64_t decimal(const char *word)
{
    char *end;
    unsigned long long number = strtoull(word, &end, 10);
    if (*word < '0' || *word > '9' || *end != 0) {
        give_up("a seed or a count is no decimal number");
    }
    return number;
}

int main(int words, char **word)
{
    const char *mode = words > 1 ? word[1] : "";
    if (words == 2 && strcmp(mode, "answer") == 0) {
        return mode_answer();
    }
    if (words == 2 && strcmp(mode, "calls") == 0) {
        return mode_calls(show_answer);
    }
    if (words == 2 && strcmp(mode, "flows") == 0) {
        return mode_calls(show_flows);
    }
    if (words == 2 && strcmp(mode, "graph") == 0) {
        return mode_graph();
    }
    if (words == 4 && strcmp(mode, "gen-calls") == 0) {
        return mode_gen_calls(decimal(word[2]), decimal(word[3]));
    }
    if (words == 5 && strcmp(mode, "gen-texts") == 0) {
        return mode_gen_texts(decimal(word[2]), decimal(word[3]), word[4]);
    }
    if (words == 4 && strcmp(mode, "self") == 0) {
        return check_self(decimal(word[2]), decimal(word[3]));
    }
    give_up("modes: answer, calls, flows, graph, gen-calls SEED COUNT, "
            "gen-texts SEED COUNT FOLDER, self SEED COUNT");
    return 2;
}
