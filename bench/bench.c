/* Measures the proved code beside the reference and the libraries. Each mode
 * writes plain lines, `WHAT WORKLOAD CONTENDER NUMBER`, for run.sh.
 *
 *   bench equal          compares the results on every call of every workload
 *   bench time [TURNS]   nanoseconds of a call: the best of so many turns
 *   bench once CONTENDER WORKLOAD PASSES
 *                        makes a workload's calls, for counting instructions
 *   bench stack          bytes of stack that a call uses at most */
#include "../tests/painted.h"
#include "contenders.h"

#include <stdio.h>
#include <stdlib.h>
#include <time.h>

static struct lent lent;

/* ---- Equal results ---- */

enum { UNWRITTEN = 0x5A };

static bool same(const struct contender *c, const struct lent *a,
                 const struct lent *b)
{
    if (c->price_only) {
        return memcmp(a->answer + 2, b->answer + 2, 8) == 0;
    }
    return memcmp(a, b, sizeof *a) == 0;
}

static unsigned rounds_of(const struct lent *l)
{
    return (unsigned)l->answer[10] << 24 | (unsigned)l->answer[11] << 16 |
           (unsigned)l->answer[12] << 8 | l->answer[13];
}

/* Writes the mean and the most rounds, and the calls by their outcome. */
static void compare_workload(unsigned index)
{
    static struct lent expected;
    struct workload w = make_workload(index);
    const char *name = workload_name(index);
    unsigned most = 0, outcome[4] = {0};
    unsigned long rounds = 0;
    for (unsigned i = 0; i < w.count; i++) {
        memset(&expected, UNWRITTEN, sizeof expected);
        uint8_t refusal = contenders[REFERENCE].make(&w.calls[i], &expected);
        for (unsigned k = PROVED; k < contender_count; k++) {
            memset(&lent, UNWRITTEN, sizeof lent);
            if (refusal != 0 || contenders[k].make(&w.calls[i], &lent) != 0 ||
                !same(&contenders[k], &expected, &lent)) {
                printf("%s: call %u of %s differs\n", contenders[k].name, i,
                       name);
                exit(1);
            }
        }
        unsigned made = rounds_of(&expected);
        rounds += made;
        most = made > most ? made : most;
        outcome[expected.answer[1]]++;
    }
    printf("calls %s all %u\n", name, w.count);
    printf("rounds %s mean %.1f\n", name, (double)rounds / w.count);
    printf("rounds %s most %u\n", name, most);
    printf("outcome %s wait %u\n", name, outcome[0]);
    printf("outcome %s abort-t %u\n", name, outcome[1]);
    printf("outcome %s abort-others %u\n", name, outcome[2]);
    printf("outcome %s not-yet %u\n", name, outcome[3]);
}

/* ---- Time ---- */

/* A workload is timed in pieces, each of some calls, and of each piece the best
 * turn counts: a piece is so short that some turns meet nobody else on the
 * machine. */
#define PIECE_NANOSECONDS 1e5
enum { MOST_CALLS = 1024, MOST_CONTENDERS = 8 };

static double now(void)
{
    struct timespec t;
    clock_gettime(CLOCK_MONOTONIC, &t);
    return 1e9 * (double)t.tv_sec + (double)t.tv_nsec;
}

/* Makes `count` calls from `first` on, `passes` times. */
static void make_calls(const struct contender *c, const struct workload *w,
                       unsigned first, unsigned count, unsigned passes)
{
    for (unsigned pass = 0; pass < passes; pass++) {
        for (unsigned i = first; i < first + count; i++) {
            c->make(&w->calls[i], &lent);
        }
    }
}

/* One turn: each piece's best time so far, one pass. */
static void take_turn(const struct contender *c, const struct workload *w,
                      unsigned piece, unsigned passes, double *best)
{
    make_calls(c, w, 0, piece, 2 * passes); /* warms up */
    for (unsigned first = 0, k = 0; first < w->count; first += piece, k++) {
        unsigned left = w->count - first, count = left < piece ? left : piece;
        double start = now();
        make_calls(c, w, first, count, passes);
        double taken = (now() - start) / passes;
        best[k] = taken < best[k] ? taken : best[k];
    }
}

static void time_workload(unsigned index, unsigned turns)
{
    static double best[MOST_CONTENDERS][MOST_CALLS];
    struct workload w = make_workload(index);
    double start = now();
    make_calls(&contenders[REFERENCE], &w, 0, w.count, 1);
    double whole = now() - start, call = whole / w.count;
    unsigned passes = 1 + (unsigned)(PIECE_NANOSECONDS / whole);
    unsigned piece = 1 + (unsigned)(PIECE_NANOSECONDS / call);
    piece = piece < w.count ? piece : w.count;
    for (unsigned k = 0; k < contender_count; k++) {
        for (unsigned i = 0; i < MOST_CALLS; i++) {
            best[k][i] = 1e18;
        }
    }
    for (unsigned turn = 0; turn < turns; turn++) {
        for (unsigned i = 0; i < contender_count; i++) {
            /* to and fro, so that nobody always follows the same one */
            unsigned k = turn % 2 == 0 ? i : contender_count - 1 - i;
            take_turn(&contenders[k], &w, piece, passes, best[k]);
        }
    }
    for (unsigned k = 0; k < contender_count; k++) {
        double sum = 0;
        for (unsigned i = 0; i * piece < w.count; i++) {
            sum += best[k][i];
        }
        printf("time %s %s %.1f\n", workload_name(index), contenders[k].name,
               sum / w.count);
    }
}

/* ---- Stack ---- */

static const struct contender *volatile chosen;
static const struct call *volatile chosen_call;

static uint8_t make_nothing(const struct call *call, struct lent *l)
{
    l->answer[0] = (uint8_t)call->n;
    return 0;
}

static void make_chosen(void)
{
    chosen->make(chosen_call, &lent);
}

static size_t depth(const struct contender *c, const struct call *call)
{
    chosen = c;
    chosen_call = call;
    return stack_of(make_chosen);
}

static void measure_stack(const char *name, unsigned index)
{
    const struct contender nothing = {"nothing", false, make_nothing};
    struct workload w = make_workload(index);
    for (unsigned k = 0; k <= PROVED; k++) {
        size_t most = 0;
        for (unsigned i = 0; i < w.count; i += 10) {
            size_t found = depth(&contenders[k], &w.calls[i]) -
                           depth(&nothing, &w.calls[i]);
            most = found > most ? found : most;
        }
        printf("stack %s %s %zu\n", name, contenders[k].name, most);
    }
}

/* ---- Modes ---- */

static int once(const char *contender, const char *workload, unsigned passes)
{
    unsigned k = 0, index = 0;
    while (k < contender_count && strcmp(contenders[k].name, contender) != 0) {
        k++;
    }
    while (workload_name(index) != NULL &&
           strcmp(workload_name(index), workload) != 0) {
        index++;
    }
    if (k == contender_count || workload_name(index) == NULL) {
        fprintf(stderr, "there is no %s or no %s\n", contender, workload);
        return 2;
    }
    struct workload w = make_workload(index);
    make_calls(&contenders[k], &w, 0, w.count, passes);
    printf("calls %s all %u\n", workload, w.count);
    return 0;
}

int main(int argc, char **argv)
{
    const char *mode = argc > 1 ? argv[1] : "";
    if (strcmp(mode, "once") == 0 && argc == 5) {
        return once(argv[2], argv[3], (unsigned)atoi(argv[4]));
    }
    for (unsigned index = 0; workload_name(index) != NULL; index++) {
        if (strcmp(mode, "equal") == 0) {
            printf("about %s %s\n", workload_name(index), workload_about(index));
            compare_workload(index);
        } else if (strcmp(mode, "time") == 0) {
            time_workload(index, argc > 2 ? (unsigned)atoi(argv[2]) : 20);
        } else if (strcmp(mode, "stack") == 0) {
            measure_stack(workload_name(index), index);
        } else {
            fprintf(stderr, "bench equal | time [TURNS] | once CONTENDER "
                            "WORKLOAD PASSES | stack\n");
            return 2;
        }
    }
    return 0;
}
