/* include/pasagumdil.h as a C or C++ program meets it that includes nothing
 * else, and null pointers where a list has length 0. C99 and C++17. Ends with
 * the number of the first sentence below that does not hold, or with 0. */
#include "pasagumdil.h"

enum { KEPT = 0x5A };

static void fill(uint8_t *bytes, size_t count)
{
    size_t i;
    for (i = 0; i < count; i++) {
        bytes[i] = KEPT;
    }
}

static int is_kept(const uint8_t *bytes, size_t count)
{
    size_t i;
    for (i = 0; i < count; i++) {
        if (bytes[i] != KEPT) {
            return 0;
        }
    }
    return 1;
}

static int begins(const uint8_t *bytes, const char *text)
{
    size_t i;
    for (i = 0; text[i] != 0; i++) {
        if (bytes[i] != (uint8_t)text[i]) {
            return 0;
        }
    }
    return 1;
}

int main(void)
{
    uint8_t none[8] = {0, 0, 0, 0, 0, 0, 0, 0};
    uint8_t one[8] = {0, 0, 0, 0, 0, 0, 0, 1};
    uint8_t work[8], answer[PASAGUMDIL_ANSWER_BYTES];
    uint8_t line[PASAGUMDIL_LINE_BYTES + 1];
    fill(work, sizeof work);
    fill(answer, sizeof answer);
    fill(line, sizeof line);

    /* 1. No list at all is refused: there are no rows. */
    if (pasagumdil_verdict(NULL, 0, NULL, 0, 0, 0, NULL, 0, NULL, 0) !=
        PASAGUMDIL_BAD_ROWS) {
        return 1;
    }
    /* 2. The same with places to write, and they keep their bytes. */
    if (pasagumdil_verdict(NULL, 0, NULL, 0, 0, 0, work, sizeof work, answer,
                           sizeof answer) != PASAGUMDIL_BAD_ROWS ||
        !is_kept(work, sizeof work) || !is_kept(answer, sizeof answer)) {
        return 2;
    }
    /* 3. One row, and no costs. */
    if (pasagumdil_verdict(none, sizeof none, NULL, 0, 0, 0, work, sizeof work,
                           answer, sizeof answer) != PASAGUMDIL_BAD_COSTS ||
        !is_kept(work, sizeof work) || !is_kept(answer, sizeof answer)) {
        return 3;
    }
    /* 4. One row and its cost, and no answer list, or no work list. */
    if (pasagumdil_verdict(none, sizeof none, one, sizeof one, 0, 0, work,
                           sizeof work, NULL, 0) != PASAGUMDIL_TOO_FEW_PLACES ||
        pasagumdil_verdict(none, sizeof none, one, sizeof one, 0, 0, NULL, 0,
                           answer, sizeof answer) != PASAGUMDIL_TOO_FEW_PLACES ||
        !is_kept(work, sizeof work) || !is_kept(answer, sizeof answer)) {
        return 4;
    }
    /* 5. With all of them it waits: one job alone is on no ring. */
    if (pasagumdil_verdict(none, sizeof none, one, sizeof one, 0, 0, work,
                           sizeof work, answer, sizeof answer) !=
            PASAGUMDIL_ANSWERED ||
        answer[0] != 3 || answer[1] != PASAGUMDIL_WAIT) {
        return 5;
    }
    /* 6. An empty text gets the line of a text that ends where its header is
     * due: refusal 11 at line 1. */
    if (pasagumdil_answer(NULL, 0, line, PASAGUMDIL_LINE_BYTES) != 9 ||
        !begins(line, "0F0B0001\n") || !is_kept(line + 9, sizeof line - 9)) {
        return 6;
    }
    fill(line, sizeof line);
    /* 7. No line list, or one that is a byte too short, gets nothing. */
    if (pasagumdil_answer(NULL, 0, NULL, 0) != 0 ||
        pasagumdil_answer(one, sizeof one, NULL, 0) != 0 ||
        pasagumdil_answer(NULL, 0, line, PASAGUMDIL_LINE_BYTES - 1) != 0 ||
        !is_kept(line, sizeof line)) {
        return 7;
    }
    return 0;
}
