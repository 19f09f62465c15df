/* The reader of snapshot text and the program's answer line.
 *
 * The text is first split at its feeds; then each line that is due is turned
 * from digits into bytes, and its fields are taken off from left to right. */
#include "second.h"
#include "parts.h"

#include <string.h>

/* ---- Lines ---- */

struct line {
    size_t first, length; /* its bytes without the feed */
    bool fed;             /* a feed ends it */
};

struct lines {
    size_t count;
    struct line line[SECOND_MOST_TEXT];
};

/* Every feed ends a line; bytes behind the last feed are a line without. */
static void split(const uint8_t *text, size_t len, struct lines *lines)
{
    size_t first = 0;
    lines->count = 0;
    for (size_t i = 0; i < len; i++) {
        if (text[i] == '\n') {
            lines->line[lines->count++] = (struct line){first, i - first, true};
            first = i + 1;
        }
    }
    if (first < len) {
        lines->line[lines->count++] = (struct line){first, len - first, false};
    }
}

/* ---- Frames ---- */

/* A line as bytes, and how many of them were taken off. */
struct frame {
    size_t count, taken;
    uint8_t byte[SECOND_MOST_TEXT / 2];
};

static const char digits[] = "0123456789ABCDEF";

/* A digit's value, or -1 where the byte is no capital hexadecimal digit. */
static int digit_value(uint8_t byte)
{
    const char *found = byte == 0 ? NULL : strchr(digits, byte);
    return found == NULL ? -1 : (int)(found - digits);
}

/* Turns a line into a frame; false where it deserves refusal 10. */
static bool decode(const uint8_t *text, struct line line, struct frame *frame)
{
    frame->count = line.length / 2;
    frame->taken = 0;
    if (!line.fed || line.length % 2 != 0) {
        return false;
    }
    for (size_t i = 0; i < line.length; i++) {
        int value = digit_value(text[line.first + i]);
        if (value < 0) {
            return false;
        }
        if (i % 2 == 0) {
            frame->byte[i / 2] = (uint8_t)(value * 16);
        } else {
            frame->byte[i / 2] = (uint8_t)(frame->byte[i / 2] + value);
        }
    }
    return true;
}

/* Takes the next field of `count` bytes off a frame. */
static uint32_t take(struct frame *frame, unsigned count)
{
    uint32_t number = 0;
    for (unsigned i = 0; i < count; i++) {
        number = number << 8 | frame->byte[frame->taken++];
    }
    return number;
}

/* The frame that is due at the given place, with its kind byte taken off.
 * Refusals 10 and 11. */
static int due_frame(const uint8_t *text, const struct lines *lines,
                     size_t place, unsigned kind, size_t bytes,
                     struct frame *frame)
{
    if (place >= lines->count) {
        return 11; /* the text ends early */
    }
    if (!decode(text, lines->line[place], frame)) {
        return 10;
    }
    if (frame->count != bytes || take(frame, 1) != kind) {
        return 11;
    }
    return 0;
}

/* ---- Fields ---- */

enum { ACTIVE = 1, WAITING = 2, MOST_POOLS = 16 };

struct header {
    uint32_t present, a, b, jobs, pools, t, allowance;
};

struct job {
    uint64_t cost;
    uint32_t state[MOST_POOLS];
    unsigned waits; /* at how many pools it waits */
};

static int read_header(struct frame *frame, struct header *header)
{
    header->present = take(frame, 4);
    header->a = take(frame, 2);
    header->b = take(frame, 2);
    header->jobs = take(frame, 1);
    header->pools = take(frame, 1);
    header->t = take(frame, 1);
    header->allowance = take(frame, 4);
    bool in_range = header->a >= 1 && header->a <= 1000 &&
                    header->b <= 1000 &&
                    header->jobs >= 1 && header->jobs <= SECOND_MOST_JOBS &&
                    header->pools >= 1 && header->pools <= MOST_POOLS &&
                    header->t < header->jobs;
    return in_range ? 0 : 12;
}

/* Fields from left to right (13, 15, 14, 16), then 17. */
static int read_job(struct frame *frame, const struct header *header,
                    unsigned number, struct job *job)
{
    if (take(frame, 1) != number) {
        return 13;
    }
    uint32_t age = header->present - take(frame, 4); /* modulo 2^32 */
    if (age >= (uint32_t)1 << 31) {
        return 15;
    }
    uint32_t operations = take(frame, 4);
    if (operations == 0 || operations > (uint32_t)1 << 20) {
        return 14;
    }
    job->waits = 0;
    for (unsigned pool = 0; pool < header->pools; pool++) {
        job->state[pool] = take(frame, 1);
        if (job->state[pool] > WAITING) {
            return 16;
        }
        job->waits += job->state[pool] == WAITING;
    }
    if (job->waits > 1) {
        return 17;
    }
    job->cost = (uint64_t)header->a * operations + (uint64_t)header->b * age;
    return 0;
}

/* Job u waits for another job v exactly when at some pool u is waiting and v
 * is active. */
static bool waits_for(const struct job *u, const struct job *v, unsigned pools)
{
    for (unsigned pool = 0; pool < pools; pool++) {
        if (u->state[pool] == WAITING && v->state[pool] == ACTIVE) {
            return true;
        }
    }
    return false;
}

/* ---- The reader ---- */

/* All lines of the text; `line` is the line of a refusal. */
static int read_lines(const uint8_t *text, size_t len, struct header *header,
                      struct job jobs[SECOND_MOST_JOBS], unsigned *line)
{
    struct lines lines;
    struct frame frame;
    split(text, len, &lines);
    *line = 1;
    int refusal = due_frame(text, &lines, 0, 0x01, 16, &frame);
    if (refusal == 0) {
        refusal = read_header(&frame, header);
    }
    if (refusal != 0) {
        return refusal;
    }
    for (unsigned number = 0; number < header->jobs; number++) {
        *line = number + 2;
        refusal = due_frame(text, &lines, number + 1, 0x02,
                            10 + header->pools, &frame);
        if (refusal == 0) {
            refusal = read_job(&frame, header, number, &jobs[number]);
        }
        if (refusal != 0) {
            return refusal;
        }
    }
    if (lines.count > header->jobs + 1) { /* a line behind the last frame */
        *line = header->jobs + 2;
        return decode(text, lines.line[header->jobs + 1], &frame) ? 11 : 10;
    }
    *line = header->t + 2;
    return jobs[header->t].waits == 0 ? 18 : 0;
}

int second_read(const uint8_t *text, size_t len,
                uint64_t *rows, size_t n_rows,
                uint64_t *costs, size_t n_costs, struct snapshot *out)
{
    struct header header;
    struct job jobs[SECOND_MOST_JOBS];
    *out = (struct snapshot){0, 0, 0, 0};
    if (n_rows < SECOND_MOST_JOBS || n_costs < SECOND_MOST_JOBS) {
        return 3;
    }
    if (len > SECOND_MOST_TEXT) {
        return 9;
    }
    int refusal = read_lines(text, len, &header, jobs, &out->line);
    if (refusal != 0) {
        return refusal;
    }
    for (unsigned u = 0; u < header.jobs; u++) {
        costs[u] = jobs[u].cost;
        rows[u] = 0;
        for (unsigned v = 0; v < header.jobs; v++) {
            if (u != v && waits_for(&jobs[u], &jobs[v], header.pools)) {
                rows[u] |= only(v);
            }
        }
    }
    *out = (struct snapshot){header.jobs, header.t, header.allowance, 0};
    return 0;
}

/* ---- The answer line ---- */

/* Writes a number as `count` bytes of two digits each. */
static uint8_t *write_field(uint8_t *to, uint64_t number, unsigned count)
{
    for (unsigned left = 2 * count; left > 0; left--) {
        *to++ = (uint8_t)digits[number >> 4 * (left - 1) & 15];
    }
    return to;
}

size_t second_answer(const uint8_t *text, size_t len,
                     uint8_t *line, size_t line_len)
{
    uint64_t rows[SECOND_MOST_JOBS], costs[SECOND_MOST_JOBS];
    uint64_t work[SECOND_MOST_JOBS * SECOND_MOST_JOBS];
    struct snapshot snapshot;
    struct answer answer;
    uint8_t *end = line;
    if (line_len < SECOND_LINE_BYTES) {
        return 0;
    }
    int refusal = second_read(text, len, rows, SECOND_MOST_JOBS, costs,
                              SECOND_MOST_JOBS, &snapshot);
    if (refusal != 0) {
        end = write_field(end, 0x0F, 1);
        end = write_field(end, (unsigned)refusal, 1);
        end = write_field(end, snapshot.line, 2);
    } else {
        refusal = second_verdict(rows, snapshot.jobs, costs, snapshot.jobs,
                                 snapshot.t, snapshot.allowance, work,
                                 SECOND_MOST_JOBS * SECOND_MOST_JOBS, &answer);
        must(refusal == 0, "an accepted text never meets refusals 1 to 8");
        end = write_field(end, 0x03, 1);
        end = write_field(end, answer.outcome, 1);
        end = write_field(end, answer.price, 8);
        end = write_field(end, answer.rounds, 4);
        end = write_field(end, answer.victims, 8);
    }
    *end++ = '\n';
    return (size_t)(end - line);
}
