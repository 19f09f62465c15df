/* Seeded snapshot texts: a snapshot's fields are thrown, faults may be put
 * into fields (generate_fields.c), then into lines, then into bytes. */
#include "generate.h"

#include <string.h>

enum { MOST_LINES = 80, MOST_DIGITS = 80 };

/* ---- Lines ---- */

struct page {
    unsigned count;
    struct {
        size_t len;
        char digit[MOST_DIGITS];
    } line[MOST_LINES];
};

static void put_field(struct page *page, uint64_t number, unsigned bytes)
{
    for (unsigned left = 2 * bytes; left > 0; left--) {
        unsigned value = (unsigned)(number >> 4 * (left - 1)) & 15;
        page->line[page->count].digit[page->line[page->count].len++] =
            "0123456789ABCDEF"[value];
    }
}

static void write_page(const struct fields *f, struct page *page)
{
    memset(page, 0, sizeof *page);
    put_field(page, f->kind, 1);
    put_field(page, f->present, 4);
    put_field(page, f->a, 2);
    put_field(page, f->b, 2);
    put_field(page, f->n, 1);
    put_field(page, f->s, 1);
    put_field(page, f->t, 1);
    put_field(page, f->allowance, 4);
    page->count++;
    for (unsigned j = 0; j < f->jobs; j++) {
        put_field(page, f->job[j].kind, 1);
        put_field(page, f->job[j].number, 1);
        put_field(page, f->job[j].issued, 4);
        put_field(page, f->job[j].operations, 4);
        for (unsigned pool = 0; pool < f->pools; pool++) {
            put_field(page, f->job[j].state[pool], 1);
        }
        page->count++;
    }
}

static void insert_line(struct page *page, unsigned at)
{
    memmove(&page->line[at + 1], &page->line[at],
            (page->count - at) * sizeof page->line[0]);
    memset(&page->line[at], 0, sizeof page->line[at]);
    page->count++;
}

/* A line behind the last frame: empty, a frame once more, or with a fault. */
static void append_line(struct dice *dice, struct page *page)
{
    unsigned last = page->count;
    insert_line(page, last);
    if (chance(dice, 2, 3)) {
        page->line[last] = page->line[below(dice, last)];
    }
    if (chance(dice, 1, 3)) {
        page->line[last].digit[page->line[last].len++] = '0';
    }
}

static void damage_line(struct dice *dice, struct page *page)
{
    unsigned at = (unsigned)below(dice, page->count);
    size_t *len = &page->line[at].len;
    unsigned digits = 1 + (unsigned)below(dice, 2);
    switch (below(dice, 8)) {
    case 0: insert_line(page, at); break; /* an empty line before it */
    case 1: append_line(dice, page); break;
    case 2: /* a line is missing */
        memmove(&page->line[at], &page->line[at + 1],
                (page->count - at - 1) * sizeof page->line[0]);
        page->count--;
        break;
    case 3: /* one or two digits too many */
        for (unsigned i = 0; i < digits; i++) {
            page->line[at].digit[(*len)++] = '0';
        }
        break;
    case 4: *len -= *len < digits ? 0 : digits; break; /* too few */
    case 5: /* a byte that is no digit */
        page->line[at].digit[below(dice, *len + 1)] =
            (char)ONE_OF(dice, 'a', 'f', 'G', ' ', '\r', 0, '/', ':', '@',
                         0x80, 0xB1);
        break;
    case 6: page->line[at].digit[(*len)++] = '\r'; break;
    default: /* the line once more */
        insert_line(page, at);
        page->line[at] = page->line[at + 1];
        break;
    }
}

static void join(const struct page *page, struct text *text)
{
    text->len = 0;
    for (unsigned i = 0; i < page->count; i++) {
        memcpy(text->byte + text->len, page->line[i].digit, page->line[i].len);
        text->len += page->line[i].len;
        text->byte[text->len++] = '\n';
    }
}

/* ---- Bytes ---- */

static void pad_to(struct dice *dice, struct text *text, size_t len)
{
    bool feed_first = chance(dice, 1, 2);
    while (text->len < len) {
        text->byte[text->len++] = feed_first && chance(dice, 1, 40)
                                      ? '\n' : (uint8_t)('0' + below(dice, 10));
    }
    if (chance(dice, 1, 2) && len > 0) {
        text->byte[len - 1] = '\n';
    }
}

static void damage_bytes(struct dice *dice, struct text *text)
{
    size_t at = text->len == 0 ? 0 : below(dice, text->len);
    size_t behind = text->len - at;
    switch (below(dice, 8)) {
    case 0: /* a byte less */
        if (behind > 0) {
            memmove(text->byte + at, text->byte + at + 1, behind - 1);
            text->len--;
        }
        break;
    case 1: /* a byte more */
        memmove(text->byte + at + 1, text->byte + at, behind);
        text->byte[at] = (uint8_t)ONE_OF(dice, '0', 'A', '\n', '\r', ' ', 'b',
                                         below(dice, 256));
        text->len++;
        break;
    case 2: /* a bit flipped */
        if (behind > 0) {
            text->byte[at] ^= (uint8_t)(1u << below(dice, 8));
        }
        break;
    case 3: /* another digit */
        if (behind > 0) {
            text->byte[at] = (uint8_t)"0123456789ABCDEF"[below(dice, 16)];
        }
        break;
    case 4: text->len = at; break; /* cut anywhere */
    case 5: text->len -= text->len > 0; break; /* the last feed is missing */
    case 6:
        pad_to(dice, text, ONE_OF(dice, 4095, 4096, 4096, 4097, 4097, 4098,
                                  6000));
        break;
    default: /* another digit, early, where the header stands */
        if (text->len > 33) {
            text->byte[below(dice, 33)] =
                (uint8_t)"0123456789ABCDEF"[below(dice, 16)];
        }
        break;
    }
}

/* Texts that were never a snapshot. */
static void throw_bytes(struct dice *dice, struct text *text)
{
    uint64_t kind = below(dice, 4), any = roll(dice) >> 16;
    text->len = kind == 0 ? 0 : ONE_OF(dice, 1, 2, 3, any % 200, any % 5000);
    for (size_t i = 0; i < text->len; i++) {
        text->byte[i] = kind == 1 ? '\n'
                        : kind == 2 ? (uint8_t)"0123456789ABCDEF\n"
                                          [below(dice, 17)]
                                    : (uint8_t)roll(dice);
    }
}

/* No fault, one or two, in the fields, the lines or the bytes, in this order,
 * so that faults of different kinds can be joined. */
void make_text(struct dice *dice, struct text *text)
{
    struct fields fields;
    struct page page;
    unsigned faults = chance(dice, 9, 20) ? 0 : 1 + (unsigned)below(dice, 2);
    unsigned in_header = 0, in_jobs = 0, in_lines = 0, in_bytes = 0;
    if (chance(dice, 1, 40)) {
        throw_bytes(dice, text);
        return;
    }
    for (unsigned i = 0; i < faults; i++) {
        uint64_t where = below(dice, 12);
        in_header += where < 2;
        in_jobs += where >= 2 && where < 7;
        in_lines += where >= 7 && where < 10;
        in_bytes += where >= 10;
    }
    throw_fields(dice, &fields);
    /* Two faults of jobs are in one line half of the time; T is often hit. */
    unsigned hit = chance(dice, 1, 3) ? (unsigned)fields.t
                                      : (unsigned)below(dice, fields.jobs);
    while (in_jobs-- > 0) {
        damage_job(dice, &fields, hit);
        hit = chance(dice, 1, 2) ? hit : (unsigned)below(dice, fields.jobs);
    }
    while (in_header-- > 0) {
        damage_header(dice, &fields);
    }
    write_page(&fields, &page);
    while (in_lines-- > 0) {
        damage_line(dice, &page);
    }
    join(&page, text);
    while (in_bytes-- > 0) {
        damage_bytes(dice, text);
    }
}
