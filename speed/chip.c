/* Documents 01 and 02 by hand in C. Its author had read the Rattle sources too; every rule was taken from the document. */
#include "chip.h"
#include <string.h>

#define FM25V01 .size = 16384, .quarter = 0x3000, .half = 0x2000, .mask = 0x8C, .address_bytes = 2, .upper = 0x3F, .top = 0, .enable = 0x80, .guards_array = 0, \
    .fast = 0x0B, .sleep = 0xB9, .rdid = 0x9F, .ident = {0x7F, 0x7F, 0x7F, 0x7F, 0x7F, 0x7F, 0xC2, 0x21, 0x00}, .wp_at_fall = 1

const struct part PARTS[6] = {
    {0},
    {.size = 512, .quarter = 0x180, .half = 0x100, .mask = 0x0C, .address_bytes = 1, .upper = 1, .top = 8, .enable = 0, .guards_array = 1},
    {.size = 512, .quarter = 0x180, .half = 0x100, .mask = 0x0C, .address_bytes = 1, .upper = 1, .top = 8, .enable = 0, .guards_array = 1},
    {.size = 2048, .quarter = 0x600, .half = 0x400, .mask = 0x8C, .address_bytes = 2, .upper = 7, .top = 0, .enable = 0x80, .guards_array = 0},
    {FM25V01},
    {FM25V01, .snr = 0xC3, .serial = 8},
};

static void at_rest(struct chip *c, int power)
{
    c->power = power;
    c->cs = c->hold = c->wp = 1;
    c->sck = c->si = 0;
    c->stage = CLOSED;
    c->latch = 0;
    c->so = RELEASED;
}

void chip_power_up(struct chip *c, int part, uint8_t kept, uint8_t *array, const uint8_t *serial)
{
    memset(c, 0, sizeof *c);
    c->p = &PARTS[part];
    c->kept = kept;
    c->array = array;
    c->serial = serial;
    at_rest(c, 1);
}

static void note(struct chip *c, int kind, uint32_t at, uint8_t value)
{
    c->note = kind;
    c->note_at = at;
    c->note_value = value;
}

static void next(struct chip *c)
{
    c->at = c->at + 1 < c->p->size ? c->at + 1 : 0;
}

/* A bit into the byte; whether it was the eighth. */
static int take(struct chip *c)
{
    c->byte = c->byte << 1 | c->si;
    if (++c->bits < 8)
        return 0;
    c->bits = 0;
    return 1;
}

/* Of a data byte: /WP is read at its first bit (Wish 2), or was read at the fall of /CS (Wish 3). */
static int take_data(struct chip *c)
{
    if (c->bits == 0 && !c->p->wp_at_fall)
        c->byte_wp = c->wp;
    return take(c);
}

static uint32_t first_guarded(const struct chip *c)
{
    switch (c->kept >> 2 & 3) {
    case 0: return c->p->size;
    case 1: return c->p->quarter;
    case 2: return c->p->half;
    default: return 0;
    }
}

static void op_code(struct chip *c)
{
    uint8_t op = c->byte;
    c->whole = 0;
    c->stage = OVER;
    switch (op) {
    case 0x06: c->latch = 1; note(c, LATCH, 0, 1); return;
    case 0x04: c->latch = 0; note(c, LATCH, 0, 0); return;
    case 0x05: c->what = STATUS; c->stage = READY; return;
    case 0x01: c->stage = KEEPING; return;
    }
    uint8_t plain = op & ~c->p->top;
    if (plain == 0x03) c->header = READY;
    else if (plain == 0x02) c->header = WRITING;
    else if (op == c->p->fast && op) c->header = DUMMY;
    else {
        if (op && (op == c->p->rdid || op == c->p->snr)) {
            c->what = op == c->p->rdid ? IDENT : SERIAL;
            c->at = 0;
            c->stage = READY;
        }
        c->sleeps = op == c->p->sleep && op;
        return;
    }
    c->what = ARRAY;
    c->at = (op & c->p->top) ? 1 : 0;
    c->stage = c->p->address_bytes == 2 ? UPPER : LOWER;
}

static void data_byte(struct chip *c)
{
    int reason = !c->latch ? 1 : c->p->guards_array && !c->byte_wp ? 2 : first_guarded(c) <= c->at ? 3 : 0;
    if (reason) {
        note(c, HELD_BACK, c->at, reason);
    } else {
        c->array[c->at] = c->byte;
        note(c, STORED, c->at, c->byte);
    }
    c->whole = 1;
    next(c);
}

static void status_in(struct chip *c)
{
    int guarded = c->p->guards_array || (c->kept & c->p->enable);
    int reason = !c->latch ? 1 : guarded && !c->byte_wp ? 2 : 0;
    if (reason) {
        note(c, KEPT_HELD_BACK, 0, reason);
    } else {
        c->kept = c->byte & c->p->mask;
        note(c, KEPT_SET, 0, c->kept);
    }
    c->whole = 1;
    c->stage = OVER;
}

static void sck_rise(struct chip *c)
{
    switch (c->stage) {
    case CODE:
        if (take(c))
            op_code(c);
        break;
    case UPPER:
        if (take(c)) {
            c->at = c->byte & c->p->upper;
            c->stage = LOWER;
        }
        break;
    case LOWER:
        if (take(c)) {
            c->at = c->at << 8 | c->byte;
            c->stage = c->header;
        }
        break;
    case DUMMY:
        if (take(c))
            c->stage = READY;
        break;
    case WRITING:
        if (take_data(c))
            data_byte(c);
        break;
    case KEEPING:
        if (take_data(c))
            status_in(c);
        break;
    }
}

static void show(struct chip *c)
{
    uint8_t byte = c->what == ARRAY ? c->array[c->at] : c->what == STATUS ? c->kept | c->latch << 1 : c->what == IDENT ? c->p->ident[c->at] : c->serial[c->at];
    c->so = byte >> c->bit & 1;
}

static void sck_fall(struct chip *c)
{
    if (c->stage == SHOWING) {
        if (c->bit == 0) {
            if (c->what == STATUS || (c->what == IDENT && c->at == sizeof c->p->ident - 1) || (c->what == SERIAL && c->at == c->p->serial - 1u)) {
                c->stage = OVER;
                c->so = RELEASED;
                return;
            }
            next(c);
            c->bit = 7;
        } else {
            c->bit--;
        }
        show(c);
    } else if (c->stage == READY) {
        c->stage = SHOWING;
        c->bit = 7;
        show(c);
    }
}

#ifndef INLINE
#define INLINE /* -D INLINE="inline __attribute__((always_inline))" puts the event into the loop */
#endif
static INLINE int one(struct chip *c, uint64_t code)
{
    c->note = NOTHING;
    if (!c->power) {
        if (code >= 12)
            return 5;
        if (code == 11)
            at_rest(c, 1);
        return 0;
    }
    switch (code) {
    case 0:
        if (c->cs) {
            c->cs = 0;
            if (c->hold) {
                c->stage = c->stage == ASLEEP ? OVER : CODE;
                c->bits = c->byte = 0;
                c->whole = c->sleeps = 0;
                c->byte_wp = c->wp;
            }
        }
        return 0;
    case 1:
        if (!c->cs) {
            c->cs = 1;
            if (c->hold) {
                if (c->whole && c->latch) {
                    c->latch = 0;
                    note(c, LATCH, 0, 0);
                }
                c->stage = c->sleeps ? ASLEEP : CLOSED;
                c->so = RELEASED;
            }
        }
        return 0;
    case 2:
        if (c->sck) {
            c->sck = 0;
            if (c->hold)
                sck_fall(c);
        }
        return 0;
    case 3:
        if (!c->sck) {
            c->sck = 1;
            if (c->hold)
                sck_rise(c);
        }
        return 0;
    case 4: c->si = 0; return 0;
    case 5: c->si = 1; return 0;
    case 6:
        if (c->hold) {
            if (c->sck)
                return 6;
            c->hold = 0;
            c->held_cs = c->cs;
        }
        return 0;
    case 7:
        if (!c->hold) {
            if (c->sck)
                return 6;
            if (c->cs != c->held_cs)
                return 7;
            c->hold = 1;
        }
        return 0;
    case 8: c->wp = 0; return 0;
    case 9: c->wp = 1; return 0;
    case 10:
        at_rest(c, 0);
        note(c, POWER_LOST, 0, 0);
        return 0;
    case 11: return 0;
    default: return 5;
    }
}

int chip_event(struct chip *c, uint64_t code) { return one(c, code); }

uint64_t c_list(uint64_t part, const uint64_t *codes, uint64_t n, uint8_t *array, uint64_t array_len, const uint8_t *serial, uint64_t serial_len,
                uint8_t *levels, uint64_t levels_len)
{
    struct chip c;
    if (array_len != PARTS[part].size)
        return 2;
    if (PARTS[part].serial && serial_len != PARTS[part].serial)
        return 15;
    if (levels_len < n)
        return 12;
    chip_power_up(&c, (int)part, 0, array, serial);
    for (uint64_t i = 0; i < n; i++) {
        int refusal = one(&c, codes[i]);
        if (refusal)
            return i * 256 + refusal;
        levels[i] = chip_so(&c);
    }
    return n * 256;
}
