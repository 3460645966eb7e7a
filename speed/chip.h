/* The chip of documents 01 and 02 (to Wish 8), by hand in C: the state in a struct by pointer, a switch on the event's code. */
#ifndef CHIP_H
#define CHIP_H
#include <stdint.h>
#include <stddef.h>

enum stage { CLOSED, CODE, UPPER, LOWER, READY, SHOWING, WRITING, KEEPING, OVER, DUMMY, ASLEEP };
enum what { ARRAY, STATUS, IDENT, SERIAL };
enum so { LOW, HIGH, RELEASED };
enum note { NOTHING, LATCH, STORED, HELD_BACK, KEPT_SET, KEPT_HELD_BACK, POWER_LOST };

struct part {
    uint32_t size, quarter, half;
    uint8_t mask, address_bytes, upper, top, enable;
    uint8_t guards_array;
    /* FSTRD's op-code, SLEEP's, RDID's: 0 where there is none; the bytes of the last; whether /WP at the fall of /CS counts. */
    uint8_t fast, sleep, rdid, ident[9], wp_at_fall;
    /* SNR's op-code and the bytes that it shows: 0 where there is none. */
    uint8_t snr, serial;
};

struct chip {
    const struct part *p;
    uint8_t *array;
    const uint8_t *serial;
    uint32_t at;
    uint8_t stage, bits, byte, bit, what, header, whole, sleeps;
    uint8_t kept, power, cs, sck, si, hold, wp, byte_wp, held_cs, latch, so;
    /* The last event's note. */
    uint8_t note, note_value;
    uint32_t note_at;
};

extern const struct part PARTS[6];

void chip_power_up(struct chip *c, int part, uint8_t kept, uint8_t *array, const uint8_t *serial);
/* 0, or the refusal. The level of SO is chip_so(c). */
int chip_event(struct chip *c, uint64_t code);

static inline uint8_t chip_so(const struct chip *c) { return c->hold ? c->so : RELEASED; }

/* A list of events from power-up with kept bits 0: 256 times the count of events accepted, and the refusal. */
uint64_t c_list(uint64_t part, const uint64_t *codes, uint64_t n, uint8_t *array, uint64_t array_len, const uint8_t *serial, uint64_t serial_len,
                uint8_t *levels, uint64_t levels_len);
#endif
