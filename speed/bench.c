/* bench: compares and times the proved chip's list call and event call with the C chip's list.
     bench fuzz [EVENTS] [SEED]   random and structured lists on parts 1, 3, 4 and 5; stops at the first difference, made small
     bench time [RUNS] [PAD]      least time of RUNS runs on four traces for each part
     bench once PART TRACE SIDE   one run, trace 0 to 3, side 0 the list call, 1 the C chip, 2 event calls: for a count of
                                  instructions */
#include "chip.h"
#include <stdio.h>
#include <stdlib.h>
#include <string.h>
#include <time.h>

typedef uint64_t list_call(uint64_t part, const uint64_t *codes, uint64_t n, uint8_t *array, uint64_t array_len, const uint8_t *serial, uint64_t serial_len,
                           uint8_t *levels, uint64_t levels_len);
list_call by_list, by_events;
static list_call *const sides[3] = {by_list, c_list, by_events};

/* One byte more than a serial number has, for a slice that is too long. */
static const uint8_t serial[9] = {0x12, 0x34, 0x9A, 0x00, 0xFF, 0x5A, 0x81, 0x38, 0xC3};

static uint64_t seed = 1;
static uint32_t rnd(uint32_t n)
{
    seed ^= seed << 13; seed ^= seed >> 7; seed ^= seed << 17;
    return (uint32_t)((seed >> 20) % n);
}

struct list { uint64_t *v; size_t n, room; };
static void put(struct list *l, uint64_t code)
{
    if (l->n == l->room) {
        l->room = l->room ? 2 * l->room : 1 << 16;
        l->v = realloc(l->v, l->room * sizeof *l->v);
    }
    l->v[l->n++] = code;
}
/* A bit as SI, SCK up, SCK down; SI is set anew each time, as the trace's data bytes do. */
static void bit(struct list *l, int b) { put(l, 4 + b); put(l, 3); put(l, 2); }
static void byte(struct list *l, int b) { for (int i = 7; i >= 0; i--) bit(l, b >> i & 1); }
static void clocks(struct list *l, size_t n) { while (n--) { put(l, 3); put(l, 2); } }
static void header(struct list *l, int part, int op, unsigned at)
{
    put(l, 0);
    if (part >= 3) { byte(l, op); byte(l, at >> 8); } else byte(l, op | (at >> 8 & 1) << 3);
    byte(l, at & 255);
}

/* Noise between the clocks of a structured transfer. */
static void noise(struct list *l)
{
    static const uint8_t quiet[] = {4, 5, 8, 9, 8, 9, 2, 6, 7, 7, 7, 9};
    if (rnd(40) == 0) put(l, quiet[rnd(sizeof quiet)]);
    if (rnd(150) == 0) {
        put(l, 2); put(l, 6);
        for (unsigned k = rnd(8); k; k--) { static const uint8_t in[] = {3, 2, 4, 5, 8, 9, 2, 3}; put(l, in[rnd(8)]); }
        if (rnd(4) == 0) { put(l, rnd(2)); if (rnd(2)) put(l, rnd(2)); }
        if (rnd(10)) put(l, 2);
        put(l, 7);
    }
    if (rnd(1200) == 0) { put(l, 10); for (unsigned k = rnd(4); k; k--) put(l, rnd(12)); put(l, 11); }
    if (rnd(3000) == 0) put(l, rnd(12));
    if (rnd(60000) == 0) put(l, rnd(2) ? rnd(256) : ((uint64_t)rnd(1 << 20) << 32) + rnd(12));
}
static void noisy_byte(struct list *l, int b)
{
    for (int i = 7; i >= 0; i--) { put(l, 4 + (b >> i & 1)); noise(l); put(l, 3); noise(l); put(l, 2); noise(l); }
}
static void transfer(struct list *l, int part)
{
    static const uint8_t ops[] = {6, 6, 6, 4, 5, 5, 1, 2, 2, 2, 3, 3, 10, 11, 6, 2};
    static const uint8_t more[] = {0xB9, 0x9F, 11, 11, 0xC3, 0x9F, 0xB9, 1};
    int op = !rnd(12) ? (int)rnd(256) : part >= 4 && !rnd(4) ? more[rnd(sizeof more)] : ops[rnd(sizeof ops)];
    if (rnd(8) == 0) put(l, 3 - rnd(2));
    put(l, 0);
    noisy_byte(l, op);
    unsigned n = rnd(5);
    if (op == 2 || op == 3 || op == 10 || op == 11) {
        if (part >= 3) noisy_byte(l, rnd(3) ? (int)(rnd(2) ? PARTS[part].upper : rnd(8)) : (int)rnd(256));
        if (part >= 4 && op == 11) noisy_byte(l, (int)rnd(256));
        noisy_byte(l, rnd(3) ? (int)rnd(256) : 252 + (int)rnd(4));
        n = rnd(10) ? rnd(6) : rnd(40);
    }
    if (op == 0x9F || op == 0xC3) n = rnd(13);
    while (n--) noisy_byte(l, rnd(256));
    if (rnd(3) == 0) for (unsigned k = rnd(8); k; k--) { put(l, 4 + rnd(2)); noise(l); put(l, 3); noise(l); put(l, 2); noise(l); }
    if (rnd(10)) put(l, 1);
}
static void structured(struct list *l, int part, size_t n)
{
    l->n = 0;
    while (l->n < n) {
        if (rnd(3) == 0) { put(l, 0); byte(l, 6); put(l, 1); }
        if (rnd(12) == 0) put(l, 8 + rnd(2)); else if (rnd(3) == 0) put(l, 9);
        if (rnd(10) == 0) { put(l, 9); put(l, 0); byte(l, 6); put(l, 1); put(l, 0); byte(l, 1); byte(l, rnd(256)); put(l, 1); }
        transfer(l, part);
    }
}
/* Random codes, each kept only where the C chip accepts it, but for a few. */
static void random_codes(struct list *l, int part, size_t n, int any)
{
    static const uint8_t common[] = {3, 2, 3, 2, 3, 2, 3, 2, 4, 5, 4, 5};
    struct chip c;
    static uint8_t array[16384];
    chip_power_up(&c, part, 0, array, serial);
    l->n = 0;
    while (l->n < n) {
        unsigned code = any || rnd(6) == 0 ? rnd(12) : common[rnd(12)];
        if ((code == 1 || code == 10 || code == 6) && !any && rnd(4)) continue;
        struct chip was = c;
        if (chip_event(&c, code)) { c = was; if (rnd(4000)) continue; }
        put(l, code);
    }
}
/* What stays of a list where refused events are left out, so that long lists run on; one in 5000 stays in. */
static void mostly_accepted(struct list *l, int part)
{
    struct chip c;
    static uint8_t array[16384];
    chip_power_up(&c, part, 0, array, serial);
    size_t m = 0;
    for (size_t i = 0; i < l->n; i++) {
        struct chip was = c;
        int r = chip_event(&c, l->v[i]);
        if (r) { c = was; if (rnd(5000)) continue; }
        l->v[m++] = l->v[i];
    }
    l->n = m;
}

/* Each call's answers and array, with `spare` answer places more than events (less, where negative), an array `off` bytes
   too long and a serial number of `slen` bytes; places that nobody may write hold 99. Single calls are compared where the list's first checks pass. */
static int differs(int part, const uint64_t *v, size_t n, int spare, int off, int slen, int say)
{
    static uint8_t *levels[3]; static size_t room;
    if (room < n + 64) { room = n + 64; for (int k = 0; k < 3; k++) levels[k] = realloc(levels[k], room); }
    static uint8_t array[3][16386];
    size_t size = PARTS[part].size + off, places = n + spare;
    uint64_t told[3];
    int bad = 0, last = off == 0 && spare >= 0 && (slen == 8 || !PARTS[part].serial) ? 2 : 1;
    for (int k = 0; k <= last; k++) {
        for (size_t i = 0; i < size; i++) array[k][i] = (uint8_t)(i * 37 + (i >> 8) * 11);
        memset(levels[k], 99, n + 64);
        told[k] = sides[k](part, v, n, array[k], size, serial, slen, levels[k], places);
    }
    for (int k = 0; k <= last; k += 2) {
        if (told[k] != told[1]) { bad = 1; if (say) printf("  accepted and refusal: proved %llu %llu, C %llu %llu, of %zu\n", (unsigned long long)told[k] >> 8, (unsigned long long)told[k] & 255, (unsigned long long)told[1] >> 8, (unsigned long long)told[1] & 255, n); }
        for (size_t i = 0; i < n + 64; i++) if (levels[k][i] != levels[1][i]) { bad = 1; if (say) printf("  level at %zu: proved %d, C %d\n", i, levels[k][i], levels[1][i]); break; }
        for (size_t i = 0; i < size; i++) if (array[k][i] != array[1][i]) { bad = 1; if (say) printf("  array[%zX]: proved %02X, C %02X\n", i, array[k][i], array[1][i]); break; }
    }
    return bad;
}
static void shrink(int part, struct list *l, int spare, int off, int slen)
{
    for (size_t chunk = l->n / 2; chunk; chunk /= 2)
        for (size_t i = 0; i + chunk <= l->n;) {
            struct list t = {malloc(l->n * sizeof *t.v), l->n - chunk, l->n};
            memcpy(t.v, l->v, i * sizeof *t.v); memcpy(t.v + i, l->v + i + chunk, (l->n - i - chunk) * sizeof *t.v);
            if (differs(part, t.v, t.n, spare, off, slen, 0)) { free(l->v); *l = t; } else { free(t.v); i += chunk; }
        }
    printf("part %d, smallest list of codes:", part);
    for (size_t i = 0; i < l->n; i++) printf(" %llu", (unsigned long long)l->v[i]);
    printf("\n");
    differs(part, l->v, l->n, spare, off, slen, 1);
}
static int fuzz(uint64_t events)
{
    struct list l = {0};
    uint64_t done = 0, lists = 0, refused[256] = {0}, seen[12] = {0};
    while (done < events) {
        static const uint8_t parts[] = {1, 3, 4, 5};
        int part = parts[lists % 4];
        switch (lists / 4 % 4) {
        case 0: random_codes(&l, part, 20000, 0); break;
        case 1: random_codes(&l, part, 2000, 1); break;
        case 2: structured(&l, part, 3000); break;
        default: structured(&l, part, 40000); mostly_accepted(&l, part); break;
        }
        if (lists % 8 == 7) l.v[rnd((uint32_t)l.n)] = rnd(2) ? 12 + rnd(300) : ((uint64_t)(1 + rnd(1 << 20)) << 32) + rnd(12);
        static const int places[] = {0, 0, 1, 40, 0, -1};
        int spare = places[lists % 6], off = lists % 29 == 28 ? 1 - 2 * (int)rnd(2) : 0, slen = lists % 7 == 6 ? (int)rnd(10) : 8;
        if (differs(part, l.v, l.n, spare, off, slen, 0)) { shrink(part, &l, spare, off, slen); return 1; }
        static uint8_t a[16384]; uint8_t *lv = calloc(l.n, 1);
        uint64_t told = c_list(part, l.v, l.n, a, PARTS[part].size + off, serial, slen, lv, l.n + spare), n = told >> 8;
        for (uint64_t i = 0; i < n; i++) seen[l.v[i]]++;
        free(lv);
        refused[told & 255]++;
        done += n; lists++;
    }
    printf("%llu events accepted in %llu lists, 0 differences in levels, arrays, counts and refusals\nlists by refusal:", (unsigned long long)done, (unsigned long long)lists);
    for (int i = 0; i < 256; i++) if (refused[i]) printf(" %d: %llu", i, (unsigned long long)refused[i]);
    printf("; events by code:");
    for (int i = 0; i < 12; i++) printf(" %llu", (unsigned long long)seen[i]);
    printf("\n");
    return 0;
}

/* What is timed: the array read with SI still, written, a random mix, and read with SI set for each bit. */
static const char *names[] = {"read", "write", "mix", "read-si"};
static void trace(struct list *l, int part, int kind)
{
    size_t size = PARTS[part].size;
    l->n = 0;
    if (kind == 0) {
        while (l->n < 400000) { header(l, part, 3, 0); clocks(l, size * 8); put(l, 1); }
    } else if (kind == 3) { /* data bytes clocked in as the trace does, three events a bit */
        while (l->n < 400000) { header(l, part, 3, 0); for (size_t i = 0; i < size; i++) byte(l, 0); put(l, 1); }
    } else if (kind == 1) {
        while (l->n < 400000) {
            put(l, 0); byte(l, 6); put(l, 1);
            header(l, part, 2, 0);
            for (size_t i = 0; i < size; i++) byte(l, (int)rnd(256));
            put(l, 1);
        }
    } else {
        seed = 77;
        structured(l, part, 400000); mostly_accepted(l, part);
        for (size_t i = 0; i < l->n; i++) if (l->v[i] > 11) l->v[i] = 4;
        struct chip c; static uint8_t array[16384]; size_t m = 0;
        chip_power_up(&c, part, 0, array, serial);
        for (size_t i = 0; i < l->n; i++) { struct chip was = c; if (chip_event(&c, l->v[i])) c = was; else l->v[m++] = l->v[i]; }
        l->n = m;
    }
}
static void run_once(int part, struct list *l, int side, uint8_t *levels)
{
    static uint8_t array[16384];
    memset(array, 0x5A, PARTS[part].size);
    uint64_t told = sides[side](part, l->v, l->n, array, PARTS[part].size, serial, 8, levels, l->n);
    if (told != l->n * 256) { printf("refused at %llu\n", (unsigned long long)told >> 8); exit(1); }
}

static double now(void) { struct timespec t; clock_gettime(CLOCK_MONOTONIC, &t); return t.tv_sec * 1e9 + t.tv_nsec; }
/* A row for each part and trace: the pad, part, trace, ns an event of each side, and C over the list call. */
static void timing(int runs, int pad)
{
    struct list l = {0};
    static const int parts[] = {1, 3, 4, 5};
    for (int i = 0; i < 4; i++)
        for (int kind = 0; kind < 4; kind++) {
            int part = parts[i];
            trace(&l, part, kind);
            uint8_t *levels = malloc(l.n);
            double best[3] = {1e30, 1e30, 1e30};
            for (int r = 0; r < runs; r++)
                for (int side = 0; side < 3; side++) {
                    double t = now();
                    run_once(part, &l, side, levels);
                    t = now() - t;
                    if (t < best[side]) best[side] = t;
                }
            printf("%2d %d %-8s %6.2f %6.2f %6.2f   %.2f\n", pad, part, names[kind], best[0] / l.n, best[1] / l.n, best[2] / l.n, best[1] / best[0]);
            free(levels);
        }
}
/* One run of one side, for a count of its instructions; says how many events it has. */
static void once(int part, int kind, int side)
{
    struct list l = {0};
    trace(&l, part, kind);
    uint8_t *levels = malloc(l.n);
    run_once(part, &l, side, levels);
    printf("%zu %s\n", l.n, names[kind]);
}

int main(int argc, char **argv)
{
    if (argc > 1 && !strcmp(argv[1], "fuzz")) {
        if (argc > 3) seed = strtoull(argv[3], 0, 10) * 2654435761u + 1;
        return fuzz(argc > 2 ? strtoull(argv[2], 0, 10) : 7000000);
    }
    if (argc > 1 && !strcmp(argv[1], "time")) { timing(argc > 2 ? atoi(argv[2]) : 30, argc > 3 ? atoi(argv[3]) : 0); return 0; }
    if (argc > 4 && !strcmp(argv[1], "once")) { once(atoi(argv[2]), atoi(argv[3]), atoi(argv[4])); return 0; }
    fprintf(stderr, "bench fuzz [EVENTS] [SEED] | bench time [RUNS] [PAD] | bench once PART TRACE SIDE\n");
    return 2;
}
