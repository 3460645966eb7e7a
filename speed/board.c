/* The board's event call for one to eight chips of part 1: chip 0 is selected and reads its array, the others only see the
   shared lines. Prints the least time an event of RUNS runs. */
#include <stdint.h>
#include <stdio.h>
#include <stdlib.h>
#include <time.h>

uint64_t by_board(uint64_t count, const uint64_t *codes, uint64_t codes_len, uint8_t *array, uint64_t array_len);

static uint64_t codes[200000];
static uint8_t array[8 * 512];

static double now(void) {
    struct timespec t;
    clock_gettime(CLOCK_MONOTONIC, &t);
    return t.tv_sec * 1e9 + t.tv_nsec;
}

/* a select, READ from 000, then SCK up and down */
static uint64_t fill(void) {
    uint64_t n = 0, header = 0x0300;
    codes[n++] = 0;
    for (int bit = 15; bit >= 0; bit--) {
        codes[n++] = 4 + (header >> bit & 1);
        codes[n++] = 3;
        codes[n++] = 2;
    }
    while (n + 2 <= sizeof codes / sizeof *codes) {
        codes[n++] = 3;
        codes[n++] = 2;
    }
    return n;
}

int main(int argc, char **argv) {
    int runs = argc > 1 ? atoi(argv[1]) : 20;
    uint64_t n = fill();
    if (argc > 2) { /* one run on so many chips, for a count of instructions: prints the events */
        printf("%d\n", (int)n);
        return (int)by_board(atoi(argv[2]), codes, n, array, atoi(argv[2]) * 512);
    }
    for (uint64_t count = 1; count <= 8; count++) {
        double least = 1e18;
        for (int r = 0; r < runs; r++) {
            double start = now();
            if (by_board(count, codes, n, array, count * 512)) return 1;
            double took = now() - start;
            if (took < least) least = took;
        }
        printf("%d chips: %.0f ns an event\n", (int)count, least / n);
    }
    return 0;
}
