/* A plan of 20 stages at height 13 written as a sheet and read again by the library, beside a plain loop in C over the same bits, in one run.
 *
 * usage: bench TURNS
 * The cells are drawn at random: one of eight filled, half of them, all from position 1 on; half of those above level 0 AND. The plain loop goes over the bits once and checks nothing; the
 * library goes over them to judge and measure, and again to store. The bytes and the areas must be the same. Prints milliseconds, medians over the turns, and
 * the ratios.
 * Exit status: 0, 1 where something differs, a call is refused or a ratio is above 3, 2 where it could not be tried. */
#include "placer.h"
#include <stdio.h>
#include <stdlib.h>
#include <string.h>
#include <time.h>

enum { HEIGHT = 13, STAGES = 20, SIZE = 2 << HEIGHT, WORDS = 12 };

static uint32_t plan[STAGES * SIZE], words[STAGES * WORDS + 256], counts[STAGES];
static uint32_t read_plan[2][STAGES * SIZE], read_words[2][STAGES * WORDS + 256], read_counts[2][STAGES];
static uint8_t *bytes[2];
static size_t room, length[2];

static void draw(uint32_t filled) {
    uint32_t seed = 2024;
    for (size_t i = 0; i < STAGES * SIZE; i++) {
        seed = seed * 1103515245u + 12345u;
        uint32_t pin = 1 + (seed >> 8) % 65535, ands = i % SIZE < SIZE / 2 && seed >> 28 & 1;
        uint32_t cell = ands ? placer_cell_and(pin, seed >> 29 & 1, seed >> 30 & 1) : placer_cell_plain(pin);
        plan[i] = i % SIZE > 0 && (seed >> 16 & 7) < filled ? cell : PLACER_EMPTY;
    }
    for (size_t i = 0; i < STAGES * WORDS; i++)
        words[i] = (uint32_t)(i * 7 % 256);
    for (size_t i = 0; i < STAGES; i++)
        counts[i] = WORDS;
}

/* ---- The plain loop */

static void put(uint8_t *to, size_t *at, unsigned width, uint32_t n) { /* into zeros */
    while (width-- > 0) {
        to[*at / 8] |= (uint8_t)((n >> width & 1) << (7 - *at % 8));
        ++*at;
    }
}

static uint32_t take(const uint8_t *from, size_t *at, unsigned width) {
    uint32_t n = 0;
    while (width-- > 0) {
        n = 2 * n + (from[*at / 8] >> (7 - *at % 8) & 1);
        ++*at;
    }
    return n;
}

static void plain_write(void) {
    size_t at = 0;
    const uint32_t *word = words;
    memset(bytes[1], 0, room);
    put(bytes[1], &at, 8, 2), put(bytes[1], &at, 4, HEIGHT), put(bytes[1], &at, 16, STAGES);
    for (size_t s = 0; s < STAGES; s++) {
        put(bytes[1], &at, 16, counts[s]);
        for (uint32_t i = 0; i < counts[s]; i++)
            put(bytes[1], &at, 8, *word++);
        for (size_t p = 1; p < SIZE; p++) {
            uint32_t cell = plan[s * SIZE + p];
            put(bytes[1], &at, 1, cell != PLACER_EMPTY);
            if (cell == PLACER_EMPTY)
                continue;
            put(bytes[1], &at, 16, cell & 65535);
            put(bytes[1], &at, 1, cell >> 16 & 1), put(bytes[1], &at, 1, cell >> 17 & 1), put(bytes[1], &at, 1, cell >> 18 & 1);
        }
    }
    put(bytes[1], &at, (8 - at % 8) % 8, 0);
    length[1] = at / 8;
}

static void plain_read(void) {
    size_t at = 0, total = 0;
    take(bytes[1], &at, 8), take(bytes[1], &at, 4);
    size_t stages = take(bytes[1], &at, 16);
    for (size_t s = 0; s < stages; s++) {
        read_counts[1][s] = take(bytes[1], &at, 16);
        for (uint32_t i = 0; i < read_counts[1][s]; i++)
            read_words[1][total++] = take(bytes[1], &at, 8);
        read_plan[1][s * SIZE] = PLACER_EMPTY;
        for (size_t p = 1; p < SIZE; p++) {
            uint32_t cell = PLACER_EMPTY;
            if (take(bytes[1], &at, 1)) {
                cell = take(bytes[1], &at, 16);
                cell |= take(bytes[1], &at, 1) << 16, cell |= take(bytes[1], &at, 1) << 17, cell |= take(bytes[1], &at, 1) << 18;
            }
            read_plan[1][s * SIZE + p] = cell;
        }
    }
}

/* ---- The library */

static void refused(const char *what, uint32_t number) {
    fprintf(stderr, "bench: %s: refused %u: %s\n", what, (unsigned)number, placer_describe(number));
    exit(1);
}

static void library_write(void) {
    size_t answer[PLACER_WRITE_LEN];
    uint32_t number = write_sheet(HEIGHT, STAGES, plan, STAGES * SIZE, words, STAGES * WORDS, counts, STAGES, bytes[0], room, answer, PLACER_WRITE_LEN);
    if (number != PLACER_DONE)
        refused("writing", number);
    length[0] = answer[PLACER_WRITE_LENGTH];
}

static void library_read(void) {
    size_t answer[PLACER_SHEET_LEN];
    uint32_t number = read_sheet(plan, 0, bytes[0], length[0], read_plan[0], STAGES * SIZE, read_words[0], STAGES * WORDS + 256, read_counts[0], STAGES, answer, PLACER_SHEET_LEN);
    if (number != PLACER_DONE)
        refused("reading", number);
}

/* Milliseconds of processor time: what else runs on the machine isn't counted. */
static double timed(void (*run)(void)) {
    struct timespec from, to;
    clock_gettime(CLOCK_PROCESS_CPUTIME_ID, &from);
    run();
    clock_gettime(CLOCK_PROCESS_CPUTIME_ID, &to);
    return (double)(to.tv_sec - from.tv_sec) * 1e3 + (double)(to.tv_nsec - from.tv_nsec) / 1e6;
}

static int by_size(const void *a, const void *b) {
    double x = *(const double *)a, y = *(const double *)b;
    return (x > y) - (x < y);
}

int main(int argc, char **argv) {
    static double times[4][1000];
    void (*const runs[4])(void) = {library_write, plain_write, library_read, plain_read};
    long turns = argc == 2 ? strtol(argv[1], NULL, 10) : 0;
    if (turns < 1 || turns > 1000) {
        fputs("usage: bench TURNS\n", stderr);
        return 2;
    }
    room = placer_sheet_size(HEIGHT, STAGES);
    for (int i = 0; i < 2; i++)
        if ((bytes[i] = malloc(room)) == NULL) {
            fputs("bench: no memory\n", stderr);
            return 2;
        }
    int slow = 0;
    for (uint32_t filled = 1; filled <= 8; filled += filled == 1 ? 3 : 4) {
        draw(filled);
        for (long t = 0; t < turns; t++)
            for (int i = 0; i < 4; i++)
                times[i][t] = timed(runs[i]);
        if (length[0] != length[1] || memcmp(bytes[0], bytes[1], length[0]) != 0 || memcmp(read_plan[0], plan, sizeof plan) != 0 ||
            memcmp(read_plan[1], plan, sizeof plan) != 0 || memcmp(read_words[0], words, STAGES * WORDS * sizeof *words) != 0 ||
            memcmp(read_counts[0], counts, sizeof counts) != 0) {
            fputs("bench: the bytes or the areas differ\n", stderr);
            return 1;
        }
        for (int i = 0; i < 4; i++)
            qsort(times[i], (size_t)turns, sizeof(double), by_size);
        double write = times[0][turns / 2] / times[1][turns / 2], read = times[2][turns / 2] / times[3][turns / 2];
        slow |= write > 3 || read > 3;
        printf("%u of 8 cells filled, %zu bytes: writing %.2f ms, plain %.2f, ratio %.2f; reading %.2f ms, plain %.2f, ratio %.2f\n", (unsigned)filled, length[0],
               times[0][turns / 2], times[1][turns / 2], write, times[2][turns / 2], times[3][turns / 2], read);
    }
    if (slow)
        fputs("bench: a ratio is above 3\n", stderr);
    return slow;
}
