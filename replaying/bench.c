/* A recording replayed by the library, beside a plain loop in C over the same tape, and beside folding the plan at every clock, in one run.
 *
 * usage: bench HEIGHT CLOCKS TURNS FILE.aag
 * The lines are drawn at random. The plain loop has the tape made beforehand, from the cells that the library builds: an entry a cell that ANDs, two
 * numbers of 2 * slot + inversion each. Its bits and the folded plan's must be the library's. Prints microseconds a clock, medians over the turns, and
 * the ratios. The library's time has the build and the making of its tape in it.
 * Exit status: 0, 1 where bits differ or a call is refused, 2 where it could not be tried. */
#include "placer.h"
#include <stdio.h>
#include <stdlib.h>
#include <string.h>
#include <time.h>

#define E PLACER_EMPTY

static void *lent(size_t count, size_t size) {
    void *area = calloc(count + 1, size);
    if (area == NULL) {
        fputs("bench: no memory\n", stderr);
        exit(2);
    }
    return area;
}

static uint32_t *numbers(size_t count) { return lent(count, sizeof(uint32_t)); }

static void refused(const char *what, uint32_t number) {
    fprintf(stderr, "bench: %s: refused %u: %s\n", what, (unsigned)number, placer_describe(number));
    exit(1);
}

/* ---- What is replayed */

static uint32_t height;
static size_t clocks;
static uint32_t *gates, *records, *driven;
static size_t gates_len, records_len, flips, pins;
static size_t leaves_len, outs_len; /* the bits of a line, and those handed out at a clock */
static uint32_t *leaves;
static uint8_t *start, *recording;
static const uint32_t given[1] = {0};

static void load(const char *name) {
    size_t answer[PLACER_AIGER_LEN], room = 1 << 16, size = 0;
    FILE *in = fopen(name, "rb");
    if (in == NULL) {
        perror(name);
        exit(2);
    }
    uint8_t *file = lent(room, 1);
    for (size_t got; (got = fread(file + size, 1, room - size, in)) > 0;) {
        size += got;
        if (size == room && (file = realloc(file, room *= 2)) == NULL)
            exit(2);
    }
    fclose(in);
    gates = numbers(PLACER_AIGER_GATES), records = numbers(PLACER_AIGER_RECORDS), driven = numbers(PLACER_AIGER_LATCHES);
    uint32_t number = read_aiger(file, size, gates, PLACER_AIGER_GATES, records, PLACER_AIGER_RECORDS, driven, PLACER_AIGER_LATCHES, answer, PLACER_AIGER_LEN);
    if (number != PLACER_DONE)
        refused(name, number);
    gates_len = answer[PLACER_AIGER_GATES_LEN], records_len = answer[PLACER_AIGER_RECORDS_LEN], flips = answer[PLACER_AIGER_LATCHES_LEN];
    pins = gates_len / 2;
    free(file);

    uint8_t *is_driven = lent(pins, 1);
    for (size_t i = 0; i < flips; i++)
        is_driven[driven[i]] = 1;
    leaves = numbers(pins);
    for (uint32_t p = 1; p < pins; p++)
        if (gates[2 * p] == E && !is_driven[p])
            leaves[leaves_len++] = p;
    free(is_driven);
    for (size_t at = 0; at < records_len; at += records[at] == 2 ? 3 : 2)
        outs_len += records[at] == 2 ? 2 : 1;
    start = lent(flips, 1);
    recording = lent(clocks * leaves_len, 1);
    uint32_t seed = 2024;
    for (size_t i = 0; i < clocks * leaves_len; i++) {
        seed = seed * 1103515245u + 12345u;
        recording[i] = seed >> 16 & 1;
    }
}

/* ---- The plan, and its tape */

static uint32_t *plan, *words, *counts, *work;
static size_t plan_len, rooms, stages;

static uint32_t *tape, *places; /* a place is 2 * slot + inversion of a bit that is handed out */
static size_t entries;

static void place(void) {
    size_t answer[PLACER_BUILD_LEN];
    for (rooms = 1;; rooms *= 2) {
        plan_len = placer_plan_size(height, rooms);
        plan = numbers(plan_len), words = numbers(placer_words_size(height)), counts = numbers(rooms);
        size_t work_len = placer_build_work_size(gates_len, records_len);
        work = numbers(work_len);
        uint32_t number = placer_build(height, gates, gates_len, given, 0, records, records_len, plan, plan_len, words, placer_words_size(height), counts, rooms,
                                       work, work_len, answer, PLACER_BUILD_LEN);
        if (number == PLACER_DONE)
            break;
        if (number != PLACER_NO_ROOM || rooms > 4096)
            refused("the build", number);
        free(plan), free(words), free(counts), free(work);
    }
    stages = answer[PLACER_BUILD_STAGES];
}

static void make_tape(void) {
    const size_t size = placer_stage_size(height), width = size / 2;
    uint32_t *slot = numbers(size), *load = numbers(pins), *next = numbers(pins), *read = numbers(pins);
    tape = numbers(plan_len);
    for (uint32_t p = 1; p < pins; p++)
        if (gates[2 * p] == E)
            load[p] = p;
    const uint32_t *word = words;
    for (size_t s = 0; s < stages; s++) {
        const uint32_t *cell = plan + s * size;
        memset(next, 0, pins * sizeof *next);
        for (size_t p = size - 1; p >= 1; p--) {
            size_t row = width;
            while (row > p)
                row /= 2;
            slot[p] = 0;
            if (!placer_cell_filled(cell[p]))
                continue;
            if (p >= width)
                slot[p] = load[placer_cell_pin(cell[p])];
            else if (!placer_cell_ands(cell[p]))
                slot[p] = slot[p + row];
            else {
                tape[2 * entries] = 2 * slot[p + row] + placer_cell_first_inversion(cell[p]);
                tape[2 * entries + 1] = 2 * slot[p + 2 * row] + placer_cell_second_inversion(cell[p]);
                slot[p] = (uint32_t)(pins + entries++);
            }
            if (p < width)
                next[placer_cell_pin(cell[p])] = slot[p];
        }
        for (uint32_t i = 0; i < counts[s]; i++, word++)
            for (size_t p = 32 * *word; p < 32 * *word + 32; p++)
                if (p > 0 && placer_cell_filled(cell[p]) && read[placer_cell_pin(cell[p])] == 0)
                    read[placer_cell_pin(cell[p])] = slot[p];
        memcpy(load, next, pins * sizeof *load);
    }
    places = numbers(outs_len);
    size_t k = 0;
    for (size_t at = 0; at < records_len; at += records[at] == 2 ? 3 : 2)
        for (size_t i = 1; i <= (records[at] == 2 ? 2u : 1u); i++)
            places[k++] = 2 * read[records[at + i] / 2] + records[at + i] % 2;
    free(slot), free(load), free(next), free(read);
}

/* ---- The three runs: each hands out the bits of every clock, and the end bits */

static void plain_run(size_t count, uint8_t *out, uint8_t *end) {
    uint8_t *bits = lent(pins + entries, 1);
    memcpy(end, start, flips);
    for (size_t c = 0; c < count; c++, out += outs_len) {
        const uint8_t *line = recording + c * leaves_len;
        for (size_t i = 0; i < leaves_len; i++)
            bits[leaves[i]] = line[i] != 0;
        for (size_t i = 0; i < flips; i++)
            bits[driven[i]] = end[i];
        for (size_t k = 0; k < entries; k++) {
            uint32_t a = tape[2 * k], b = tape[2 * k + 1];
            bits[pins + k] = (bits[a >> 1] ^ (a & 1)) & (bits[b >> 1] ^ (b & 1));
        }
        for (size_t i = 0; i < outs_len; i++)
            out[i] = bits[places[i] >> 1] ^ (places[i] & 1);
        for (size_t i = 0; i < flips; i++)
            if (out[2 * i])
                end[i] = out[2 * i + 1];
    }
    free(bits);
}

static void fold_run(size_t count, uint8_t *out, uint8_t *end) {
    size_t answer[PLACER_FOLD_LEN];
    uint32_t *bits = numbers(pins), *result = numbers(plan_len), *looks = numbers(PLACER_FOLD_WORK), *at = numbers(outs_len);
    const size_t size = placer_stage_size(height);
    for (size_t i = 0, r = 0; i < outs_len; r += records[r] == 2 ? 3 : 2)
        for (size_t j = 1; j <= (records[r] == 2 ? 2u : 1u); j++, i++) {
            const uint32_t *word = words;
            for (size_t s = 0; s < stages && at[i] == 0; s++)
                for (uint32_t w = 0; w < counts[s]; w++, word++)
                    for (size_t p = 32 * *word; p < 32 * *word + 32 && at[i] == 0; p++)
                        if (p > 0 && placer_cell_pin(plan[s * size + p]) == records[r + j] / 2)
                            at[i] = (uint32_t)(s * size + p);
        }
    memcpy(end, start, flips);
    for (size_t c = 0; c < count; c++, out += outs_len) {
        for (size_t i = 0; i < leaves_len; i++)
            bits[leaves[i]] = recording[c * leaves_len + i];
        for (size_t i = 0; i < flips; i++)
            bits[driven[i]] = end[i];
        uint32_t number = fold_plan(height, plan, stages * size, bits, pins, result, stages * size, looks, PLACER_FOLD_WORK, answer, PLACER_FOLD_LEN);
        if (number != PLACER_DONE)
            refused("the fold", number);
        size_t i = 0;
        for (size_t r = 0; r < records_len; r += records[r] == 2 ? 3 : 2)
            for (size_t j = 1; j <= (records[r] == 2 ? 2u : 1u); j++, i++)
                out[i] = (uint8_t)((at[i] == 0 ? 0 : result[at[i]]) ^ (records[r + j] % 2));
        for (i = 0; i < flips; i++)
            if (out[2 * i])
                end[i] = out[2 * i + 1];
    }
    free(at), free(looks), free(result), free(bits);
}

static void library_run(size_t count, uint8_t *out, uint8_t *end) {
    size_t answer[PLACER_BUILD_LEN], tape_len = placer_replay_tape_size(plan_len), slots_len = placer_replay_slots_size(records_len, plan_len);
    size_t bits_len = placer_replay_bits_size(gates_len, plan_len), work_len = placer_build_work_size(gates_len, records_len);
    uint32_t *own_plan = numbers(plan_len), *own_words = numbers(placer_words_size(height)), *own_counts = numbers(rooms);
    uint32_t *own_work = numbers(work_len), *own_tape = numbers(tape_len), *slots = numbers(slots_len);
    uint8_t *bits = lent(bits_len, 1);
    uint32_t number = replay_recording(height, gates, gates_len, given, 0, records, records_len, driven, flips, start, flips, count, recording, count * leaves_len,
                                       out, count * outs_len, end, flips, own_plan, plan_len, own_words, placer_words_size(height), own_counts, rooms, own_work,
                                       work_len, own_tape, tape_len, slots, slots_len, bits, bits_len, answer, PLACER_BUILD_LEN);
    if (number != PLACER_DONE)
        refused("the replay", number);
    free(bits), free(slots), free(own_tape), free(own_work), free(own_counts), free(own_words), free(own_plan);
}

/* Microseconds of processor time a clock: what else runs on the machine isn't counted. */
static double timed(void (*run)(size_t, uint8_t *, uint8_t *), size_t count, uint8_t *out, uint8_t *end) {
    struct timespec from, to;
    clock_gettime(CLOCK_PROCESS_CPUTIME_ID, &from);
    run(count, out, end);
    clock_gettime(CLOCK_PROCESS_CPUTIME_ID, &to);
    return ((double)(to.tv_sec - from.tv_sec) * 1e6 + (double)(to.tv_nsec - from.tv_nsec) / 1e3) / (double)count;
}

static int by_size(const void *a, const void *b) {
    double x = *(const double *)a, y = *(const double *)b;
    return (x > y) - (x < y);
}

int main(int argc, char **argv) {
    long turns = argc == 5 ? strtol(argv[3], NULL, 10) : 0;
    if (turns < 1 || turns > 1000) {
        fputs("usage: bench HEIGHT CLOCKS TURNS FILE.aag\n", stderr);
        return 2;
    }
    height = (uint32_t)strtoul(argv[1], NULL, 10);
    clocks = strtoul(argv[2], NULL, 10);
    load(argv[4]);
    place();
    make_tape();
    const size_t folded = clocks < 200 ? clocks : 200;
    uint8_t *out[3], *end[3];
    double *times[3];
    for (int i = 0; i < 3; i++)
        out[i] = lent(clocks * outs_len, 1), end[i] = lent(flips, 1), times[i] = lent((size_t)turns, sizeof(double));
    for (long t = 0; t < turns; t++) {
        times[0][t] = timed(library_run, clocks, out[0], end[0]);
        times[1][t] = timed(plain_run, clocks, out[1], end[1]);
        times[2][t] = timed(fold_run, folded, out[2], end[2]);
    }
    if (memcmp(out[0], out[1], clocks * outs_len) != 0 || memcmp(end[0], end[1], flips) != 0 || memcmp(out[0], out[2], folded * outs_len) != 0) {
        fputs("bench: the bits differ\n", stderr);
        return 1;
    }
    for (int i = 0; i < 3; i++)
        qsort(times[i], (size_t)turns, sizeof(double), by_size);
    double l = times[0][turns / 2], p = times[1][turns / 2], f = times[2][turns / 2];
    printf("height %u, %zu stages, %zu ANDs, %zu clocks: library %.3f us a clock, plain C %.3f, ratio %.2f; a fold a clock %.1f, %.0f times the library's\n",
           (unsigned)height, stages, entries, clocks, l, p, l / p, f, f / l);
    return 0;
}
