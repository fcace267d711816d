/* The listing of an AIGER file's plan through the C entries, to compare the tool's with.
 *
 * usage: entry HEIGHT < FILE
 * Exit status: 0 it is listed, 1 it is refused, 2 it could not be tried. */
#include "placer.h"
#include <stdio.h>
#include <stdlib.h>

static void *lent(size_t count, size_t size) {
    void *area = count < SIZE_MAX / size ? malloc((count + 1) * size) : NULL;
    if (area == NULL) {
        fputs("entry: no memory\n", stderr);
        exit(2);
    }
    return area;
}

static uint32_t *numbers(size_t count) { return lent(count, sizeof(uint32_t)); }

int main(int argc, char **argv) {
    enum { MOST = 1 << 26 };
    uint32_t height = argc == 2 ? (uint32_t)strtoul(argv[1], NULL, 10) : 0;
    uint8_t *bytes = lent(MOST, 1);
    size_t length = fread(bytes, 1, MOST, stdin);
    uint32_t *gates = numbers(PLACER_AIGER_GATES), *records = numbers(PLACER_AIGER_RECORDS), *latches = numbers(PLACER_AIGER_LATCHES);
    size_t read[PLACER_AIGER_LEN], told[PLACER_DEPTH_LEN], built[PLACER_BUILD_LEN], listed[PLACER_LIST_LEN];
    if (read_aiger(bytes, length, gates, PLACER_AIGER_GATES, records, PLACER_AIGER_RECORDS, latches, PLACER_AIGER_LATCHES, read, PLACER_AIGER_LEN))
        return 1;
    size_t gs = read[PLACER_AIGER_GATES_LEN], rs = read[PLACER_AIGER_RECORDS_LEN], work_len = placer_build_work_size(gs, rs);
    uint32_t *work = numbers(work_len);
    if (placer_depth(gates, gs, gates, 0, records, rs, work, work_len, told, PLACER_DEPTH_LEN))
        return 1;
    size_t rooms = told[PLACER_DEPTH_D] + 1, plan_len = placer_plan_size(height, rooms), words_len = placer_words_size(height);
    uint32_t *plan = numbers(plan_len), *words = numbers(words_len), *counts = numbers(rooms);
    uint32_t number = placer_build(height, gates, gs, gates, 0, records, rs, plan, plan_len, words, words_len, counts, rooms, work, work_len, built,
                                   PLACER_BUILD_LEN);
    size_t size = placer_listing_size(height, built[PLACER_BUILD_STAGES], built[PLACER_BUILD_WORDS]);
    uint8_t *text = lent(size, 1);
    if (list_answer(height, number, built[PLACER_BUILD_STAGES], built[PLACER_BUILD_STAGE], (uint32_t)built[PLACER_BUILD_PIN], plan, plan_len, words,
                    words_len, counts, rooms, text, size, listed, PLACER_LIST_LEN))
        return 2;
    if (fwrite(text, 1, listed[PLACER_LIST_LENGTH], stdout) != listed[PLACER_LIST_LENGTH] || fflush(stdout) != 0)
        return 2;
    return number != PLACER_DONE;
}
