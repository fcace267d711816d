/* One input of speed/inputs.py, built or merged at height 13: prints the number, stages, words and the seconds that a call of the fastest of some rounds
 * took. As many rooms are lent as a build fills, or the fullest partition that a merge leaves, so that no more are cleared; a first call with D + 1, which is
 * not timed, tells how many, and what a merge is to leave. */
#include "placer.h"
#include <stdio.h>
#include <stdlib.h>
#include <string.h>
#include <time.h>

enum { HEIGHT = 13, EXTRA = 1, ANSWERS = 16 };

static void *lent(size_t count) {
    void *area = calloc(count ? count : 1, sizeof(uint32_t));
    if (!area) {
        fputs("versions: no memory\n", stderr);
        exit(2);
    }
    return area;
}

static double now(void) {
    struct timespec t;
    clock_gettime(CLOCK_PROCESS_CPUTIME_ID, &t);
    return (double)t.tv_sec + 1e-9 * (double)t.tv_nsec;
}

int main(int count, char **words_of) {
    FILE *file = count == 4 ? fopen(words_of[1], "rb") : NULL;
    uint32_t sizes[4];
    if (!file || fread(sizes, 4, 4, file) != 4) {
        fputs("usage: versions INPUT ROUNDS CALLS\n", stderr);
        return 2;
    }
    uint32_t *lists[4];
    for (int i = 0; i < 4; i++) {
        lists[i] = lent(sizes[i]);
        if (fread(lists[i], 4, sizes[i], file) != sizes[i])
            return 2;
    }
    uint32_t none = 0;
    size_t gates = sizes[0], records = sizes[1], indices = sizes[2], parts = sizes[3];
    size_t work = placer_merge_work_size(gates, records, indices, parts), answer[ANSWERS] = {0};
    uint32_t *area = lent(work), number = placer_depth(lists[0], gates, &none, 0, lists[1], records, area, work, answer, ANSWERS);
    size_t rooms = answer[PLACER_DEPTH_D] + 1, plan = placer_plan_size(HEIGHT, rooms), limit = placer_words_size(HEIGHT);
    uint32_t *plans = lent(plan), *words = lent(limit), *counts = lent(rooms);
    uint32_t *list = lent(indices), *lengths = lent(parts), *stages = lent(parts);
    uint32_t *first_list = lent(indices), *first_lengths = lent(parts);
    double best = 1e9;
    for (int round = -1; round < atoi(words_of[2]) && number == PLACER_DONE; round++) {
        int calls = round < 0 ? 1 : atoi(words_of[3]);
        double start = now();
        for (int call = calls; call > 0 && number == PLACER_DONE; call--) {
            memcpy(list, lists[2], 4 * indices);
            memcpy(lengths, lists[3], 4 * parts);
            if (parts)
                number = merge_partitions(HEIGHT, lists[0], gates, &none, 0, lists[1], records, list, indices, lengths, parts, stages, parts, EXTRA, plans, plan,
                                          words, limit, counts, rooms, area, work, answer, ANSWERS);
            else
                number = placer_build(HEIGHT, lists[0], gates, &none, 0, lists[1], records, plans, plan, words, limit, counts, rooms, area, work, answer,
                                      ANSWERS);
        }
        double took = (now() - start) / calls;
        if (round >= 0) {
            best = took < best ? took : best;
            continue;
        }
        rooms = parts ? 0 : answer[PLACER_BUILD_STAGES];
        for (size_t i = 0; i < parts; i++)
            rooms = stages[i] > rooms ? stages[i] : rooms;
        plan = placer_plan_size(HEIGHT, rooms);
        memcpy(first_list, list, 4 * indices);
        memcpy(first_lengths, lengths, 4 * parts);
    }
    if (memcmp(list, first_list, 4 * indices) || memcmp(lengths, first_lengths, 4 * parts)) {
        fputs("versions: with fewer rooms the merge is another\n", stderr);
        return 2;
    }
    printf("%u %zu %zu %.9f\n", number, answer[PLACER_BUILD_STAGES], answer[PLACER_BUILD_WORDS], best);
    return 0;
}
