/* Builds, checks, replays, mends and explains plans that stand on its standard input, in one run, and answers on its standard output; numbers of 32 bits, lowest
 * byte first.
 *
 * A question begins with fourteen: 0 for a build, 1 for a check, 2 for a replay over a plan, 3 for a plan mended, 4 for a build explained; the height; for a build
 * and an explained one the rooms, else the stages; for a replay the lines, for a plan mended and a build explained the numbers of its list; for a replay the
 * bytes that are lent for what comes out, for a plan mended the numbers of its work; how many numbers gates, given, records, plan, words, counts, driven, start
 * and recording have (0 for those that aren't asked for); then these lists.
 * A build is answered with its number, stages and words, and after 0 with plan, words and counts of that size. The others are answered with the numbers of their
 * answer, and a 1 where something lent is not as the header says afterwards, 0 where all is; a replay after 0 also with what came out and the end bits, a plan
 * mended after 0 with plan and changes, a build explained with its lines.
 * Status 2 where the input ends within a question or there is no memory. */
#include "placer.h"
#include <stdio.h>
#include <stdlib.h>
#include <string.h>

enum { HEAD = 5, LISTS = 9, BEHIND = 8 };

static void stop(const char *why) {
    fprintf(stderr, "driver: %s\n", why);
    exit(2);
}

static void *lent(size_t count, size_t size) {
    void *area = malloc((count + BEHIND) * size); /* never null for no elements; what stands behind must stay */
    if (area == NULL)
        stop("no memory");
    memset(area, 0xa5, (count + BEHIND) * size);
    return area;
}

static uint32_t *numbers(size_t count) { return lent(count, sizeof(uint32_t)); }

/* Are so many bytes of an area of this value, and all behind them as they were lent? */
static int holds(const void *area, size_t count, int value, size_t all) {
    const uint8_t *byte = area;
    for (size_t i = 0; i < all; i++)
        if (byte[i] != (i < count ? value : 0xa5))
            return 0;
    return 1;
}

static void give(const uint32_t *from, size_t count) {
    if (fwrite(from, sizeof *from, count, stdout) != count)
        stop("nobody reads on");
}

static void give_bytes(const uint8_t *from, size_t count) {
    for (size_t i = 0; i < count; i++)
        give(&(uint32_t){from[i]}, 1);
}

static void take(uint32_t *to, size_t count) {
    if (fread(to, sizeof *to, count, stdin) != count)
        stop("the input ends within a question");
}

static void build(uint32_t height, size_t rooms, uint32_t *const list[], const uint32_t *size) {
    size_t answer[PLACER_BUILD_LEN], plan_len = placer_plan_size(height, rooms), words_len = placer_words_size(height);
    size_t work_len = placer_build_work_size(size[0], size[2]);
    uint32_t *plan = numbers(plan_len), *words = numbers(words_len), *counts = numbers(rooms), *work = numbers(work_len);
    uint32_t number = placer_build(height, list[0], size[0], list[1], size[1], list[2], size[2], plan, plan_len, words, words_len, counts, rooms, work,
                                   work_len, answer, PLACER_BUILD_LEN);
    size_t stages = answer[PLACER_BUILD_STAGES];
    uint32_t head[3] = {number, (uint32_t)stages, (uint32_t)answer[PLACER_BUILD_WORDS]};
    give(head, 3);
    give(plan, stages * placer_stage_size(height));
    give(words, head[2]);
    give(counts, stages);
    free(work), free(counts), free(words), free(plan);
}

/* The answer, and whether all is as it should be. */
static void say(uint32_t number, const size_t *answer, int right) {
    uint32_t said[5] = {number, (uint32_t)answer[PLACER_CHECK_STAGE], (uint32_t)answer[PLACER_CHECK_POSITION], (uint32_t)answer[PLACER_CHECK_PIN],
                        !right || answer[PLACER_CHECK_NUMBER] != number};
    give(said, 5);
}

static uint8_t *bytes_of(const uint32_t *from, size_t count) {
    uint8_t *to = lent(count, 1);
    for (size_t i = 0; i < count; i++)
        to[i] = (uint8_t)from[i];
    return to;
}

static void replay(uint32_t height, size_t stages, size_t lines, size_t out_len, uint32_t *const list[], const uint32_t *size) {
    size_t answer[PLACER_CHECK_LEN], used = placer_plan_size(height, stages), work_len = placer_replay_plan_work_size(size[0], size[2]);
    if (used > size[3])
        used = 0; /* it is refused in any case */
    size_t tape_len = placer_replay_tape_size(used), slots_len = placer_replay_slots_size(size[2], used), bits_len = placer_replay_bits_size(size[0], used);
    size_t end_len = size[7];
    uint8_t *start = bytes_of(list[7], size[7]), *recording = bytes_of(list[8], size[8]);
    uint8_t *out = lent(out_len, 1), *end = lent(end_len, 1), *bits = lent(bits_len, 1);
    uint32_t *work = numbers(work_len), *tape = numbers(tape_len), *slots = numbers(slots_len);
    uint32_t number = replay_plan(height, list[0], size[0], list[1], size[1], list[2], size[2], list[6], size[6], start, size[7], lines, recording, size[8], out,
                                  out_len, end, end_len, list[3], size[3], list[4], size[4], list[5], size[5], stages, work, work_len, tape, tape_len, slots,
                                  slots_len, bits, bits_len, answer, PLACER_CHECK_LEN);
    int done = number == PLACER_DONE;
    int right = holds(work, done ? 4 * work_len : 0, 0, 4 * (work_len + BEHIND)) && holds(tape, done ? 4 * tape_len : 0, 0, 4 * (tape_len + BEHIND)) &&
                holds(slots, done ? 4 * slots_len : 0, 0, 4 * (slots_len + BEHIND)) && holds(bits, done ? bits_len : 0, 0, bits_len + BEHIND) &&
                (done || (holds(out, 0, 0, out_len + BEHIND) && holds(end, 0, 0, end_len + BEHIND)));
    say(number, answer, right && holds(out + out_len, 0, 0, BEHIND) && holds(end + end_len, 0, 0, BEHIND));
    if (done)
        give_bytes(out, out_len), give_bytes(end, end_len);
    free(slots), free(tape), free(work), free(bits), free(end), free(out), free(recording), free(start);
}

static void check(uint32_t height, size_t stages, uint32_t *const list[], const uint32_t *size) {
    uint32_t *before[LISTS];
    size_t answer[PLACER_CHECK_LEN];
    int same = 1;
    for (int i = 0; i < LISTS; i++) {
        before[i] = numbers(size[i]);
        memcpy(before[i], list[i], size[i] * sizeof **list);
    }
    uint32_t number = check_plan(height, list[0], size[0], list[1], size[1], list[2], size[2], list[3], size[3], list[4], size[4], list[5], size[5], stages,
                                 answer, PLACER_CHECK_LEN);
    for (int i = 0; i < LISTS; i++) {
        same = same && memcmp(before[i], list[i], size[i] * sizeof **list) == 0;
        free(before[i]);
    }
    say(number, answer, same);
}

/* An answer of so many numbers, and whether all is as it should be. */
static void tell(const size_t *answer, size_t count, int right) {
    for (size_t i = 0; i < count; i++)
        give(&(uint32_t){(uint32_t)answer[i]}, 1);
    give(&(uint32_t){!right}, 1);
}

static void mend(uint32_t height, size_t stages, size_t list_len, size_t work_len, uint32_t *const list[], const uint32_t *size) {
    size_t answer[PLACER_MEND_LEN], plan_len = size[3];
    uint32_t *plan = list[3], *before = numbers(plan_len), *changes = numbers(list_len), *work = numbers(work_len);
    memcpy(before, plan, plan_len * sizeof *plan);
    uint32_t number = mend_plan(height, list[0], size[0], list[1], size[1], list[2], size[2], plan, plan_len, list[4], size[4], list[5], size[5], stages,
                                changes, list_len, work, work_len, answer, PLACER_MEND_LEN);
    size_t count = answer[PLACER_MEND_COUNT];
    int done = number == PLACER_DONE, looked = done || number == PLACER_WRONG_PLAN || number == PLACER_SHORT_LIST;
    int right = answer[PLACER_MEND_NUMBER] == number && count <= list_len / PLACER_CHANGE && (done || count == 0);
    if (right)
        right = holds(work, looked ? 4 * plan_len : 0, 0, 4 * (work_len + BEHIND)) && holds(plan + plan_len, 0, 0, 4 * BEHIND) &&
                holds(changes + PLACER_CHANGE * count, 0, 0, 4 * (list_len + BEHIND - PLACER_CHANGE * count)) &&
                (done || memcmp(before, plan, plan_len * sizeof *plan) == 0);
    tell(answer, PLACER_MEND_LEN, right);
    if (done)
        give(plan, plan_len), give(changes, right ? PLACER_CHANGE * count : 0);
    free(work), free(changes), free(before);
}

/* A build, and the same explained: their areas and answers are the same, but where the list is too short. */
static void explain(uint32_t height, size_t rooms, size_t list_len, uint32_t *const list[], const uint32_t *size) {
    size_t answer[PLACER_EXPLAIN_LEN], built[PLACER_BUILD_LEN], length[4] = {placer_plan_size(height, rooms), placer_words_size(height), rooms,
                                                                             placer_build_work_size(size[0], size[2])};
    uint32_t *area[4], *same[4], *lines = numbers(list_len);
    for (int i = 0; i < 4; i++)
        area[i] = numbers(length[i]), same[i] = numbers(length[i]);
    uint32_t number = explain_build(height, list[0], size[0], list[1], size[1], list[2], size[2], area[0], length[0], area[1], length[1], area[2], length[2],
                                    area[3], length[3], lines, list_len, answer, PLACER_EXPLAIN_LEN);
    uint32_t alone = placer_build(height, list[0], size[0], list[1], size[1], list[2], size[2], same[0], length[0], same[1], length[1], same[2], length[2],
                                  same[3], length[3], built, PLACER_BUILD_LEN);
    size_t told = answer[PLACER_EXPLAIN_LINES] * PLACER_LINE;
    int right = answer[PLACER_EXPLAIN_NUMBER] == number && told <= list_len && holds(lines + told, 0, 0, 4 * (list_len + BEHIND - told));
    for (int i = 0; i < 4; i++) {
        if (number == PLACER_SHORT_LINES)
            right = right && answer[i + 1] == 0 && told == 0 && holds(area[i], 4 * length[i], i < 2 ? 0xff : 0, 4 * (length[i] + BEHIND));
        else
            right = right && number == alone && memcmp(area[i], same[i], 4 * (length[i] + BEHIND)) == 0;
        free(area[i]), free(same[i]);
    }
    tell(answer, PLACER_EXPLAIN_LEN, right && (number == PLACER_SHORT_LINES || memcmp(answer, built, sizeof built) == 0));
    give(lines, right ? told : 0);
    free(lines);
}

int main(void) {
    uint32_t head[HEAD + LISTS], *list[LISTS];
    while (fread(head, sizeof *head, 1, stdin) == 1) {
        take(head + 1, HEAD + LISTS - 1);
        for (int i = 0; i < LISTS; i++) {
            list[i] = numbers(head[HEAD + i]);
            take(list[i], head[HEAD + i]);
        }
        if (head[0] == 0)
            build(head[1], head[2], list, head + HEAD);
        else if (head[0] == 1)
            check(head[1], head[2], list, head + HEAD);
        else if (head[0] == 2)
            replay(head[1], head[2], head[3], head[4], list, head + HEAD);
        else if (head[0] == 3)
            mend(head[1], head[2], head[3], head[4], list, head + HEAD);
        else
            explain(head[1], head[2], head[3], list, head + HEAD);
        if (fflush(stdout) != 0)
            stop("nobody reads on");
        for (int i = 0; i < LISTS; i++)
            free(list[i]);
    }
    return 0;
}
