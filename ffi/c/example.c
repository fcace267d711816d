/* Two of the scope document's bench examples at height 6. Pins 1 to 4 are leaves, 5 = (2, 4), 6 = (6, 9), 7 = (10, 12), output 14: as a job file, which is
 * read back, built in D + 1 rooms, listed, with what each cell does, and folded; and built with too few counts; and what is told who asks for the old word
 * rule, of a build, an explanation and a merge, or for a number that names no rule. D of a chain of 60 gates, and with a given pin near its end. A merge: the
 * leaf outputs 2 and 4, a partition each, no extra stages. The first example's plan as a sheet, which is read back and listed again, into too few words, cut,
 * and of an unknown number; and its sheet 1, as earlier versions wrote it, with its graph and without. The same plan checked, whole, with a cell damaged and
 * with its word not written, and replayed, with a flip-flop from pin 7 to leaf 4; and mended, as it is, with cells damaged, with too short a list, and with a
 * top that nothing tells. Builds explained: 30 and 31 leaf outputs with a gate of level 2, a list that is too short, words that run out, a memory. And the
 * AIGER document's half adder, read whole and cut, and written again, with its two unused variables as inputs. */
#include "placer.h"
#include <stdio.h>
#include <stdlib.h>
#include <string.h>

#define E PLACER_EMPTY

static const uint32_t gates[16] = {E, E, E, E, E, E, E, E, E, E, 2, 4, 6, 9, 10, 12};
static const uint32_t given[1] = {0}; /* none, but no pointer may be null */
static const uint32_t records[2] = {1, 14};

/* An area of so many elements, at least one, so that its pointer is not null. */
static void *lent(size_t count, size_t size) {
    void *area = calloc(count + 1, size);
    if (area == NULL)
        exit(1);
    return area;
}

static void *numbers(size_t count) { return lent(count, sizeof(uint32_t)); }

/* What each filled cell of a plan does: the plan alone tells. */
static void show_cells(uint32_t height, const uint32_t *plan, size_t plan_len) {
    const size_t size = placer_stage_size(height);
    for (size_t p = 0; p < plan_len; p++) {
        uint32_t cell = plan[p];
        if (!placer_cell_filled(cell))
            continue;
        if (placer_cell_ands(cell))
            printf("position %zu: pin %u ANDs, inversions %u %u\n", p, placer_cell_pin(cell), placer_cell_first_inversion(cell),
                   placer_cell_second_inversion(cell));
        else
            printf("position %zu: pin %u is %s\n", p, placer_cell_pin(cell), p % size < size / 2 ? "copied" : "loaded");
    }
}

/* The file of the job, and the job of the file, which is built, listed and folded, with leaf 4 at 0 and the others at 1. */
static uint32_t job(void) {
    static uint8_t file[PLACER_JOB_BYTES];
    static uint32_t g[PLACER_JOB_GATES], v[PLACER_JOB_GIVEN], r[PLACER_JOB_RECORDS];
    size_t wrote[PLACER_WRITE_LEN], read[PLACER_READ_LEN], deep[PLACER_DEPTH_LEN], aside[PLACER_RESERVED_LEN], built[PLACER_BUILD_LEN], listed[PLACER_LIST_LEN];
    uint32_t number = write_job(6, gates, 16, given, 0, records, 2, file, sizeof file, wrote, PLACER_WRITE_LEN);
    if (number != PLACER_DONE)
        return number;
    printf("file of %zu bytes\n", wrote[PLACER_WRITE_LENGTH]);

    number = read_job(file, wrote[PLACER_WRITE_LENGTH], g, PLACER_JOB_GATES, v, PLACER_JOB_GIVEN, r, PLACER_JOB_RECORDS, read, PLACER_READ_LEN);
    if (number != PLACER_DONE)
        return number;
    uint32_t height = (uint32_t)read[PLACER_READ_HEIGHT];
    size_t gs = read[PLACER_READ_GATES], vs = read[PLACER_READ_GIVEN], rs = read[PLACER_READ_RECORDS];

    size_t work_len = placer_build_work_size(gs, rs);
    uint32_t *work = numbers(work_len);
    number = placer_depth(g, gs, v, vs, r, rs, work, work_len, deep, PLACER_DEPTH_LEN);
    if (number != PLACER_DONE)
        return number;
    size_t rooms = deep[PLACER_DEPTH_D] + 1;
    printf("D %zu, so %zu rooms\n", deep[PLACER_DEPTH_D], rooms);
    number = placer_reserved(g, gs, v, vs, r, rs, work, work_len, aside, PLACER_RESERVED_LEN);
    if (number != PLACER_DONE)
        return number;
    printf("reserved %zu of %zu words\n", aside[PLACER_RESERVED_WORDS], placer_words_size(height));

    size_t plan_len = placer_plan_size(height, rooms), words_len = placer_words_size(height);
    uint32_t *plan = numbers(plan_len), *words = numbers(words_len), *counts = numbers(rooms);
    number = placer_build(height, g, gs, v, vs, r, rs, plan, plan_len, words, words_len, counts, rooms, work, work_len, built, PLACER_BUILD_LEN);

    size_t out_len = placer_listing_size(height, built[PLACER_BUILD_STAGES], built[PLACER_BUILD_WORDS]);
    uint8_t *out = lent(out_len, 1);
    number = list_answer(height, number, built[PLACER_BUILD_STAGES], built[PLACER_BUILD_STAGE], (uint32_t)built[PLACER_BUILD_PIN], plan, plan_len,
                         words, words_len, counts, rooms, out, out_len, listed, PLACER_LIST_LEN);
    fwrite(out, 1, listed[PLACER_LIST_LENGTH], stdout);
    if (number != PLACER_DONE)
        return number;

    show_cells(height, plan, plan_len);

    /* the fold needs no graph, and bits for the leaves alone */
    const uint32_t bits[5] = {0, 1, 1, 1, 0};
    size_t folded[PLACER_FOLD_LEN], result_len = placer_fold_result_size(plan_len);
    uint32_t *result = numbers(result_len), *looks = numbers(PLACER_FOLD_WORK);
    number = fold_plan(height, plan, plan_len, bits, 5, result, result_len, looks, PLACER_FOLD_WORK, folded, PLACER_FOLD_LEN);
    for (size_t p = 0; p < plan_len; p++)
        if (placer_cell_pin(plan[p]) == 7)
            printf("pin 7 at position %zu folds to %u\n", p, result[p]);
    free(looks), free(result), free(out), free(work), free(counts), free(words), free(plan);
    return number;
}

/* The same in a room without its count. */
static uint32_t uncounted(void) {
    uint32_t plan[128], words[2], counts[1], work[16 * 8 + 8 * 2 + 512];
    size_t answer[PLACER_BUILD_LEN];
    uint32_t number = placer_build(6, gates, 16, given, 0, records, 2, plan, 128, words, 2, counts, 0, work, sizeof work / sizeof *work, answer, PLACER_BUILD_LEN);
    printf("without counts: refused %u: %s\n", number, placer_describe(number));
    return number;
}

/* What a build, an explanation or a merge of it is lent, the one record in one partition. */
struct areas {
    uint32_t plan[128], words[2], counts[1], work[16 * 8 + 8 * 2 + 512 + 8 * 1 + 8 * 1], list[6 * 6], indices[1], lengths[1], stages[1];
};
enum { A_BUILD, AN_EXPLANATION, A_MERGE };

/* Whether a call by the number of a word rule returns this number, with an answer of it and zeros where there is room for all of that, else as it was, and
 * changes nothing else. */
static int told(int call, uint32_t rule, uint32_t height, size_t answer_len, uint32_t wanted) {
    static const size_t whole[] = {PLACER_BUILD_LEN, PLACER_EXPLAIN_LEN, PLACER_MERGE_LEN};
    struct areas a, before;
    size_t answer[PLACER_MERGE_LEN], expected[PLACER_MERGE_LEN], work_len = sizeof a.work / sizeof *a.work;
    uint32_t number;
    memset(&a, 7, sizeof a);
    memset(answer, 7, sizeof answer);
    a.indices[0] = 0, a.lengths[0] = 1;
    memcpy(&before, &a, sizeof a);
    memcpy(expected, answer, sizeof answer);
    for (size_t i = 0; i < whole[call] && answer_len >= whole[call]; i++)
        expected[i] = i ? 0 : wanted;
    if (call == A_BUILD)
        number = placer_build_by(rule, height, gates, 16, given, 0, records, 2, a.plan, 128, a.words, 2, a.counts, 1, a.work, work_len, answer, answer_len);
    else if (call == AN_EXPLANATION)
        number = explain_build_by(rule, height, gates, 16, given, 0, records, 2, a.plan, 128, a.words, 2, a.counts, 1, a.work, work_len, a.list, 6 * 6, answer,
                                  answer_len);
    else
        number = merge_partitions_by(rule, height, gates, 16, given, 0, records, 2, a.indices, 1, a.lengths, 1, a.stages, 1, 0, a.plan, 128, a.words, 2, a.counts,
                                     1, a.work, work_len, answer, answer_len);
    return number == wanted && memcmp(answer, expected, sizeof answer) == 0 && memcmp(&a, &before, sizeof a) == 0;
}

/* The old word rule asked for, at height 6, at none, and in answers of all lengths; and numbers that name no rule, in the same way. */
static int old_rule(void) {
    static const char *const names[] = {"a build", "an explanation", "a merge"};
    int fine = 1;
    for (int call = A_BUILD; call <= A_MERGE; call++) {
        int right = 1;
        for (size_t answer_len = 0; answer_len <= PLACER_MERGE_LEN; answer_len++)
            for (uint32_t height = 5; height <= 6; height++) {
                right = right && told(call, PLACER_EVERY_RUN, height, answer_len, PLACER_OLD_RULE);
                fine = fine && told(call, 2, height, answer_len, PLACER_WRONG_SIZE) && told(call, 4294967295u, height, answer_len, PLACER_WRONG_SIZE);
            }
        if (right)
            printf("%s by the old rule: refused %u: %s; nothing is changed\n", names[call], PLACER_OLD_RULE, placer_describe(PLACER_OLD_RULE));
        fine = fine && right;
    }
    return fine;
}

/* The same plan as version 0.6.0 wrote it: sheet 1, pins alone. */
static const uint8_t sheet_one[] = {
    0x01, 0x60, 0x00, 0x10, 0x00, 0x10, 0x00, 0x00, 0x10, 0x00, 0x70, 0x00, 0x10, 0x00, 0x50, 0x00, 0x10, 0x00, 0x60, 0x00,
    0x10, 0x00, 0x10, 0x00, 0x10, 0x00, 0x30, 0x00, 0x10, 0x00, 0x20, 0x00, 0x10, 0x00, 0x40, 0x00, 0x00,
};

/* Its plan from sheet 1, without its graph and with it: the cells as they are built. */
static void older(const uint32_t *plan) {
    uint32_t plan1[128], words1[2], counts1[1];
    size_t read[PLACER_SHEET_LEN];
    uint32_t number = read_sheet(gates, 0, sheet_one, sizeof sheet_one, plan1, 128, words1, 2, counts1, 1, read, PLACER_SHEET_LEN);
    printf("sheet 1 alone: refused %u: %s\n", number, placer_describe(number));
    number = read_sheet(gates, 16, sheet_one, sizeof sheet_one, plan1, 128, words1, 2, counts1, 1, read, PLACER_SHEET_LEN);
    printf("sheet 1 with its graph: %s\n", number == PLACER_DONE && memcmp(plan, plan1, sizeof plan1) == 0 ? "the same cells" : "other cells");
}

/* The sheet of its plan, and that plan again: the same listing. No graph is lent, since sheet 2 has the inversions. */
static uint32_t sheet(void) {
    uint32_t plan[128], words[2], counts[1], work[16 * 8 + 8 * 2 + 512], plan2[128], words2[2], counts2[1];
    size_t built[PLACER_BUILD_LEN], wrote[PLACER_WRITE_LEN], read[PLACER_SHEET_LEN], listed[PLACER_LIST_LEN];
    uint32_t number = placer_build(6, gates, 16, given, 0, records, 2, plan, 128, words, 2, counts, 1, work, sizeof work / sizeof *work, built, PLACER_BUILD_LEN);
    if (number != PLACER_DONE)
        return number;
    size_t room = placer_sheet_size(6, built[PLACER_BUILD_STAGES]);
    uint8_t *bytes = lent(room, 1);
    number = write_sheet(6, built[PLACER_BUILD_STAGES], plan, 128, words, 2, counts, 1, bytes, room, wrote, PLACER_WRITE_LEN);
    if (number != PLACER_DONE)
        return number;
    size_t size = wrote[PLACER_WRITE_LENGTH];
    printf("sheet of %zu bytes, of at most %zu\n", size, room);

    number = read_sheet(given, 0, bytes, size, plan2, 128, words2, 2, counts2, 1, read, PLACER_SHEET_LEN);
    if (number != PLACER_DONE)
        return number;
    printf("height %zu stages %zu words %zu\n", read[PLACER_SHEET_HEIGHT], read[PLACER_SHEET_STAGES], read[PLACER_SHEET_WORDS]);
    size_t out_len = placer_listing_size(6, read[PLACER_SHEET_STAGES], read[PLACER_SHEET_WORDS]);
    uint8_t *out = lent(out_len, 1);
    number = list_answer(6, PLACER_DONE, read[PLACER_SHEET_STAGES], 0, 0, plan2, 128, words2, 2, counts2, 1, out, out_len, listed, PLACER_LIST_LEN);
    fwrite(out, 1, listed[PLACER_LIST_LENGTH], stdout);
    free(out);

    for (int damage = 0; damage < 3; damage++) {
        bytes[0] = damage == 2 ? 3 : 2;
        uint32_t refused = read_sheet(given, 0, bytes, damage == 1 ? size - 1 : size, plan2, 128, words2, damage == 0 ? 1 : 2, counts2, 1, read, PLACER_SHEET_LEN);
        printf("sheet: refused %u: %s\n", refused, placer_describe(refused));
    }
    free(bytes);
    older(plan);
    return number;
}

/* What a plan that was handed in is answered. */
static uint32_t judged(const char *what, uint32_t number, const size_t *answer) {
    if (number == PLACER_WRONG_PLAN)
        printf("%s: refused %u at stage %zu, position %zu: %s\n", what, number, answer[PLACER_CHECK_STAGE], answer[PLACER_CHECK_POSITION], placer_describe(number));
    else
        printf("%s: %s\n", what, number == PLACER_DONE ? "accepted" : placer_describe(number));
    return number;
}

/* Pin 7 as an output, and as what a flip-flop takes that drives leaf 4: at each clock its bit, the flip-flop's enable and data. */
static const uint32_t machine[5] = {1, 14, 2, 1, 14};

static uint32_t replaying(const char *what, const uint32_t *plan, const uint32_t *words, const uint32_t *counts) {
    const uint32_t driven[1] = {4};
    const uint8_t start[1] = {0}, recording[12] = {1, 1, 1, 1, 1, 1, 0, 1, 1, 1, 1, 1}; /* leaves 1, 2 and 3, four clocks */
    uint8_t out[12], end[1], bits[8 + 64];
    uint32_t work[8 + 5], tape[128], slots[128 + 5];
    size_t answer[PLACER_CHECK_LEN];
    uint32_t number = replay_plan(6, gates, 16, given, 0, machine, 5, driven, 1, start, 1, 4, recording, 12, out, 12, end, 1, plan, 128, words, 1, counts, 1, 1,
                                  work, placer_replay_plan_work_size(16, 5), tape, placer_replay_tape_size(128), slots, placer_replay_slots_size(5, 128), bits,
                                  placer_replay_bits_size(16, 128), answer, PLACER_CHECK_LEN);
    judged(what, number, answer);
    if (number == PLACER_DONE)
        printf("pin 7 at four clocks: %u %u %u %u, and leaf 4 at the end: %u\n", out[0], out[3], out[6], out[9], end[0]);
    return number;
}

/* The plan that stands in the sheet, as one that was made elsewhere. */
static uint32_t checking(void) {
    uint32_t plan[128], words[2], counts[1], none[1] = {0};
    size_t read[PLACER_SHEET_LEN], answer[PLACER_CHECK_LEN];
    uint32_t number = read_sheet(gates, 16, sheet_one, sizeof sheet_one, plan, 128, words, 2, counts, 1, read, PLACER_SHEET_LEN);
    if (number != PLACER_DONE)
        return number;
    number = check_plan(6, gates, 16, given, 0, machine, 5, plan, 128, words, 1, counts, 1, 1, answer, PLACER_CHECK_LEN);
    if (judged("plan", number, answer) != PLACER_DONE)
        return number;
    number = replaying("replay", plan, words, counts);
    uint32_t unwritten = check_plan(6, gates, 16, given, 0, machine, 5, plan, 128, words, 1, none, 1, 1, answer, PLACER_CHECK_LEN);
    judged("plan without its word", unwritten, answer);
    plan[48] = placer_cell_and(6, 0, 0); /* the gate takes leaf 4 inverted */
    uint32_t damaged = check_plan(6, gates, 16, given, 0, machine, 5, plan, 128, words, 1, counts, 1, 1, answer, PLACER_CHECK_LEN);
    judged("damaged plan", damaged, answer);
    replaying("replay of it", plan, words, counts);
    return number;
}

/* The plan of the sheet after some damage, mended in a list of so many numbers. */
static uint32_t mending(const char *what, const uint32_t *damaged, const uint32_t *words, const uint32_t *counts, size_t list_len) {
    uint32_t plan[128], list[4 * 128], work[128];
    size_t answer[PLACER_MEND_LEN];
    memcpy(plan, damaged, sizeof plan);
    uint32_t number = mend_plan(6, gates, 16, given, 0, machine, 5, plan, 128, words, 1, counts, 1, 1, list, list_len, work, placer_mend_work_size(128), answer,
                                PLACER_MEND_LEN);
    if (number == PLACER_DONE)
        printf("%s: %zu changes\n", what, answer[PLACER_MEND_COUNT]);
    else
        judged(what, number, answer); /* stage and position stand where those of a check do */
    for (size_t i = 0; i < answer[PLACER_MEND_COUNT]; i++) {
        const uint32_t *change = list + PLACER_CHANGE * i;
        printf("stage %u position %u: %u becomes %u\n", change[PLACER_CHANGE_STAGE], change[PLACER_CHANGE_POSITION], change[PLACER_CHANGE_OLD],
               change[PLACER_CHANGE_NEW]);
    }
    return number;
}

static int wet(void) {
    uint32_t plan[128], words[2], counts[1];
    size_t read[PLACER_SHEET_LEN], enough = placer_mend_list_size(6, 1);
    read_sheet(gates, 16, sheet_one, sizeof sheet_one, plan, 128, words, 2, counts, 1, read, PLACER_SHEET_LEN);
    int fine = mending("mending the plan", plan, words, counts, 0) == PLACER_DONE;
    plan[48] = placer_cell_and(5, 1, 0), plan[80] = E, plan[112] = placer_cell_plain(9); /* under pin 7, which tells what they were */
    fine = fine && mending("mending three cells", plan, words, counts, enough) == PLACER_DONE;
    fine = fine && mending("in a list for two", plan, words, counts, 2 * PLACER_CHANGE) == PLACER_SHORT_LIST;
    plan[16] = placer_cell_and(6, 0, 1); /* a top: pin 6 stands here as well, and nothing tells that it was pin 7 */
    return fine && mending("mending without its top", plan, words, counts, enough) == PLACER_WRONG_PLAN;
}

/* A build explained in two rooms, in a list of so many numbers. */
static uint32_t explaining(const char *what, const uint32_t *g, size_t gs, const uint32_t *r, size_t rs, size_t list_len) {
    uint32_t plan[256], words[2], counts[2], list[6 * 11], *work = numbers(placer_build_work_size(gs, rs));
    size_t answer[PLACER_EXPLAIN_LEN];
    uint32_t number = explain_build(6, g, gs, given, 0, r, rs, plan, placer_plan_size(6, 2), words, 2, counts, 2, work, placer_build_work_size(gs, rs), list,
                                    list_len, answer, PLACER_EXPLAIN_LEN);
    printf("%s: number %u, %zu lines\n", what, number, answer[PLACER_EXPLAIN_LINES]);
    for (size_t i = 0; i < answer[PLACER_EXPLAIN_LINES]; i++) {
        const uint32_t *line = list + PLACER_LINE * i;
        if (line[PLACER_LINE_KIND] == PLACER_TAKEN_BACK)
            printf("stage %u: pin %u taken back, needed %u, filled %u, distinct %u\n", line[PLACER_LINE_STAGE], line[PLACER_LINE_PIN], line[PLACER_LINE_NEEDED],
                   line[PLACER_LINE_FILLED], line[PLACER_LINE_DISTINCT]);
        else
            printf("stage %u: refused %u, %u over %u, of %u and %u\n", line[PLACER_LINE_STAGE], line[PLACER_LINE_KIND], line[PLACER_LINE_COUNT],
                   line[PLACER_LINE_LIMIT], line[PLACER_LINE_FIRST], line[PLACER_LINE_SECOND]);
    }
    free(work);
    return number;
}

static int why(void) {
    uint32_t g[2 * 34], r[2 * 32];
    const uint32_t words[6] = {1, 14, 1, 15, 1, 2}, memory[92] = {3};
    const size_t enough = placer_explain_size(6, 2);
    uint32_t numbers[6];
    for (uint32_t leaves = 30; leaves <= 31; leaves++) { /* each an output; behind them a gate of leaves 1 and 2, and one of that and leaf 3, an output too */
        for (uint32_t p = 0; p <= leaves; p++)
            g[2 * p] = g[2 * p + 1] = E, r[2 * p] = 1, r[2 * p + 1] = 2 * (p + 1);
        r[2 * leaves + 1] = 2 * (leaves + 2);
        g[2 * leaves + 2] = 2, g[2 * leaves + 3] = 4, g[2 * leaves + 4] = 2 * (leaves + 1), g[2 * leaves + 5] = 6;
        numbers[leaves - 30] = explaining(leaves == 30 ? "30 leaves" : "31 leaves", g, 2 * (leaves + 3), r, 2 * (leaves + 1), enough);
        numbers[leaves - 28] = explaining("in a list for less", g, 2 * (leaves + 3), r, 2 * (leaves + 1), (leaves - 29) * PLACER_LINE - 1);
    }
    numbers[4] = explaining("words", gates, 16, words, 6, enough);
    numbers[5] = explaining("a memory", gates, 16, memory, 92, enough);
    return numbers[0] == PLACER_DONE && numbers[1] == PLACER_NO_CELL && numbers[2] == PLACER_SHORT_LINES && numbers[3] == PLACER_SHORT_LINES &&
           numbers[4] == PLACER_OVER_WORDS && numbers[5] == PLACER_OVER_RESERVED;
}

/* The chain of examples/split.txt: pins 1 and 2 are leaves, 3 = (2, 4), and each pin p after it (2 * (p - 1), 2). */
static uint32_t splitting(void) {
    uint32_t chain[126] = {E, E, E, E, E, E, 2, 4}, work[16 * 63 + 8 * 2 + 512];
    const uint32_t output[2] = {1, 124}, finished[1] = {59};
    size_t whole[PLACER_DEPTH_LEN], split[PLACER_DEPTH_LEN];
    for (uint32_t p = 4; p <= 62; p++)
        chain[2 * p] = 2 * (p - 1), chain[2 * p + 1] = 2;
    uint32_t number = placer_depth(chain, 126, finished, 0, output, 2, work, sizeof work / sizeof *work, whole, PLACER_DEPTH_LEN);
    if (number == PLACER_DONE)
        number = placer_depth(chain, 126, finished, 1, output, 2, work, sizeof work / sizeof *work, split, PLACER_DEPTH_LEN);
    if (number == PLACER_DONE)
        printf("D %zu, with pin 59 given %zu\n", whole[PLACER_DEPTH_D], split[PLACER_DEPTH_D]);
    return number;
}

static void merging(void) {
    const uint32_t leaves[6] = {E, E, E, E, E, E};
    const uint32_t outputs[4] = {1, 2, 1, 4};
    uint32_t indices[2] = {0, 1}, lengths[2] = {1, 1}, stages[2];
    uint32_t plan[128], words[2], counts[1], work[16 * 3 + 8 * 4 + 512 + 8 * 2 + 8 * 2];
    size_t answer[PLACER_MERGE_LEN];
    uint32_t number = merge_partitions(6, leaves, 6, given, 0, outputs, 4, indices, 2, lengths, 2, stages, 2, 0, plan, 128, words, 2, counts, 1,
                                       work, sizeof work / sizeof *work, answer, PLACER_MERGE_LEN);
    printf("number %u partitions %zu trials %zu cells %zu\n", number, answer[PLACER_MERGE_PARTITIONS], answer[PLACER_MERGE_TRIALS],
           answer[PLACER_MERGE_CELLS]);
    printf("groups %u %u stages %u\n", indices[0], indices[1], stages[0]);
}

static uint32_t aiger(void) {
    static const uint8_t file[] = "aag 7 2 0 2 3\n2\n4\n6\n12\n6 13 15\n12 2 4\n14 3 5\n";
    static uint32_t g[PLACER_AIGER_GATES], r[PLACER_AIGER_RECORDS], l[PLACER_AIGER_LATCHES];
    const size_t size = sizeof file - 1; /* without the byte 0 at its end */
    size_t read[PLACER_AIGER_LEN], wrote[PLACER_WRITE_LEN];
    uint32_t number = read_aiger(file, size - 1, g, PLACER_AIGER_GATES, r, PLACER_AIGER_RECORDS, l, PLACER_AIGER_LATCHES, read, PLACER_AIGER_LEN);
    printf("cut: refused %u at byte %zu: %s\n", number, read[PLACER_AIGER_PLACE], placer_describe(number));

    number = read_aiger(file, size, g, PLACER_AIGER_GATES, r, PLACER_AIGER_RECORDS, l, PLACER_AIGER_LATCHES, read, PLACER_AIGER_LEN);
    if (number != PLACER_DONE)
        return number;
    size_t gs = read[PLACER_AIGER_GATES_LEN], rs = read[PLACER_AIGER_RECORDS_LEN], ls = read[PLACER_AIGER_LATCHES_LEN];
    printf("gates %zu records %zu latches %zu\n", gs, rs, ls);

    size_t room = placer_aiger_size(gs, rs);
    uint8_t *out = lent(room, 1);
    number = write_aiger(g, gs, given, 0, r, rs, l, ls, out, room, wrote, PLACER_WRITE_LEN);
    fwrite(out, 1, wrote[PLACER_WRITE_LENGTH], stdout);
    free(out);
    return number;
}

int main(void) {
    uint32_t whole = job(), small = uncounted();
    int old = old_rule();
    uint32_t deep = splitting();
    merging();
    if (sheet() != PLACER_DONE || checking() != PLACER_DONE || !wet() || !why() || aiger() != PLACER_DONE)
        return 1;
    return whole != PLACER_DONE || deep != PLACER_DONE || small != PLACER_WRONG_SIZE || !old;
}
