/* The placer, for C: builds, also explained, merges, folds, replays, plans checked and mended, listings, plan sheets, job files and AIGER files. Link
 * libentries.a, which ffi/library writes (x86-64, Linux).
 *
 * Every call returns, whatever numbers it is handed: it answers, or refuses with a number, and each contract says for all of them what is
 * returned and left. The caller checks nothing beforehand. What the caller owes is the memory:
 *
 * Areas.   Each is a pointer and a number of elements. The pointer is not null, not even for no elements, and is aligned for its element.
 * Overlap. An area that is written (its pointer is not to const) overlaps no other area of the call. Those that are only read may overlap.
 * Before.  Areas that are filled or scratch (plan, words, counts, work, result, out) need not be cleared.
 * Threads. The library keeps nothing between calls and has no variables of its own. While a call runs, no thread writes its areas, and none
 *          reads those that it writes.
 * Stack.   Where the gates are not in order (a gate has an operand above it), a build or a merge takes up to 1 MiB of stack, and so does
 *          placer_depth: the search for a loop has its marks there, since what is lent must stay unchanged. Else a call takes a few
 *          kilobytes; for the same reason reading an AIGER file takes 600 kB more, writing one 70 kB, a replay 330 kB, reading a plan
 *          sheet 64 kB, and checking a plan 1 MiB, a replay over one too; mending one takes up to 2 MiB in all, an
 *          explanation up to 1 MiB.
 * Rooms.   A room is the memory of one stage: 2^(height + 1) numbers of the plan and one of counts. A build fills as many as it has stages.
 *          Lend D + 1 rooms, and a refusal is about capacity (6, 7 or 8), never about rooms (9). D is the most gates on a way from an
 *          endpoint down to a leaf or a given pin, and placer_depth tells it. */
#ifndef PLACER_H
#define PLACER_H

#include <stddef.h>
#include <stdint.h>

#ifdef __cplusplus
extern "C" {
#endif

/* The version of this header and of the library that it is for: CHANGELOG.md. */
#define PLACER_VERSION "0.10.0"

/* An empty cell of a plan, an unused word, and each literal of a leaf. */
#define PLACER_EMPTY 4294967295u

/* What a call returns. 6 to 9 leave plan and words as empty marks, counts and work 0, and so does 21, which leaves the list as it was; every other
 * refusal leaves everything lent as it was, but for the answer, and for 22 and 24 the work of a plan mended, which is 0. The first that applies is given,
 * in the order 25, 1, 2, 3, 23, 4, 5, 10, 6, then for each stage 9, 7, 8; of a job file 11, then 2; of an AIGER file read 12, 13, 2, 3, 23, 4, and of one written
 * 14, then 2; of a plan sheet read 16, 15, 17, and of one written 15, then 17; a replay has 18, 19, 20, 17 between 5 and 6; a plan checked has 22 after 5, and
 * a replay over a plan has it after 17; a plan mended has 22 after 5, then 24; an explanation has 21 after 5, where its lines, of whatever answer, don't fit. */
enum placer_refusal {
    PLACER_DONE = 0,          /* not refused */
    PLACER_NO_HEIGHT = 1,     /* the height is not 6 to 13 */
    PLACER_WRONG_SIZE = 2,    /* a lent area has the wrong size, the slice for the answer is too short, or the number asked for names no word rule */
    PLACER_WRONG_GRAPH = 3,   /* more than 65,535 pins, none at all, or a gate whose operands aren't above 0 and at most N; pin 0 is no gate */
    PLACER_WRONG_RECORD = 4,  /* a record is of an unknown kind, cut, or names a pin above N; or more than 65,536 numbers of records */
    PLACER_WRONG_GIVEN = 5,   /* a given pin is above N */
    PLACER_OVER_RESERVED = 6, /* memories and duplicate activations need more words than may be reserved */
    PLACER_OVER_WORDS = 7,    /* the stage writes more words than are left */
    PLACER_NO_CELL = 8,       /* level 1 has no cell for a needed pin of the stage, or none would stay empty */
    PLACER_NO_ROOM = 9,       /* pins wait, and no room is left for the stage */
    PLACER_WRONG_GROUPS = 10, /* a merge of no partitions or more than 1,024, a group index out of range, or more than 255 extra stages */
    PLACER_NO_JOB = 11,       /* the bytes are no job file, or no file holds the job */
    PLACER_NO_AIGER = 12,     /* the bytes are no AIGER file, or it is cut; the answer has the place of the first bad line, or the file's length */
    PLACER_RESET = 13,        /* a latch has a reset value other than 0; the answer has the place of its line */
    PLACER_NOT_AIGER = 14,    /* no AIGER file holds the job */
    PLACER_NO_SHEET = 15,     /* the bytes are no plan sheet, no sheet holds the plan, or its graph doesn't say what a pin of sheet 1 does */
    PLACER_NEW_SHEET = 16,    /* a plan sheet of an unknown number, or of number 1 where no graph is lent */
    PLACER_SHORT = 17,        /* an area for what comes out is too short: of a plan sheet, or a replay's out or end */
    PLACER_NOT_PLAIN = 18,    /* a replay has a memory or a given pin */
    PLACER_NOT_DRIVEN = 19,   /* a driven pin is no leaf, or is driven twice */
    PLACER_WRONG_LENGTH = 20, /* driven pins, starting bits or recording have not the length that records and lines state */
    PLACER_SHORT_LINES = 21,  /* the list is too short for the lines of an explanation */
    PLACER_WRONG_PLAN = 22,   /* a plan made elsewhere, or a mended one, has a fault; the answer has the place of the first */
    PLACER_LOOP = 23,         /* a loop of gates, given or not; the answer shows the smallest pin on any */
    PLACER_SHORT_LIST = 24,   /* the list is too short for the changes of a plan mended */
    PLACER_OLD_RULE = 25      /* the old word rule is asked for, which nothing is built by any more */
};

/* A line on a number that a call returned, for people. */
static inline const char *placer_describe(uint32_t number) {
    switch (number) {
    case PLACER_DONE: return "not refused";
    case PLACER_NO_HEIGHT: return "the height is not 6 to 13";
    case PLACER_WRONG_SIZE: return "a lent area has the wrong size";
    case PLACER_WRONG_GRAPH: return "the number of pins or a gate breaks the rules";
    case PLACER_WRONG_RECORD: return "a record is unknown, cut, over size or names a pin above N";
    case PLACER_WRONG_GIVEN: return "a given pin is above N";
    case PLACER_OVER_RESERVED: return "more words to reserve than may be";
    case PLACER_OVER_WORDS: return "the stage writes more words than are left";
    case PLACER_NO_CELL: return "level 1 has no cell left for a pin of the stage";
    case PLACER_NO_ROOM: return "no room is left for the stage";
    case PLACER_WRONG_GROUPS: return "the partitions, group indices or extra stages of a merge";
    case PLACER_NO_JOB: return "no job file, or no file for the job";
    case PLACER_NO_AIGER: return "no AIGER file, or one that is cut";
    case PLACER_RESET: return "a latch has a reset value other than 0";
    case PLACER_NOT_AIGER: return "no AIGER file holds the job";
    case PLACER_NO_SHEET: return "no plan sheet, or no sheet for the plan";
    case PLACER_NEW_SHEET: return "a plan sheet of an unknown number, or of number 1 without its graph";
    case PLACER_SHORT: return "an area for what comes out is too short";
    case PLACER_NOT_PLAIN: return "a memory or a given pin, which no recording replays";
    case PLACER_NOT_DRIVEN: return "a driven pin is no leaf, or is driven twice";
    case PLACER_WRONG_LENGTH: return "driven pins, starting bits or recording have another length than stated";
    case PLACER_SHORT_LINES: return "the list is too short for the explanation's lines";
    case PLACER_WRONG_PLAN: return "the plan has a fault";
    case PLACER_LOOP: return "a loop of gates";
    case PLACER_SHORT_LIST: return "the list is too short for the changes";
    case PLACER_OLD_RULE: return "the old word rule, which nothing is built by any more";
    default: return "no number of the placer";
    }
}

/* ---- Cells: what stands at a position of a plan
 *
 * A cell is PLACER_EMPTY, or the sum of its pin and of what it does: 65,536 where it ANDs its two lower cells, then 131,072 where it takes the first
 * of them inverted and 262,144 where it takes the second. A filled cell that doesn't AND is its pin alone: at level 0 it loads the pin, above it
 * copies its first lower cell. So a plan is folded, packed and drawn without its graph. */

/* Whether a cell is filled. Ask this first: the low 16 bits of PLACER_EMPTY are a pin's too. */
static inline int placer_cell_filled(uint32_t cell) { return cell != PLACER_EMPTY; }

/* The pin of a filled cell; PLACER_EMPTY, which is no pin, for an empty one. */
static inline uint32_t placer_cell_pin(uint32_t cell) { return placer_cell_filled(cell) ? cell % 65536 : PLACER_EMPTY; }

/* 1 where a cell ANDs its two lower cells, 0 where it loads, copies or is empty. */
static inline uint32_t placer_cell_ands(uint32_t cell) { return placer_cell_filled(cell) ? cell / 65536 % 2 : 0; }

/* 1 where it takes its first lower cell inverted, and its second; 0 each unless it ANDs. */
static inline uint32_t placer_cell_first_inversion(uint32_t cell) { return placer_cell_filled(cell) ? cell / 131072 % 2 : 0; }

static inline uint32_t placer_cell_second_inversion(uint32_t cell) { return placer_cell_filled(cell) ? cell / 262144 % 2 : 0; }

/* The cell that loads or copies a pin from 1 to 65,535. */
static inline uint32_t placer_cell_plain(uint32_t pin) { return pin; }

/* The cell of such a pin that ANDs, with inversions of 0 or 1. */
static inline uint32_t placer_cell_and(uint32_t pin, uint32_t first_inversion, uint32_t second_inversion) {
    return pin + 65536 + 131072 * first_inversion + 262144 * second_inversion;
}

/* ---- Sizes, in elements. What does not fit a size_t is SIZE_MAX, which no memory has; so is any size for a height that is none. */

static inline size_t placer_sum(size_t a, size_t b) { return a > SIZE_MAX - b ? SIZE_MAX : a + b; }

static inline size_t placer_product(size_t a, size_t b) { return b != 0 && a > SIZE_MAX / b ? SIZE_MAX : a * b; }

/* A stage, which is a room of the plan. */
static inline size_t placer_stage_size(uint32_t height) {
    return height < 6 || height > 13 ? SIZE_MAX : (size_t)2 << height;
}

/* plan: exactly a multiple of a stage, one a room. */
static inline size_t placer_plan_size(uint32_t height, size_t rooms) { return placer_product(rooms, placer_stage_size(height)); }

/* counts: at least this. */
static inline size_t placer_counts_size(size_t rooms) { return rooms; }

/* words: at least this. */
static inline size_t placer_words_size(uint32_t height) {
    return height < 6 || height > 13 ? SIZE_MAX : (size_t)1 << (height - 5);
}

/* work of a build: at least this. */
static inline size_t placer_build_work_size(size_t gates_len, size_t records_len) {
    return placer_sum(placer_sum(placer_product(16, gates_len / 2), placer_product(8, records_len)), 512);
}

/* work of a merge: at least this. */
static inline size_t placer_merge_work_size(size_t gates_len, size_t records_len, size_t indices_len, size_t lengths_len) {
    return placer_sum(placer_build_work_size(gates_len, records_len), placer_product(8, placer_sum(indices_len, lengths_len)));
}

/* work of a fold: at least this, a number for each pin that a cell may hold. */
enum { PLACER_FOLD_WORK = 65536 };

/* result of a fold: at least this, a number a position. */
static inline size_t placer_fold_result_size(size_t plan_len) { return plan_len; }

/* tape, slots and bits of a replay: at least this each, in numbers, numbers and bytes. Of a replay over a plan the plan's length is that of its stages,
 * placer_plan_size(height, stages). */
static inline size_t placer_replay_tape_size(size_t plan_len) { return plan_len; }

static inline size_t placer_replay_slots_size(size_t records_len, size_t plan_len) { return placer_sum(plan_len, records_len); }

static inline size_t placer_replay_bits_size(size_t gates_len, size_t plan_len) { return placer_sum(gates_len / 2, plan_len / 2); }

/* work of a replay over a plan: at least this. */
static inline size_t placer_replay_plan_work_size(size_t gates_len, size_t records_len) { return placer_sum(gates_len / 2, records_len); }

/* work of a plan mended: at least this, a copy of the plan. */
static inline size_t placer_mend_work_size(size_t plan_len) { return plan_len; }

/* list of a plan mended: this is always long enough, a change at every position of so many stages. */
static inline size_t placer_mend_list_size(uint32_t height, size_t stages) { return placer_product(4, placer_plan_size(height, stages)); }

/* list of an explanation: this is always long enough, a line for each level from 2 on of each room, and one for the refusal. */
static inline size_t placer_explain_size(uint32_t height, size_t rooms) {
    return height < 6 || height > 13 ? SIZE_MAX : placer_product(6, placer_sum(placer_product(rooms, height - 1), 1));
}

/* The bytes that hold any listing of so many stages and words, and any refusal's line: 17 a position, 11 a word, and what stands around them. */
static inline size_t placer_listing_size(uint32_t height, size_t stages, size_t words) {
    size_t stage = placer_sum(48, placer_product(17, placer_stage_size(height)));
    return placer_sum(64, placer_sum(placer_product(stages, stage), placer_product(11, words)));
}

/* The bytes that hold the plan sheet of any build with so many stages: 4, one a word that may be written, and 20 * 2^(height - 2) a stage. */
static inline size_t placer_sheet_size(uint32_t height, size_t stages) {
    size_t stage = height < 6 || height > 13 ? SIZE_MAX : (size_t)20 << (height - 2);
    return placer_sum(4, placer_sum(placer_words_size(height), placer_product(stages, stage)));
}

/* No job file has more bytes, and no job of one more numbers in its lists. */
enum { PLACER_JOB_BYTES = 8192, PLACER_JOB_GATES = 1002, PLACER_JOB_GIVEN = 4096, PLACER_JOB_RECORDS = 512 };

/* No AIGER file that is read has more numbers in its lists. */
enum { PLACER_AIGER_GATES = 131072, PLACER_AIGER_RECORDS = 65536, PLACER_AIGER_LATCHES = 21845 };

/* The bytes that hold the AIGER file of any job with so many numbers: a line a leaf or gate, of at most three literals of six digits, and a
 * line a record. */
static inline size_t placer_aiger_size(size_t gates_len, size_t records_len) {
    return placer_sum(64, placer_sum(placer_product(21, gates_len / 2), placer_product(7, records_len)));
}

/* ---- A build */

/* The word rules, which placer_build_by, explain_build_by and merge_partitions_by are asked for by number. By PLACER_NEEDED_RUNS, that of placer_build,
 * explain_build and merge_partitions, rule 8 writes no run after the last needed waiting pin. PLACER_EVERY_RUN, the old one, wrote every sparse run once
 * nothing was untouched, idle ones too, as the published Rust does. Nothing is built by it any more, and it is named so that who asks for it is told: the
 * number returned is 25, whatever else is handed in, even a slice that is too short for the answer; for any number that names no rule it is 2 in the same
 * way. Then the answer is that number and zeros where there is room for all of it, else it stays as it was, and nothing else lent is changed. Plans and
 * sheets that were made by the old rule are read, listed, folded, checked, replayed and mended as any other. */
enum placer_word_rule { PLACER_NEEDED_RUNS = 0, PLACER_EVERY_RUN = 1 };

/* The answer of a build: what is returned; the plan's stages and written words; with 7, 8 and 9 the refused stage, from 1; with 23 the pin; the
 * cells that the plan's pins fill in all stages. What does not apply is 0. */
enum placer_build_answer {
    PLACER_BUILD_NUMBER,
    PLACER_BUILD_STAGES,
    PLACER_BUILD_WORDS,
    PLACER_BUILD_STAGE,
    PLACER_BUILD_PIN,
    PLACER_BUILD_CELLS,
    PLACER_BUILD_LEN
};

/* gates:   two literals a pin from pin 0 on, both PLACER_EMPTY for a leaf, in any order; a literal is 2 * pin, and 1 more if inverted
 * given:   pins whose value is given
 * records: endpoint records, each a kind (1 output, 2 flip-flop, 3 memory, 4 staged pin) and its numbers
 * plan:    placer_plan_size(height, rooms) numbers, for the cells, stage after stage
 * words:   at least placer_words_size(height) numbers, for the written words, stage after stage
 * counts:  at least placer_counts_size(rooms) numbers, for how many words each stage writes
 * work:    at least placer_build_work_size(gates_len, records_len) numbers; scratch, 0 afterwards
 * answer:  at least PLACER_BUILD_LEN numbers
 * rule:    PLACER_NEEDED_RUNS; any other number is refused, as said above
 *
 * Returns the number. Where `answer` is too short that is 2, and nothing is changed. */
uint32_t placer_build_by(uint32_t rule, uint32_t height, const uint32_t *gates, size_t gates_len, const uint32_t *given,
                         size_t given_len, const uint32_t *records, size_t records_len, uint32_t *plan, size_t plan_len,
                         uint32_t *words, size_t words_len, uint32_t *counts, size_t counts_len, uint32_t *work, size_t work_len,
                         size_t *answer, size_t answer_len);

/* The same under PLACER_NEEDED_RUNS: what to call. */
static inline uint32_t placer_build(uint32_t height, const uint32_t *gates, size_t gates_len, const uint32_t *given, size_t given_len,
                                    const uint32_t *records, size_t records_len, uint32_t *plan, size_t plan_len, uint32_t *words,
                                    size_t words_len, uint32_t *counts, size_t counts_len, uint32_t *work, size_t work_len,
                                    size_t *answer, size_t answer_len) {
    return placer_build_by(PLACER_NEEDED_RUNS, height, gates, gates_len, given, given_len, records, records_len, plan, plan_len, words,
                           words_len, counts, counts_len, work, work_len, answer, answer_len);
}

/* ---- A build explained */

/* The answer of an explanation: that of the build, and how many lines the list has, 0 with 21. */
enum placer_explain_answer {
    PLACER_EXPLAIN_NUMBER,
    PLACER_EXPLAIN_STAGES,
    PLACER_EXPLAIN_WORDS,
    PLACER_EXPLAIN_STAGE,
    PLACER_EXPLAIN_PIN,
    PLACER_EXPLAIN_CELLS,
    PLACER_EXPLAIN_LINES,
    PLACER_EXPLAIN_LEN
};

/* A line is six numbers. The first says what it tells: PLACER_TAKEN_BACK, or the number of the refusal, 6, 7 or 8. The second is the stage, from 1; 0 with 6.
 *
 * Of a pin taken back the others are the pin and the three counts by which rule 7 takes it back, needed + max(filled, distinct) >= 2^(height - 1): the
 * needed pins, the filled cells of level 1, the distinct pins above level 0.
 * Of a refusal they are the limit, the count that is over it, and two parts:
 * 6  the words reserved, over 2^(height - 5) - 1; else four times the memories and the duplicates, over 2^(height - 5). The parts are memories and duplicates
 * 7  the words that the stage wants, over those that are left. No parts: 0 each
 * 8  the filled cells of level 1 and the needed pins left, over 2^(height - 1) - 1, since one cell stays empty. The parts are these two */
enum placer_line {
    PLACER_LINE_KIND,
    PLACER_LINE_STAGE,
    PLACER_LINE_PIN,
    PLACER_LINE_NEEDED,
    PLACER_LINE_FILLED,
    PLACER_LINE_DISTINCT,
    PLACER_LINE_LIMIT = PLACER_LINE_PIN,
    PLACER_LINE_COUNT,
    PLACER_LINE_FIRST,
    PLACER_LINE_SECOND,
    PLACER_LINE
};
enum { PLACER_TAKEN_BACK = 1 };

/* As placer_build_by, and says why: a line for each pin that rule 7 takes back, in the order of the stages and, within one, as the rules reach them; then,
 * with 6, 7 and 8, the line that says what is over. A stage that is refused with 7 or 8 has its pins before that line. With 0 and 9 there are only pins.
 * list:    the lines stand at its front, numbers behind them stay; placer_explain_size(height, rooms) numbers are always enough. With fewer, down to none, what
 *          is needed is measured first, which takes a second build
 * answer:  at least PLACER_EXPLAIN_LEN numbers
 * all others as for placer_build_by
 *
 * Returns the number, as placer_build_by does; but 21 where the lines don't fit the list, which is then unchanged, the other areas as after 6. Where
 * `answer` is too short that is 2, and nothing is changed. */
uint32_t explain_build_by(uint32_t rule, uint32_t height, const uint32_t *gates, size_t gates_len, const uint32_t *given, size_t given_len,
                          const uint32_t *records, size_t records_len, uint32_t *plan, size_t plan_len, uint32_t *words, size_t words_len,
                          uint32_t *counts, size_t counts_len, uint32_t *work, size_t work_len, uint32_t *list, size_t list_len, size_t *answer,
                          size_t answer_len);

/* The same under PLACER_NEEDED_RUNS: what explains placer_build. */
static inline uint32_t explain_build(uint32_t height, const uint32_t *gates, size_t gates_len, const uint32_t *given, size_t given_len,
                                     const uint32_t *records, size_t records_len, uint32_t *plan, size_t plan_len, uint32_t *words,
                                     size_t words_len, uint32_t *counts, size_t counts_len, uint32_t *work, size_t work_len, uint32_t *list,
                                     size_t list_len, size_t *answer, size_t answer_len) {
    return explain_build_by(PLACER_NEEDED_RUNS, height, gates, gates_len, given, given_len, records, records_len, plan, plan_len, words, words_len,
                            counts, counts_len, work, work_len, list, list_len, answer, answer_len);
}

/* ---- Rooms */

/* The answer of placer_depth: what is returned (0, 2, 3, 23, 4 or 5); D; with 23 the pin. What does not apply is 0. */
enum placer_depth_answer { PLACER_DEPTH_NUMBER, PLACER_DEPTH_D, PLACER_DEPTH_PIN, PLACER_DEPTH_LEN };

/* D, for how many rooms to lend: a build of these gates, given pins and records with D + 1 rooms is never refused with 9, at any height.
 * gates, given, records: as for a build
 * work:    at least placer_build_work_size(gates_len, records_len) numbers; scratch, 0 afterwards
 * answer:  at least PLACER_DEPTH_LEN numbers
 *
 * Returns the number. Where `answer` is too short that is 2, and nothing is changed. */
uint32_t placer_depth(const uint32_t *gates, size_t gates_len, const uint32_t *given, size_t given_len, const uint32_t *records,
                      size_t records_len, uint32_t *work, size_t work_len, size_t *answer, size_t answer_len);

/* The answer of placer_reserved: what is returned, as of placer_depth; the records' memories and duplicate activations; the words that are
 * set aside for them; with 23 the pin. What does not apply is 0. */
enum placer_reserved_answer {
    PLACER_RESERVED_NUMBER,
    PLACER_RESERVED_MEMORIES,
    PLACER_RESERVED_DUPLICATES,
    PLACER_RESERVED_WORDS,
    PLACER_RESERVED_PIN,
    PLACER_RESERVED_LEN
};

/* What a build of these records sets aside, counted whole, whether or not it is more than may be reserved: W is 2^(height - 5), and a build is
 * refused with 6 where the words are W or more, or four times the memories and the duplicates are more than W.
 * gates, given, records, work: as for placer_depth
 * answer:  at least PLACER_RESERVED_LEN numbers
 *
 * Returns the number. Where `answer` is too short that is 2, and nothing is changed. */
uint32_t placer_reserved(const uint32_t *gates, size_t gates_len, const uint32_t *given, size_t given_len, const uint32_t *records,
                         size_t records_len, uint32_t *work, size_t work_len, size_t *answer, size_t answer_len);

/* ---- A merge */

/* The answer of a merge: what is returned; the sums of stages and words; the refused stage; the partitions left; the unions examined; the
 * lowest refused partition, from 1; with 23 the pin; the sum of the filled cells. What does not apply is 0. */
enum placer_merge_answer {
    PLACER_MERGE_NUMBER,
    PLACER_MERGE_STAGES,
    PLACER_MERGE_WORDS,
    PLACER_MERGE_STAGE,
    PLACER_MERGE_PARTITIONS,
    PLACER_MERGE_TRIALS,
    PLACER_MERGE_REFUSED,
    PLACER_MERGE_PIN,
    PLACER_MERGE_CELLS,
    PLACER_MERGE_LEN
};

/* Merges partitions of the records while no union takes more stages than the greatest of them and `extra` more. As a build, and:
 * indices: the partitions' records, counted from 0, partition after partition
 * lengths: how many of them each partition has; 1 to 1,024 partitions
 * stages:  a number a partition, for the stages that it takes
 * extra:   at most 255
 * work:    at least placer_merge_work_size(gates_len, records_len, indices_len, lengths_len) numbers
 * answer:  at least PLACER_MERGE_LEN numbers
 *
 * After 0 the three lists hold the merged partitions in their final order, and 0 for those that are gone; else they are unchanged.
 * Plan, words, counts and work are scratch. Returns the number. Where `answer` is too short that is 2, and nothing is changed. */
uint32_t merge_partitions_by(uint32_t rule, uint32_t height, const uint32_t *gates, size_t gates_len, const uint32_t *given,
                             size_t given_len, const uint32_t *records, size_t records_len, uint32_t *indices, size_t indices_len,
                             uint32_t *lengths, size_t lengths_len, uint32_t *stages, size_t stages_len, size_t extra, uint32_t *plan,
                             size_t plan_len, uint32_t *words, size_t words_len, uint32_t *counts, size_t counts_len, uint32_t *work,
                             size_t work_len, size_t *answer, size_t answer_len);

/* The same under PLACER_NEEDED_RUNS. */
static inline uint32_t merge_partitions(uint32_t height, const uint32_t *gates, size_t gates_len, const uint32_t *given,
                                        size_t given_len, const uint32_t *records, size_t records_len, uint32_t *indices,
                                        size_t indices_len, uint32_t *lengths, size_t lengths_len, uint32_t *stages, size_t stages_len,
                                        size_t extra, uint32_t *plan, size_t plan_len, uint32_t *words, size_t words_len,
                                        uint32_t *counts, size_t counts_len, uint32_t *work, size_t work_len, size_t *answer,
                                        size_t answer_len) {
    return merge_partitions_by(PLACER_NEEDED_RUNS, height, gates, gates_len, given, given_len, records, records_len, indices,
                               indices_len, lengths, lengths_len, stages, stages_len, extra, plan, plan_len, words, words_len, counts,
                               counts_len, work, work_len, answer, answer_len);
}

/* ---- A fold */

/* The answer of a fold: what is returned (0, 1 or 2). */
enum placer_fold_answer { PLACER_FOLD_NUMBER, PLACER_FOLD_LEN };

/* Folds any plan, for the bits of leaves and given pins, to one bit a position. The graph isn't needed: a cell says what it does. Level 0 of the
 * first stage loads from the bits, that of a later one from the lowest cell above level 0 of the stage before that holds the pin. A cell that lacks
 * a lower cell that it needs folds to 0, and so do empty cells and position 0.
 * plan:    cells, as a build left them or a sheet had them, or any numbers: of one that is no cell the low 19 bits count
 * bits:    one a pin from pin 0 on, 0 or not 0; as many as there are. Pin 0's counts for 0, and so does that of a pin past them
 * result:  at least placer_fold_result_size(plan_len) numbers, for 0 or 1 a position
 * work:    at least PLACER_FOLD_WORK numbers; scratch, these 0 afterwards
 * answer:  at least PLACER_FOLD_LEN numbers
 *
 * Returns the number: 1 for a height that is none; 2 where the plan is not a multiple of a stage, or result, work or `answer` is too short; and then
 * nothing is changed. */
uint32_t fold_plan(uint32_t height, const uint32_t *plan, size_t plan_len, const uint32_t *bits, size_t bits_len, uint32_t *result,
                   size_t result_len, uint32_t *work, size_t work_len, size_t *answer, size_t answer_len);

/* ---- A recording replayed */

/* Builds the plan of a circuit and runs it clock by clock, a line of the recording each. At each clock the bit of every record's literals or pin is
 * handed out, in order, inversions applied: an output's bit, a flip-flop's enable and data, a staged pin's bit. Then a flip-flop takes its data where
 * its enable is 1, and otherwise keeps its bit. At every clock the bits are those of the plain graph run the same way. A recording cut into two runs,
 * the second starting with the first one's end bits, gives the same bits.
 * gates, given, records, plan, words, counts, work: as for a build; no pin may be given, and no record be a memory
 * driven:    the leaf that each flip-flop drives, in the order of the flip-flops, all different
 * start:     a byte a flip-flop, 0 or not 0
 * recording: `lines` times as many bytes as there are leaves that no flip-flop drives, 0 or not 0; a line has them in pin order
 * out:       at least `lines` times as many bytes as a clock hands out, for 0 or 1 each
 * end:       at least a byte a flip-flop, for their bits after the last line
 * tape, slots, bits: at least placer_replay_tape_size(plan_len) and placer_replay_slots_size(records_len, plan_len) numbers, and
 *            placer_replay_bits_size(gates_len, plan_len) bytes; scratch, 0 afterwards
 * answer:    at least PLACER_BUILD_LEN numbers, as of a build
 *
 * Returns the number. No refusal changes out or end; 1 to 5, 17 to 20 and 23 change nothing lent. Where `answer` is too short that is 2, and nothing
 * is changed. */
uint32_t replay_recording(uint32_t height, const uint32_t *gates, size_t gates_len, const uint32_t *given, size_t given_len,
                          const uint32_t *records, size_t records_len, const uint32_t *driven, size_t driven_len, const uint8_t *start,
                          size_t start_len, size_t lines, const uint8_t *recording, size_t recording_len, uint8_t *out, size_t out_len,
                          uint8_t *end, size_t end_len, uint32_t *plan, size_t plan_len, uint32_t *words, size_t words_len,
                          uint32_t *counts, size_t counts_len, uint32_t *work, size_t work_len, uint32_t *tape, size_t tape_len,
                          uint32_t *slots, size_t slots_len, uint8_t *bits, size_t bits_len, size_t *answer, size_t answer_len);

/* ---- Plans made elsewhere: checked, and replayed */

/* The answer of a plan checked, and of a replay over one: what is returned; with 22 the stage of the first fault, from 1, and its position; with 23 the
 * pin. What does not apply is 0. */
enum placer_check_answer { PLACER_CHECK_NUMBER, PLACER_CHECK_STAGE, PLACER_CHECK_POSITION, PLACER_CHECK_PIN, PLACER_CHECK_LEN };

/* Checks a plan that may be anyone's: one that was loaded from a sheet, a colleague's, one that was changed. It is accepted where
 * - each filled cell has a pin of the graph, from 1 on, and above level 0 copies its first lower cell, which holds the same pin, or ANDs as the pin's gate
 *   says: the gate's operands in its lower cells, in order, with the gate's inversions. A leaf or a given pin may only copy;
 * - level 0 of stage 1 loads leaves and given pins, that of a later stage pins that the stage before holds above level 0;
 * - position 0 is empty, level 1 keeps an empty cell, and the words of each stage are below placer_words_size(height), no more in all than are left
 *   beside those that are reserved, which is none where as many or more are reserved;
 * - the reservation is not over, and each endpoint pin but the constant stands in a written word.
 * Then each filled cell folds to its pin's value in the graph, for any bits of leaves and given pins, and so reading the written words gives that of each
 * endpoint. Whatever a build leaves is accepted, and what one by the old word rule left.
 * gates, given, records: as for a build
 * plan, words, counts: as a build leaves them or a sheet is read: the cells stage after stage, the words of all stages, how many each has. The plan is a
 *          multiple of a stage, and plan and counts have at least so many stages; cells and counts past them are not looked at. The words may have any
 *          length: one that isn't there is no word
 * stages:  how many stages the plan has
 * answer:  at least PLACER_CHECK_LEN numbers
 *
 * Returns the number. With 22 the place is that of the first fault, by stage and position; a filled position 0, a full level 1 or a word that is none or too
 * many stands at its stage's position 0, after that stage's cells, and a reservation that is over or an endpoint that is missing, last of all, at stage 0,
 * position 0. Nothing lent is changed but the answer. Where that is too short the number is 2, and nothing is changed. */
uint32_t check_plan(uint32_t height, const uint32_t *gates, size_t gates_len, const uint32_t *given, size_t given_len, const uint32_t *records,
                    size_t records_len, const uint32_t *plan, size_t plan_len, const uint32_t *words, size_t words_len, const uint32_t *counts,
                    size_t counts_len, size_t stages, size_t *answer, size_t answer_len);

/* Runs a recording over such a plan, which is checked first: as replay_recording, without a build. At every clock the bits are those of the plain graph.
 * height, gates, given, records, driven, start, lines, recording, out, end: as for replay_recording, the height the plan's
 * plan, words, counts, stages: as for check_plan
 * work:    at least placer_replay_plan_work_size(gates_len, records_len) numbers; scratch, 0 afterwards
 * tape, slots, bits: as for replay_recording, at the size of the plan's stages; scratch, 0 afterwards. That size and twice the pins, pin 0 among them, are
 *          at most 2^32 together, else the number is 2; no sheet has as many stages
 * answer:  at least PLACER_CHECK_LEN numbers, as of check_plan
 *
 * Returns the number. No refusal changes anything lent but the answer. Where that is too short the number is 2, and nothing is changed. */
uint32_t replay_plan(uint32_t height, const uint32_t *gates, size_t gates_len, const uint32_t *given, size_t given_len, const uint32_t *records,
                     size_t records_len, const uint32_t *driven, size_t driven_len, const uint8_t *start, size_t start_len, size_t lines,
                     const uint8_t *recording, size_t recording_len, uint8_t *out, size_t out_len, uint8_t *end, size_t end_len,
                     const uint32_t *plan, size_t plan_len, const uint32_t *words, size_t words_len, const uint32_t *counts, size_t counts_len,
                     size_t stages, uint32_t *work, size_t work_len, uint32_t *tape, size_t tape_len, uint32_t *slots, size_t slots_len,
                     uint8_t *bits, size_t bits_len, size_t *answer, size_t answer_len);

/* ---- A damaged plan mended */

/* The answer of a plan mended: what is returned; with 22 the stage and position of the mended plan's first fault, as for check_plan; with 23 the pin; after 0
 * how many changes the list has. What does not apply is 0. */
enum placer_mend_answer { PLACER_MEND_NUMBER, PLACER_MEND_STAGE, PLACER_MEND_POSITION, PLACER_MEND_PIN, PLACER_MEND_COUNT, PLACER_MEND_LEN };

/* A change is four numbers: the stage, from 1, the position, the cell that stood there and the one that stands there now. */
enum placer_change { PLACER_CHANGE_STAGE, PLACER_CHANGE_POSITION, PLACER_CHANGE_OLD, PLACER_CHANGE_NEW, PLACER_CHANGE };

/* Mends a plan of which some cells came back wrong, by the graph and the given pins. A plan that check_plan accepts stays as it is. Any other is rebuilt stage
 * by stage, in each from the top down: a cell's pin is what a cell above it says, else its own. Where the pin's level is below the cell's it copies, where it
 * is the cell's it ANDs as its gate says, which says what stands under it; levels stop at given pins and at those that earlier stages hold above level 0. A
 * cell that no cell above speaks of, and whose pin is deeper than its level or not in the graph, is kept as it is. What comes of it must pass check_plan.
 * So damage to cells that stand under others, and to kinds and inversions anywhere, gives the placer's plan back. The words are not mended.
 * gates, given, records, words, counts, stages: as for check_plan
 * plan:    as for check_plan, of less than 2^32 rooms; after 0 it is the mended one. Cells past the stages stay
 * list:    the changes stand at its front, by stage and position, and are exactly the places that differ; numbers behind them stay.
 *          placer_mend_list_size(height, stages) numbers are always enough; where there are fewer, what is needed isn't told: lend more
 * work:    at least placer_mend_work_size(plan_len) numbers; scratch, these 0 afterwards but with 1 to 5 and 23, which leave it
 * answer:  at least PLACER_MEND_LEN numbers
 *
 * Returns the number: 22 where the mended plan has a fault, with its place; 24 where the list is too short for the changes. No refusal changes plan or list.
 * Where `answer` is too short that is 2, and nothing is changed. */
uint32_t mend_plan(uint32_t height, const uint32_t *gates, size_t gates_len, const uint32_t *given, size_t given_len, const uint32_t *records,
                   size_t records_len, uint32_t *plan, size_t plan_len, const uint32_t *words, size_t words_len, const uint32_t *counts,
                   size_t counts_len, size_t stages, uint32_t *list, size_t list_len, uint32_t *work, size_t work_len, size_t *answer,
                   size_t answer_len);

/* ---- A listing */

/* The answers of a listing and of a file written: what is returned, and how many bytes the text or file has, 0 on refusal. */
enum placer_list_answer { PLACER_LIST_NUMBER, PLACER_LIST_LENGTH, PLACER_LIST_LEN };
enum placer_write_answer { PLACER_WRITE_NUMBER, PLACER_WRITE_LENGTH, PLACER_WRITE_LEN };

/* The text of what a build answered and left: the listing of its plan, a position and the pin of its cell a line, or `refused NUMBER stage STAGE` and
 * the pin if there is one.
 * number, stages, stage, pin: of the build's answer
 * plan, words, counts: as it left them
 * out:     for the text, which has no byte 0 at its end; placer_listing_size(height, stages, the words in all) bytes hold it
 * answer:  at least PLACER_LIST_LEN numbers
 *
 * Returns 0, 1 for a height that is none, 2 where an area holds less than so many stages or `out` is too short for the text, and then `out`
 * is unchanged. Where `answer` is too short that is 2 too, and nothing is changed. */
uint32_t list_answer(uint32_t height, uint32_t number, size_t stages, size_t stage, uint32_t pin, const uint32_t *plan,
                     size_t plan_len, const uint32_t *words, size_t words_len, const uint32_t *counts, size_t counts_len,
                     uint8_t *out, size_t out_len, size_t *answer, size_t answer_len);

/* ---- Plan sheets: a plan on disk, without its graph */

/* The sheet of a plan, as a build left it: sheet 2. Its bits stand most significant first: the sheet number 8 (2), the height 4, the stages 16; for each
 * stage its word count 16 and words of 8, then for each position from 1 on a bit that says whether it is filled, and if so its pin of 16 and three bits:
 * whether it ANDs, its first inversion, its second; and zeros up to a byte. Sheet 1, which earlier versions wrote, has the pins alone.
 * height:  the build's
 * stages:  of the build's answer
 * plan, words, counts: as it left them
 * bytes:   placer_sheet_size(height, stages) bytes hold the sheet of any build
 * answer:  at least PLACER_WRITE_LEN numbers
 *
 * Returns 0; 15 for a plan that no sheet can hold (a height that is none, more than 65,535 stages or stages that the areas don't hold, a filled position
 * 0, a number that is no cell, a pin 0, inversions on a cell that doesn't AND, an AND at level 0, a word not below placer_words_size(height), a count
 * above 65,535), which no build leaves; 17 where the bytes are too few; and then they are unchanged. Where `answer` is too short that is 2, and nothing
 * is changed. */
uint32_t write_sheet(uint32_t height, size_t stages, const uint32_t *plan, size_t plan_len, const uint32_t *words, size_t words_len,
                     const uint32_t *counts, size_t counts_len, uint8_t *bytes, size_t bytes_len, size_t *answer, size_t answer_len);

/* The answer of a sheet read: what is returned, the height, the stages and the words in all; 0 each on refusal. */
enum placer_sheet_answer { PLACER_SHEET_NUMBER, PLACER_SHEET_HEIGHT, PLACER_SHEET_STAGES, PLACER_SHEET_WORDS, PLACER_SHEET_LEN };

/* The plan of a sheet, into areas that then stand as a build leaves them: unused cells and words PLACER_EMPTY, unused counts 0. Of sheet 2 only what
 * write_sheet writes is read; of sheet 1, which has pins alone, the cells become what the graph says of them.
 * gates:   the graph of a sheet 1, as the build had it; length 0 for none. Sheet 2 needs none, and doesn't look at it
 * plan:    a room a stage; it counts at its whole stages, and numbers behind them stay
 * words:   at least placer_words_size(height) numbers and as many as the sheet has words; numbers behind these stay. There are fewer words than bytes
 * counts:  at least a number a room of the plan; numbers behind these stay
 * answer:  at least PLACER_SHEET_LEN numbers
 *
 * Returns 0; 16 where the first byte is no known sheet number, or is 1 and there is no graph; 15 for bytes that are cut, too many, or no sheet otherwise
 * (of sheet 2 also for inversions on a cell that doesn't AND and for an AND at level 0; of sheet 1 also for a pin that isn't in the graph and for a leaf
 * that would AND, its first lower cell not holding it); 17 where an area is too short for the sheet; and then no area is changed. With areas of no
 * numbers it only judges: 17 is then for what is a sheet. Where `answer` is too short that is 2, and nothing is changed. */
uint32_t read_sheet(const uint32_t *gates, size_t gates_len, const uint8_t *bytes, size_t bytes_len, uint32_t *plan, size_t plan_len, uint32_t *words,
                    size_t words_len, uint32_t *counts, size_t counts_len, size_t *answer, size_t answer_len);

/* ---- Job files */

/* The answer of a job read: what is returned, the height, and how many numbers stand in gates, given and records; 0 each on refusal. */
enum placer_read_answer { PLACER_READ_NUMBER, PLACER_READ_HEIGHT, PLACER_READ_GATES, PLACER_READ_GIVEN, PLACER_READ_RECORDS, PLACER_READ_LEN };

/* The job of a file's bytes, as a build takes it.
 * gates, given, records: areas of PLACER_JOB_GATES, PLACER_JOB_GIVEN and PLACER_JOB_RECORDS numbers hold any job
 * answer:  at least PLACER_READ_LEN numbers
 *
 * Returns 0, 11 where the bytes are no job, 2 where an area is too short for the job, and then no area is changed. Where `answer` is too
 * short that is 2 too, and nothing is changed. */
uint32_t read_job(const uint8_t *bytes, size_t bytes_len, uint32_t *gates, size_t gates_len, uint32_t *given, size_t given_len,
                  uint32_t *records, size_t records_len, size_t *answer, size_t answer_len);

/* The file of a job. PLACER_JOB_BYTES bytes hold any; `answer` has at least PLACER_WRITE_LEN numbers.
 *
 * Returns 0, 11 where no file holds the job, 2 where the bytes are too few, and then they are unchanged. Where `answer` is too short that is
 * 2 too, and nothing is changed. */
uint32_t write_job(uint32_t height, const uint32_t *gates, size_t gates_len, const uint32_t *given, size_t given_len,
                   const uint32_t *records, size_t records_len, uint8_t *bytes, size_t bytes_len, size_t *answer,
                   size_t answer_len);

/* ---- AIGER files: ASCII (`aag`), any order of gates. Variables are pins. */

/* The answer of an AIGER file read: what is returned; with 12 and 13 the place of the line's first byte, from 0, or the file's length; with 23
 * the pin; how many numbers stand in gates, records and latches. What does not apply is 0. */
enum placer_aiger_answer {
    PLACER_AIGER_NUMBER,
    PLACER_AIGER_PLACE,
    PLACER_AIGER_PIN,
    PLACER_AIGER_GATES_LEN,
    PLACER_AIGER_RECORDS_LEN,
    PLACER_AIGER_LATCHES_LEN,
    PLACER_AIGER_LEN
};

/* The graph of a file's bytes, its records and the latches' leaves, as a build takes them: a latch is a leaf and a flip-flop with enable literal 1,
 * an output a record of kind 1.
 * gates, records: areas of PLACER_AIGER_GATES and PLACER_AIGER_RECORDS numbers hold any; what is read has 2(M + 1) and 3L + 2O numbers, M, L and O
 *          the header's
 * latches: for the leaf of each latch, L numbers; PLACER_AIGER_LATCHES hold any
 * answer:  at least PLACER_AIGER_LEN numbers
 *
 * Returns 0; 12 where the bytes are no such file or it is cut; 13 for a reset value other than 0; 2 where an area is too short; 3 for a constant
 * operand or more than 65,535 variables; 23 for a loop; 4 for more than 65,536 numbers of records; and then no area is changed. Numbers past those
 * that are read stay. Where `answer` is too short that is 2, and nothing is changed. */
uint32_t read_aiger(const uint8_t *bytes, size_t bytes_len, uint32_t *gates, size_t gates_len, uint32_t *records, size_t records_len,
                    uint32_t *latches, size_t latches_len, size_t *answer, size_t answer_len);

/* The file of a job: leaves that no latch drives are its inputs, in pin order. Reading it gives the same gates, records and latches.
 * gates, given, records: as a build takes them, without given pins; flip-flops with enable literal 1 stand first, then outputs
 * latches: the leaf that each flip-flop drives, all different
 * bytes:   placer_aiger_size(gates_len, records_len) bytes hold the file
 * answer:  at least PLACER_WRITE_LEN numbers
 *
 * Returns 0, 14 for any other job, 2 where the bytes are too few, and then they are unchanged. Where `answer` is too short that is 2 too, and
 * nothing is changed. */
uint32_t write_aiger(const uint32_t *gates, size_t gates_len, const uint32_t *given, size_t given_len, const uint32_t *records,
                     size_t records_len, const uint32_t *latches, size_t latches_len, uint8_t *bytes, size_t bytes_len, size_t *answer,
                     size_t answer_len);

#ifdef __cplusplus
}
#endif

#endif
