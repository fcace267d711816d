/* A plain reader of AIGER files beside the library's, both from opening the file to the filled lists, in turns in one run.
 *
 * usage: plain TURNS FILE
 * Prints the median of each in milliseconds of processor time, and the library's over the plain one's. The lists of both must be the same.
 * Exit status: 0, 1 where a reader refuses the file or the lists differ, 2 where it could not be tried. */
#include "placer.h"
#include <stdio.h>
#include <stdlib.h>
#include <string.h>
#include <time.h>

typedef struct {
    uint32_t *gates, *records, *latches;
    size_t gates_len, records_len, latches_len;
} netlist;

static void *lent(size_t count, size_t size) {
    void *area = malloc((count + 1) * size);
    if (area == NULL) {
        fputs("plain: no memory\n", stderr);
        exit(2);
    }
    return area;
}

static void *numbers(size_t count) { return lent(count, sizeof(uint32_t)); }

static void release(netlist *n) { free(n->gates), free(n->records), free(n->latches); }

/* ---- The plain reader: getc and a loop. It checks each line, that every variable is defined once and that what is used is defined; it looks for no
 * loop and skips symbols and comments unread, so it does less than the library. */

/* A number of at most `most`, and the byte behind it, which is returned; EOF where there is no such number. */
static int number(FILE *in, uint32_t most, uint32_t *n) {
    int c = getc(in);
    if (c < '0' || c > '9')
        return EOF;
    uint64_t value = (uint64_t)(c - '0');
    while ((c = getc(in)) >= '0' && c <= '9') {
        value = 10 * value + (uint64_t)(c - '0');
        if (value > most)
            return EOF;
    }
    *n = (uint32_t)value;
    return value > most ? EOF : c;
}

/* A literal that defines its variable. */
static int definition(FILE *in, uint32_t most, uint8_t *defined, uint32_t *literal) {
    int c = number(in, most, literal);
    if (c == EOF || *literal < 2 || *literal % 2 == 1 || defined[*literal / 2])
        return EOF;
    defined[*literal / 2] = 1;
    return c;
}

static int lines(FILE *in, const uint32_t *counts, netlist *n, uint8_t *defined) {
    const uint32_t inputs = counts[1], latches = counts[2], outputs = counts[3], gates = counts[4], most = 2 * counts[0] + 1;
    uint32_t *record = n->records, literal, next, reset;
    for (uint32_t i = 0; i < inputs; i++)
        if (definition(in, most, defined, &literal) != '\n')
            return 0;
    for (uint32_t i = 0; i < latches; i++) {
        if (definition(in, most, defined, &literal) != ' ')
            return 0;
        int c = number(in, most, &next);
        if (c == ' ')
            c = number(in, 0, &reset);
        if (c != '\n')
            return 0;
        n->latches[i] = literal / 2;
        *record++ = 2, *record++ = 1, *record++ = next;
    }
    for (uint32_t i = 0; i < outputs; i++) {
        if (number(in, most, &literal) != '\n')
            return 0;
        *record++ = 1, *record++ = literal;
    }
    for (uint32_t i = 0; i < gates; i++) {
        uint32_t left, right;
        if (definition(in, most, defined, &literal) != ' ' || number(in, most, &left) != ' ' || number(in, most, &right) != '\n' || left < 2 ||
            right < 2)
            return 0;
        n->gates[literal] = left;
        n->gates[literal + 1] = right;
    }
    for (uint32_t i = 0; i < latches; i++)
        if (!defined[n->records[3 * i + 2] / 2])
            return 0;
    for (uint32_t i = 0; i < outputs; i++)
        if (!defined[n->records[3 * latches + 2 * i + 1] / 2])
            return 0;
    for (size_t i = 0; i < n->gates_len; i++)
        if (n->gates[i] != PLACER_EMPTY && !defined[n->gates[i] / 2])
            return 0;
    return 1;
}

static int plain_reader(const char *name, netlist *n) {
    uint32_t counts[5];
    FILE *in = fopen(name, "rb");
    if (in == NULL)
        return 0;
    int right = getc(in) == 'a' && getc(in) == 'a' && getc(in) == 'g' && getc(in) == ' ';
    for (int i = 0; right && i < 5; i++)
        right = number(in, 65536, &counts[i]) == (i < 4 ? ' ' : '\n');
    if (!right || counts[0] > 65535 || counts[1] + counts[2] + counts[4] > counts[0]) {
        fclose(in);
        return 0;
    }
    n->gates_len = 2 * ((size_t)counts[0] + 1);
    n->records_len = 3 * (size_t)counts[2] + 2 * (size_t)counts[3];
    n->latches_len = counts[2];
    n->gates = numbers(n->gates_len);
    n->records = numbers(n->records_len);
    n->latches = numbers(n->latches_len);
    memset(n->gates, 0xFF, n->gates_len * sizeof *n->gates);
    uint8_t *defined = lent((size_t)counts[0] + 1, 1);
    memset(defined, 0, (size_t)counts[0] + 1);
    defined[0] = 1;
    right = lines(in, counts, n, defined);
    free(defined);
    fclose(in);
    if (!right)
        release(n);
    return right;
}

/* ---- The library's */

static int library_reader(const char *name, netlist *n) {
    size_t answer[PLACER_AIGER_LEN];
    FILE *in = fopen(name, "rb");
    if (in == NULL)
        return 0;
    long end = fseek(in, 0, SEEK_END) == 0 ? ftell(in) : -1;
    if (end < 0 || fseek(in, 0, SEEK_SET) != 0) {
        fclose(in);
        return 0;
    }
    size_t size = (size_t)end;
    uint8_t *bytes = lent(size, 1);
    size = fread(bytes, 1, size, in);
    fclose(in);
    n->gates = numbers(PLACER_AIGER_GATES);
    n->records = numbers(PLACER_AIGER_RECORDS);
    n->latches = numbers(PLACER_AIGER_LATCHES);
    uint32_t refusal = read_aiger(bytes, size, n->gates, PLACER_AIGER_GATES, n->records, PLACER_AIGER_RECORDS, n->latches, PLACER_AIGER_LATCHES, answer, PLACER_AIGER_LEN);
    free(bytes);
    if (refusal != PLACER_DONE) {
        release(n);
        return 0;
    }
    n->gates_len = answer[PLACER_AIGER_GATES_LEN];
    n->records_len = answer[PLACER_AIGER_RECORDS_LEN];
    n->latches_len = answer[PLACER_AIGER_LATCHES_LEN];
    return 1;
}

/* ---- Both in turns */

static int same(const uint32_t *a, size_t a_len, const uint32_t *b, size_t b_len) {
    return a_len == b_len && memcmp(a, b, a_len * sizeof *a) == 0;
}

/* The milliseconds of processor time that a reader takes: what else runs on the machine isn't counted. */
static double timed(int (*reader)(const char *, netlist *), const char *name, netlist *n, int *right) {
    struct timespec from, to;
    clock_gettime(CLOCK_PROCESS_CPUTIME_ID, &from);
    *right = reader(name, n);
    clock_gettime(CLOCK_PROCESS_CPUTIME_ID, &to);
    return (double)(to.tv_sec - from.tv_sec) * 1e3 + (double)(to.tv_nsec - from.tv_nsec) / 1e6;
}

static int by_size(const void *a, const void *b) {
    double x = *(const double *)a, y = *(const double *)b;
    return (x > y) - (x < y);
}

static double median(double *times, size_t count) {
    qsort(times, count, sizeof *times, by_size);
    return count % 2 == 1 ? times[count / 2] : (times[count / 2 - 1] + times[count / 2]) / 2;
}

int main(int argc, char **argv) {
    long turns = argc == 3 ? strtol(argv[1], NULL, 10) : 0;
    if (turns < 1 || turns > 100000) {
        fputs("usage: plain TURNS FILE\n", stderr);
        return 2;
    }
    double *plain = lent((size_t)turns, sizeof(double)), *library = lent((size_t)turns, sizeof(double));
    for (long i = 0; i < turns; i++) {
        netlist a = {0}, b = {0};
        int right;
        plain[i] = timed(plain_reader, argv[2], &a, &right);
        if (!right) {
            fprintf(stderr, "plain: %s: the plain reader refuses it\n", argv[2]);
            return 1;
        }
        library[i] = timed(library_reader, argv[2], &b, &right);
        if (!right) {
            fprintf(stderr, "plain: %s: the library refuses it\n", argv[2]);
            return 1;
        }
        if (!same(a.gates, a.gates_len, b.gates, b.gates_len) || !same(a.records, a.records_len, b.records, b.records_len) ||
            !same(a.latches, a.latches_len, b.latches, b.latches_len)) {
            fprintf(stderr, "plain: %s: the lists differ\n", argv[2]);
            return 1;
        }
        release(&a);
        release(&b);
    }
    double p = median(plain, (size_t)turns), l = median(library, (size_t)turns);
    printf("plain %.3f ms library %.3f ms ratio %.2f\n", p, l, l / p);
    free(library);
    free(plain);
    return 0;
}
