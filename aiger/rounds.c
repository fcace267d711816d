/* Reads AIGER files with the library and says of each the number, the place or pin, and the counts; writes one again.
 *
 * usage: rounds [-l] [-a GATES RECORDS LATCHES] FILE ..
 *        rounds -o OUT FILE
 * -l adds the three lists; -a says how many numbers the areas hold, else as many as any file needs that is read. -o writes the file again, and reads
 * what was written, which must give the same lists.
 * Exit status: 0 all are read, 1 one is refused, 2 one could not be tried, 3 the library changed what must stay or gave other lists back. */
#include "placer.h"
#include <errno.h>
#include <stdio.h>
#include <stdlib.h>
#include <string.h>

/* What an area holds before a call, to see what the call changes. */
#define MARK 0xA5A5A5A5u
#define MARK_BYTE 0xA5

enum status { READ = 0, REFUSED = 1, NOT_TRIED = 2, FAULT = 3 };

typedef struct {
    uint32_t *at;
    size_t size;
} area;

typedef struct {
    area gates, records, latches;
    size_t answer[PLACER_AIGER_LEN];
} netlist;

typedef struct {
    uint8_t *at;
    size_t size;
} bytes;

static void *lent(void *old, size_t count, size_t size) {
    void *new = count < SIZE_MAX / size ? realloc(old, (count + 1) * size) : NULL;
    if (new == NULL) {
        fprintf(stderr, "rounds: no memory for %zu elements\n", count);
        exit(NOT_TRIED);
    }
    return new;
}

static area numbers(size_t size) { return (area){lent(NULL, size, sizeof(uint32_t)), size}; }

static netlist areas(size_t gates, size_t records, size_t latches) {
    return (netlist){numbers(gates), numbers(records), numbers(latches), {0}};
}

static void free_areas(netlist *n) { free(n->gates.at), free(n->records.at), free(n->latches.at); }

static void mark(area a) {
    for (size_t i = 0; i < a.size; i++)
        a.at[i] = MARK;
}

/* Does everything from here on still have its mark? */
static int marked(area a, size_t from) {
    for (size_t i = from; i < a.size; i++)
        if (a.at[i] != MARK)
            return 0;
    return 1;
}

static enum status fault(const char *name, const char *what) {
    fprintf(stderr, "rounds: %s: %s\n", name, what);
    return FAULT;
}

static enum status not_tried(const char *name) {
    fprintf(stderr, "rounds: %s: %s\n", name, strerror(errno));
    return NOT_TRIED;
}

/* All bytes of a file. */
static enum status load(const char *name, bytes *file) {
    size_t room = 1 << 16;
    FILE *in = fopen(name, "rb");
    if (in == NULL)
        return not_tried(name);
    *file = (bytes){lent(NULL, room, 1), 0};
    for (size_t got; (got = fread(file->at + file->size, 1, room - file->size, in)) > 0;) {
        file->size += got;
        if (file->size == room)
            file->at = lent(file->at, room *= 2, 1);
    }
    int failed = ferror(in), why = errno;
    fclose(in);
    if (failed) {
        free(file->at);
        errno = why;
        return not_tried(name);
    }
    return READ;
}

static enum status store(const char *name, bytes file) {
    FILE *out = fopen(name, "wb");
    if (out == NULL)
        return not_tried(name);
    size_t put = fwrite(file.at, 1, file.size, out);
    if (fclose(out) != 0 || put != file.size)
        return not_tried(name);
    return READ;
}

/* The library's reading, and that it leaves all else as it was. */
static enum status reading(const char *name, bytes file, netlist *n) {
    mark(n->gates), mark(n->records), mark(n->latches);
    uint32_t number = read_aiger(file.at, file.size, n->gates.at, n->gates.size, n->records.at, n->records.size, n->latches.at,
                                 n->latches.size, n->answer, PLACER_AIGER_LEN);
    size_t gates = n->answer[PLACER_AIGER_GATES_LEN], records = n->answer[PLACER_AIGER_RECORDS_LEN], latches = n->answer[PLACER_AIGER_LATCHES_LEN];
    if (n->answer[PLACER_AIGER_NUMBER] != number)
        return fault(name, "the number returned isn't the answer's");
    if (gates > n->gates.size || records > n->records.size || latches > n->latches.size)
        return fault(name, "more numbers stand in an area than it holds");
    if (!marked(n->gates, gates) || !marked(n->records, records) || !marked(n->latches, latches))
        return fault(name, "reading changed what must stay");
    return number == PLACER_DONE ? READ : REFUSED;
}

static void list(const char *name, area a, size_t count) {
    fputs(name, stdout);
    for (size_t i = 0; i < count; i++)
        printf(" %u", (unsigned)a.at[i]);
    putchar('\n');
}

static void say(const netlist *n, int lists) {
    const size_t *a = n->answer;
    printf("number %zu place %zu pin %zu gates %zu records %zu latches %zu\n", a[PLACER_AIGER_NUMBER], a[PLACER_AIGER_PLACE], a[PLACER_AIGER_PIN],
           a[PLACER_AIGER_GATES_LEN], a[PLACER_AIGER_RECORDS_LEN], a[PLACER_AIGER_LATCHES_LEN]);
    if (lists && a[PLACER_AIGER_NUMBER] == PLACER_DONE) {
        list("gates", n->gates, a[PLACER_AIGER_GATES_LEN]);
        list("records", n->records, a[PLACER_AIGER_RECORDS_LEN]);
        list("latches", n->latches, a[PLACER_AIGER_LATCHES_LEN]);
    }
}

static int same(area a, area b, size_t count) { return memcmp(a.at, b.at, count * sizeof *a.at) == 0; }

/* Writes what was read, and reads it again. */
static enum status again(const char *name, const netlist *n, const char *out) {
    const uint32_t given[1] = {0}; /* none, but no pointer may be null */
    const size_t gates = n->answer[PLACER_AIGER_GATES_LEN], records = n->answer[PLACER_AIGER_RECORDS_LEN], latches = n->answer[PLACER_AIGER_LATCHES_LEN];
    size_t answer[PLACER_WRITE_LEN], room = placer_aiger_size(gates, records);
    bytes file = {lent(NULL, room, 1), 0};
    memset(file.at, MARK_BYTE, room);
    uint32_t number = write_aiger(n->gates.at, gates, given, 0, n->records.at, records, n->latches.at, latches, file.at, room, answer,
                                  PLACER_WRITE_LEN);
    enum status status = READ;
    if (answer[PLACER_WRITE_NUMBER] != number || number != PLACER_DONE || answer[PLACER_WRITE_LENGTH] > room) {
        fprintf(stderr, "rounds: writing gave %u, length %zu\n", (unsigned)number, answer[PLACER_WRITE_LENGTH]);
        status = fault(name, "what was read is not written");
    }
    if (status == READ) {
        file.size = answer[PLACER_WRITE_LENGTH];
        for (size_t i = file.size; i < room; i++)
            if (file.at[i] != MARK_BYTE)
                status = fault(name, "writing changed what must stay");
    }
    if (status == READ) {
        netlist back = areas(gates, records, latches);
        status = reading(name, file, &back);
        if (status == REFUSED || (status == READ && (back.answer[PLACER_AIGER_GATES_LEN] != gates || back.answer[PLACER_AIGER_RECORDS_LEN] != records ||
                                                     back.answer[PLACER_AIGER_LATCHES_LEN] != latches || !same(back.gates, n->gates, gates) ||
                                                     !same(back.records, n->records, records) || !same(back.latches, n->latches, latches))))
            status = fault(name, "what was written doesn't give the same lists");
        free_areas(&back);
    }
    if (status == READ)
        status = store(out, file);
    free(file.at);
    return status;
}

static int usage(void) {
    fputs("usage: rounds [-l] [-a GATES RECORDS LATCHES] FILE ..\n       rounds -o OUT FILE\n", stderr);
    return NOT_TRIED;
}

static int size_of(const char *word, size_t *size) {
    char *end;
    errno = 0;
    unsigned long long n = strtoull(word, &end, 10);
    *size = (size_t)n;
    return *word >= '0' && *word <= '9' && *end == '\0' && errno == 0 && n <= SIZE_MAX;
}

int main(int argc, char **argv) {
    size_t gates = PLACER_AIGER_GATES, records = PLACER_AIGER_RECORDS, latches = PLACER_AIGER_LATCHES;
    const char *out = NULL;
    int lists = 0, i = 1;
    for (; i < argc && argv[i][0] == '-'; i++) {
        if (strcmp(argv[i], "-l") == 0)
            lists = 1;
        else if (strcmp(argv[i], "-a") == 0 && argc - i > 3 && size_of(argv[i + 1], &gates) && size_of(argv[i + 2], &records) &&
                 size_of(argv[i + 3], &latches))
            i += 3;
        else if (strcmp(argv[i], "-o") == 0 && argc - i == 3)
            out = argv[++i];
        else
            return usage();
    }
    if (i == argc)
        return usage();
    netlist n = areas(gates, records, latches);
    enum status worst = READ;
    for (; i < argc; i++) {
        bytes file;
        enum status status = load(argv[i], &file);
        if (status == READ) {
            status = reading(argv[i], file, &n);
            if (status != FAULT)
                say(&n, lists);
            if (status == READ && out != NULL)
                status = again(argv[i], &n, out);
            free(file.at);
        }
        if (status > worst)
            worst = status;
    }
    free_areas(&n);
    if (fflush(stdout) != 0)
        return (int)not_tried("standard output");
    return (int)worst;
}
