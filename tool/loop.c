/* A plain loop over a graph's gates, to measure the tool's replay with: an AIGER file whose gates stand in order, as yosys writes them, and a recording.
 *
 * usage: loop FILE RECORDING
 * Prints the outputs' bits, a line a clock. Exit status: 0, 2 where something can't be read. */
#include <stdio.h>
#include <stdlib.h>
#include <string.h>

static unsigned read_number(FILE *in) {
    unsigned n;
    if (fscanf(in, "%u", &n) != 1) {
        fputs("loop: the file is cut\n", stderr);
        exit(2);
    }
    return n;
}

static unsigned *list(size_t count) {
    unsigned *made = calloc(count + 1, sizeof *made);
    if (made == NULL) {
        fputs("loop: no memory\n", stderr);
        exit(2);
    }
    return made;
}

int main(int argc, char **argv) {
    FILE *file = argc == 3 ? fopen(argv[1], "r") : NULL, *recording = argc == 3 ? fopen(argv[2], "r") : NULL;
    unsigned m, i, l, o, a;
    if (file == NULL || recording == NULL || fscanf(file, "aag %u %u %u %u %u", &m, &i, &l, &o, &a) != 5) {
        fputs("loop: no such file\n", stderr);
        return 2;
    }
    unsigned *inputs = list(i), *latches = list(l), *next = list(l), *outputs = list(o), *gates = list(3 * (size_t)a);
    for (unsigned k = 0; k < i; k++)
        inputs[k] = read_number(file) / 2;
    for (unsigned k = 0; k < l; k++)
        latches[k] = read_number(file) / 2, next[k] = read_number(file);
    for (unsigned k = 0; k < o; k++)
        outputs[k] = read_number(file);
    for (size_t k = 0; k < 3 * (size_t)a; k++)
        gates[k] = read_number(file);
    unsigned char *bits = calloc((size_t)m + 1, 1), *taken = calloc((size_t)l + 1, 1);
    size_t room = (size_t)i + 3;
    char *line = malloc(room), *text = malloc((size_t)o + 1);
    if (bits == NULL || taken == NULL || line == NULL || text == NULL)
        return 2;
    text[o] = '\n';
    while (fgets(line, (int)room, recording) != NULL) {
        for (unsigned k = 0; k < i; k++)
            bits[inputs[k]] = line[k] == '1';
        for (size_t k = 0; k < 3 * (size_t)a; k += 3)
            bits[gates[k] / 2] = (bits[gates[k + 1] / 2] ^ (gates[k + 1] & 1)) & (bits[gates[k + 2] / 2] ^ (gates[k + 2] & 1));
        for (unsigned k = 0; k < o; k++)
            text[k] = (char)('0' + (bits[outputs[k] / 2] ^ (outputs[k] & 1)));
        if (fwrite(text, 1, (size_t)o + 1, stdout) != (size_t)o + 1)
            return 2;
        for (unsigned k = 0; k < l; k++)
            taken[k] = bits[next[k] / 2] ^ (next[k] & 1);
        for (unsigned k = 0; k < l; k++)
            bits[latches[k]] = taken[k];
    }
    return fflush(stdout) == 0 ? 0 : 2;
}
