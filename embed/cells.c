// Runs the fixed lists of crates/replay/data, whose calls have what the original Rust answers, through the call over cell records: every returned value, every bit of
// the node list, every rim mark and every place of the cell list is compared. docs/REPLAY.md has the form of the lists. The paths of the lists are the arguments.
#include <stdint.h>
#include <stdio.h>
#include <stdlib.h>
#include <string.h>

typedef struct {
    uint64_t code, corners, k, marked, cuts, pieces, turned, area, nodes, cells;
} Values;

typedef struct {
    uint32_t a, b, c, d;
} Cell;

Values ring_divide_cells(const int32_t *ring, size_t ring_length, const int32_t *chain, size_t chain_length, uint32_t size, double *nodes, size_t nodes_length, size_t node_count,
    uint8_t *rims, size_t rims_length, Cell *cells, size_t cells_length, size_t cell_count);

enum { NUMBERS = 1 << 17 };

static FILE *list;
static double nodes[NUMBERS], expected_nodes[NUMBERS];
static uint8_t rims[NUMBERS], expected_rims[NUMBERS];
static Cell cells[NUMBERS / 4];
static uint32_t expected_cells[NUMBERS];
static int32_t ring[NUMBERS], chain[NUMBERS];

static uint32_t word(void) {
    unsigned char b[4] = {0};
    if (fread(b, 1, 4, list) != 4) return 0;
    return b[0] | (uint32_t)b[1] << 8 | (uint32_t)b[2] << 16 | (uint32_t)b[3] << 24;
}

static uint64_t two_words(void) {
    uint64_t low = word();
    return low | (uint64_t)word() << 32;
}

static double number(void) {
    uint64_t bits = two_words();
    double x;
    memcpy(&x, &bits, 8);
    return x;
}

static size_t count(void) {
    size_t n = word();
    if (n > NUMBERS) {
        fprintf(stderr, "cells: a list of %zu numbers\n", n);
        exit(2);
    }
    return n;
}

// The next n bytes, four to a word.
static void bytes(uint8_t *to, size_t n) {
    for (size_t i = 0; i < n; i += 4) {
        uint32_t four = word();
        for (size_t k = i; k < n && k < i + 4; k++) to[k] = (uint8_t)(four >> 8 * (k - i));
    }
}

static int same_bits(double x, double y) {
    return (x != x && y != y) || memcmp(&x, &y, 8) == 0;
}

// One call: whether all that it leaves is what the list says.
static int same_call(size_t places, size_t marks, size_t *used) {
    uint32_t size = word();
    size_t numbers = count(), cell_count = word(), r = count(), c = count();
    for (size_t i = 0; i < r; i++) ring[i] = (int32_t)word();
    for (size_t i = 0; i < c; i++) chain[i] = (int32_t)word();
    uint64_t row[10];
    for (int i = 0; i < 6; i++) row[i] = word();
    row[6] = two_words();
    row[7] = two_words();
    row[8] = word();
    row[9] = word();
    memcpy(expected_nodes, nodes, sizeof nodes);
    size_t new_numbers = count(), at = *used * 2;
    for (size_t i = 0; i < new_numbers; i++) {
        double x = number();
        if (at + i < NUMBERS) expected_nodes[at + i] = x;
    }
    memset(expected_cells, 0xff, sizeof expected_cells);
    size_t first = count(), written = count();
    for (size_t i = 0; i < written; i++) {
        uint32_t x = word();
        if (first + i < NUMBERS) expected_cells[first + i] = x;
    }
    memcpy(expected_rims, rims, sizeof rims);
    bytes(expected_rims, count());
    memset(cells, 0xff, sizeof cells);
    Values v = ring_divide_cells(ring, r, chain, c, size, nodes, places * 2, *used, rims, marks, cells, numbers / 4, cell_count);
    *used = v.nodes;
    uint64_t got[10] = {v.code, v.corners, v.k, v.marked, v.cuts, v.pieces, v.turned, v.area, v.nodes, v.cells};
    int same = memcmp(got, row, sizeof row) == 0 && memcmp(cells, expected_cells, sizeof cells) == 0 && memcmp(rims, expected_rims, sizeof rims) == 0;
    for (size_t i = 0; i < NUMBERS; i++) same = same && same_bits(nodes[i], expected_nodes[i]);
    return same;
}

int main(int argc, char **argv) {
    size_t ran = 0, differ = 0;
    for (int a = 1; a < argc; a++) {
        size_t places = 0, marks = 0, used = 0;
        list = fopen(argv[a], "rb");
        if (!list) {
            perror(argv[a]);
            return 2;
        }
        for (uint32_t kind = word(); kind != 0; kind = word()) {
            if (kind == 1) {
                places = count();
                used = count();
                marks = count();
                for (size_t i = 0; i < used * 2 && i < places * 2; i++) nodes[i] = number();
                size_t held = used < places ? used : places;
                bytes(rims, held < marks ? held : marks);
            } else if (kind == 2) {
                ran++;
                differ += !same_call(places, marks, &used);
            } else {
                fprintf(stderr, "cells: %s: a record of kind %u\n", argv[a], kind);
                return 2;
            }
        }
        fclose(list);
    }
    printf("%zu run, %zu differ\n", ran, differ);
    return differ != 0 || ran == 0;
}
