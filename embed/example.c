/* Divides the square of 1 mm, has the same square clockwise refused, and divides the square beside the first over the
 * same lists; then the square above the first with given marks, one edge snapped to a point and one to a lead line. It
 * prints the rim marks and the cell sheet of all nodes, divides an arrowhead, which takes a cut, and prints what the record of
 * wheel wear has of all these rings. At the end it finds the fault of a ring in which two points stand in the wrong order
 * (docs/SMALLEST.md). Compiles as C and as C++. */
#include "ring_divide.h"
#include <stdio.h>

#define MM 8192
#define NODES 1536
#define CELLS 124

static double nodes[2 * NODES];
static uint8_t rims[NODES];
static uint32_t cells[4 * CELLS];
static uint8_t sheet[NODE_SHEET_LINE * NODES];
static size_t node_count, cell_count; /* used places of the node list and of the cell list, carried from call to call */
static uint8_t wear[WEAR_RECORD_BYTES];

/* Both counts go to the next call, and the answer into the record of wear. */
static struct ring_row carried(struct ring_row row) {
    node_count = row.nodes;
    cell_count = row.cells;
    wear_add(wear, WEAR_RECORD_BYTES, row.code, row.cuts);
    return row;
}

static struct ring_row divide(const int32_t *ring, size_t ring_len) {
    const int32_t none[] = {0};
    struct ring_row row = ring_divide(ring, ring_len, none, 0, 1, nodes, 2 * NODES, node_count, rims, NODES, cells, 4 * CELLS, cell_count);
    return carried(row);
}

/* The same with one mark an edge: straight, snapped to the point beside it, or to the lead line. */
static struct ring_row divide_marked(const int32_t *ring, size_t ring_len, const uint8_t *kinds, const double *snaps, const int32_t *outline, size_t outline_len, const uint32_t *loops, size_t loops_len) {
    struct ring_row row = ring_divide_marked(ring, ring_len, kinds, ring_len / 2, snaps, ring_len, outline, outline_len, loops, loops_len, 1, nodes, 2 * NODES, node_count, rims, NODES, cells, 4 * CELLS, cell_count);
    return carried(row);
}

static void print(struct ring_row row, size_t first) {
    printf("code %d corners %d cuts %d pieces %d nodes %d cells %d\n", (int)row.code, (int)row.corners, (int)row.cuts, (int)row.pieces, (int)row.nodes, (int)row.cells);
    for (size_t i = first; i < row.cells; i++) {
        const uint32_t *c = cells + 4 * i;
        printf("quad %u %u %u %u\n", c[0], c[1], c[2], c[3]);
    }
}

int main(void) {
    const int32_t square[] = {0, 0, MM, 0, MM, MM, 0, MM};
    const int32_t clockwise[] = {0, 0, 0, MM, MM, MM, MM, 0};
    const int32_t beside[] = {MM, 0, 2 * MM, 0, 2 * MM, MM, MM, MM};

    print(divide(square, 8), 0);
    printf("node 8 at %g %g\n", nodes[16], nodes[17]);
    print(divide(clockwise, 8), 4);
    print(divide(beside, 8), 4);

    const int32_t above[] = {0, MM, MM, MM, MM, 2 * MM, 0, 2 * MM};
    const uint8_t kinds[] = {0, 1, 2, 0};
    const double snaps[] = {0, 0, 1.125, 1.5, 0, 0, 0, 0};
    const int32_t lead[] = {-MM, 2 * MM + MM / 8, 2 * MM, 2 * MM + MM / 8, 0, 8 * MM};
    const uint32_t loops[] = {3};
    print(divide_marked(above, 8, kinds, snaps, lead, 6, loops, 1), 8);
    printf("node 17 at %g %g, node 18 at %g %g\n", nodes[34], nodes[35], nodes[36], nodes[37]);
    printf("rims ");
    for (size_t i = 0; i < node_count; i++)
        printf("%d", rims[i]);
    printf("\n");
    if (node_sheet(nodes, 2 * NODES, node_count, sheet, sizeof sheet) == 0)
        fwrite(sheet, NODE_SHEET_LINE, node_count, stdout);

    const int32_t arrowhead[] = {-10 * MM, 0, 0, 9 * MM, 10 * MM, 0, 0, 10 * MM};
    struct ring_row last = divide(arrowhead, 8);
    print(last, last.cells);
    struct wear w = wear_add(wear, WEAR_RECORD_BYTES, 7, 0); /* a refused ring: the record as it is */
    printf("wear total %d highest %d rings %d\n", (int)w.total, (int)w.highest, (int)w.rings);

    int32_t rosette[] = {4, 0, 8, 0, 11, 2, 12, 5, 8, 12, 11, 9, 4, 12, 1, 9, 0, 5, 1, 2};
    for (size_t i = 0; i < 20; i++) rosette[i] *= MM;
    const int32_t none[] = {0};
    struct smallest s = smallest_refused(rosette, 20, none, 0, 1);
    printf("smallest code %d refusal %d choice %d points %d\n", (int)s.code, (int)s.refusal, (int)s.choice, (int)s.points);
    return 0;
}
