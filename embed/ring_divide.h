/* The ring divider as a static library: libexports.a, made by `embed/library exports`. ring_divide.rs beside this has its functions
 * for Rust.
 *
 * Every call is answered, whatever it is handed. Nothing is allocated, and nothing is written but the lists that a call is
 * lent. Lengths count numbers; the lists of a call may not overlap, and one of length 0 may be any aligned pointer that is not
 * null.
 *
 * ring_divide divides a ring and returns a row of the table: code 0 for a divided ring, or the number of the refusal.
 *
 *   ring, chain   coordinates in units of 1/8192 mm, x and y in turn, two numbers a point
 *   size          sheet size in whole mm, 1 to 2,048
 *   nodes         the node list, x and y in mm in turn, at most 1,000,000 places; node_count of them are used
 *   rims          the rim marks, a byte beside each place of the node list; no fewer than its places, a used one is 0 or 1
 *   cells         the cell list, four node numbers a cell; cell_count of its places are used
 *
 * With code 0 the new nodes and cells follow the used ones; 1 to 7 leave all as found; 8 leaves its new nodes with their marks
 * and zeros the cell places that the ring had reserved. The row has both counts as they are afterwards: hand them to the next
 * call, with the same lists.
 *
 * Over calls of any entry from an empty node list (node_count 0; rims may hold anything), a mark is 1 exactly if its node was
 * ever a corner of a piece or the middle of a ring edge, straight or snapped, and 0 if only a centre or the middle of a cut.
 * What an attempt made that was given up, and what a ring refused with 8 made, counts the same. A node that is met again may
 * have its mark set; none is ever cleared. The marks past the used nodes stay as found. Fewer marks than places, or a used mark
 * that is neither 0 nor 1, is refused with 3.
 *
 * ring_divide_marked takes the marks of the ring's edges in place of a chain, and is ring_divide in all else.
 *
 *   kinds     a byte for each point of the ring, of the edge from it to the next: 0 straight, 1 snapped to its given point,
 *             2 snapped to the nearest point of the outline
 *   snaps     x and y in mm in turn, two numbers a mark; looked at where its kind is 1: finite and within 1,024 either way
 *   outline   the points of all loops one after the other, in units, the rim first, then the holes; at most 60 points
 *   loops     how many points each loop has, 3 or more
 *
 * A mark survives if both points of its edge stay in cleaning; an edge that joins two points over dropped ones is straight.
 * 13, after 2: the marks are not as many as the points, a kind is above 2, a given point is out of limits, or the snaps are
 * not two numbers a mark. 14, after 13, where some kind is 2: the outline is empty, over 60 points or of odd length, a loop has
 * under 3 points, the loops do not add up to the points, or a coordinate is out of limits. Both leave all as found.
 *
 * ring_divide_set and ring_divide_marked_set divide with the caller's set of limits:
 *
 *   corner           a corner with a measure above this is bad; from 1 (90 degrees) to 2 (180)
 *   least, greatest  the cosines of a diagonal with its neighbours lie between these; from -1 to 1, least not above greatest
 *   cuts             the most cuts of a ring, at most 32; the places that a ring reserves follow it
 *   share            a snap point farther from the middle than this share of the chord is not taken; from 0 to 1
 *
 * The ends are allowed; a NaN is out of limits. Any other set is refused with 15, after 2 (after 14 where marks are given) and
 * before 3, all as found. With the set on delivery (RING_SET_ and the name) they answer as ring_divide and ring_divide_marked do.
 *
 * ring_divide_practice divides for the practice paper: rings and chains of at most 24 points, else 16, which comes directly
 * after 1; at most 12 cuts, and the reserve for 12. All else is as with ring_divide.
 *
 * smallest_refused takes a ring of at most 12 points that ring_divide refuses on an empty node list with 5, 6, 7 or 8, and finds
 * the smallest choice of its points, in ring order and at least 3, that gets the same number there with the same chain and sheet
 * size: no choice with that number has fewer points, and of as many it has the lowest number, in which point i counts 2 to the
 * power i. It tries the choices on lists of its own. It answers code 0, that number as refusal, the choice and how many points it
 * has; or zeros and 1 (ring or chain count), 2 (coordinate or sheet size), 18 (over 12 points) or 19 (the ring gets none of the
 * four), the first of them in this order.
 *
 * blocks_write saves a ring and its chain as the two blocks that the program `divide` takes. It fills the first
 * BLOCKS_WRITE_BYTES bytes of out, the ring's block with the given number, which is even and at most 65,534, and the chain's
 * with the next; the bytes after them stay. It answers 0, or leaves all as found and answers 1 (ring or chain count), 2
 * (coordinate or sheet size) or 12 (out too short, or the number), the first of them in this order. A ring that crosses itself or
 * runs clockwise is written: it is refused when it is divided.
 *
 * node_sheet prints the cell sheet of the first node_count nodes: a line of NODE_SHEET_LINE bytes for each, in order, its
 * number right-aligned in 8 columns, x and y in 28 each, in mm with four decimals, and a line feed. A decimal is the nearest
 * to the exact value of its double, ties to the even digit; 0.0000 has no minus. The bytes after the last line stay. It answers
 * 0, or leaves all as found and answers 3 (the used count, the places or a used node, as ring_divide's 3) or 17 (out shorter
 * than the lines), the first of them in this order.
 *
 * wear_add hands the answer of a divider call, its code and its cuts, to the record of wheel wear, WEAR_RECORD_BYTES bytes that
 * begin as zeros: the cuts of 32 places, the rings held (32 at most), the next place. A ring with code 0 is stored, in place of the
 * oldest where 32 are held; any other leaves the record, and its cuts are not looked at. It answers code 0, the total of the cuts
 * held, the highest and the rings held; or 20 and zeros, the record as it came, where the record has another length, holds over 32
 * rings, a ring of over 32 cuts, or a next place outside its 32 (under 32 rings, other than their number), or where a ring with
 * code 0 has over 32 cuts.
 *
 * ring_root_bits answers the bits of the square root of the double with the given bits, nearest, 7FF8000000000000 for a NaN
 * and for what is below zero.
 *
 * What the library takes:
 *
 *   stack      NAME_STACK bytes a call of NAME, as read from the compiled code by embed/stack (no function calls itself);
 *              what memcpy and memset take comes on top
 *   functions  memcpy and memset, and no other
 *   data       none that is written, so it is re-entrant: calls on other lists may run at the same time or interrupt one another
 *   doubles    rounding to nearest, subnormals kept: the mode that a program starts in
 *   processor  the archive is for x86-64, its base instructions (SSE2), with the calling convention of Linux. That is the one
 *              target that the kit compiles for, on whatever machine it runs. For another, take a kit that has its target:
 *              the sources name no processor; lengths and counts have 64 bits in every promise
 */
#ifndef RING_DIVIDE_H
#define RING_DIVIDE_H

#include <stddef.h>
#include <stdint.h>

#ifdef __cplusplus
extern "C" {
#endif

#define RING_DIVIDE_STACK 27168
#define RING_DIVIDE_PRACTICE_STACK 27216
#define RING_DIVIDE_SET_STACK 27168
#define RING_DIVIDE_MARKED_SET_STACK 24144
#define RING_DIVIDE_MARKED_STACK 24144
#define SMALLEST_REFUSED_STACK 28864
#define BLOCKS_WRITE_STACK 56
#define NODE_SHEET_STACK 192
#define WEAR_ADD_STACK 32
#define RING_ROOT_BITS_STACK 8

#define BLOCKS_WRITE_BYTES 1024
#define NODE_SHEET_LINE 65
#define WEAR_RECORD_BYTES 34

/* the set on delivery: corners of 160 degrees, diagonals of 160 and of 12 */
#define RING_SET_CORNER (2.0 - 0.36397023426620236 / (1.0 + 0.36397023426620236))
#define RING_SET_LEAST (-0.9396926207859084)
#define RING_SET_GREATEST 0.9781476007338057
#define RING_SET_CUTS 32
#define RING_SET_SHARE 0.4

struct ring_row {
    uint64_t code;    /* 0, or the refusal: 1 to 8, 13 to 16 */
    uint64_t corners; /* of the cleaned ring; with 8, of the piece that fails */
    uint64_t k;       /* with 8, the failing cell */
    uint64_t marked;  /* marked edges */
    uint64_t cuts;
    uint64_t pieces;
    uint64_t turned; /* turned area, doubled, in units squared */
    uint64_t area;   /* area of the cleaned ring, doubled, in units squared */
    uint64_t nodes;  /* used places of the node list afterwards */
    uint64_t cells;  /* used places of the cell list afterwards */
};

struct smallest {
    uint64_t code;    /* 0, 1, 2, 18 or 19 */
    uint64_t refusal; /* 5 to 8, the number of the ring and of the choice */
    uint64_t choice;  /* the sum of 2 to the power i over its points */
    uint64_t points;
};

struct wear {
    uint64_t code; /* 0 or 20 */
    uint64_t total;
    uint64_t highest;
    uint64_t rings;
};

struct ring_row ring_divide(const int32_t *ring, size_t ring_len,
                            const int32_t *chain, size_t chain_len,
                            uint32_t size,
                            double *nodes, size_t nodes_len, size_t node_count,
                            uint8_t *rims, size_t rims_len,
                            uint32_t *cells, size_t cells_len, size_t cell_count);

struct ring_row ring_divide_marked(const int32_t *ring, size_t ring_len,
                                   const uint8_t *kinds, size_t kinds_len,
                                   const double *snaps, size_t snaps_len,
                                   const int32_t *outline, size_t outline_len,
                                   const uint32_t *loops, size_t loops_len,
                                   uint32_t size,
                                   double *nodes, size_t nodes_len, size_t node_count,
                                   uint8_t *rims, size_t rims_len,
                                   uint32_t *cells, size_t cells_len, size_t cell_count);

struct ring_row ring_divide_set(double corner, double least, double greatest,
                                uint32_t cuts, double share,
                                const int32_t *ring, size_t ring_len,
                                const int32_t *chain, size_t chain_len,
                                uint32_t size,
                                double *nodes, size_t nodes_len, size_t node_count,
                                uint8_t *rims, size_t rims_len,
                                uint32_t *cells, size_t cells_len, size_t cell_count);

struct ring_row ring_divide_marked_set(double corner, double least, double greatest,
                                       uint32_t cuts, double share,
                                       const int32_t *ring, size_t ring_len,
                                       const uint8_t *kinds, size_t kinds_len,
                                       const double *snaps, size_t snaps_len,
                                       const int32_t *outline, size_t outline_len,
                                       const uint32_t *loops, size_t loops_len,
                                       uint32_t size,
                                       double *nodes, size_t nodes_len, size_t node_count,
                                       uint8_t *rims, size_t rims_len,
                                       uint32_t *cells, size_t cells_len, size_t cell_count);

struct ring_row ring_divide_practice(const int32_t *ring, size_t ring_len,
                                     const int32_t *chain, size_t chain_len,
                                     uint32_t size,
                                     double *nodes, size_t nodes_len, size_t node_count,
                                     uint8_t *rims, size_t rims_len,
                                     uint32_t *cells, size_t cells_len, size_t cell_count);

struct smallest smallest_refused(const int32_t *ring, size_t ring_len,
                                 const int32_t *chain, size_t chain_len,
                                 uint32_t size);

uint64_t blocks_write(const int32_t *ring, size_t ring_len,
                      const int32_t *chain, size_t chain_len,
                      uint32_t size, uint32_t number,
                      uint8_t *out, size_t out_len);

uint64_t node_sheet(const double *nodes, size_t nodes_len, size_t node_count,
                    uint8_t *out, size_t out_len);

struct wear wear_add(uint8_t *record, size_t record_len, uint64_t code, uint64_t cuts);

uint64_t ring_root_bits(uint64_t bits);

#ifdef __cplusplus
}
#endif

#endif
