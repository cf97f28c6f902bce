/* Makes a job file from points, through blocks_write: save < POINTS > JOB
 *
 * Each line of POINTS is a ring, or the chain of the ring before it, coordinates in mm:
 *
 *     ring SIZE x y x y ..
 *     chain x y x y ..
 *
 * A ring with no chain line gets the empty chain; a line that begins with # is left out. A coordinate is rounded to the nearest
 * 1/8192 mm. The library tests the rest: a line that it refuses ends the program with 1, its number on standard error. */
#include "ring_divide.h"
#include <math.h>
#include <stdio.h>
#include <stdlib.h>
#include <string.h>

#define MOST 128 /* numbers of a line that are kept: more than a ring may have, so that too many are refused, not cut off */

struct run {
    int32_t numbers[MOST];
    size_t len;
};

static struct run ring, chain;
static uint32_t size, number; /* of the ring that is not yet written */
static int waiting;

/* The coordinates from `text` on, in units. What no 32-bit number holds is beyond every limit. */
static struct run points(const char *text) {
    struct run run = {{0}, 0};
    char *end;
    for (double mm = strtod(text, &end); end != text && run.len < MOST; mm = strtod(text, &end)) {
        double units = round(mm * 8192);
        run.numbers[run.len++] = units >= -2147483648.0 && units <= 2147483647.0 ? (int32_t)units : INT32_MAX;
        text = end;
    }
    return run;
}

/* Writes the ring that waits, as blocks `number` and `number + 1`. */
static int written(void) {
    uint8_t pair[BLOCKS_WRITE_BYTES];
    uint64_t code;
    if (!waiting)
        return 0;
    code = blocks_write(ring.numbers, ring.len, chain.numbers, chain.len, size, number, pair, sizeof pair);
    if (code != 0) {
        fprintf(stderr, "save: ring %lu refused %lu\n", (unsigned long)number / 2, (unsigned long)code);
        return 1;
    }
    if (fwrite(pair, 1, sizeof pair, stdout) != sizeof pair) {
        perror("save: output");
        return 1;
    }
    number += 2;
    waiting = 0;
    chain.len = 0;
    return 0;
}

int main(void) {
    static char line[1 << 16];
    while (fgets(line, sizeof line, stdin) != NULL) {
        char *rest;
        if (strncmp(line, "ring ", 5) == 0) {
            if (written())
                return 1;
            unsigned long mm = strtoul(line + 5, &rest, 10);
            size = mm <= UINT32_MAX ? (uint32_t)mm : UINT32_MAX;
            ring = points(rest);
            waiting = 1;
        } else if (strncmp(line, "chain ", 6) == 0 && waiting) {
            chain = points(line + 6);
        } else if (line[0] != '#' && line[0] != '\n') {
            fprintf(stderr, "save: neither ring nor chain: %s", line);
            return 1;
        }
    }
    if (written())
        return 1;
    if (fflush(stdout) != 0) {
        perror("save: output");
        return 1;
    }
    return 0;
}
