/*
 * A pond in a common: draws the sheet
 *
 *   A A A
 *   A B A
 *   A A A
 *
 * lists it, joins the pond to the common in the map itself, and lists it again. examples/run builds and runs it, on x86-64.
 * Any C compiler will do, at the root of the repository:
 *
 *   (cd crates/raimenolta && rt lib)
 *   cc examples/pond.c -Iinclude crates/raimenolta/out/libraimenolta.a -o pond
 *   ./pond
 */
#include <stdio.h>

#include "raimenolta.h"

enum { W = 3, H = 3, CELLS = W * H, SLOTS = RAIMENOLTA_SLOTS(W, H), NAMES = RAIMENOLTA_NAMES(W, H) };

static const uint16_t sheet[CELLS] = {'A', 'A', 'A', 'A', 'B', 'A', 'A', 'A', 'A'};
static uint16_t next1[SLOTS], side1[SLOTS], next3[SLOTS], other3[SLOTS], parent[NAMES], cells[NAMES], borders[NAMES];
static uint16_t right[SLOTS], left[SLOTS], work[4][SLOTS];

/* The seven tables, and the four work tables, as each call takes them. */
#define SEVEN next1, SLOTS, side1, SLOTS, next3, SLOTS, other3, SLOTS, parent, NAMES, cells, NAMES, borders, NAMES
#define WORKS work[0], SLOTS, work[1], SLOTS, work[2], SLOTS, work[3], SLOTS

static int refused(uint16_t number) {
    if (number != 0) {
        printf("REFUSED %u\n", (unsigned)number);
    }
    return number != 0;
}

/* Each region: name, label, parent, depth and holes, and its totals: name, cells and border lines. Each curve: its smaller
 * dart, other, side, other's side, and the right turns and the left turns. */
static int list(void) {
    for (uint16_t name = 1; name < NAMES; name++) {
        uint16_t depth, holes;
        if (parent[name] == RAIMENOLTA_NONE) {
            continue;
        }
        if (refused(raimenolta_depth(W, H, SEVEN, name, &depth, WORKS))) {
            return 1;
        }
        if (refused(raimenolta_holes(W, H, SEVEN, name, &holes, WORKS))) {
            return 1;
        }
        printf("R %u %c %u %u %u\n", name, sheet[name - 1], parent[name], depth, holes);
        printf("T %u %u %u\n", name, cells[name], borders[name]);
    }
    if (refused(raimenolta_turns(W, H, SEVEN, right, SLOTS, left, SLOTS, WORKS))) {
        return 1;
    }
    for (unsigned dart = 0; dart < SLOTS; dart++) {
        unsigned other = other3[dart];
        if (other != RAIMENOLTA_NONE && dart < other) {
            printf("C %u %u %u %u %u %u\n", dart, other, side1[dart], side1[other], right[dart], left[dart]);
        }
    }
    return 0;
}

int main(void) {
    if (refused(raimenolta_draw(W, H, sheet, CELLS, SEVEN, WORKS)) || list()) {
        return 1;
    }
    puts("JOIN 1 5");
    if (refused(raimenolta_join(W, H, SEVEN, 1, 5, WORKS)) || list()) {
        return 1;
    }
    return 0;
}
