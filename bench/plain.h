/* The same jobs as the library's, in plain C: what the library's speed is measured against. */
#ifndef PLAIN_H
#define PLAIN_H
#include <stdint.h>

/* How wide a sheet may be. */
#define PLAIN_WIDEST 110

/* The seven tables of a drawing, the totals among them. */
#define PLAIN_TOTALS 1
struct seven {
    uint16_t *next1, *side1, *next3, *other3, *parent, *cells, *borders;
};

/* Draws a sheet. */
void plain_draw(int width, int height, const uint16_t *sheet, struct seven seven);

/* Whether seven tables are the drawing of a sheet. */
int plain_check(int width, int height, struct seven seven);

/* The right turns and the left turns of the curves of a drawing, whether it is one judged first; 0 where it is none. */
#define PLAIN_TURNS 1
int plain_turns(int width, int height, struct seven seven, uint16_t *right, uint16_t *left);

/* Judges the tables and the names, and joins; the paper's refusal number, 0 for done. */
int plain_join(int width, int height, struct seven seven, int a, int b);

/* Judges the tables once, then joins so many pairs of names in their order, up to the first that is refused, the joins before it
 * kept; the paper's refusal number with the pair's place, from 0, or 0 for done. */
#define PLAIN_LISTS 1
int plain_join_list(int width, int height, struct seven seven, const uint16_t *list, int pairs, int *place);

#endif
