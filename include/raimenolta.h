/*
 * Raimenolta: the combinatorial map of a sheet of labelled cells.
 *
 * A sheet has width W, 1 to 110, and height H, 1 to 72, and W*H labels row by row. A region is a largest set of equally
 * labelled cells joined through sides; its name is 1 plus the index of its first cell in row order. The outside has the
 * name 0.
 *
 * A dart is a unit line leaving a point: its number is 4 * point + direction. The point (x, y) is y * (W + 1) + x, y
 * growing downward, and the directions are 0 east, 1 south, 2 west, 3 north. A dart's side is the region on its right.
 * A table by dart has 4 * (W + 1) * (H + 1) slots; a slot without a dart holds RAIMENOLTA_NONE. A table by name has
 * W * H + 1 entries; that of a name not in use holds RAIMENOLTA_NONE, and so does the parent of the outside.
 *
 * A drawing is seven tables: next1 and side1 (level 1), next3 and other3 (level 3), by dart, and parent, cells and borders,
 * by name. cells has the number of cells of each region, borders the number of its border lines, which are the level 1
 * darts with this side. The outside has 0 cells and 2 * (W + H) border lines; the cells of all regions are W * H together.
 *
 * Every function
 * - answers a number: 0 for done, else that of the first refusal that applies, in the order of its comment;
 * - leaves all that it would write when done as it was where it refuses; but a list of joins that is refused at an entry
 *   keeps the joins before it. A place or a card is written by a refusal alone;
 * - is lent each table as a pointer and a length in entries, each single number as a pointer. No pointer is null; what
 *   is written overlaps nothing else that is lent to the same call;
 * - keeps nothing and allocates nothing: the caller owns every table.
 *
 * The four work tables have RAIMENOLTA_SLOTS entries each, whatever they hold. Refusals 1 to 4 leave them as they were;
 * every other outcome leaves them all 0.
 *
 * Refusals
 *    1  W not 1 to 110, or H not 1 to 72
 *    2  level above 3
 *    3  sheet length not W*H
 *    4  the length of a lent table, work table or written deck is not the stated one
 *    5  the seven tables are the drawing of no sheet of this size; one wrong number in cells or borders is enough
 *    6  a joined name is 0
 *    7  the two names are equal
 *    8  no region has that name
 *    9  the two share no line
 *   10  no region of the caller's has that name: none has it, or its owner is the other editor
 *   11  an editor, or the owner of a name from 1 to W*H, is neither 1 nor 2
 *   12  a list of names is of odd length, or of more pairs than RAIMENOLTA_PAIRS: 5,183, or 7,919 where W is above 72
 *   20  a card begun is not 80 bytes and a line feed
 *   21  columns 1 to 72 of the header not as laid out, or its W or H out of the limits of its form
 *   22  columns 73 to 80 wrong
 *   23  a cell not 33 to 126
 *   24  a non-blank after a card's cells, to column 72
 *   25  input ends before a card starts, or bytes follow the last card
 *   26  the reader's cell table is not of length RAIMENOLTA_CELLS
 *   27  a label to be written is not 33 to 126
 */
#ifndef RAIMENOLTA_H
#define RAIMENOLTA_H

#include <stddef.h>
#include <stdint.h>

/* No dart, point, name or total. */
#define RAIMENOLTA_NONE 65535

/* The length of a table by dart. */
#define RAIMENOLTA_SLOTS(width, height) (4 * ((size_t)(width) + 1) * ((size_t)(height) + 1))

/* The length of a table by name. */
#define RAIMENOLTA_NAMES(width, height) ((size_t)(width) * (size_t)(height) + 1)

/* The greatest width and the greatest height. */
#define RAIMENOLTA_WIDEST 110
#define RAIMENOLTA_TALLEST 72

/* The most pairs that a list of joins may have: one less than the cells of the largest sheet, or of the largest that is not
 * wider than 72. */
#define RAIMENOLTA_PAIRS(width) ((size_t)((width) <= 72 ? 5183 : 7919))

/* The length of a sheet's deck: a header, and a card a row, or two where the row is wider than 72. */
#define RAIMENOLTA_DECK(width, height) (81 * (1 + (size_t)(height) * ((width) <= 72 ? 1 : 2)))

/* The length of the table that a deck is read into. */
#define RAIMENOLTA_CELLS (RAIMENOLTA_WIDEST * RAIMENOLTA_TALLEST)

#ifdef __cplusplus
extern "C" {
#endif

/*
 * Draws a level, 0 to 3, of a sheet: reads sheet (W*H), writes next, other and side (RAIMENOLTA_SLOTS each).
 * Refusals 1, 2, 3, 4.
 */
uint16_t raimenolta_level(
    uint16_t width, uint16_t height, uint16_t level,
    const uint16_t *sheet, size_t sheet_length,
    uint16_t *next, size_t next_length,
    uint16_t *other, size_t other_length,
    uint16_t *side, size_t side_length,
    uint16_t *work_a, size_t work_a_length,
    uint16_t *work_b, size_t work_b_length,
    uint16_t *work_c, size_t work_c_length,
    uint16_t *work_d, size_t work_d_length);

/*
 * Draws a sheet: reads sheet (W*H), writes the seven tables (RAIMENOLTA_SLOTS each; parent, cells and borders
 * RAIMENOLTA_NAMES each). Refusals 1, 3, 4.
 */
uint16_t raimenolta_draw(
    uint16_t width, uint16_t height,
    const uint16_t *sheet, size_t sheet_length,
    uint16_t *next1, size_t next1_length,
    uint16_t *side1, size_t side1_length,
    uint16_t *next3, size_t next3_length,
    uint16_t *other3, size_t other3_length,
    uint16_t *parent, size_t parent_length,
    uint16_t *cells, size_t cells_length,
    uint16_t *borders, size_t borders_length,
    uint16_t *work_a, size_t work_a_length,
    uint16_t *work_b, size_t work_b_length,
    uint16_t *work_c, size_t work_c_length,
    uint16_t *work_d, size_t work_d_length);

/*
 * Checks whether the seven tables are the drawing of some sheet of this size: reads them (RAIMENOLTA_SLOTS each; parent,
 * cells and borders RAIMENOLTA_NAMES each). Refusals 1, 4, 5; 0 says that they are.
 */
uint16_t raimenolta_check(
    uint16_t width, uint16_t height,
    const uint16_t *next1, size_t next1_length,
    const uint16_t *side1, size_t side1_length,
    const uint16_t *next3, size_t next3_length,
    const uint16_t *other3, size_t other3_length,
    const uint16_t *parent, size_t parent_length,
    const uint16_t *cells, size_t cells_length,
    const uint16_t *borders, size_t borders_length,
    uint16_t *work_a, size_t work_a_length,
    uint16_t *work_b, size_t work_b_length,
    uint16_t *work_c, size_t work_c_length,
    uint16_t *work_d, size_t work_d_length);

/*
 * Joins the regions named a and b in a drawing: reads and writes the seven tables (RAIMENOLTA_SLOTS each; parent, cells and
 * borders RAIMENOLTA_NAMES each). The joined region has the smaller name, the cells of both, and the border lines of both
 * less twice the lines that they share. The larger name is no longer in use: its parent, cells and borders are
 * RAIMENOLTA_NONE. Every other region keeps its cells and its border lines. Refusals 1, 4, 5, 6, 7, 8, 9.
 */
uint16_t raimenolta_join(
    uint16_t width, uint16_t height,
    uint16_t *next1, size_t next1_length,
    uint16_t *side1, size_t side1_length,
    uint16_t *next3, size_t next3_length,
    uint16_t *other3, size_t other3_length,
    uint16_t *parent, size_t parent_length,
    uint16_t *cells, size_t cells_length,
    uint16_t *borders, size_t borders_length,
    uint16_t a, uint16_t b,
    uint16_t *work_a, size_t work_a_length,
    uint16_t *work_b, size_t work_b_length,
    uint16_t *work_c, size_t work_c_length,
    uint16_t *work_d, size_t work_d_length);

/*
 * Joins regions two by two, in the order of a list: reads and writes the seven tables (RAIMENOLTA_SLOTS each; parent, cells
 * and borders RAIMENOLTA_NAMES each), reads names (of any length, 0 too). Entry k, from 0, is the pair names[2 * k] and
 * names[2 * k + 1]. The drawing is checked once, before the first entry; each entry is then joined as by raimenolta_join, in
 * the drawing that those before it have left. The first entry that is refused ends the list: the joins before it stay, and
 * no later one is looked at. Refusals 1, 4, 12, 5, then of an entry 6, 7, 8, 9. A refusal writes the one number at place: that
 * of the entry, or 0 for 1, 4, 12 and 5, which leave the seven tables as they were. When it is done it leaves place as it was.
 * Two lists that are done in the same drawing and end in the same grouping of cells leave the same tables. A list of ten pairs or
 * more costs a check, little more than a drawing, and tens of nanoseconds a pair.
 */
uint16_t raimenolta_join_list(
    uint16_t width, uint16_t height,
    uint16_t *next1, size_t next1_length,
    uint16_t *side1, size_t side1_length,
    uint16_t *next3, size_t next3_length,
    uint16_t *other3, size_t other3_length,
    uint16_t *parent, size_t parent_length,
    uint16_t *cells, size_t cells_length,
    uint16_t *borders, size_t borders_length,
    const uint16_t *names, size_t names_length, uint16_t *place,
    uint16_t *work_a, size_t work_a_length,
    uint16_t *work_b, size_t work_b_length,
    uint16_t *work_c, size_t work_c_length,
    uint16_t *work_d, size_t work_d_length);

/*
 * Starts a drawing that two editors will share, 1 and 2: reads sheet (W*H) and owners (RAIMENOLTA_NAMES), writes the seven tables
 * (RAIMENOLTA_SLOTS each; parent, cells and borders RAIMENOLTA_NAMES each) as raimenolta_draw does. owners[r] is the editor who owns
 * the name r, used or not, for every r from 1 to W*H; owners[0] is not read. Refusals 1, 3, 4, 11.
 */
uint16_t raimenolta_start(
    uint16_t width, uint16_t height,
    const uint16_t *sheet, size_t sheet_length,
    const uint16_t *owners, size_t owners_length,
    uint16_t *next1, size_t next1_length,
    uint16_t *side1, size_t side1_length,
    uint16_t *next3, size_t next3_length,
    uint16_t *other3, size_t other3_length,
    uint16_t *parent, size_t parent_length,
    uint16_t *cells, size_t cells_length,
    uint16_t *borders, size_t borders_length,
    uint16_t *work_a, size_t work_a_length,
    uint16_t *work_b, size_t work_b_length,
    uint16_t *work_c, size_t work_c_length,
    uint16_t *work_d, size_t work_d_length);

/*
 * Joins the regions named a and b as one of the editors, 1 or 2: as raimenolta_join, but only regions that the editor owns. Reads
 * owners (RAIMENOLTA_NAMES), all of it but owners[0] at every call, and never writes it. The joined region has the smaller name, and so
 * its owner. Refusals 1, 4, 11, 5, 6, 7, 10, 9.
 * Where both editors join in one drawing in any mixture, always with the same owners, and nothing else writes the drawing, what one of
 * them is answered is what would be answered without the other's calls; and so are, of every name that this editor owns, whether it is
 * in use, which cells it has, its cells and its borders. Links, sides of the other's regions and parents are common to both.
 */
uint16_t raimenolta_join_as(
    uint16_t width, uint16_t height,
    uint16_t *next1, size_t next1_length,
    uint16_t *side1, size_t side1_length,
    uint16_t *next3, size_t next3_length,
    uint16_t *other3, size_t other3_length,
    uint16_t *parent, size_t parent_length,
    uint16_t *cells, size_t cells_length,
    uint16_t *borders, size_t borders_length,
    const uint16_t *owners, size_t owners_length,
    uint16_t editor, uint16_t a, uint16_t b,
    uint16_t *work_a, size_t work_a_length,
    uint16_t *work_b, size_t work_b_length,
    uint16_t *work_c, size_t work_c_length,
    uint16_t *work_d, size_t work_d_length);

/*
 * The depth of a region, or of the outside for the name 0: reads the seven tables (RAIMENOLTA_SLOTS each; parent, cells and
 * borders RAIMENOLTA_NAMES each), writes the one number at depth. Refusals 1, 4, 5, 8.
 */
uint16_t raimenolta_depth(
    uint16_t width, uint16_t height,
    const uint16_t *next1, size_t next1_length,
    const uint16_t *side1, size_t side1_length,
    const uint16_t *next3, size_t next3_length,
    const uint16_t *other3, size_t other3_length,
    const uint16_t *parent, size_t parent_length,
    const uint16_t *cells, size_t cells_length,
    const uint16_t *borders, size_t borders_length,
    uint16_t name, uint16_t *depth,
    uint16_t *work_a, size_t work_a_length,
    uint16_t *work_b, size_t work_b_length,
    uint16_t *work_c, size_t work_c_length,
    uint16_t *work_d, size_t work_d_length);

/*
 * The holes of a region, or of the outside for the name 0: how many different pieces of border, lines joined through
 * points, are the outer pieces of the regions whose parent it is. However many regions fill a hole, it is one; the outside
 * has one. Reads the seven tables (RAIMENOLTA_SLOTS each; parent, cells and borders RAIMENOLTA_NAMES each), writes the one
 * number at holes. Refusals 1, 4, 5, 8.
 */
uint16_t raimenolta_holes(
    uint16_t width, uint16_t height,
    const uint16_t *next1, size_t next1_length,
    const uint16_t *side1, size_t side1_length,
    const uint16_t *next3, size_t next3_length,
    const uint16_t *other3, size_t other3_length,
    const uint16_t *parent, size_t parent_length,
    const uint16_t *cells, size_t cells_length,
    const uint16_t *borders, size_t borders_length,
    uint16_t name, uint16_t *holes,
    uint16_t *work_a, size_t work_a_length,
    uint16_t *work_b, size_t work_b_length,
    uint16_t *work_c, size_t work_c_length,
    uint16_t *work_d, size_t work_d_length);

/*
 * Depth and hole count of every name at once: reads the seven tables (RAIMENOLTA_SLOTS each; parent, cells and borders
 * RAIMENOLTA_NAMES each), writes depths and holes (RAIMENOLTA_NAMES each), by name, RAIMENOLTA_NONE for a name not in use.
 * Refusals 1, 4, 5.
 */
uint16_t raimenolta_counts(
    uint16_t width, uint16_t height,
    const uint16_t *next1, size_t next1_length,
    const uint16_t *side1, size_t side1_length,
    const uint16_t *next3, size_t next3_length,
    const uint16_t *other3, size_t other3_length,
    const uint16_t *parent, size_t parent_length,
    const uint16_t *cells, size_t cells_length,
    const uint16_t *borders, size_t borders_length,
    uint16_t *depths, size_t depths_length,
    uint16_t *holes, size_t holes_length,
    uint16_t *work_a, size_t work_a_length,
    uint16_t *work_b, size_t work_b_length,
    uint16_t *work_c, size_t work_c_length,
    uint16_t *work_d, size_t work_d_length);

/*
 * The turns of every curve at once: of each level 3 dart, the right turns and the left turns taken strictly inside its run
 * along next1 to the next point that level 3 keeps, so without those at the run's two end points. The turns of its other are
 * the same two numbers exchanged. Reads the seven tables (RAIMENOLTA_SLOTS each; parent, cells and borders RAIMENOLTA_NAMES
 * each), writes right and left (RAIMENOLTA_SLOTS each), by dart, RAIMENOLTA_NONE at a slot without a level 3 dart.
 * Refusals 1, 4, 5.
 */
uint16_t raimenolta_turns(
    uint16_t width, uint16_t height,
    const uint16_t *next1, size_t next1_length,
    const uint16_t *side1, size_t side1_length,
    const uint16_t *next3, size_t next3_length,
    const uint16_t *other3, size_t other3_length,
    const uint16_t *parent, size_t parent_length,
    const uint16_t *cells, size_t cells_length,
    const uint16_t *borders, size_t borders_length,
    uint16_t *right, size_t right_length,
    uint16_t *left, size_t left_length,
    uint16_t *work_a, size_t work_a_length,
    uint16_t *work_b, size_t work_b_length,
    uint16_t *work_c, size_t work_c_length,
    uint16_t *work_d, size_t work_d_length);

/*
 * Reads a land deck of either form: reads deck (of any length), writes cells (RAIMENOLTA_CELLS), the labels in row order
 * and 0 after them, and the two numbers W and H at size. Refusals 26, then card by card 25, 20, 22, then 21 for the
 * header or 23 and 24 from the left for a row's card, and last 25 for bytes after the last card. A refusal writes the one
 * number at card: that of the card, counted from 1, or 0 for 26. When it is done it leaves card as it was.
 */
uint16_t raimenolta_read(
    const uint8_t *deck, size_t deck_length,
    uint16_t *cells, size_t cells_length,
    uint16_t size[2], uint16_t *card);

/*
 * Writes the deck of a sheet: reads sheet (W*H), writes deck (RAIMENOLTA_DECK). Refusals 1, 3, 4, 27.
 */
uint16_t raimenolta_write(
    uint16_t width, uint16_t height,
    const uint16_t *sheet, size_t sheet_length,
    uint8_t *deck, size_t deck_length);

/*
 * Whether the first width bytes of a row's card hold its cells: reads card (of any length). The width is the card's own
 * count of cells: of a row wider than 72, 72 on its first card and W - 72 on its second. Refusals 1 for a width that is not
 * 1 to 72, 20 for a card that is not 80 bytes and a line feed.
 */
uint16_t raimenolta_part_refusal(
    uint16_t width,
    const uint8_t *card, size_t card_length);

#ifdef __cplusplus
}
#endif

#endif
