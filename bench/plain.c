/* Drawing, checking, counting turns and joining in plain C, written for speed and without proof, by the ideas of the proved code.
 *
 * Union-find over the cells gives the names, union-find over the points the pieces; of two neighbours one that is absent
 * is stood in for by the other, and roots are searched only where the two entries differ. Lines, sides and next are loops
 * over all points that the compiler turns into vector code. A dart of level 3 whose far point is kept is linked at once; a
 * longer run is walked once for its two ends. Totals are counted for even and odd points apart, so that cells of one region
 * side by side need not wait for each other. The check reads the names off the sides, draws and compares. A join checks, takes
 * out the lines that the two regions share, looks after the points at their ends, adds the totals, and finds pieces and parents
 * anew. A list of joins checks once. A short one finds pieces and parents once, at its end; a longer one only groups the cells,
 * asks by the darts of the smaller group whether two of them share a line, and is drawn at its end. Sizes and lengths are the
 * caller's business. */

#include "plain.h"

typedef uint16_t u16;

void *memset(void *to, int byte, unsigned long count);
int memcmp(const void *a, const void *b, unsigned long count);

enum { WIDEST = PLAIN_WIDEST, TALLEST = 72, ROW = WIDEST + 1, CELLS = WIDEST * TALLEST, POINTS = ROW * (TALLEST + 1) };
enum { SLOTS = 4 * POINTS, RIM = 2 * ROW + 1 };
enum { EAST, SOUTH, WEST, NORTH };
enum { MARK = 65535 };

/* All ones where a test is passed: the mark. */
static u16 ones(int test) { return (u16)-test; }

/* The root of a node. Each node on the way is led past the next. */
static u16 root_of(u16 *up, u16 k) {
    while (up[k] != k) k = up[k] = up[up[k]];
    return k;
}

/* A node more, in one tree with the node before it, with the one above it, with both or with none; the entries of these
 * two are given, and all ones for the one that is not of its tree. The least node of a tree is its root. Returns the entry
 * of the new node. Only whether the two entries differ is a branch, so the test is one number. */
static inline u16 plant(u16 *up, u16 node, u16 no_before, u16 before, u16 no_above, u16 above) {
    u16 stead = above ^ (no_above & (above ^ node)), a = no_before ? stead : before;
    if ((a ^ above) & ~no_above) {
        a = root_of(up, a);
        above = root_of(up, above);
        u16 smaller = a < above ? a : above;
        up[a] = up[above] = smaller;
        a = smaller;
    }
    up[node] = a;
    return a;
}

/* Names with the outside, 0, round them: the cell north-west of point p is at p, the others round it are at p + 1,
 * p + row and p + row + 1, where a row has width + 1 points. */
static u16 names[POINTS + ROW + 1];

static void name_cells(int width, int height, const u16 *restrict sheet) {
    static u16 up_and_rim[WIDEST + CELLS], not_left[CELLS], not_above[CELLS];
    u16 *up = up_and_rim + WIDEST;
    int row = width + 1, cells = width * height;
    for (int c = 1; c < cells; c++) not_left[c] = ones(sheet[c - 1] != sheet[c]);
    for (int c = 0; c < cells; c += width) not_left[c] = MARK;
    memset(not_above, 255, sizeof(u16) * (unsigned long)width);
    for (int c = width; c < cells; c++) not_above[c] = ones(sheet[c - width] != sheet[c]);
    u16 before = 0;
    for (int c = 0; c < cells; c++) before = plant(up, (u16)c, not_left[c], before, not_above[c], up[c - width]);
    memset(names, 0, sizeof(u16) * (unsigned long)(row * (height + 2) + 1));
    for (int y = 0, c = 0; y < height; y++)
        for (int x = 0; x < width; x++, c++) {
            up[c] = up[up[c]];
            names[(y + 1) * row + x + 1] = up[c] + 1;
        }
}

/* The lines that are not there: all ones where point p has no line east, or none south, else 0. Its line west is the
 * line east of point p - 1, its line north the line south of point p - row. No line leads out of the sheet. More of the rim
 * is read below, but whatever comes of it, the mark is laid over. */
static u16 east_and_rim[RIM + POINTS + RIM], south_and_rim[RIM + POINTS + RIM];
static u16 *const no_east = east_and_rim + RIM, *const no_south = south_and_rim + RIM;

static void find_lines(int row, int points) {
    no_east[-1] = MARK;
    memset(no_south - row, 255, sizeof(u16) * (unsigned long)row);
    for (int p = 0; p < points; p++) no_east[p] = ones(names[p + 1] == names[p + row + 1]);
    for (int p = 0; p < points; p++) no_south[p] = ones(names[p + row] == names[p + row + 1]);
}

/* North is written first: in the other order the compiler takes one point at a time, not eight. */
static void sides(int row, int points, u16 *restrict side) {
    for (int p = 0; p < points; p++) {
        side[4 * p + NORTH] = names[p + 1] | no_south[p - row];
        side[4 * p + WEST] = names[p] | no_east[p - 1];
        side[4 * p + SOUTH] = names[p + row] | no_south[p];
        side[4 * p + EAST] = names[p + row + 1] | no_east[p];
    }
}

/* The first that is there of right turn, straight on, left turn and back, by arithmetic; the line back is there. */
static inline u16 turn(u16 heading, u16 no_right, u16 no_straight, u16 no_left) {
    u16 right = (heading + 1) & 3, left = (heading + 3) & 3, back = heading ^ 2;
    u16 past_straight = left ^ (no_left & (left ^ back));
    u16 past_right = heading ^ (no_straight & (heading ^ past_straight));
    return right ^ (no_right & (right ^ past_right));
}

static void nexts(int row, int points, u16 *restrict next) {
    for (int p = 0; p < points; p++) {
        int e = p + 1, s = p + row, w = p - 1, n = p - row;
        next[4 * p + EAST] = (u16)(4 * e + turn(EAST, no_south[e], no_east[e], no_south[e - row])) | no_east[p];
        next[4 * p + SOUTH] = (u16)(4 * s + turn(SOUTH, no_east[s - 1], no_south[s], no_east[s])) | no_south[p];
        next[4 * p + WEST] = (u16)(4 * w + turn(WEST, no_south[w - row], no_east[w - 1], no_south[w])) | no_east[w];
        next[4 * p + NORTH] = (u16)(4 * n + turn(NORTH, no_east[n], no_south[n - row], no_east[n - 1])) | no_south[n];
    }
}

/* The least point of the piece of each point. */
static u16 piece_and_rim[ROW + POINTS];
static u16 *const piece = piece_and_rim + ROW;

static void find_pieces(int row, int points) {
    u16 before = 0;
    for (int p = 0; p < points; p++)
        before = plant(piece, (u16)p, no_east[p - 1], before, no_south[p - row], piece[p - row]);
    for (int p = 0; p < points; p++) piece[p] = piece[piece[p]];
}

/* 1 for each point that level 3 keeps, else 0; and 1 at the place that the mark would lead to. */
static u16 kept[MARK / 4 + 1];

static void keep(int row, int points) {
    static u16 large[POINTS], bare[POINTS], met[POINTS];
    for (int p = 0; p < points; p++) {
        u16 lines = (u16)(4 + no_east[p] + no_south[p] + no_east[p - 1] + no_south[p - row]);
        large[p] = lines > 2;
        bare[p] = lines == 0;
    }
    /* Whether a piece has a point of three or four lines, at its least point. No point's least is after the point, so
     * a point at hand has met none yet, and where it is not large its own 0 is written: nothing branches. */
    for (int p = 0; p < points; p++) met[p - (p - piece[p]) * large[p]] = large[p];
    for (int p = 0; p < points; p++) kept[p] = large[p] | ((piece[p] == p) & !bare[p] & !met[p]);
    kept[MARK / 4] = 1;
}

static void links(int row, int points, const u16 *restrict next1, u16 *restrict next3, u16 *restrict other3) {
    int step[4] = {1, row, -1, -row};
    memset(next3, 255, sizeof(u16) * 4 * (unsigned long)points);
    memset(other3, 255, sizeof(u16) * 4 * (unsigned long)points);
    for (int p = 0; p < points; p++) {
        if (!kept[p]) continue;
        for (int d = 0; d < 4; d++) {
            int dart = 4 * p + d;
            u16 after = next1[dart], last = (u16)dart;
            /* A dart that is not there is linked to the mark. */
            if (kept[after / 4]) {
                next3[dart] = after;
                other3[dart] = (u16)((after & ~3) | (d ^ 2)) | ones(after == MARK);
                continue;
            }
            if (other3[dart] != MARK) continue;
            do {
                last = after;
                after = next1[after];
            } while (!kept[after / 4]);
            int end = (after & ~3) | ((last & 3) ^ 2);
            next3[dart] = after;
            other3[dart] = (u16)end;
            next3[end] = next1[4 * (p + step[d]) + (d ^ 2)];
            other3[end] = (u16)dart;
        }
    }
}

static void parents(int width, int height, u16 *restrict parent) {
    int row = width + 1;
    parent[0] = MARK;
    for (int y = 0, name = 1; y < height; y++)
        for (int x = 0; x < width; x++, name++) {
            int corner = y * row + x;
            parent[name] = names[piece[corner] + 1] | ones(names[corner + row + 1] != name);
        }
}

/* The cells and the border lines of each region. A row of cells of one region, however long, has a left line and a right line,
 * a column an upper and a lower one; so a region has twice as many lines as its cells have to their left and above them.
 * Each point has the cell south-east of it add to the totals; right of the sheet and below it that is the outside, which is
 * set at the end whatever it was given. A name that no cell adds to is not in use. */
static void totals(int width, int height, u16 *restrict cells, u16 *restrict borders) {
    static u16 lines[POINTS], odd_cells[CELLS + 1], odd_borders[CELLS + 1];
    int row = width + 1, points = row * height, regions = width * height + 1;
    unsigned long each = sizeof(u16) * (unsigned long)regions;
    for (int p = 0; p < points; p++) lines[p] = (u16)(2 * (2 + no_south[p] + no_east[p]));
    memset(cells, 0, each);
    memset(borders, 0, each);
    memset(odd_cells, 0, each);
    memset(odd_borders, 0, each);
    for (int p = 0; p < points; p += 2) {
        u16 even = names[p + row + 1], odd = names[p + row + 2];
        cells[even]++;
        borders[even] += lines[p];
        odd_cells[odd]++;
        odd_borders[odd] += lines[p + 1];
    }
    for (int r = 0; r < regions; r++) {
        u16 sum = cells[r] + odd_cells[r], unused = ones(sum == 0);
        cells[r] = sum | unused;
        borders[r] = (u16)(borders[r] + odd_borders[r]) | unused;
    }
    cells[0] = 0;
    borders[0] = (u16)(2 * (width + height));
}

/* Draws from the names. */
static void draw_named(int width, int height, struct seven seven) {
    int row = width + 1, points = row * (height + 1);
    find_lines(row, points);
    totals(width, height, seven.cells, seven.borders);
    sides(row, points, seven.side1);
    nexts(row, points, seven.next1);
    find_pieces(row, points);
    keep(row, points);
    links(row, points, seven.next1, seven.next3, seven.other3);
    parents(width, height, seven.parent);
}

void plain_draw(int width, int height, const u16 *sheet, struct seven seven) {
    name_cells(width, height, sheet);
    draw_named(width, height, seven);
}

/* The names of the cells, read off the sides of the lines to their left. */
static u16 read_names[CELLS];

static void names_of(int width, int height, const u16 *side1) {
    for (int y = 0, c = 0; y < height; y++) {
        u16 name = MARK;
        for (int x = 0; x < width; x++, c++) {
            u16 side = side1[4 * ((y + 1) * (width + 1) + x) + NORTH];
            name = side != MARK ? side : name;
            read_names[c] = name;
        }
    }
}

int plain_check(int width, int height, struct seven seven) {
    static u16 next1[SLOTS], side1[SLOTS], next3[SLOTS], other3[SLOTS], parent[CELLS + 1], cells[CELLS + 1], borders[CELLS + 1];
    unsigned long slots = sizeof(u16) * 4 * (unsigned long)((width + 1) * (height + 1));
    unsigned long regions = sizeof(u16) * (unsigned long)(width * height + 1);
    names_of(width, height, seven.side1);
    plain_draw(width, height, read_names, (struct seven){next1, side1, next3, other3, parent, cells, borders});
    return !memcmp(seven.next1, next1, slots) && !memcmp(seven.side1, side1, slots) && !memcmp(seven.next3, next3, slots) &&
           !memcmp(seven.other3, other3, slots) && !memcmp(seven.parent, parent, regions) && !memcmp(seven.cells, cells, regions) &&
           !memcmp(seven.borders, borders, regions);
}

/* A run is walked once, for both of its ends: from the other end a right turn is a left turn. How a step turns is told by the
 * directions before and after it. */
int plain_turns(int width, int height, struct seven seven, u16 *restrict right, u16 *restrict left) {
    int slots = 4 * (width + 1) * (height + 1);
    if (!plain_check(width, height, seven)) return 0;
    memset(right, 0xff, sizeof(u16) * (unsigned long)slots);
    memset(left, 0xff, sizeof(u16) * (unsigned long)slots);
    for (int d = 0; d < slots; d++) {
        int end = seven.next3[d], other = seven.other3[d];
        if (end == MARK || other < d) continue;
        u16 turns[4] = {0, 0, 0, 0};
        for (int e = d, f; (f = seven.next1[e]) != end; e = f) turns[(f - e) & 3]++;
        right[d] = left[other] = turns[1];
        left[d] = right[other] = turns[3];
    }
    return 1;
}

/* The darts of the two regions that are joined, in order, and whether the two share a dart's line. */
static u16 listed[SLOTS];
static unsigned char gone[MARK + 1];

/* Most parts of the table have no dart of the two, so parts are asked first. */
static int list_darts(int slots, const u16 *side, int a, int b) {
    enum { PART = 32 };
    int count = 0;
    for (int low = 0; low < slots; low += PART) {
        int high = low + PART < slots ? low + PART : slots, any = 0;
        for (int d = low; d < high; d++) any |= (side[d] == a) | (side[d] == b);
        if (!any) continue;
        for (int d = low; d < high; d++) {
            listed[count] = (u16)d;
            count += (side[d] == a) | (side[d] == b);
        }
    }
    return count;
}

/* The lines that a and b share, and how many darts these have. */
static int find_gone(int row, int count, const u16 *side, int a, int b) {
    int step[4] = {1, row, -1, -row}, found = 0;
    for (int i = 0; i < count; i++) {
        int d = listed[i], back = 4 * (d / 4 + step[d & 3]) + ((d & 3) ^ 2);
        gone[d] = side[d] + side[back] == a + b;
        found += gone[d];
    }
    return found;
}

/* Step 1: what leads to a dart that goes leads past it. The other of a dart that goes goes too, so both keep their links
 * till all is led past them. */
static void lead_past(int row, int count, struct seven seven) {
    int step[4] = {1, row, -1, -row};
    for (int i = 0; i < count; i++) {
        int d = listed[i];
        if (gone[d]) continue;
        u16 after = seven.next1[d];
        while (gone[after]) after = seven.next1[4 * (after / 4 + step[after & 3]) + ((after & 3) ^ 2)];
        seven.next1[d] = after;
        after = seven.next3[d];
        while (gone[after]) after = seven.next3[seven.other3[after]];
        seven.next3[d] = after;
    }
}

/* Step 1 and the sides of step 5: darts that go have no entries any more; the larger name becomes the smaller. What is
 * left in the list are the darts that went. */
static int take_out(int count, struct seven seven, int smaller) {
    int went = 0;
    for (int i = 0; i < count; i++) {
        int d = listed[i], p = d / 4;
        seven.side1[d] = (u16)smaller;
        if (!gone[d]) continue;
        gone[d] = 0;
        seven.next1[d] = seven.side1[d] = seven.next3[d] = seven.other3[d] = MARK;
        if ((d & 3) == EAST) no_east[p] = MARK;
        if ((d & 3) == SOUTH) no_south[p] = MARK;
        listed[went++] = (u16)d;
    }
    return went;
}

/* Whether exactly two darts leave a point in a table; the first and the last of them. */
static int two(const u16 *next, int p, int *first, int *last) {
    int found = 0;
    for (int d = 4 * p + 3; d >= 4 * p; d--)
        if (next[d] != MARK) {
            if (!found++) *last = d;
            *first = d;
        }
    return found == 2;
}

/* Step 3 at a point. */
static void smooth(struct seven seven, int p) {
    int u, v;
    if (!two(seven.next3, p, &u, &v) || seven.other3[u] == v) return;
    int x = seven.other3[u], y = seven.other3[v];
    seven.next3[x] = seven.next3[v];
    seven.next3[y] = seven.next3[u];
    seven.other3[x] = (u16)y;
    seven.other3[y] = (u16)x;
    seven.next3[u] = seven.next3[v] = seven.other3[u] = seven.other3[v] = MARK;
}

/* Step 4 at a point. The anchor is found by going round the curve. */
static void close_curve(struct seven seven, int p) {
    int u, v, e, f;
    if (!two(seven.next3, p, &u, &v) || seven.other3[u] != v || !two(seven.next1, p, &e, &f)) return;
    int least = e;
    for (int d = seven.next1[e]; d != e; d = seven.next1[d]) least = d < least ? d : least;
    two(seven.next1, least / 4, &e, &f);
    seven.next3[u] = seven.next3[v] = seven.other3[u] = seven.other3[v] = MARK;
    seven.next3[e] = seven.other3[f] = (u16)e;
    seven.next3[f] = seven.other3[e] = (u16)f;
}

/* The totals of the joined region: the darts that went are no border lines any more. */
static void add_totals(struct seven seven, int smaller, int larger, int went) {
    seven.cells[smaller] += seven.cells[larger];
    seven.borders[smaller] += seven.borders[larger] - went;
    seven.cells[larger] = seven.borders[larger] = MARK;
}

/* Judges the names and joins, in a drawing whose lines were found, all but the parents; the larger name has none any more. */
static int join_two(int width, int height, struct seven seven, int a, int b) {
    if (a == 0 || b == 0) return 6;
    if (a == b) return 7;
    if (a > width * height || b > width * height || seven.parent[a] == MARK || seven.parent[b] == MARK) return 8;
    int row = width + 1, count = list_darts(4 * row * (height + 1), seven.side1, a, b);
    if (!find_gone(row, count, seven.side1, a, b)) return 9;
    int smaller = a < b ? a : b, larger = a + b - smaller;
    lead_past(row, count, seven);
    int went = take_out(count, seven, smaller);
    for (int i = 0; i < went; i++) smooth(seven, listed[i] / 4);
    for (int i = 0; i < went; i++) close_curve(seven, listed[i] / 4);
    add_totals(seven, smaller, larger, went);
    seven.parent[larger] = MARK;
    return 0;
}

/* The parents of the names in use, from the lines and their sides: the region above the line east of a piece's least point. */
static void find_parents(int width, int height, struct seven seven) {
    int row = width + 1;
    find_pieces(row, row * (height + 1));
    for (int y = 0, name = 1; y < height; y++)
        for (int x = 0; x < width; x++, name++) {
            int back = 4 * (piece[y * row + x] + 1) + WEST;
            seven.parent[name] = seven.side1[back] | ones(seven.parent[name] == MARK);
        }
}

int plain_join(int width, int height, struct seven seven, int a, int b) {
    if (!plain_check(width, height, seven)) return 5;
    int number = join_two(width, height, seven, a, b);
    if (!number) find_parents(width, height, seven);
    return number;
}

/* Groups of cells: a forest of first cells; and the darts of each group, in a list that ends with the mark, by the name of the
 * group. */
static u16 group_up[CELLS], dart_after[SLOTS], first_dart[CELLS + 1], last_dart[CELLS + 1];

static u16 group_of(u16 name) { return name ? root_of(group_up, name - 1) + 1 : 0; }

/* At first the regions, by the names that the check read off the sides. */
static void start_groups(int width, int height, const u16 *restrict side) {
    int cells = width * height;
    for (int c = 0; c < cells; c++) group_up[c] = read_names[c] - 1;
    memset(first_dart, 0xff, sizeof(u16) * (unsigned long)(cells + 1));
    for (int d = 4 * (width + 1) * (height + 1) - 1; d >= 0; d--) {
        u16 name = side[d];
        if (name == MARK) continue;
        u16 after = first_dart[name];
        dart_after[d] = after;
        first_dart[name] = (u16)d;
        if (after == MARK) last_dart[name] = (u16)d;
    }
}

/* Whether a dart of the group a has the group b on its left hand. */
static int meets(int row, const u16 *side, int a, int b) {
    int step[4] = {1, row, -1, -row};
    for (int d = first_dart[a]; d != MARK; d = dart_after[d])
        if (group_of(side[4 * (d / 4 + step[d & 3]) + ((d & 3) ^ 2)]) == b) return 1;
    return 0;
}

/* Judges the names and puts the two groups together; cells has the cells of each group. */
static int group_two(int width, int height, struct seven seven, int a, int b) {
    u16 *cells = seven.cells;
    if (a == 0 || b == 0) return 6;
    if (a == b) return 7;
    if (a > width * height || b > width * height || cells[a] == MARK || cells[b] == MARK) return 8;
    if (!(cells[a] < cells[b] ? meets(width + 1, seven.side1, a, b) : meets(width + 1, seven.side1, b, a))) return 9;
    int smaller = a < b ? a : b, larger = a + b - smaller;
    cells[smaller] += cells[larger];
    cells[larger] = MARK;
    group_up[larger - 1] = (u16)(smaller - 1);
    dart_after[last_dart[smaller]] = first_dart[larger];
    last_dart[smaller] = last_dart[larger];
    return 0;
}

/* The drawing of the groups. */
static void draw_groups(int width, int height, struct seven seven) {
    int row = width + 1;
    memset(names, 0, sizeof(u16) * (unsigned long)(row * (height + 2) + 1));
    for (int y = 0, c = 0; y < height; y++)
        for (int x = 0; x < width; x++, c++) {
            group_up[c] = group_up[group_up[c]];
            names[(y + 1) * row + x + 1] = group_up[c] + 1;
        }
    draw_named(width, height, seven);
}

int plain_join_list(int width, int height, struct seven seven, const u16 *list, int pairs, int *place) {
    enum { LONG = 10 };
    int number = plain_check(width, height, seven) ? 0 : 5, k = 0;
    if (!number && pairs >= LONG) start_groups(width, height, seven.side1);
    while (!number && k < pairs) {
        number = (pairs < LONG ? join_two : group_two)(width, height, seven, list[2 * k], list[2 * k + 1]);
        k += !number;
    }
    if (k) (pairs < LONG ? find_parents : draw_groups)(width, height, seven);
    if (number) *place = k;
    return number;
}
