/* The library's speed as ratios to plain C (plain.c), both compiled for this machine and measured in one run.
 *
 * A batch of sheets is drawn, then checked, its turns counted, then joined, each by one side and then by the other, on buffers
 * that are warm, in several rounds. Of each sheet, place and job the least of the rounds counts, and the times of all sheets are
 * added. Lists of joins are done on fewer sheets, by both sides, and by the library join by join too; lists of all joins that there are
 * on one sheet of each size.
 * Random sheets are so many that the machine cannot learn which way the branches go, neither from one round to the next
 * nor from a sheet's drawing to its check. The answers of both sides are compared. Prints tables in Markdown. */

#include "../include/raimenolta.h"
#include <plain.h>

typedef uint16_t u16;

struct instant {
    long seconds, nanoseconds;
};
int clock_gettime(int clock, struct instant *now);
int printf(const char *format, ...) __attribute__((format(printf, 1, 2)));
int dprintf(int file, const char *format, ...) __attribute__((format(printf, 2, 3)));
int memcmp(const void *a, const void *b, unsigned long count);
int strcmp(const char *a, const char *b);
void *memcpy(void *to, const void *from, unsigned long count);
_Noreturn void exit(int status);

enum { MARK = 65535, MONOTONIC = 1, ERRORS = 2 };

/* A rival from before wide sheets does not say how wide a sheet may be. */
#ifndef PLAIN_WIDEST
#define PLAIN_WIDEST 72
#endif

/* One from before the turns of curves does not count them; their columns are then left out. */
#ifndef PLAIN_TURNS
#define PLAIN_TURNS 0
#define plain_turns(width, height, tables, right, left) 0
#endif

/* One from before lists of joins does none; their table is then left out. */
#ifndef PLAIN_LISTS
#define PLAIN_LISTS 0
#define plain_join_list(width, height, tables, list, pairs, place) 0
#endif

/* One from before the totals draws five tables; only these are then compared. */
#ifdef PLAIN_TOTALS
#define RIVALS(seven) seven
#else
#define PLAIN_TOTALS 0
struct seven {
    u16 *next1, *side1, *next3, *other3, *parent, *cells, *borders;
};
#define RIVALS(seven) ((struct five){seven.next1, seven.side1, seven.next3, seven.other3, seven.parent})
#endif

/* The sizes that are measured, the widest where the rival takes it, and the kinds of sheets. */
enum { LEAST = 4, TALLEST = 72, WIDEST = 110, KINDS = 5 };
enum { AT_18 = 2, AT_72 = 4, AT_WIDEST = 5, SIZES = PLAIN_WIDEST < WIDEST ? AT_WIDEST : AT_WIDEST + 1, FOUR_LABELS = 1 };
static const struct size {
    int width, height;
} sizes[AT_WIDEST + 1] = {{LEAST, LEAST}, {9, 9}, {18, 18}, {36, 36}, {72, 72}, {WIDEST, TALLEST}};
static const char *const names[KINDS] = {"2 random labels", "4 random labels", "16 random labels", "all different",
                                         "nested squares"};

/* A batch is as many sheets of one size as have at most the cells of four sheets of 72 by 72. So many batches are gone
 * through in so many rounds; regions are joined in so many places of a sheet. */
enum { SQUARE = 72 * 72, CELLS = 4 * SQUARE, BATCHES = 10, ROUNDS = 8, PLACES = 4 };

/* The most sheets of a batch, and its most slots and names: those of the smallest sheets. */
enum { MOST = CELLS / (LEAST * LEAST), SLOTS = 4 * (LEAST + 1) * (LEAST + 1) * MOST, NAMES = (LEAST * LEAST + 1) * MOST };

/* Lists are of so many joins each, or of as many as there can be, on the sheets of so many batches of 72 by 72; the longest only on
 * so many of these sheets. */
enum { LISTS = 3, LONGEST = 300, LIST_BATCHES = 2, LISTED = LIST_BATCHES * CELLS / SQUARE, LONG_LISTED = 2 };
static const int joins[LISTS] = {1, 10, LONGEST};

/* Lists of all joins that there are, by how they go about it: over the darts in order or by chance; cells of two combs that interlock,
 * and then the two; the cells of the rim, a ring that closes round all others. And by chance on a sheet of square regions, the edges
 * of these twice as long from one to the next. */
enum { IN_ORDER, BY_CHANCE, SQUARES, COMBS, RING, ORDERS, ALL = WIDEST * TALLEST, SINGLY = 2, ROUNDS_SINGLY = 2 };
enum { EDGE = 64, EDGES = 5 };
static const char *const orders[ORDERS] = {"all different, in the order of darts", "all different, by chance", "nested squares",
                                           "all different, two combs that interlock", "all different, a ring round all others"};

/* Room for the seven tables of each sheet of a batch and its two tables of turns, the tables of one side. */
struct room {
    u16 next1[SLOTS], side1[SLOTS], next3[SLOTS], other3[SLOTS], parent[NAMES], cells[NAMES], borders[NAMES];
    u16 right[SLOTS], left[SLOTS];
};

static struct room our_room, plain_room;
static u16 work[4][4 * (WIDEST + 1) * (TALLEST + 1)];

/* The editor who joins, and who owns every name; whether this join comes before the one that it is compared with. */
enum { EDITOR = 2 };
static u16 owners[ALL + 1];
static int editor_first;

/* The sheets of one kind and size, and the batch at hand. */
static u16 sheets[BATCHES * CELLS], batch[CELLS];

/* The size of the sheets, and how many a batch has. */
static int width, height, cells, slots, count;

static double now(void) {
    struct instant t;
    clock_gettime(MONOTONIC, &t);
    return (double)t.seconds * 1e6 + (double)t.nanoseconds / 1e3;
}

static void need(int holds, const char *what) {
    if (holds) return;
    dprintf(ERRORS, "bench: %s\n", what);
    exit(1);
}

/* The sheet at hand, its tables of both sides, two regions of it, and a list of such, of so many pairs. */
struct hand {
    const u16 *sheet;
    struct seven our, plain;
    struct turns {
        u16 *right, *left;
    } our_turns, plain_turns;
    int a, b, pairs;
    const u16 *list;
};

static struct seven tables(struct room *room, int n) {
    int at = n * slots, name = n * (cells + 1);
    return (struct seven){room->next1 + at,    room->side1 + at,   room->next3 + at,    room->other3 + at,
                          room->parent + name, room->cells + name, room->borders + name};
}

static struct turns turns(struct room *room, int n) {
    return (struct turns){room->right + n * slots, room->left + n * slots};
}

static struct hand take(int n) {
    return (struct hand){batch + n * cells,   tables(&our_room, n),  tables(&plain_room, n),
                         turns(&our_room, n), turns(&plain_room, n), 0, 0, 0, 0};
}

static int same(struct seven a, struct seven b) {
    unsigned long links = sizeof(u16) * (unsigned long)slots, regions = sizeof(u16) * (unsigned long)(cells + 1);
    return !memcmp(a.next1, b.next1, links) && !memcmp(a.side1, b.side1, links) && !memcmp(a.next3, b.next3, links) &&
           !memcmp(a.other3, b.other3, links) && !memcmp(a.parent, b.parent, regions) &&
           (!PLAIN_TOTALS || (!memcmp(a.cells, b.cells, regions) && !memcmp(a.borders, b.borders, regions)));
}

static int same_turns(struct turns a, struct turns b) {
    unsigned long each = sizeof(u16) * (unsigned long)slots;
    return !memcmp(a.right, b.right, each) && !memcmp(a.left, b.left, each);
}

#define LINKS(t) t, (size_t)slots
#define REGIONS(t) t, (size_t)cells + 1
#define SEVEN(s) \
    LINKS(s.next1), LINKS(s.side1), LINKS(s.next3), LINKS(s.other3), REGIONS(s.parent), REGIONS(s.cells), REGIONS(s.borders)
#define WORKS LINKS(work[0]), LINKS(work[1]), LINKS(work[2]), LINKS(work[3])

static void our_draw(struct hand h) {
    need(!raimenolta_draw((u16)width, (u16)height, h.sheet, (size_t)cells, SEVEN(h.our), WORKS), "the library refuses a sheet");
}

static void our_check(struct hand h) {
    need(!raimenolta_check((u16)width, (u16)height, SEVEN(h.our), WORKS), "the library refuses a drawing");
}

static void our_turns(struct hand h) {
    need(!raimenolta_turns((u16)width, (u16)height, SEVEN(h.our), LINKS(h.our_turns.right), LINKS(h.our_turns.left), WORKS),
         "the library refuses a drawing");
}

static void our_join(struct hand h) {
    need(!raimenolta_join((u16)width, (u16)height, SEVEN(h.our), (u16)h.a, (u16)h.b, WORKS), "the library refuses a join");
}

static void our_join_as(struct hand h) {
    need(!raimenolta_join_as((u16)width, (u16)height, SEVEN(h.our), REGIONS(owners), EDITOR, (u16)h.a, (u16)h.b, WORKS),
         "the library refuses an editor's join");
}

static void our_list(struct hand h) {
    u16 place;
    need(!raimenolta_join_list((u16)width, (u16)height, SEVEN(h.our), h.list, 2 * (size_t)h.pairs, &place, WORKS),
         "the library refuses a list of joins");
}

static void its_draw(struct hand h) { plain_draw(width, height, h.sheet, RIVALS(h.plain)); }

static void its_check(struct hand h) { need(plain_check(width, height, RIVALS(h.plain)), "plain C refuses a drawing"); }

static void its_turns(struct hand h) {
    need(plain_turns(width, height, RIVALS(h.plain), h.plain_turns.right, h.plain_turns.left), "plain C refuses a drawing");
}

static void its_join(struct hand h) { need(!plain_join(width, height, RIVALS(h.plain), h.a, h.b), "plain C refuses a join"); }

static void its_list(struct hand h) {
    int place = 0;
    need(!plain_join_list(width, height, RIVALS(h.plain), h.list, h.pairs, &place) && !place,
         "plain C refuses a list of joins");
}

/* The times of one side for the cells of 72 by 72, in microseconds. */
struct times {
    double draw, check, turns, join, join_as, join_beside;
};

/* The least that each job took, in microseconds, of each kind, size, place and sheet, and of both sides. */
struct least {
    float draw, check, turns, join, join_as, join_beside;
};
static struct least our_least[KINDS][SIZES][PLACES][BATCHES][MOST], plain_least[KINDS][SIZES][PLACES][BATCHES][MOST];

/* What it takes to read the clock. */
static double clock_takes;

static void find_clock(void) {
    clock_takes = 1e9;
    for (int k = 0; k < 10000; k++) {
        double began = now(), took = now() - began;
        if (took < clock_takes) clock_takes = took;
    }
}

static void keep(float *least, double began) {
    float took = (float)(now() - began - clock_takes);
    if (took < 0) took = 0;
    if (*least == 0 || took < *least) *least = took;
}

/* The two regions beside the first line between regions from a slot on. */
static void find_pair(struct hand *h, int slot) {
    int far[4] = {1, width + 1, -1, -width - 1};
    const u16 *side1 = h->our.side1;
    for (int k = 0; k < slots; k++) {
        int dart = slot + k < slots ? slot + k : slot + k - slots;
        if (side1[dart] == MARK) continue;
        h->a = side1[dart];
        h->b = side1[4 * (dart / 4 + far[dart % 4]) + (dart % 4 ^ 2)];
        if (h->a != 0 && h->b != 0) return;
    }
    need(0, "no two regions share a line");
}

static void timed(void (*job)(struct hand), struct hand h, float *least) {
    double began = now();
    job(h);
    keep(least, began);
}

/* The batch at hand: its sheets are drawn, then checked, their turns counted, then in each two regions joined, at a place; each
 * job by one side and then by the other. Last the library joins the two as anyone and as an editor, each time in a drawing just
 * drawn; which of these comes first changes from round to round. */
static void run(struct least *our, struct least *plain, int place) {
    static struct hand h[MOST];
    for (int n = 0; n < count; n++) h[n] = take(n);
    for (int n = 0; n < count; n++) timed(our_draw, h[n], &our[n].draw);
    for (int n = 0; n < count; n++) timed(its_draw, h[n], &plain[n].draw);
    for (int n = 0; n < count; n++) {
        need(same(h[n].our, h[n].plain), "the two drawings differ");
        find_pair(&h[n], (place + 1) * slots / (PLACES + 1));
    }
    for (int n = 0; n < count; n++) timed(our_check, h[n], &our[n].check);
    for (int n = 0; n < count; n++) timed(its_check, h[n], &plain[n].check);
    if (PLAIN_TURNS) {
        for (int n = 0; n < count; n++) timed(our_turns, h[n], &our[n].turns);
        for (int n = 0; n < count; n++) timed(its_turns, h[n], &plain[n].turns);
        for (int n = 0; n < count; n++) need(same_turns(h[n].our_turns, h[n].plain_turns), "the two counts of turns differ");
    }
    for (int n = 0; n < count; n++) timed(our_join, h[n], &our[n].join);
    for (int n = 0; n < count; n++) timed(its_join, h[n], &plain[n].join);
    for (int n = 0; n < count; n++) need(same(h[n].our, h[n].plain), "the two joins differ");
    for (int n = 0; n < count; n++)
        for (int k = 0; k < 2; k++) {
            our_draw(h[n]);
            if (k == editor_first) timed(our_join, h[n], &our[n].join_beside);
            else timed(our_join_as, h[n], &our[n].join_as);
            need(same(h[n].our, h[n].plain), "the editor's join differs");
        }
}

/* The longest list of a sheet, how many pairs of it each list has, and the least that these took; and that its joins took, each as a
 * call of its own, and a check just before it, but for the first. */
struct listed {
    u16 list[2 * LONGEST];
    int pairs[LISTS];
    float our[LISTS], plain[LISTS], check[LONGEST], join[LONGEST];
};
static struct listed listed[KINDS][LISTED];

static uint32_t seed;

/* The low bits of such a generator repeat soon, so the high ones are used. */
static int random_below(int bound) {
    seed = seed * 1664525u + 1013904223u;
    return (int)((seed >> 16) * (uint32_t)bound >> 16);
}

/* A sheet of random labels, of two regions at least. */
static void random_sheet(u16 *to, int labels) {
    int alike = 1;
    for (int c = 0; c < cells; c++) {
        to[c] = (u16)random_below(labels);
        alike &= to[c] == to[0];
    }
    if (alike) to[0] ^= 1;
}

static void different_sheet(u16 *to) {
    for (int c = 0; c < cells; c++) to[c] = (u16)c;
}

static void nested_sheet(u16 *to) {
    for (int c = 0; c < cells; c++) {
        int x = c % width, y = c / width;
        int across = x < width - 1 - x ? x : width - 1 - x, down = y < height - 1 - y ? y : height - 1 - y;
        to[c] = (u16)(across < down ? across : down);
    }
}

/* The sheets of a kind and a size. Those of a kind that is not random are all alike. */
static void make_sheets(int kind, int size) {
    static const int labels[3] = {2, 4, 16};
    width = sizes[size].width;
    height = sizes[size].height;
    cells = width * height;
    slots = 4 * (width + 1) * (height + 1);
    count = CELLS / cells;
    seed = 1;
    for (int n = 0; n < BATCHES * count; n++) {
        u16 *to = sheets + n * cells;
        if (kind < 3)
            random_sheet(to, labels[kind]);
        else if (kind == 3)
            different_sheet(to);
        else
            nested_sheet(to);
    }
}

static void lay(int n) { memcpy(batch, sheets + n * count * cells, sizeof(u16) * (unsigned long)(count * cells)); }

/* All sheets of a kind and a size, at each place: a sheet comes again after all the others. */
static void go_round(int kind, int size) {
    make_sheets(kind, size);
    for (int place = 0; place < PLACES; place++)
        for (int n = 0; n < BATCHES; n++) {
            lay(n);
            run(our_least[kind][size][place][n], plain_least[kind][size][place][n], place);
        }
}

static u16 root_of(const u16 *up, int name) {
    while (up[name] != name) name = up[name];
    return (u16)name;
}

/* A list for a sheet that is drawn: the regions beside lines here and there, by the names that they have by then. How many pairs
 * it has. */
static int make_list(struct hand h, u16 *list, int most) {
    static u16 up[SQUARE + 1];
    int pairs = 0;
    for (int name = 0; name <= cells; name++) up[name] = (u16)name;
    for (int k = 0; k < slots && pairs < most; k++) {
        find_pair(&h, random_below(slots));
        u16 a = root_of(up, h.a), b = root_of(up, h.b);
        if (a == b) continue;
        list[2 * pairs] = a;
        list[2 * pairs++ + 1] = b;
        up[a > b ? a : b] = a < b ? a : b;
    }
    return pairs;
}

/* The lists of a kind's sheets. */
static void make_lists(int kind) {
    for (int n = 0; n < LISTED; n++) {
        struct listed *l = &listed[kind][n];
        struct hand h = take(n % count);
        if (n % count == 0) lay(n / count);
        our_draw(h);
        int pairs = make_list(h, l->list, n < LONG_LISTED ? LONGEST : joins[1]);
        for (int k = 0; k < LISTS; k++) l->pairs[k] = pairs < joins[k] ? pairs : joins[k];
        if (n >= LONG_LISTED) l->pairs[LISTS - 1] = 0;
    }
}

/* A list of each sheet of the batch at hand that has one, by one side and then by the other. */
static void run_lists(struct listed *l, int k) {
    struct hand h[LISTED];
    for (int n = 0; n < count; n++) {
        h[n] = take(n);
        h[n].list = l[n].list;
        h[n].pairs = l[n].pairs[k];
    }
    for (int n = 0; n < count; n++) our_draw(h[n]);
    for (int n = 0; n < count; n++) its_draw(h[n]);
    for (int n = 0; n < count; n++)
        if (h[n].pairs) timed(our_list, h[n], &l[n].our[k]);
    for (int n = 0; n < count; n++)
        if (h[n].pairs) timed(its_list, h[n], &l[n].plain[k]);
    for (int n = 0; n < count; n++) need(same(h[n].our, h[n].plain), "the two lists of joins differ");
}

/* The joins of the lists one by one. A check goes before each but the first; it knows its way from the join before, as the check
 * in the join after it does. */
static void run_singly(struct listed *l) {
    for (int n = 0; n < count; n++) our_draw(take(n));
    for (int n = 0; n < count; n++) {
        struct hand h = take(n);
        for (int k = 0; k < l[n].pairs[LISTS - 1] || k < l[n].pairs[1]; k++) {
            h.a = l[n].list[2 * k];
            h.b = l[n].list[2 * k + 1];
            if (k) timed(our_check, h, &l[n].check[k]);
            timed(our_join, h, &l[n].join[k]);
        }
    }
}

/* The lists of a kind. */
static void go_round_lists(int kind) {
    make_sheets(kind, AT_72);
    make_lists(kind);
    for (int k = 0; k <= LISTS; k++)
        for (int n = 0; n < LIST_BATCHES; n++) {
            lay(n);
            if (k < LISTS)
                run_lists(listed[kind] + n * count, k);
            else
                run_singly(listed[kind] + n * count);
        }
}

/* The list of all joins of an order, its pairs, and the least that it took by both sides, that a check took, and that its joins took
 * one by one. */
struct whole {
    u16 list[2 * ALL];
    int pairs;
    float our, plain, check, singly;
};
static struct whole whole[ORDERS][SIZES];

/* Whether an order joins two cells at once, before all others. */
static int early(int order, int a, int b) {
    int ax = a % width, ay = a / width, bx = b % width, by = b / width;
    if (order == COMBS) {
        int one = ax == 0 || (ax < width - 1 && ay % 2 == 0), two = bx == 0 || (bx < width - 1 && by % 2 == 0);
        return one == two;
    }
    int one = ax == 0 || ay == 0 || ax == width - 1 || ay == height - 1;
    int two = bx == 0 || by == 0 || bx == width - 1 || by == height - 1;
    return one && two;
}

/* The list of an order, from the sides of a sheet that is drawn. */
static void make_whole(int order, const u16 *side1, struct whole *all) {
    static u16 up[ALL + 1];
    static int darts[4 * (WIDEST + 1) * (TALLEST + 1)];
    int far[4] = {1, width + 1, -1, -width - 1}, passes = order == COMBS ? 2 : 1;
    for (int name = 0; name <= cells; name++) up[name] = (u16)name;
    for (int d = 0; d < slots; d++) darts[d] = d;
    for (int d = slots - 1; order == BY_CHANCE && d > 0; d--) {
        int other = random_below(d + 1), dart = darts[d];
        darts[d] = darts[other];
        darts[other] = dart;
    }
    all->pairs = 0;
    for (int pass = 0; pass < passes; pass++)
        for (int k = 0; k < slots; k++) {
            int d = darts[k];
            if (side1[d] == MARK) continue;
            int a = side1[d], b = side1[4 * (d / 4 + far[d % 4]) + (d % 4 ^ 2)];
            if (!a || !b || (order >= COMBS && !pass && !early(order, a - 1, b - 1))) continue;
            a = root_of(up, a);
            b = root_of(up, b);
            if (a == b) continue;
            all->list[2 * all->pairs] = (u16)a;
            all->list[2 * all->pairs++ + 1] = (u16)b;
            up[a > b ? a : b] = (u16)(a < b ? a : b);
        }
}

/* A sheet that both sides have drawn is checked, and its list done by one side and then by the other. */
static void run_whole(struct hand h, struct whole *all) {
    h.list = all->list;
    h.pairs = all->pairs;
    timed(our_check, h, &all->check);
    timed(our_list, h, &all->our);
    timed(its_list, h, &all->plain);
    need(same(h.our, h.plain), "the two lists of all joins differ");
}

static void go_round_whole(int order, int size, int round) {
    struct whole *all = &whole[order][size];
    make_sheets(order == SQUARES ? 4 : 3, size);
    lay(0);
    struct hand h = take(0);
    our_draw(h);
    its_draw(h);
    if (!round) make_whole(order, h.our.side1, all);
    run_whole(h, all);
    if (order >= SINGLY || size != AT_72 || round >= ROUNDS_SINGLY) return;
    our_draw(h);
    double began = now();
    for (int k = 0; k < all->pairs; k++) {
        h.a = all->list[2 * k];
        h.b = all->list[2 * k + 1];
        our_join(h);
    }
    keep(&all->singly, began);
}

/* Square regions of each edge: the list of all joins by chance, and the least that a drawing of the sheet took. */
static struct whole square[EDGES];
static float square_draw[EDGES];

static void go_round_edges(int round) {
    width = height = EDGE;
    cells = EDGE * EDGE;
    slots = 4 * (EDGE + 1) * (EDGE + 1);
    count = 1;
    for (int k = 0; k < EDGES; k++) {
        struct whole *all = &square[k];
        for (int c = 0; c < cells; c++) batch[c] = (u16)((c / EDGE >> k) * EDGE + (c % EDGE >> k));
        struct hand h = take(0);
        timed(our_draw, h, &square_draw[k]);
        its_draw(h);
        if (!round) make_whole(BY_CHANCE, h.our.side1, all);
        run_whole(h, all);
    }
}

/* The mean times. */
static struct times mean(struct least least[PLACES][BATCHES][MOST], int size) {
    struct times sum = {0, 0, 0, 0, 0, 0};
    int area = sizes[size].width * sizes[size].height, number = CELLS / area;
    double squares = (double)(PLACES * BATCHES * number) * area / SQUARE;
    for (int k = 0; k < PLACES * BATCHES; k++)
        for (int n = 0; n < number; n++) {
            struct least one = least[k / BATCHES][k % BATCHES][n];
            sum.draw += (double)one.draw / squares;
            sum.check += (double)one.check / squares;
            sum.turns += (double)one.turns / squares;
            sum.join += (double)one.join / squares;
            sum.join_as += (double)one.join_as / squares;
            sum.join_beside += (double)one.join_beside / squares;
        }
    return sum;
}

static struct times our[KINDS][SIZES], plain[KINDS][SIZES];

static void measure(void) {
    find_clock();
    for (int name = 0; name <= ALL; name++) owners[name] = EDITOR;
    for (int round = 0; round < ROUNDS; round++) {
        dprintf(ERRORS, "bench: round %d of %d\n", round + 1, ROUNDS);
        editor_first = round % 2;
        for (int size = 0; size < SIZES; size++)
            for (int kind = 0; kind < KINDS; kind++) go_round(kind, size);
        if (!PLAIN_LISTS) continue;
        for (int kind = 0; kind < KINDS; kind++) go_round_lists(kind);
        for (int order = 0; order < ORDERS; order++)
            for (int size = 1; size < SIZES; size++) go_round_whole(order, size, round);
        go_round_edges(round);
    }
    for (int size = 0; size < SIZES; size++)
        for (int kind = 0; kind < KINDS; kind++) {
            our[kind][size] = mean(our_least[kind][size], size);
            plain[kind][size] = mean(plain_least[kind][size], size);
        }
}

static double larger(double a, double b) { return a > b ? a : b; }

/* The greatest ratios, for the targets. */
static double most_draw, most_check, most_join, most_core;

static void against_plain(int kind, int size) {
    struct times o = our[kind][size], p = plain[kind][size];
    printf(" %.2f | %.2f | %.2f |", o.draw / p.draw, o.check / p.check, o.join / p.join);
    most_draw = larger(most_draw, o.draw / p.draw);
    most_check = larger(most_check, o.check / p.check);
}

static void plain_table(void) {
    printf("| sheet | 72 by 72: drawing / plain | check / plain | join / plain | 18 by 18: drawing / plain | check / plain "
           "| join / plain |\n|---|---|---|---|---|---|---|\n");
    for (int kind = 0; kind < KINDS; kind++) {
        printf("| %s |", names[kind]);
        against_plain(kind, AT_72);
        against_plain(kind, AT_18);
        printf("\n");
    }
}

/* What a cell costs at one size against another. */
static void growth(int kind, int size, int from) {
    struct times o = our[kind][size], f = our[kind][from];
    printf(" %.2f | %.2f | %.2f |", o.draw / f.draw, o.check / f.check, o.join / f.join);
}

static void wide_table(void) {
    if (SIZES <= AT_WIDEST) return;
    printf("\n| sheet | 110 by 72: drawing / plain | check / plain | join / plain | drawing, cost of a cell against 72 by 72 "
           "| check | join |\n|---|---|---|---|---|---|---|\n");
    for (int kind = 0; kind < KINDS; kind++) {
        printf("| %s |", names[kind]);
        against_plain(kind, AT_WIDEST);
        growth(kind, AT_WIDEST, AT_72);
        printf("\n");
    }
}

/* A join in drawings, with its check and without. */
static void in_drawings(int kind, int size, const char *between) {
    struct times o = our[kind][size];
    double whole = o.join / o.draw, core = (o.join - o.check) / o.draw;
    printf(" %.2f%s %.2f |", whole, between, core);
    most_join = larger(most_join, whole);
    most_core = larger(most_core, core);
}

static void drawings_table(void) {
    printf("\n| sheet, 72 by 72 | check / drawing | join / drawing | join without its check / drawing |\n"
           "|---|---|---|---|\n");
    for (int kind = 0; kind < KINDS; kind++) {
        printf("| %s | %.2f |", names[kind], our[kind][AT_72].check / our[kind][AT_72].draw);
        in_drawings(kind, AT_72, " |");
        printf("\n");
    }
}

/* The turns of the curves, with their check and without. */
static void turns_table(void) {
    if (!PLAIN_TURNS) return;
    printf("\n| sheet, 72 by 72 | turns / plain | without the check / plain | turns / drawing | without the check / drawing "
           "| cost of a cell against 18 by 18 |\n|---|---|---|---|---|---|\n");
    for (int kind = 0; kind < KINDS; kind++) {
        struct times o = our[kind][AT_72], p = plain[kind][AT_72], small = our[kind][AT_18];
        printf("| %s | %.2f | %.2f | %.2f | %.2f | %.2f |\n", names[kind], o.turns / p.turns,
               (o.turns - o.check) / (p.turns - p.check), o.turns / o.draw, (o.turns - o.check) / o.draw, o.turns / small.turns);
    }
}

/* What the lists of so many joins took, what plain C took for them, their parts, and their joins one by one. The parts of a list
 * are one check and its joins without theirs: its first join as it is, and the others less their checks. */
struct lists {
    double our, plain, parts, singly;
};

static struct lists sum_lists(int kind, int k) {
    struct lists sum = {0, 0, 0, 0};
    for (int n = 0; n < LISTED; n++) {
        const struct listed *l = &listed[kind][n];
        sum.our += (double)l->our[k];
        sum.plain += (double)l->plain[k];
        for (int j = 0; j < l->pairs[k]; j++) {
            sum.parts += (double)(l->join[j] - l->check[j]);
            sum.singly += (double)l->join[j];
        }
    }
    return sum;
}

static void lists_table(void) {
    if (!PLAIN_LISTS) return;
    printf("\n| sheet, 72 by 72 | 1 join: list / plain | list / one check and its joins without theirs | 10 joins: list / plain "
           "| list / such parts | %d joins, or all: list / plain | list / such parts | list / its joins one by one |\n"
           "|---|---|---|---|---|---|---|---|\n",
           LONGEST);
    for (int kind = 0; kind < KINDS; kind++) {
        struct lists l;
        printf("| %s |", names[kind]);
        for (int k = 0; k < LISTS; k++) {
            l = sum_lists(kind, k);
            printf(" %.2f | %.2f |", l.our / l.plain, l.our / l.parts);
        }
        printf(" %.2f |\n", l.our / l.singly);
    }
}

static void whole_table(void) {
    if (!PLAIN_LISTS) return;
    printf("\n| list of all joins: list / plain, and nanoseconds a join, the check left out |");
    for (int size = 1; size < SIZES; size++) printf(" %d by %d |", sizes[size].width, sizes[size].height);
    printf(" 72 by 72: joins | one by one / list |\n|---|");
    for (int size = 1; size < SIZES; size++) printf("---|");
    printf("---|---|\n");
    for (int order = 0; order < ORDERS; order++) {
        printf("| %s |", orders[order]);
        for (int size = 1; size < SIZES; size++) {
            struct whole *all = &whole[order][size];
            printf(" %.2f, %.0f |", (double)(all->our / all->plain), (double)(all->our - all->check) * 1e3 / all->pairs);
        }
        printf(" %d |", whole[order][AT_72].pairs);
        if (order < SINGLY) printf(" %.0f", (double)(whole[order][AT_72].singly / whole[order][AT_72].our));
        printf(" |\n");
    }
}

static void edges_table(void) {
    if (!PLAIN_LISTS) return;
    printf("\n| square regions, %d by %d; all joins, by chance | joins | list / plain | microseconds, the check left out "
           "| a drawing left out too |\n|---|---|---|---|---|\n",
           EDGE, EDGE);
    for (int k = 0; k < EDGES; k++) {
        double took = (double)(square[k].our - square[k].check);
        printf("| %d by %d | %d | %.2f | %.1f | %.1f |\n", 1 << k, 1 << k, square[k].pairs, (double)(square[k].our / square[k].plain), took,
               took - (double)square_draw[k]);
    }
}

static void small_table(void) {
    printf("\n| sheet; join with its check, and without, in drawings | 4 by 4 | 9 by 9 | 18 by 18 | 36 by 36 |\n"
           "|---|---|---|---|---|\n");
    for (int kind = 0; kind < KINDS; kind++) {
        printf("| %s |", names[kind]);
        for (int size = 0; size < AT_72; size++) in_drawings(kind, size, ",");
        printf("\n");
    }
}

static void editors_table(void) {
    printf("\n| an editor's join / a join |");
    for (int size = 0; size < SIZES; size++) printf(" %d by %d |", sizes[size].width, sizes[size].height);
    printf("\n|---|");
    for (int size = 0; size < SIZES; size++) printf("---|");
    printf("\n");
    for (int kind = 0; kind < KINDS; kind++) {
        printf("| %s |", names[kind]);
        for (int size = 0; size < SIZES; size++) printf(" %.3f |", our[kind][size].join_as / our[kind][size].join_beside);
        printf("\n");
    }
}

static void targets(void) {
    printf("\nA drawing takes at most %.2f times plain C (target 1.0), a check at most %.2f (target 1.1), at these "
           "sizes; a join, its check included, at most %.2f drawings (target 3), without its check %.2f (target 1).\n",
           most_draw, most_check, most_join, most_core);
}

static void growth_table(void) {
    printf("\n| 4 random labels | drawing, cost of a cell against 72 by 72 | check | join |\n|---|---|---|---|\n");
    for (int size = 1; size <= AT_72; size++) {
        printf("| %d by %d |", sizes[size].width, sizes[size].height);
        growth(FOUR_LABELS, size, AT_72);
        printf("\n");
    }
}

static void times_table(void) {
    printf("\n| sheet, 72 by 72; microseconds, of this machine only | drawing | check | turns | join |\n|---|---|---|---|---|\n");
    for (int kind = 0; kind < KINDS; kind++) {
        struct times o = our[kind][AT_72];
        printf("| %s | %.1f | %.1f | %.1f | %.1f |\n", names[kind], o.draw, o.check, o.turns, o.join);
    }
}

/* A job of one side once, on the first sheet of a kind, 72 by 72: what bench/run counts the instructions of. */
static void once(int kind, const char *job) {
    make_sheets(kind, AT_72);
    lay(0);
    struct hand h = take(0);
    if (!strcmp(job, "plain_draw")) {
        its_draw(h);
        return;
    }
    our_draw(h);
    plain_room = our_room;
    u16 list[2 * LONGEST];
    h.list = list;
    h.pairs = make_list(h, list, joins[1]);
    find_pair(&h, slots / 2);
    if (!strcmp(job, "raimenolta_check")) our_check(h);
    if (!strcmp(job, "plain_check")) its_check(h);
    if (!strcmp(job, "raimenolta_turns")) our_turns(h);
    if (!strcmp(job, "plain_turns")) its_turns(h);
    if (!strcmp(job, "raimenolta_join")) our_join(h);
    if (!strcmp(job, "plain_join")) its_join(h);
    if (!strcmp(job, "raimenolta_join_list")) our_list(h);
    if (!strcmp(job, "plain_join_list")) its_list(h);
}

/* With no word prints the tables; with the word kinds the names of the kinds; with the number of a kind and a job does that
 * job once. */
int main(int words, char **word) {
    if (words == 2 && !strcmp(word[1], "kinds")) {
        for (int kind = 0; kind < KINDS; kind++) printf("%s\n", names[kind]);
        return 0;
    }
    if (words == 3) {
        once(word[1][0] - '0', word[2]);
        return 0;
    }
    measure();
    plain_table();
    wide_table();
    drawings_table();
    turns_table();
    lists_table();
    whole_table();
    edges_table();
    small_table();
    editors_table();
    targets();
    growth_table();
    times_table();
    return 0;
}
