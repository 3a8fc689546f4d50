/* The library's side of the cross-check: a process that reads requests on standard input, runs one exported call for
 * each on buffers of exactly the lengths asked for, and answers on standard output with the call's answer and
 * everything lent as it is afterwards. request.rs says how both are laid out.
 *
 * Each lent table stands between guard bytes, which are looked at after the call. The process ends, with a status
 * other than 0, at a request that is not laid out so. No C headers are needed: the three calls of the C library that
 * are used are declared here. */

#include "../include/raimenolta.h"

long read(int file, void *to, unsigned long most);
long write(int file, const void *from, unsigned long most);
_Noreturn void _exit(int status);

typedef uint8_t u8;
typedef uint16_t u16;
typedef uint32_t u32;

enum { ROOM = 1 << 22, GUARD = 64, GUARD_BYTE = 0xA5, MOST_TABLES = 13, MOST_NUMBERS = 5 };

/* A request's call, in the order of request.rs. */
enum { LEVEL, DRAW, START, CHECK, JOIN, JOIN_AS, JOIN_LIST, DEPTH, HOLES, COUNTS, TURNS, READ, WRITE, PART_REFUSAL };

static u8 request[ROOM];
static u32 request_length, request_at;

/* The lent buffers, each between two guards. */
static _Alignas(16) u8 lent[ROOM];
static u32 lent_length;

static u8 answer[ROOM];
static u32 answer_length;

static u16 numbers[MOST_NUMBERS];
static u16 *table[MOST_TABLES];
static u32 length[MOST_TABLES];
static u32 tables;
static u8 *bytes;
static u32 bytes_length;

static void need(int holds) {
    if (!holds) _exit(3);
}

/* Reads exactly so many bytes; 0 where the input ends before the first. */
static int read_all(u8 *to, u32 count) {
    u32 got = 0;
    while (got < count) {
        long n = read(0, to + got, count - got);
        if (n == 0 && got == 0) return 0;
        need(n > 0);
        got += (u32)n;
    }
    return 1;
}

static void write_all(const u8 *from, u32 count) {
    u32 put = 0;
    while (put < count) {
        long n = write(1, from + put, count - put);
        need(n > 0);
        put += (u32)n;
    }
}

static void copy(u8 *to, const u8 *from, u32 count) {
    for (u32 k = 0; k < count; k++) to[k] = from[k];
}

static const u8 *taken(u32 count) {
    need(count <= request_length - request_at);
    const u8 *at = request + request_at;
    request_at += count;
    return at;
}

static u32 take_length(void) {
    u32 n;
    copy((u8 *)&n, taken(4), 4);
    return n;
}

/* Copies the next bytes of the request into a buffer of exactly that length, after a guard. The buffer starts at an
 * even address and the guard after it at its very end. */
static u8 *lend(u32 count) {
    u32 start = (lent_length + GUARD + 1) & ~1u;
    need(count <= ROOM - GUARD && start <= ROOM - GUARD - count);
    for (u32 k = lent_length; k < start; k++) lent[k] = GUARD_BYTE;
    copy(lent + start, taken(count), count);
    lent_length = start + count;
    return lent + start;
}

/* Writes the last guard. */
static void close_lent(void) {
    for (u32 k = lent_length; k < lent_length + GUARD; k++) lent[k] = GUARD_BYTE;
}

/* 1 if a byte between two lent buffers, before the first or after the last was written. */
static u16 guards_written(void) {
    u32 at = 0;
    for (u32 t = 0; t <= tables; t++) {
        u8 *start = t < tables ? (u8 *)table[t] : bytes;
        for (; lent + at < start; at++)
            if (lent[at] != GUARD_BYTE) return 1;
        at += t < tables ? 2 * length[t] : bytes_length;
    }
    for (u32 k = 0; k < GUARD; k++)
        if (lent[at + k] != GUARD_BYTE) return 1;
    return 0;
}

#define TABLE(k) table[k], length[k]
#define SEVEN(k) TABLE(k), TABLE(k + 1), TABLE(k + 2), TABLE(k + 3), TABLE(k + 4), TABLE(k + 5), TABLE(k + 6)
#define WORKS(k) TABLE(k), TABLE(k + 1), TABLE(k + 2), TABLE(k + 3)

static u16 call(u32 which, u32 given) {
    u16 *n = numbers;
    switch (which) {
    case LEVEL:
        need(given == 3 && tables == 8);
        return raimenolta_level(n[0], n[1], n[2], TABLE(0), TABLE(1), TABLE(2), TABLE(3), WORKS(4));
    case DRAW:
        need(given == 2 && tables == 12);
        return raimenolta_draw(n[0], n[1], TABLE(0), SEVEN(1), WORKS(8));
    case START:
        need(given == 2 && tables == 13);
        return raimenolta_start(n[0], n[1], TABLE(0), TABLE(1), SEVEN(2), WORKS(9));
    case CHECK:
        need(given == 2 && tables == 11);
        return raimenolta_check(n[0], n[1], SEVEN(0), WORKS(7));
    case JOIN:
        need(given == 4 && tables == 11);
        return raimenolta_join(n[0], n[1], SEVEN(0), n[2], n[3], WORKS(7));
    case JOIN_AS:
        need(given == 5 && tables == 12);
        return raimenolta_join_as(n[0], n[1], SEVEN(0), TABLE(7), n[2], n[3], n[4], WORKS(8));
    case JOIN_LIST:
        need(given == 2 && tables == 13 && length[8] == 1);
        return raimenolta_join_list(n[0], n[1], SEVEN(0), TABLE(7), table[8], WORKS(9));
    case DEPTH:
        need(given == 3 && tables == 12 && length[7] == 1);
        return raimenolta_depth(n[0], n[1], SEVEN(0), n[2], table[7], WORKS(8));
    case HOLES:
        need(given == 3 && tables == 12 && length[7] == 1);
        return raimenolta_holes(n[0], n[1], SEVEN(0), n[2], table[7], WORKS(8));
    case COUNTS:
        need(given == 2 && tables == 13);
        return raimenolta_counts(n[0], n[1], SEVEN(0), TABLE(7), TABLE(8), WORKS(9));
    case TURNS:
        need(given == 2 && tables == 13);
        return raimenolta_turns(n[0], n[1], SEVEN(0), TABLE(7), TABLE(8), WORKS(9));
    case READ:
        need(given == 0 && tables == 3 && length[1] == 2 && length[2] == 1);
        return raimenolta_read(bytes, bytes_length, TABLE(0), table[1], table[2]);
    case WRITE:
        need(given == 2 && tables == 1);
        return raimenolta_write(n[0], n[1], TABLE(0), bytes, bytes_length);
    case PART_REFUSAL:
        need(given == 1 && tables == 0);
        return raimenolta_part_refusal(n[0], bytes, bytes_length);
    }
    _exit(3);
}

static void put(const void *from, u32 count) {
    copy(answer + answer_length, from, count);
    answer_length += count;
}

static void serve(void) {
    request_at = 0;
    lent_length = 0;
    u32 which = take_length();
    u32 given = take_length();
    need(given <= MOST_NUMBERS);
    copy((u8 *)numbers, taken(2 * given), 2 * given);
    tables = take_length();
    need(tables <= MOST_TABLES);
    for (u32 t = 0; t < tables; t++) {
        length[t] = take_length();
        need(length[t] < ROOM / 2);
        table[t] = (u16 *)lend(2 * length[t]);
    }
    bytes_length = take_length();
    bytes = lend(bytes_length);
    close_lent();

    u16 result = call(which, given);
    u16 outside = guards_written();

    answer_length = 0;
    put(&result, 2);
    put(&outside, 2);
    for (u32 t = 0; t < tables; t++) put(table[t], 2 * length[t]);
    put(bytes, bytes_length);
    write_all(answer, answer_length);
}

int main(void) {
    for (;;) {
        if (!read_all((u8 *)&request_length, 4)) return 0;
        need(request_length <= ROOM);
        need(read_all(request, request_length));
        serve();
    }
}
