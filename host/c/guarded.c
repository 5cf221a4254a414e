/* The functions of juolgesot.h called from C, every lent slice and number between two pages that may not be touched:
 * once up against the page behind it, once against the page before it. Document 01's marked examples, and others. */
#define _GNU_SOURCE
#include "../juolgesot.h"
#include <stdio.h>
#include <stdlib.h>
#include <string.h>
#include <sys/mman.h>
#include <unistd.h>

/* Whether slices lie at the end of their pages. */
static int at_end;
/* The lanes of the edition that is asked for. */
static uint32_t lanes;
static int calls;

static void fail(const char *what)
{
    printf("DIFFERENCE (C, %u lanes, slices at the %s of their pages): %s\n", lanes, at_end ? "end" : "beginning", what);
    exit(1);
}

/* So many bytes between pages without access; with items, a copy of them that cannot be written. */
static void *between_pages(size_t bytes, const void *items)
{
    size_t page = (size_t)sysconf(_SC_PAGESIZE);
    size_t held = (bytes / page + 1) * page;
    char *first = mmap(NULL, held + 2 * page, PROT_NONE, MAP_PRIVATE | MAP_ANONYMOUS, -1, 0);
    if (first == MAP_FAILED || mprotect(first + page, held, PROT_READ | PROT_WRITE) != 0)
        fail("no memory");
    char *lent = at_end ? first + page + held - bytes : first + page;
    if (items != NULL) {
        if (bytes > 0)
            memcpy(lent, items, bytes);
        if (mprotect(first + page, held, PROT_READ) != 0)
            fail("no protection");
    }
    return lent;
}

/* Room that is not zero before the call. */
static uint32_t *room_of(size_t words)
{
    uint32_t *room = between_pages(4 * words, NULL);
    memset(room, 0x5A, 4 * words);
    return room;
}

static void is_zero(const uint32_t *room, size_t words)
{
    for (size_t i = 0; i < words; i++)
        if (room[i] != 0)
            fail("the room does not hold zeros");
}

static uint64_t *number(void)
{
    uint64_t *number = between_pages(8, NULL);
    *number = 77;
    return number;
}

static void is(const char *what, uint64_t found, uint64_t expected)
{
    if (found != expected) {
        printf("found %llu, expected %llu\n", (unsigned long long)found, (unsigned long long)expected);
        fail(what);
    }
}

/* Numbers that name no edition. */
enum { UNKNOWN = 7 };
static const uint32_t unknown[UNKNOWN] = {0, 1, 127, 129, 255, 257, 0xFFFFFFFFu};

/* M2's set, one result word too few, an empty set, no edition, a room too short. */
static void read_rounds(void)
{
    static const uint32_t m2[] = {0, 3, 1, 0x20, 0x80000000u, 1};
    uint32_t *set = between_pages(sizeof m2, m2);
    uint32_t *room = room_of(JUOLGESOT_SET_ROOM);
    uint32_t *out = between_pages(8 * lanes, NULL);
    uint32_t *short_out = between_pages(8 * lanes - 4, NULL);
    uint64_t *first = number(), *second = number();
    is("rounds", juolgesot_read_rounds(set, 6, room, JUOLGESOT_SET_ROOM, out, 2 * lanes, lanes, first, second), 0);
    is("number of rounds", *first, 1);
    is("piece size", *second, 3);
    is_zero(room, JUOLGESOT_SET_ROOM);
    for (size_t i = 0; i < 2 * lanes; i++)
        is("word of the read section", out[i], i < 6 ? m2[i] : 0);
    is("short result", juolgesot_read_rounds(set, 6, room, JUOLGESOT_SET_ROOM, short_out, 2 * lanes - 1, lanes, first, second), 14);
    is("M1", juolgesot_read_rounds(set, 0, room, JUOLGESOT_SET_ROOM, out, 2 * lanes, lanes, first, second), 3);
    is("half a pair", juolgesot_read_rounds(set, 5, room, JUOLGESOT_SET_ROOM, out, 2 * lanes, lanes, first, second), 2);
    is("its place", *second, 2);
    for (size_t i = 0; i < UNKNOWN; i++) {
        memset(room, 0x5A, 4 * JUOLGESOT_SET_ROOM);
        is("no edition", juolgesot_read_rounds(set, 5, room, JUOLGESOT_SET_ROOM, out, 0, unknown[i], first, second), 29);
        is("its place", *first + *second, 0);
        is_zero(room, JUOLGESOT_SET_ROOM);
    }
    uint32_t *short_room = room_of(JUOLGESOT_SET_ROOM - 1);
    is("short room, no edition", juolgesot_read_rounds(set, 6, short_room, JUOLGESOT_SET_ROOM - 1, out, 2 * lanes, 1, first, second), 32);
    is("short room", juolgesot_read_rounds(set, 6, short_room, JUOLGESOT_SET_ROOM - 1, out, 2 * lanes, lanes, first, second), 32);
    is("first word of a short room", short_room[0], 0x5A5A5A5A);
    calls += 6 + UNKNOWN;
}

/* So many pairs of a mask, from word 0 on; then one pair more. */
static uint32_t *pairs(size_t count, uint32_t mask, uint32_t last)
{
    uint32_t *made = between_pages(8 * (count + 1), NULL);
    for (size_t i = 0; i <= count; i++) {
        made[2 * i] = (uint32_t)i;
        made[2 * i + 1] = i < count ? mask : last;
    }
    return made;
}

/* M4, M5, 8193 bits, and the set that no size places: 254 words of 32 bits, one of 10, two of 16, two of 11. In the small edition
 * 128 words fewer. */
static void sizes_and_bounds(void)
{
    uint32_t *room = room_of(JUOLGESOT_SET_ROOM);
    uint32_t *out = between_pages(16 * lanes, NULL);
    uint64_t *first = number(), *second = number();
    is("M5", juolgesot_read_rounds(pairs(lanes, 1, 0xFFFFFFFFu), 2 * lanes + 2, room, JUOLGESOT_SET_ROOM, out, 4 * lanes, lanes, first, second), 0);
    is("M5's rounds", *first, 2);
    is("M5's piece size", *second, 16);
    is("M4", juolgesot_read_rounds(pairs(lanes, 0x1FFFF, 0x1FFFF), 2 * lanes + 2, room, JUOLGESOT_SET_ROOM, out, 4 * lanes, lanes, first, second), 22);
    is("M4's item", *second, 0);
    is("a bit too many", juolgesot_read_rounds(pairs(lanes, 0xFFFFFFFFu, 1), 2 * lanes + 2, room, JUOLGESOT_SET_ROOM, out, 4 * lanes, lanes, first, second), 21);
    is("its item", *second, 0);
    static const uint32_t rest[5] = {0x3FF, 0xFFFF, 0xFFFF, 0x7FF, 0x7FF};
    uint32_t *missed = pairs(lanes + 2, 0xFFFFFFFFu, 0);
    for (size_t i = 0; i < 5; i++)
        missed[2 * (lanes - 2 + i) + 1] = rest[i];
    is("the search ended", juolgesot_read_rounds(missed, 2 * lanes + 6, room, JUOLGESOT_SET_ROOM, out, 4 * lanes, lanes, first, second), 4);
    is("part", *first, 0);
    is("the word it stopped at", *second, lanes - 2);
    is_zero(room, JUOLGESOT_SET_ROOM);
    calls += 4;
}

/* Each bit of M2's set, bits that it does not ask for, and the refusals of its rounds. */
static void local_position(void)
{
    static const uint32_t m2[] = {0, 3, 1, 0x20, 0x80000000u, 1};
    static const uint32_t asked[][3] = {{0, 0, 1}, {0, 1, 0}, {1, 5, 32}, {0x80000000u, 0, 64}};
    static const uint32_t unasked[][2] = {{0, 2}, {0, 32}, {1, 4}, {1, 0xFFFFFFFFu}, {2, 0}, {0x80000000u, 1}, {0x80000001u, 0}};
    uint32_t *set = between_pages(sizeof m2, m2);
    uint32_t *room = room_of(JUOLGESOT_SET_ROOM);
    uint64_t *first = number(), *second = number();
    for (size_t i = 0; i < 4; i++) {
        is("asked for", juolgesot_local_position(set, 6, room, JUOLGESOT_SET_ROOM, asked[i][0], asked[i][1], lanes, first, second), 0);
        is("local position", *first, asked[i][2]);
        is("second", *second, 0);
        is_zero(room, JUOLGESOT_SET_ROOM);
    }
    for (size_t i = 0; i < 7; i++) {
        is("not asked for", juolgesot_local_position(set, 6, room, JUOLGESOT_SET_ROOM, unasked[i][0], unasked[i][1], lanes, first, second), 0);
        is("no position", *first, JUOLGESOT_NO_POSITION);
    }
    is("M1", juolgesot_local_position(set, 0, room, JUOLGESOT_SET_ROOM, 0, 0, lanes, first, second), 3);
    is("half a pair", juolgesot_local_position(set, 5, room, JUOLGESOT_SET_ROOM, 0, 0, lanes, first, second), 2);
    is("its place", *second, 2);
    is("M4", juolgesot_local_position(pairs(lanes, 0x1FFFF, 0x1FFFF), 2 * lanes + 2, room, JUOLGESOT_SET_ROOM, 0, 0, lanes, first, second), 22);
    is("a bit too many", juolgesot_local_position(pairs(lanes, 0xFFFFFFFFu, 1), 2 * lanes + 2, room, JUOLGESOT_SET_ROOM, 0, 0, lanes, first, second), 21);
    is("8193 pairs", juolgesot_local_position(pairs(8192, 1, 1), 2 * 8193, room, JUOLGESOT_SET_ROOM, 0, 0, lanes, first, second), 1);
    for (size_t i = 0; i < UNKNOWN; i++)
        is("no edition", juolgesot_local_position(set, 5, room, JUOLGESOT_SET_ROOM, 0, 0, unknown[i], first, second), 29);
    uint32_t *short_room = room_of(JUOLGESOT_SET_ROOM - 1);
    is("short room", juolgesot_local_position(set, 0, short_room, JUOLGESOT_SET_ROOM - 1, 0, 0, lanes, first, second), 32);
    is("first word of a short room", short_room[0], 0x5A5A5A5A);
    calls += 17 + UNKNOWN;
}

static void list(void)
{
    static const uint8_t example[] = {1, 0, 0, 0, 0, 1, 1, 0, 0, 0, 1, 37, 0, 0, 0, 2, 0, 0, 0, 0, 0};
    static const char text[] = "rounds 1\n0 0 n 0 00000003\n1 0 n 1 00000020\n2 0 s 0 00000001\n";
    size_t length = sizeof text - 1;
    uint8_t *records = between_pages(sizeof example, example);
    uint32_t *room = room_of(JUOLGESOT_SET_ROOM);
    uint8_t *out = between_pages(length, NULL);
    uint8_t *short_out = between_pages(length - 1, NULL);
    uint64_t *first = number(), *second = number();
    is("list", juolgesot_list(records, sizeof example, room, JUOLGESOT_SET_ROOM, out, length, lanes, first, second), 0);
    is("bytes", *first, length);
    if (memcmp(out, text, length) != 0)
        fail("the listing of document 01 is not its text");
    is_zero(room, JUOLGESOT_SET_ROOM);
    is("short text",
       juolgesot_list(records, sizeof example, room, JUOLGESOT_SET_ROOM, short_out, length - 1, lanes, first, second), 14);
    for (size_t i = 0; i < UNKNOWN; i++)
        is("no edition", juolgesot_list(records, 1, room, JUOLGESOT_SET_ROOM, short_out, 0, unknown[i], first, second), 29);
    calls += 2 + UNKNOWN;
}

/* M10's plan: pins 1 and 2 at state 0 and 1; gate 3 = 1 and not 2 at level 1 slot 0, whose location is half of the lanes; inv and
 * set0 1 and data inv 0 throughout its enable table, which stands last. */
enum { HEAD = 9 + 1 + 3 + 2 + 4, MOST_PLAN = HEAD + 1 + JUOLGESOT_STAGE_SLOTS + 1 + 69 * JUOLGESOT_FULL };
static uint32_t m10[MOST_PLAN];
static size_t plan_bytes;

static void make_m10(void)
{
    const uint32_t head[HEAD + 1] = {1, 1, 1, 2, 0, lanes, 0, 0, 0, 1, 3, 2, 5, 1, 2, 1, 0, 0, 0, 1};
    size_t stage = 64 * lanes - 1;
    plan_bytes = 4 * (HEAD + 1 + stage + 1 + 69 * lanes);
    memset(m10, 0, sizeof m10);
    memcpy(m10, head, sizeof head);
    uint32_t *slots = m10 + HEAD + 1;
    memset(slots, 0xFF, 4 * stage);
    slots[32 * lanes - 1] = 1;
    slots[32 * lanes + 16 * lanes - 1] = 2;
    slots[16 * lanes - 1] = 3;
    slots[stage] = lanes / 2;
    memset(slots + stage + 1 + (69 - 3) * lanes, 0xFF, 4 * 2 * lanes);
}

/* M10's script, word by word: a head of n words, a round of 2n, a stage of 20n, SRAM and duplicates, enables, and 8n zeros. */
enum { STARTS = 2, MOST_WORDS = 71 * JUOLGESOT_FULL };
static uint64_t m10_starts[STARTS];
static uint32_t m10_words[MOST_WORDS];
static size_t words_len, enables;

static void make_m10_script(void)
{
    /* stages, last, write-outs, state start, SRAMs, SRAM start, rounds, duplicates */
    static const uint32_t head[8] = {1, 1, 1, 1, 0, 0, 1, 0};
    size_t stage = 3 * lanes;
    words_len = 71 * lanes;
    enables = stage + 40 * lanes;
    m10_starts[1] = 63 * lanes;
    memset(m10_words, 0, sizeof m10_words);
    memcpy(m10_words, head, sizeof head);
    memset(m10_words + lanes / 2, 0xFF, 4 * (lanes / 2));
    m10_words[lanes / 2] = 0xFFFF0000u + lanes / 2;
    m10_words[lanes + 1] = 3;                                /* lane 0 reads bits 0 and 1 of word 0 */
    m10_words[stage] = 1;                                    /* slot 0 is pin 1, at local position 1; slot 16n is pin 2, at 0 */
    m10_words[stage + 16 * lanes + 4 * (lanes / 2) + 1] = 1; /* xorb of position 16n */
    for (size_t lane = 0; lane < lanes; lane++)              /* inv and set0 */
        memset(m10_words + enables + 16 * lanes + 4 * lane, 0xFF, 4 * 2);
}

enum { ROOM = JUOLGESOT_PLAN_ROOM + JUOLGESOT_PART_ROOM };

static void build(void)
{
    uint8_t *plan = between_pages(plan_bytes, m10);
    uint32_t *room = room_of(ROOM);
    uint64_t *first = number(), *second = number(), *third = number(), *fourth = number();
    is("sizes", juolgesot_plan_sizes(plan, plan_bytes, room, ROOM, first, second, third, fourth), 0);
    is("starts", *first, STARTS);
    is("words", *second, words_len);
    is("state words", *third, 2);
    is("SRAM words", *fourth, 0);
    is_zero(room, ROOM);
    uint64_t *starts = between_pages(sizeof m10_starts, NULL);
    uint32_t *words = between_pages(4 * words_len, NULL);
    uint32_t *pieces = between_pages(4, NULL);
    is("build", juolgesot_build(plan, plan_bytes, room, ROOM, starts, STARTS, words, words_len, pieces, 1, first, second, third, fourth), 0);
    is("its fourth number", *fourth, 0);
    is("M10's piece size", pieces[0], 1);
    is_zero(room, ROOM);
    if (memcmp(starts, m10_starts, sizeof m10_starts) != 0 || memcmp(words, m10_words, 4 * words_len) != 0)
        fail("M10's script");
    is("short words",
       juolgesot_build(plan, plan_bytes, room, ROOM, starts, STARTS, words, words_len - 1, pieces, 1, first, second, third, fourth), 14);
    is("no piece sizes",
       juolgesot_build(plan, plan_bytes, room, ROOM, starts, STARTS, words, words_len, pieces, 0, first, second, third, fourth), 14);
    is("cut plan", juolgesot_plan_sizes(plan, plan_bytes - 1, room, ROOM, first, second, third, fourth), 5);
    is("words to the edition", juolgesot_plan_sizes(plan, 24, room, ROOM, first, second, third, fourth), 5);
    is("no edition", juolgesot_plan_sizes(plan, 23, room, ROOM, first, second, third, fourth), 29);
    is("no plan", juolgesot_plan_sizes(plan, 0, room, ROOM, first, second, third, fourth), 29);
    /* The first nine numbers, part head and position words that must be 0; and the edition. */
    static const size_t zeros[] = {6, 7, 8, HEAD - 2, HEAD - 1};
    for (size_t i = 0; i < 5; i++) {
        m10[zeros[i]] = 1;
        is("a word that is not 0", juolgesot_plan_sizes(between_pages(plan_bytes, m10), plan_bytes, room, ROOM, first, second, third, fourth), 5);
        m10[zeros[i]] = 0;
    }
    for (size_t i = 0; i < UNKNOWN; i++) {
        m10[5] = unknown[i];
        uint8_t *other = between_pages(plan_bytes, m10);
        memset(room, 0x5A, 4 * ROOM);
        is("unknown edition", juolgesot_plan_sizes(other, plan_bytes - 1, room, ROOM, first, second, third, fourth), 29);
        is_zero(room, ROOM);
        is("unknown edition", juolgesot_build(other, plan_bytes, room, ROOM, starts, 0, words, 0, pieces, 0, first, second, third, fourth), 29);
        is("unknown edition, short room", juolgesot_plan_sizes(other, plan_bytes, room, ROOM - 1, first, second, third, fourth), 32);
    }
    m10[5] = 384 - lanes;
    is("the other edition", juolgesot_plan_sizes(between_pages(plan_bytes, m10), plan_bytes, room, ROOM, first, second, third, fourth), 5);
    m10[5] = lanes;
    calls += 14 + 3 * UNKNOWN;
}

/* Two words of the old state, the inv of lane 0 of the enables, and what is stored: M10, and the same never enabled. */
static void run(void)
{
    static const uint32_t three_turns[] = {0, 0, 0};
    static const uint32_t olds[][4] = {
        {1, 0x12345678, 0xFFFFFFFFu, 1},
        {3, 0x12345678, 0xFFFFFFFFu, 0xFFFFFFFEu},
        {1, 0x12345678, 0, 0x12345678},
    };
    for (int i = 0; i < 3; i++) {
        m10_words[enables + 16 * lanes] = olds[i][2];
        uint32_t *words = between_pages(4 * words_len, m10_words);
        uint64_t *starts = between_pages(sizeof m10_starts, m10_starts);
        uint32_t *turns = between_pages(sizeof three_turns, three_turns);
        uint32_t *old = between_pages(8, olds[i]);
        uint32_t *new_ = between_pages(8, NULL);
        uint32_t *room = room_of(JUOLGESOT_BLOCK_ROOM);
        uint64_t *first = number(), *second = number();
        is("run", juolgesot_run(words, words_len, starts, STARTS, turns, 3, old, 2, new_, 2, room, JUOLGESOT_BLOCK_ROOM, lanes, first, second), 0);
        is("turns left", *first, 0);
        is("M10's stored word", new_[1], olds[i][3]);
        is_zero(room, JUOLGESOT_BLOCK_ROOM);
        is("short state",
           juolgesot_run(words, words_len, starts, STARTS, turns, 3, old, 1, new_, 2, room, JUOLGESOT_BLOCK_ROOM, lanes, first, second), 15);
        is("the other edition",
           juolgesot_run(words, words_len, starts, STARTS, turns, 3, old, 2, new_, 2, room, JUOLGESOT_BLOCK_ROOM, 384 - lanes, first, second), 15);
        for (size_t k = 0; k < UNKNOWN; k++) {
            memset(room, 0x5A, 4 * JUOLGESOT_BLOCK_ROOM);
            is("no edition",
               juolgesot_run(words, 0, starts, STARTS, turns, 3, old, 0, new_, 2, room, JUOLGESOT_BLOCK_ROOM, unknown[k], first, second), 29);
            is("its place", *first + *second, 0);
            is("the stored word before", new_[1], olds[i][3]);
            is_zero(room, JUOLGESOT_BLOCK_ROOM);
        }
        is("short room, no edition",
           juolgesot_run(words, words_len, starts, STARTS, turns, 3, old, 2, new_, 2, room, JUOLGESOT_BLOCK_ROOM - 1, 0, first, second), 32);
        calls += 4 + UNKNOWN;
    }
}

/* M10's gate: the pin's bit, and the gate's, in as many words as are lent. The empty pin is no pin. */
static void value(void)
{
    uint8_t *plan = between_pages(plan_bytes, m10);
    uint32_t *room = room_of(ROOM);
    uint64_t *first = number(), *second = number();
    for (uint32_t word = 0; word < 4; word++) {
        uint32_t *old = between_pages(4, &word);
        uint32_t *new_ = between_pages(0, &word);
        for (size_t lent = 0; lent < 3; lent++) {
            uint32_t *bits = room_of(lent);
            is("value", juolgesot_value(plan, plan_bytes, room, ROOM, old, 1, new_, 0, bits, lent, 0, 3, first, second),
               lent == 0 ? 14 : 0);
            is("gate 3", *first, lent > 0 && word == 1);
            is("second", *second, 0);
            for (size_t i = 0; i < lent; i++)
                is("word of the gates' bits", bits[i], i == 0 ? word == 1 : 0x5A5A5A5A);
            is_zero(room, ROOM);
        }
        uint32_t *bits = room_of(1);
        is("empty pin", juolgesot_value(plan, plan_bytes, room, ROOM, old, 1, new_, 0, bits, 1, 0, 0xFFFFFFFFu, first, second), 0);
        is("its bit", *first, 0);
        is("gate 3 beside it", bits[0], word == 1);
        is("short room", juolgesot_value(plan, plan_bytes, room, ROOM - 1, old, 1, new_, 0, bits, 0, 0, 3, first, second), 32);
        is("no edition", juolgesot_value(plan, 20, room, ROOM, old, 1, new_, 0, bits, 0, 0, 3, first, second), 29);
        is("cut plan", juolgesot_value(plan, plan_bytes - 4, room, ROOM, old, 1, new_, 0, bits, 0, 0, 3, first, second), 5);
        calls += 7;
    }
}

/* The half adder of the format's paper, and back; cut, damaged, a word and a byte too few. */
static void aiger(void)
{
    static const uint8_t adder[] = "aig 5 2 0 2 3\n10\n6\n\2\2\3\2\1\2";
    static const uint32_t adder_gates[] = {3, 4, 2, 4, 5, 3, 5, 9, 7};
    static const char text[] = "aig 5 2 0 0 3\n\2\2\3\2\1\2";
    size_t length = sizeof adder - 1, written = sizeof text - 1;
    uint8_t *bytes = between_pages(length, adder);
    uint32_t *out = between_pages(4 * 9, NULL);
    uint32_t *short_out = between_pages(4 * 8, NULL);
    uint64_t *first = number(), *second = number(), *third = number(), *fourth = number();
    is("AIGER", juolgesot_read_aiger(bytes, length, out, 9, first, second, third, fourth), 0);
    is("gates", *first, 3);
    is("inputs", *second, 2);
    is("latches", *third, 0);
    is("outputs", *fourth, 2);
    if (memcmp(out, adder_gates, sizeof adder_gates) != 0)
        fail("the gates of the half adder");
    is("short gates", juolgesot_read_aiger(bytes, length, short_out, 8, first, second, third, fourth), 14);
    is("its fourth number", *fourth, 0);
    is("cut gates", juolgesot_read_aiger(between_pages(length - 1, adder), length - 1, out, 9, first, second, third, fourth), 20);
    is("cut lines", juolgesot_read_aiger(between_pages(18, adder), 18, out, 9, first, second, third, fourth), 18);
    is("no file", juolgesot_read_aiger(between_pages(0, adder), 0, out, 9, first, second, third, fourth), 18);
    static const uint8_t wrong[] = "aig 1 0 0 0 1\n\0\0";
    is("a difference of 0", juolgesot_read_aiger(between_pages(sizeof wrong, wrong), sizeof wrong, out, 9, first, second, third, fourth), 19);

    uint32_t *gates = between_pages(sizeof adder_gates, adder_gates);
    uint8_t *file = between_pages(written, NULL);
    is("written", juolgesot_write_aiger(gates, 9, file, written, first, second), 0);
    is("bytes", *first, written);
    if (memcmp(file, text, written) != 0)
        fail("the half adder, written");
    is("short file", juolgesot_write_aiger(gates, 9, between_pages(written - 1, NULL), written - 1, first, second), 14);
    is("a cut gate", juolgesot_write_aiger(gates, 8, file, written, first, second), 33);
    calls += 9;
}

/* Gate 3 of pins 1 and 2, placed at level 2: carried to level 1, split at level 0; and cleared again. */
static void repair(void)
{
    static const uint32_t gate[] = {3, 2, 5}, pin_levels[] = {0, 0, 0, 1}, nine[] = {9, 4};
    const uint32_t placed[][2] = {{8 * lanes + 5, 3}, {16 * lanes + 5, 3}, {32 * lanes + 5, 1}, {48 * lanes + 5, 2}};
    const uint32_t stage = lanes == JUOLGESOT_FULL ? JUOLGESOT_STAGE_SLOTS : JUOLGESOT_SMALL_STAGE_SLOTS;
    enum { NONE_ROOM = JUOLGESOT_REPAIR_ROOM, ENTRY = JUOLGESOT_ENTRY_ROOM };
    uint32_t *gates = between_pages(sizeof gate, gate);
    uint32_t *levels = between_pages(sizeof pin_levels, pin_levels);
    uint32_t *counts = between_pages(sizeof nine, nine);
    uint32_t *slots = between_pages(4 * stage, NULL);
    uint32_t *after = between_pages(4 * 4, NULL);
    uint32_t *room = room_of(NONE_ROOM + ENTRY);
    uint64_t *first = number(), *second = number();
    memset(slots, 0xFF, 4 * stage);
    is("short room", juolgesot_place_bit(gates, 3, levels, 4, counts, 2, slots, stage, after, 4, room, NONE_ROOM + ENTRY - 1, 2, 5, 3, lanes, first, second), 32);
    is("first word of a short room", room[0], 0x5A5A5A5A);
    is("placed", juolgesot_place_bit(gates, 3, levels, 4, counts, 2, slots, stage, after, 4, room, NONE_ROOM + ENTRY, 2, 5, 3, lanes, first, second), 0);
    is("entries", *first, 2);
    is("second", *second, 0);
    is_zero(room, NONE_ROOM + ENTRY);
    for (uint32_t index = 1; index <= stage; index++) {
        uint32_t expected = 0xFFFFFFFFu;
        for (int i = 0; i < 4; i++)
            if (placed[i][0] == index)
                expected = placed[i][1];
        is("slot", slots[index - 1], expected);
    }
    is("count of 9", after[0] == 9 ? after[1] : after[3], 4);
    is("count of 3", after[0] == 3 ? after[1] : after[3], 2);
    is("not empty", juolgesot_place_bit(gates, 3, levels, 4, counts, 2, slots, stage, after, 4, room, NONE_ROOM + ENTRY, 1, 5, 3, lanes, first, second), 24);
    is("a level of 32", juolgesot_place_bit(gates, 3, levels, 4, counts, 2, slots, stage, after, 4, room, NONE_ROOM + ENTRY, 32, 0, 3, lanes, first, second), 5);
    is("a cut gate", juolgesot_place_bit(gates, 2, levels, 4, counts, 2, slots, stage, after, 4, room, NONE_ROOM + ENTRY, 3, 9, 3, lanes, first, second), 6);
    is("no level", juolgesot_place_bit(gates, 3, levels, 3, counts, 2, slots, stage, after, 4, room, NONE_ROOM + ENTRY, 3, 9, 3, lanes, first, second), 25);
    is("no gate", juolgesot_place_bit(gates, 0, levels, 4, counts, 2, slots, stage, after, 4, room, NONE_ROOM + ENTRY, 3, 9, 3, lanes, first, second), 26);
    is("not listed", juolgesot_purge_bit(counts, 2, slots, stage, after, 4, room, NONE_ROOM + ENTRY, 2, 5, lanes, first, second), 34);

    /* One past the highest level and the slots of level 1. */
    uint32_t highest = lanes == JUOLGESOT_FULL ? 13 : 12;
    is("a level too high", juolgesot_place_bit(gates, 3, levels, 4, counts, 2, slots, stage, after, 4, room, NONE_ROOM + ENTRY, highest + 1, 0, 3, lanes, first, second), 5);
    is("the highest level", juolgesot_place_bit(gates, 3, levels, 4, counts, 2, slots, stage, after, 4, room, NONE_ROOM + ENTRY, highest, 0, 3, lanes, first, second), 24);
    is("a slot too far", juolgesot_purge_bit(counts, 2, slots, stage, after, 4, room, NONE_ROOM + ENTRY, 1, 16 * lanes, lanes, first, second), 5);
    is("a slot too few", juolgesot_place_bit(gates, 3, levels, 4, counts, 2, slots, stage - 1, after, 4, room, NONE_ROOM + ENTRY, 3, 6, 3, lanes, first, second), 14);
    for (size_t i = 0; i < UNKNOWN; i++) {
        is("no edition", juolgesot_place_bit(gates, 2, levels, 4, counts, 1, slots, 0, after, 0, room, NONE_ROOM + ENTRY, 99, 5, 3, unknown[i], first, second), 29);
        memset(room, 0x5A, 4 * (NONE_ROOM + ENTRY));
        is("no edition", juolgesot_purge_bit(counts, 1, slots, 0, after, 0, room, NONE_ROOM + ENTRY, 99, 5, unknown[i], first, second), 29);
        is_zero(room, NONE_ROOM + ENTRY);
    }
    is("short room, no edition", juolgesot_purge_bit(counts, 2, slots, stage, after, 4, room, NONE_ROOM, 2, 5, 0, first, second), 32);

    uint32_t *two = between_pages(4 * 4, after);
    uint32_t *room_of_two = room_of(NONE_ROOM + 2 * ENTRY);
    uint32_t *one = between_pages(4 * 2, NULL);
    is("short counts", juolgesot_purge_bit(two, 4, slots, stage, one, 1, room_of_two, NONE_ROOM + 2 * ENTRY, 2, 5, lanes, first, second), 14);
    is("cleared", juolgesot_purge_bit(two, 4, slots, stage, one, 2, room_of_two, NONE_ROOM + 2 * ENTRY, 2, 5, lanes, first, second), 0);
    is("entries", *first, 1);
    if (memcmp(one, nine, sizeof nine) != 0)
        fail("the counts after clearing");
    for (uint32_t index = 1; index <= stage; index++)
        is("slot", slots[index - 1], 0xFFFFFFFFu);
    is_zero(room_of_two, NONE_ROOM + 2 * ENTRY);
    calls += 15 + 2 * UNKNOWN;
}

/* Two sets joined, either way, and one with itself; a word too few; damage in each set. */
static void join(void)
{
    static const uint32_t one[] = {0, 3, 7, 0x80}, other[] = {0, 0x20, 3, 1, 0x80000000u, 1}, twice[] = {3, 1, 3, 2};
    static const uint32_t both[] = {0, 0x23, 3, 1, 7, 0x80, 0x80000000u, 1};
    uint32_t *a = between_pages(sizeof one, one), *b = between_pages(sizeof other, other);
    uint32_t *bad = between_pages(sizeof twice, twice);
    uint32_t *out = between_pages(sizeof both, NULL), *short_out = between_pages(4 * 7, NULL);
    uint64_t *first = number(), *second = number();
    for (int turned = 0; turned < 2; turned++) {
        memset(out, 0, sizeof both);
        is("join", turned ? juolgesot_join(b, 6, a, 4, out, 8, first, second) : juolgesot_join(a, 4, b, 6, out, 8, first, second), 0);
        is("pairs", *first, 4);
        is("second", *second, 0);
        if (memcmp(out, both, sizeof both) != 0)
            fail("the join");
    }
    is("with itself", juolgesot_join(a, 4, a, 4, out, 8, first, second), 0);
    is("pairs", *first, 2);
    if (memcmp(out, one, sizeof one) != 0 || out[4] != both[4])
        fail("a set joined with itself");
    is("two empty sets", juolgesot_join(a, 0, b, 0, out, 0, first, second), 0);
    is("pairs", *first, 0);
    is("short join", juolgesot_join(a, 4, b, 6, short_out, 7, first, second), 14);
    is("a word twice", juolgesot_join(bad, 4, b, 5, out, 8, first, second), 2);
    is("its pair", *second, 1);
    is("half a pair in the second", juolgesot_join(a, 4, b, 5, out, 8, first, second), 2);
    is("its pair", *second, 2);
    is("8193 pairs", juolgesot_join(pairs(8192, 1, 1), 2 * 8193, b, 5, out, 8, first, second), 1);
    is("a join of 8193 pairs", juolgesot_join(pairs(8191, 1, 1), 2 * 8192, b, 6, out, 8, first, second), 1);
    is("its item", *second, 0);
    calls += 9;
}

int main(void)
{
    for (at_end = 0; at_end < 2; at_end++) {
        for (lanes = JUOLGESOT_SMALL; lanes <= JUOLGESOT_FULL; lanes += JUOLGESOT_FULL - JUOLGESOT_SMALL) {
            read_rounds();
            sizes_and_bounds();
            local_position();
            list();
            make_m10();
            make_m10_script();
            build();
            run();
            value();
            repair();
        }
        aiger();
        join();
    }
    printf("C: %d calls between guard pages, both editions, no difference\n", calls);
    return 0;
}
