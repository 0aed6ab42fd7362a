/* Every function of include/fendruscla.h is called, every refusal is met, what the header says beside a call is tried, and the layout of the
 * structs is looked at. */
#include <stddef.h>
#include <stdio.h>
#include <string.h>

#include "fendruscla.h"

/* Stores of 65 ids: the capacity, layer 3, one word of layer 2, one of layer 1, two of layer 0. One of 4 ids, two of 262,152. */
enum { N = 65, L = FEN_WORDS(N), FOUR = FEN_WORDS(4), WIDE = 262152, LONG = FEN_WORDS(WIDE) };

static uint64_t a[L], b[L], four[FOUR], wide[LONG], was[L];
static int failed;

static void check(int holds, const char *what, int line)
{
    if (!holds) {
        printf("calls.c:%d: not so: %s\n", line, what);
        failed = 1;
    }
}
#define CHECK(what) check((what), #what, __LINE__)

static int says(fen_answer answer, uint64_t value)
{
    return answer.refusal == FEN_OK && answer.value == value;
}

static int refuses(fen_answer answer, uint64_t number)
{
    return answer.refusal == number && answer.value == 0;
}

static int steps(fen_step step, uint64_t which, uint64_t value)
{
    return step.which == which && step.value == value;
}

static int is_part(fen_part part, uint64_t start, uint64_t length)
{
    return part.start == start && part.length == length;
}

static int is_half(fen_half half, uint64_t some, uint64_t bit)
{
    return half.some == some && half.bit == bit;
}

/* The store a as it was when `keep` was called. */
static void keep(void)
{
    memcpy(was, a, sizeof a);
}

static int kept(void)
{
    return memcmp(was, a, sizeof a) == 0;
}

static void layout(void)
{
    CHECK(sizeof(fen_answer) == 16 && offsetof(fen_answer, refusal) == 0 && offsetof(fen_answer, value) == 8);
    CHECK(sizeof(fen_step) == 16 && offsetof(fen_step, which) == 0 && offsetof(fen_step, value) == 8);
    CHECK(sizeof(fen_part) == 16 && offsetof(fen_part, start) == 0 && offsetof(fen_part, length) == 8);
    CHECK(sizeof(fen_half) == 16 && offsetof(fen_half, some) == 0 && offsetof(fen_half, bit) == 8);
    CHECK(sizeof(fen_cursor) == 80 && offsetof(fen_cursor, prefix) == 40 && offsetof(fen_cursor, reads) == 72);
}

/* The sizes, reckoned in 64 bits. */
static uint64_t up(uint64_t n, uint64_t by)
{
    return (n + by - 1) / by;
}

static void sizes(void)
{
    enum { MOST = FEN_WORDS(4294967295u), HALF = FEN_WORDS(2147483647), LONGEST = FEN_MAP_MAX(4294967295u), LONGER = FEN_MAP_MAX(2147483647) };
    const uint32_t ends[] = {0, 1, 64, 4096, 262144, 16777216, 2147483648u, 4294967232u, 4294963200u, 4294705152u};
    uint32_t n;
    size_t i;
    CHECK(fen_words(1) == 5 && fen_words(64) == 5 && fen_words(65) == 6 && fen_words(4096) == 68 && fen_words(4097) == 70);
    CHECK(fen_words(16777216) == 266306);
    CHECK(MOST == 68173826 && HALF == 34086914 && LONGEST == 805306384 && LONGER == 402653200);
    for (i = 0; i < sizeof ends / sizeof *ends; i++)
        for (n = ends[i] - 2; n != ends[i] + 3; n++) { /* below 0 stand the largest numbers of 32 bits */
            CHECK(FEN_WORDS(n) == 2 + up(n, 64) + up(n, 4096) + up(n, 262144) && fen_words(n) == FEN_WORDS(n));
            CHECK(FEN_MAP_MAX(n) == 16 + 12 * up(n, 64));
        }
}

static void names(void)
{
    const uint64_t named[] = {FEN_OK,         FEN_NO_CAPACITY, FEN_NO_STORE,     FEN_NO_ROOM,   FEN_NO_LAYER,  FEN_DIFFER,
                              FEN_NO_FORMULA, FEN_NO_CURSOR,   FEN_SHORT_BUFFER, FEN_NO_MAP,    FEN_BAD_ENTRY, FEN_BAD_COUNT,
                              FEN_NONE_FREE,  FEN_BAD_OWNERS,  FEN_NO_ITEM,      FEN_NOT_OWNER};
    uint64_t i, j;
    CHECK(fen_version() == FEN_VERSION && FEN_VERSION == 100 * 100 * 0 + 100 * 3 + 0);
    CHECK(sizeof named / sizeof *named == 16);
    for (i = 0; i < 16; i++) {
        CHECK(named[i] == i && strcmp(fen_refusal_text(i), "unknown refusal") != 0);
        for (j = 0; j < i; j++)
            CHECK(strcmp(fen_refusal_text(i), fen_refusal_text(j)) != 0);
    }
    CHECK(strcmp(fen_refusal_text(FEN_NO_ROOM), "an id is at or past the capacity") == 0);
    CHECK(strcmp(fen_refusal_text(16), "unknown refusal") == 0 && strcmp(fen_refusal_text(UINT64_MAX), "unknown refusal") == 0);
    CHECK(FEN_REFUSED == 0 && FEN_MEMBER == 1 && FEN_PAUSED == 2 && FEN_END == 3 && FEN_FULL == 4);
}

static void opened(void)
{
    memset(a, 7, sizeof a);
    keep();
    CHECK(refuses(fen_open(a, L, 0), FEN_NO_CAPACITY));
    CHECK(refuses(fen_open(a, L, 16777217), FEN_NO_CAPACITY));
    CHECK(refuses(fen_open(a, L, 64), FEN_NO_STORE));
    CHECK(refuses(fen_clear(a, L), FEN_NO_STORE));
    CHECK(kept());
    CHECK(says(fen_open(a, L, N), 0) && a[0] == N && a[5] == 0);
    CHECK(says(fen_open(b, L, N), 0));
    CHECK(says(fen_open(four, FOUR, 4), 0));
    CHECK(says(fen_open(wide, LONG, WIDE), 0));
}

static void ids(void)
{
    const uint32_t both[] = {0, 64}, past[] = {1, 65}, most[] = {0, 1, 3};
    CHECK(says(fen_add(a, L, 64), 0));
    CHECK(says(fen_add(a, L, 64), 1));
    CHECK(says(fen_contains(a, L, 64), 1));
    CHECK(says(fen_contains(a, L, 65), 0));
    CHECK(says(fen_remove(a, L, 64), 1));
    CHECK(says(fen_remove(a, L, 64), 0));
    CHECK(says(fen_add_list(a, L, both, 2), 0));
    keep();
    CHECK(refuses(fen_add(a, L, 65), FEN_NO_ROOM));
    CHECK(refuses(fen_add_list(a, L, past, 2), FEN_NO_ROOM));
    CHECK(refuses(fen_add(a, L - 1, 1), FEN_NO_STORE));
    CHECK(kept());
    CHECK(says(fen_first_free(a, L), 1));
    CHECK(says(fen_first_free(four, FOUR), 1));
    CHECK(says(fen_add_list(four, FOUR, most, 3), 0));
    CHECK(says(fen_first_free(four, FOUR), 2));
    CHECK(says(fen_add(four, FOUR, 2), 0));
    CHECK(refuses(fen_first_free(four, FOUR), FEN_NONE_FREE));
    CHECK(says(fen_remove(four, FOUR, 0), 1) && refuses(fen_first_free(four, FOUR), FEN_NONE_FREE)); /* chunk 0 is the header */
    CHECK(says(fen_add(four, FOUR, 0), 0));
}

/* a is {0, 64}, and stays so. */
static void stores(void)
{
    CHECK(says(fen_is_empty(a, L), 0));
    CHECK(says(fen_is_empty(b, L), 1));
    CHECK(says(fen_equal(a, L, b, L), 0));
    b[4] = 1; /* id 0, and no bit above it */
    CHECK(says(fen_is_sound(b, L), 0));
    CHECK(says(fen_rebuild(b, L), 0));
    CHECK(says(fen_is_sound(b, L), 1));
    CHECK(says(fen_contains_set(a, L, b, L), 1));
    CHECK(says(fen_contains_set(b, L, a, L), 0));
    CHECK(refuses(fen_equal(a, L, four, FOUR), FEN_DIFFER));
    CHECK(refuses(fen_contains_set(a, L, four, FOUR), FEN_DIFFER));
    CHECK(refuses(fen_contains_set(a, L, b, 0), FEN_NO_STORE));
    b[5] = 2; /* id 65 is past the capacity */
    CHECK(says(fen_rebuild(b, L), 0) && b[5] == 2 && b[3] == 3);
    CHECK(says(fen_is_sound(b, L), 0));
    CHECK(says(fen_clear(b, L), 0) && b[0] == N && b[4] == 0);
}

static void layers(void)
{
    CHECK(says(fen_get_from_layer(a, L, 0, 1), 1));
    CHECK(says(fen_get_from_layer(a, L, 1, 0), 3));
    CHECK(says(fen_get_from_layer(a, L, 1, 1), 0));
    CHECK(says(fen_get_from_layer(a, L, 3, 9), 1));
    CHECK(refuses(fen_get_from_layer(a, L, 4, 0), FEN_NO_LAYER));
    CHECK(is_part(fen_layer0(a, L), 4, 2));
    CHECK(is_part(fen_layer1(a, L), 3, 1));
    CHECK(is_part(fen_layer2(a, L), 2, 1));
    CHECK(is_part(fen_layer0(a, L - 1), 0, 0));
    CHECK(is_half(fen_average_ones(0x16), 1, 4));
    CHECK(is_half(fen_average_ones(~(uint64_t)0), 1, 32));
    CHECK(is_half(fen_average_ones(1), 0, 0));
}

/* {5, 262151}: seven words are read in all. */
static void walk(void)
{
    const uint32_t two[] = {5, 262151};
    uint32_t out[4] = {9, 9, 9, 9};
    fen_cursor at = {.masks = {1, 1, 1, 1, 8}, .prefix = {1, 1, 1, 9}, .reads = 9}, copy = at;
    CHECK(says(fen_add_list(wide, LONG, two, 2), 0));
    CHECK(steps(fen_next(wide, LONG, &at, 1), FEN_REFUSED, FEN_NO_CURSOR));
    CHECK(steps(fen_fill(wide, LONG, &at, 1, out, 4), FEN_REFUSED, FEN_NO_CURSOR));
    CHECK(steps(fen_start(wide, LONG - 1, &at), FEN_REFUSED, FEN_NO_STORE));
    CHECK(memcmp(&at, &copy, sizeof at) == 0);
    CHECK(steps(fen_start(wide, LONG, &at), FEN_PAUSED, 0) && at.reads == 1);
    CHECK(at.masks[3] == 3 && at.masks[2] == 0 && at.masks[1] == 0 && at.masks[0] == 0); /* the top word, and nothing below it */
    CHECK(at.prefix[2] == 0 && at.prefix[1] == 0 && at.prefix[0] == 0);
    CHECK(at.masks[4] == 8 && at.prefix[3] == 9);
    copy = at;
    CHECK(steps(fen_next(wide, LONG, &at, 2), FEN_PAUSED, 0) && at.reads == 2);
    CHECK(steps(fen_next(wide, LONG, &at, 1), FEN_MEMBER, 5) && at.reads == 1);
    CHECK(steps(fen_next(wide, LONG, &copy, 3), FEN_MEMBER, 5) && copy.reads == 3); /* a walk of its own */
    CHECK(steps(fen_fill(wide, LONG, &at, 9, out, 4), FEN_END, 1) && at.reads == 3 && out[0] == 262151 && out[1] == 9);
    CHECK(steps(fen_fill(wide, LONG, &copy, 2, out, 4), FEN_PAUSED, 0) && copy.reads == 2);
    CHECK(steps(fen_fill(wide, LONG, &copy, 1, out, 1), FEN_FULL, 1) && copy.reads == 1 && out[0] == 262151);
    CHECK(steps(fen_next(wide, LONG, &copy, 0), FEN_END, 0) && copy.reads == 0);
}

/* No place: full, and no read, at any budget; and the refusals come first. */
static void no_room(void)
{
    uint32_t out[1] = {7};
    fen_cursor at = {{0}, {0}, 0}, copy;
    CHECK(steps(fen_start(wide, LONG, &at), FEN_PAUSED, 0));
    copy = at;
    copy.reads = 0;
    CHECK(steps(fen_fill(wide, LONG, &at, 9, out, 0), FEN_FULL, 0) && out[0] == 7 && memcmp(&at, &copy, sizeof at) == 0);
    while (fen_next(wide, LONG, &at, 9).which == FEN_MEMBER) {}
    CHECK(steps(fen_next(wide, LONG, &at, 9), FEN_END, 0));
    at.reads = 5;
    CHECK(steps(fen_fill(wide, LONG, &at, 0, out, 0), FEN_FULL, 0) && at.reads == 0);
    at.prefix[0] = 1;
    at.reads = 5;
    CHECK(steps(fen_fill(wide, LONG, &at, 0, out, 0), FEN_REFUSED, FEN_NO_CURSOR) && at.reads == 5);
    CHECK(steps(fen_fill(wide, LONG - 1, &at, 0, out, 0), FEN_REFUSED, FEN_NO_STORE) && at.reads == 5);
    CHECK(steps(fen_start(b, L, &at), FEN_PAUSED, 0) && at.reads == 1 && at.masks[3] == 0); /* b is empty */
    CHECK(steps(fen_next(b, L, &at, 0), FEN_END, 0));
}

/* a is {0, 64} before and after, b becomes {1, 64}. */
static void in_place(void)
{
    const uint32_t other[] = {1, 64};
    CHECK(says(fen_add_list(b, L, other, 2), 0));
    keep();
    CHECK(refuses(fen_bitor_assign(a, L, four, FOUR), FEN_DIFFER));
    CHECK(refuses(fen_bitand_assign(a, L, b, 1), FEN_NO_STORE));
    CHECK(kept());
    CHECK(says(fen_bitor_assign(a, L, b, L), 0) && a[4] == 3 && a[5] == 1);
    CHECK(says(fen_bitxor_assign(a, L, b, L), 0) && a[4] == 1 && a[5] == 0 && a[3] == 1);
    CHECK(says(fen_bitand_assign(a, L, b, L), 0) && a[4] == 0 && a[1] == 0);
    memcpy(a, was, sizeof a);
}

/* The calls with ten parameters and those over a formula that is kept answer alike; here is what both must say. */
static void formulas(void)
{
    const uint8_t codes[] = {0, 1, FEN_XOR}, not_one[] = {0, 1}, rest[] = {0, FEN_NOT, FEN_ALL, FEN_OR};
    const fen_formula differ = {codes, 3, {a, b, NULL, NULL}, {L, L, 0, 0}}, all = {rest, 4, {a, b, NULL, NULL}, {L, L, 0, 0}};
    const fen_formula none = {not_one, 2, {a, b, NULL, NULL}, {L, L, 0, 0}}, small = {codes, 3, {a, four, NULL, NULL}, {L, FOUR, 0, 0}};
    uint32_t out[4] = {9, 9, 9, 9}, kept_out[4] = {9, 9, 9, 9};
    fen_cursor at = {{0}, {1}, 5}, copy = at;
#define OVER(codes, count) codes, count, a, L, b, L, a, 0, a, 0
    CHECK(says(fen_formula_contains(OVER(codes, 3), 1), 1) && says(fen_over_contains(&differ, 1), 1));
    CHECK(says(fen_formula_contains(OVER(codes, 3), 64), 0) && says(fen_over_contains(&differ, 64), 0));
    CHECK(says(fen_formula_contains(OVER(rest, 4), 64), 1) && says(fen_over_contains(&all, 64), 1));
    CHECK(says(fen_formula_is_empty(OVER(codes, 3)), 0) && says(fen_over_is_empty(&differ), 0));
    CHECK(says(fen_formula_get_from_layer(OVER(codes, 3), 0, 0), 3) && says(fen_over_get_from_layer(&differ, 0, 0), 3));
    CHECK(refuses(fen_formula_contains(OVER(not_one, 2), 0), FEN_NO_FORMULA) && refuses(fen_over_contains(&none, 0), FEN_NO_FORMULA));
    CHECK(refuses(fen_formula_get_from_layer(OVER(not_one, 2), 4, 0), FEN_NO_LAYER));
    CHECK(refuses(fen_over_get_from_layer(&none, 4, 0), FEN_NO_LAYER));
    CHECK(refuses(fen_formula_is_empty(codes, 3, a, L, four, FOUR, a, 0, a, 0), FEN_DIFFER) && refuses(fen_over_is_empty(&small), FEN_DIFFER));
    CHECK(refuses(fen_formula_is_empty(codes, 3, a, 0, b, L, a, 0, a, 0), FEN_NO_STORE));
    CHECK(steps(fen_formula_next(OVER(codes, 3), &at, 9), FEN_REFUSED, FEN_NO_CURSOR));
    CHECK(steps(fen_formula_fill(OVER(codes, 3), &at, 9, out, 0), FEN_REFUSED, FEN_NO_CURSOR));
    CHECK(steps(fen_formula_next(OVER(not_one, 2), &at, 9), FEN_REFUSED, FEN_NO_FORMULA));
    CHECK(steps(fen_formula_fill(OVER(not_one, 2), &at, 9, out, 0), FEN_REFUSED, FEN_NO_FORMULA));
    CHECK(memcmp(&at, &copy, sizeof at) == 0);
    CHECK(steps(fen_formula_start(OVER(codes, 3), &at), FEN_PAUSED, 0) && at.reads == 1 && at.masks[3] == 1 && at.masks[2] == 0);
    CHECK(steps(fen_over_start(&differ, &copy), FEN_PAUSED, 0) && memcmp(&at, &copy, sizeof at) == 0);
    CHECK(steps(fen_formula_next(OVER(codes, 3), &at, 9), FEN_MEMBER, 0) && at.reads == 3);
    CHECK(steps(fen_over_next(&differ, &copy, 9), FEN_MEMBER, 0) && memcmp(&at, &copy, sizeof at) == 0);
    CHECK(steps(fen_formula_fill(OVER(codes, 3), &at, 9, out, 0), FEN_FULL, 0) && at.reads == 0);
    CHECK(steps(fen_formula_fill(OVER(codes, 3), &at, 9, out, 1), FEN_FULL, 1) && at.reads == 0 && out[0] == 1);
    CHECK(steps(fen_over_fill(&differ, &copy, 9, kept_out, 1), FEN_FULL, 1) && kept_out[0] == 1 && memcmp(&at, &copy, sizeof at) == 0);
    CHECK(steps(fen_formula_fill(OVER(codes, 3), &at, 9, out, 4), FEN_END, 0) && at.reads == 1);
    CHECK(steps(fen_over_fill(&differ, &copy, 0, kept_out, 4), FEN_PAUSED, 0) && copy.reads == 0);
    CHECK(steps(fen_formula_fill(OVER(codes, 3), &at, 9, out, 0), FEN_FULL, 0) && at.reads == 0); /* the walk is over */
    CHECK(out[0] == 1 && out[1] == 9 && kept_out[1] == 9);
}

/* Each code and each store stands in its own place of what is kept: of stores with one id each, the formula k has id k. */
static void kept_formulas(void)
{
    static uint64_t stores[4][L];
    fen_formula one = {NULL, 1, {stores[0], stores[1], stores[2], stores[3]}, {L, L, L, L}};
    uint8_t code;
    uint32_t id;
    for (id = 0; id < 4; id++)
        CHECK(says(fen_open(stores[id], L, N), 0) && says(fen_add(stores[id], L, id), 0));
    one.codes = &code;
    for (code = 0; code < 4; code++) {
        uint32_t out[2] = {0};
        fen_cursor at = {{0}, {0}, 0};
        for (id = 0; id < 4; id++)
            CHECK(says(fen_over_contains(&one, id), id == code));
        CHECK(says(fen_over_is_empty(&one), 0));
        CHECK(says(fen_over_get_from_layer(&one, 0, 0), (uint64_t)1 << code));
        CHECK(says(fen_over_get_from_layer(&one, 0, 1), 0));
        CHECK(steps(fen_over_start(&one, &at), FEN_PAUSED, 0));
        CHECK(steps(fen_over_next(&one, &at, 2), FEN_PAUSED, 0) && at.reads == 2);
        CHECK(steps(fen_over_next(&one, &at, 1), FEN_MEMBER, code) && at.reads == 1);
        CHECK(steps(fen_over_start(&one, &at), FEN_PAUSED, 0));
        CHECK(steps(fen_over_fill(&one, &at, 3, out, 2), FEN_END, 1) && out[0] == code);
        one.lens[code] = L - 1;
        CHECK(refuses(fen_over_is_empty(&one), FEN_NO_STORE));
        one.lens[code] = L;
    }
}

/* The map of {0, 64} in 65 ids. */
static void maps(void)
{
    const uint8_t map[40] = {65, 0, 0, 0, 2, 0, 0, 0, 2, 0, 0, 0, 16, 0, 0, 0, 0, 0, 0, 0, 1, 0, 0, 0, 0, 0, 0, 0, 1, 0, 0, 0, 1};
    uint8_t buf[41];
    memset(buf, 9, sizeof buf);
    CHECK(FEN_MAP_MAX(N) == 40 && says(fen_map_length(a, L), 40));
    CHECK(refuses(fen_map_write(a, L, buf, 39), FEN_SHORT_BUFFER) && buf[0] == 9);
    CHECK(says(fen_map_write(a, L, buf, 41), 40) && memcmp(buf, map, 40) == 0 && buf[40] == 9);
    CHECK(says(fen_map_read(buf, 41, b, L), 0) && says(fen_equal(a, L, b, L), 1));
    CHECK(says(fen_map_capacity(buf, 40), N) && says(fen_map_capacity(buf, 41), N));
    keep();
    CHECK(refuses(fen_map_read(buf, 39, a, L), FEN_NO_MAP) && refuses(fen_map_capacity(buf, 39), FEN_NO_MAP));
    CHECK(refuses(fen_map_read(buf, 40, four, FOUR), FEN_DIFFER));
    buf[4] = 3; /* three members, and two bits */
    CHECK(refuses(fen_map_read(buf, 40, a, L), FEN_BAD_COUNT) && says(fen_map_capacity(buf, 40), N));
    buf[28] = 0; /* word 0 twice */
    CHECK(refuses(fen_map_read(buf, 40, a, L), FEN_BAD_ENTRY) && says(fen_map_capacity(buf, 40), N));
    CHECK(refuses(fen_map_read(buf, 40, a, 0), FEN_NO_STORE));
    CHECK(kept());
}

/* What a map's header can have wrong: the reader says 9, and so does the capacity. */
static void map_headers(void)
{
    static const struct { size_t at; uint8_t byte; } wrong[] = {{0, 0}, {3, 2}, {8, 3}, {12, 17}, {15, 1}};
    uint8_t buf[40];
    size_t i;
    CHECK(says(fen_map_write(a, L, buf, 40), 40));
    for (i = 0; i < sizeof wrong / sizeof *wrong; i++) {
        uint8_t right = buf[wrong[i].at];
        buf[wrong[i].at] = wrong[i].byte;
        CHECK(refuses(fen_map_read(buf, 40, b, L), FEN_NO_MAP) && refuses(fen_map_capacity(buf, 40), FEN_NO_MAP));
        buf[wrong[i].at] = right;
    }
    for (i = 0; i < 40; i++)
        CHECK(refuses(fen_map_read(buf, i, b, L), FEN_NO_MAP) && refuses(fen_map_capacity(buf, i), FEN_NO_MAP));
    CHECK(says(fen_map_read(buf, 40, b, L), 0) && says(fen_map_capacity(buf, 40), N));
}

/* A length is that of the map that is written, also of a store that is not sound: no summary bit, and bits past the capacity. */
static void map_lengths(void)
{
    uint8_t buf[FEN_MAP_MAX(N)];
    CHECK(says(fen_open(b, L, N), 0) && says(fen_map_length(b, L), 16) && says(fen_map_write(b, L, buf, sizeof buf), 16));
    b[5] = 2; /* id 65, and no bit above it */
    CHECK(says(fen_is_sound(b, L), 0) && says(fen_map_length(b, L), 16) && says(fen_map_write(b, L, buf, sizeof buf), 16));
    b[5] = 3; /* ids 64 and 65 */
    CHECK(says(fen_is_sound(b, L), 0) && says(fen_map_length(b, L), 28) && says(fen_map_write(b, L, buf, sizeof buf), 28));
    CHECK(refuses(fen_map_length(b, L - 1), FEN_NO_STORE) && refuses(fen_map_write(b, L - 1, buf, sizeof buf), FEN_NO_STORE));
    CHECK(says(fen_clear(b, L), 0));
}

/* A directory of 4 chunks: its store, and eight bytes, of which four are lent. */
static struct directory {
    uint64_t store[FOUR];
    uint8_t owners[8];
} dir, dir_was;

#define DIRECTORY dir.store, FOUR, dir.owners, 4

static int dir_kept(void)
{
    return memcmp(&dir_was, &dir, sizeof dir) == 0;
}

/* Which chunks are members, and the bytes of the four; the bytes behind them stay. */
static int dir_is(uint64_t members, uint8_t o0, uint8_t o1, uint8_t o2, uint8_t o3)
{
    const uint64_t above = members != 0, store[FOUR] = {4, above, above, above, members};
    const uint8_t owners[8] = {o0, o1, o2, o3, 7, 7, 7, 7};
    return memcmp(dir.store, store, sizeof store) == 0 && memcmp(dir.owners, owners, sizeof owners) == 0;
}

/* Each refusal, with all that is asked after it wrong too. */
static void directory_refusals(void)
{
    memset(&dir, 7, sizeof dir);
    dir_was = dir;
    CHECK(refuses(fen_directory_open(dir.store, 1, dir.owners, 1, 0), FEN_NO_CAPACITY));
    CHECK(refuses(fen_directory_open(dir.store, 1, dir.owners, 1, 16777217), FEN_NO_CAPACITY));
    CHECK(refuses(fen_directory_open(dir.store, FOUR - 1, dir.owners, 3, 4), FEN_NO_STORE));
    CHECK(refuses(fen_directory_open(dir.store, FOUR, dir.owners, 4, 65), FEN_NO_STORE));
    CHECK(refuses(fen_directory_open(dir.store, FOUR, dir.owners, 3, 4), FEN_BAD_OWNERS));
    CHECK(refuses(fen_directory_open(dir.store, FOUR, dir.owners, 5, 4), FEN_BAD_OWNERS));
    CHECK(refuses(fen_directory_give(dir.store, FOUR, dir.owners, 3, 0), FEN_NO_STORE)); /* not opened yet */
    CHECK(refuses(fen_directory_return(dir.store, FOUR, dir.owners, 3, 0, 4), FEN_NO_STORE));
    CHECK(dir_kept());
    CHECK(says(fen_directory_open(DIRECTORY, 4), 0) && dir_is(0, 0, 0, 0, 0));
    CHECK(says(fen_directory_give(DIRECTORY, 1), 1) && says(fen_directory_give(DIRECTORY, 200), 2) && says(fen_directory_give(DIRECTORY, 2), 3));
    dir_was = dir;
    CHECK(refuses(fen_directory_give(dir.store, FOUR - 1, dir.owners, 3, 0), FEN_NO_STORE));
    CHECK(refuses(fen_directory_give(dir.store, FOUR, dir.owners, 3, 0), FEN_BAD_OWNERS));
    CHECK(refuses(fen_directory_give(dir.store, FOUR, dir.owners, 5, 0), FEN_BAD_OWNERS));
    CHECK(refuses(fen_directory_give(DIRECTORY, 0), FEN_NO_ITEM) && refuses(fen_directory_give(DIRECTORY, 201), FEN_NO_ITEM));
    CHECK(refuses(fen_directory_give(DIRECTORY, 257), FEN_NO_ITEM) && refuses(fen_directory_give(DIRECTORY, UINT32_MAX), FEN_NO_ITEM));
    CHECK(refuses(fen_directory_give(DIRECTORY, 1), FEN_NONE_FREE) && refuses(fen_directory_give(DIRECTORY, 200), FEN_NONE_FREE));
    CHECK(refuses(fen_directory_return(dir.store, FOUR - 1, dir.owners, 3, 0, 4), FEN_NO_STORE));
    CHECK(refuses(fen_directory_return(dir.store, FOUR, dir.owners, 3, 0, 4), FEN_BAD_OWNERS));
    CHECK(refuses(fen_directory_return(dir.store, FOUR, dir.owners, 5, 0, 4), FEN_BAD_OWNERS));
    CHECK(refuses(fen_directory_return(DIRECTORY, 0, 4), FEN_NO_ITEM) && refuses(fen_directory_return(DIRECTORY, 201, 4), FEN_NO_ITEM));
    CHECK(refuses(fen_directory_return(DIRECTORY, 257, 1), FEN_NO_ITEM)); /* 1, as a byte */
    CHECK(refuses(fen_directory_return(DIRECTORY, 1, 0), FEN_NOT_OWNER)); /* the header is nobody's */
    CHECK(refuses(fen_directory_return(DIRECTORY, 2, 1), FEN_NOT_OWNER) && refuses(fen_directory_return(DIRECTORY, 7, 4), FEN_NOT_OWNER));
    CHECK(refuses(fen_directory_return(DIRECTORY, 1, UINT32_MAX), FEN_NOT_OWNER));
    CHECK(dir_kept() && dir_is(14, 0, 1, 200, 2));
}

/* What is returned is free and given again, and in between the store is read like any other. */
static void directory_calls(void)
{
    uint32_t out[5];
    fen_cursor at = {{0}, {0}, 0};
    CHECK(says(fen_directory_return(DIRECTORY, 200, 2), 0) && dir_is(10, 0, 1, 0, 2));
    CHECK(refuses(fen_directory_return(DIRECTORY, 200, 2), FEN_NOT_OWNER) && dir_is(10, 0, 1, 0, 2));
    CHECK(says(fen_is_sound(dir.store, FOUR), 1) && steps(fen_start(dir.store, FOUR, &at), FEN_PAUSED, 0));
    CHECK(steps(fen_fill(dir.store, FOUR, &at, 9, out, 5), FEN_END, 2) && out[0] == 1 && out[1] == 3);
    CHECK(says(fen_directory_return(DIRECTORY, 1, 1), 0) && dir_is(8, 0, 0, 0, 2));
    CHECK(says(fen_directory_give(DIRECTORY, 3), 1) && dir_is(10, 0, 3, 0, 2));
    CHECK(says(fen_directory_give(DIRECTORY, 4), 2) && dir_is(14, 0, 3, 4, 2));
    CHECK(refuses(fen_directory_give(DIRECTORY, 4), FEN_NONE_FREE));
    CHECK(says(fen_directory_open(dir.store, FOUR, dir.owners, 1, 1), 0)); /* the header alone */
    CHECK(refuses(fen_directory_give(dir.store, FOUR, dir.owners, 1, 4), FEN_NONE_FREE));
    CHECK(says(fen_directory_open(DIRECTORY, 4), 0) && dir_is(0, 0, 0, 0, 0));
}

/* Many calls on 65 chunks: each gives the lowest free one but the header; those given less those returned are the members, each with its
   owner. */
static void directory_figures(void)
{
    static uint64_t store[L];
    static uint8_t owners[N], told[N];
    uint64_t given = 0, returned = 0;
    uint32_t out[N + 1], turn, item, chunk;
    fen_cursor at = {{0}, {0}, 0};
    CHECK(says(fen_directory_open(store, L, owners, N, N), 0));
    for (turn = 0; turn < 880; turn++) {
        item = turn % 200 + 1;
        chunk = turn * turn % N;
        if (turn / 100 % 3 == 2 && told[chunk] != 0) {
            CHECK(says(fen_directory_return(store, L, owners, N, told[chunk], chunk), 0));
            told[chunk] = 0;
            returned++;
        } else if (given - returned < N - 1) {
            for (chunk = 1; told[chunk] != 0;)
                chunk++;
            CHECK(says(fen_directory_give(store, L, owners, N, item), chunk));
            told[chunk] = (uint8_t)item;
            given++;
        } else {
            CHECK(refuses(fen_directory_give(store, L, owners, N, item), FEN_NONE_FREE));
        }
        CHECK(memcmp(owners, told, N) == 0);
    }
    CHECK(returned > 100 && given - returned < N - 1 && says(fen_is_sound(store, L), 1));
    CHECK(steps(fen_start(store, L, &at), FEN_PAUSED, 0) && steps(fen_fill(store, L, &at, 9, out, N + 1), FEN_END, given - returned));
    for (turn = 0; turn < given - returned; turn++)
        CHECK(owners[out[turn]] != 0);
}

/* Store and bytes that disagree, since other calls have changed them. */
static void directory_disagrees(void)
{
    CHECK(says(fen_add(dir.store, FOUR, 0), 0)); /* a member, and its byte is 0 */
    CHECK(refuses(fen_directory_return(DIRECTORY, 1, 0), FEN_NOT_OWNER) && refuses(fen_directory_return(DIRECTORY, 0, 0), FEN_NO_ITEM));
    dir.owners[1] = 5; /* a byte, and no member */
    CHECK(says(fen_directory_give(DIRECTORY, 6), 1) && dir_is(3, 0, 6, 0, 0));
    CHECK(says(fen_remove(dir.store, FOUR, 1), 1));
    CHECK(says(fen_directory_return(DIRECTORY, 6, 1), 0) && dir_is(1, 0, 0, 0, 0));
    dir.owners[2] = 201; /* no item, so nobody can return it */
    CHECK(refuses(fen_directory_return(DIRECTORY, 201, 2), FEN_NO_ITEM) && refuses(fen_directory_return(DIRECTORY, 200, 2), FEN_NOT_OWNER));
    CHECK(dir_is(1, 0, 0, 201, 0));
}

/* A null pointer with count 0 is an empty slice: in each place of each call. */
static void nulls(void)
{
    const uint8_t map[40] = {65, 0, 0, 0, 2, 0, 0, 0, 2, 0, 0, 0, 16, 0, 0, 0, 0, 0, 0, 0, 1, 0, 0, 0, 0, 0, 0, 0, 1, 0, 0, 0, 1};
    const uint32_t ids[] = {1};
    uint8_t buf[40];
    keep();
    CHECK(refuses(fen_open(NULL, 0, N), FEN_NO_STORE) && refuses(fen_clear(NULL, 0), FEN_NO_STORE));
    CHECK(refuses(fen_is_empty(NULL, 0), FEN_NO_STORE) && refuses(fen_contains(NULL, 0, 1), FEN_NO_STORE));
    CHECK(refuses(fen_add(NULL, 0, 1), FEN_NO_STORE) && refuses(fen_remove(NULL, 0, 1), FEN_NO_STORE));
    CHECK(refuses(fen_add_list(NULL, 0, ids, 1), FEN_NO_STORE) && refuses(fen_add_list(NULL, 0, NULL, 0), FEN_NO_STORE));
    CHECK(says(fen_add_list(a, L, NULL, 0), 0) && refuses(fen_first_free(NULL, 0), FEN_NO_STORE));
    CHECK(refuses(fen_equal(NULL, 0, b, L), FEN_NO_STORE) && refuses(fen_equal(a, L, NULL, 0), FEN_NO_STORE));
    CHECK(refuses(fen_contains_set(NULL, 0, b, L), FEN_NO_STORE) && refuses(fen_contains_set(a, L, NULL, 0), FEN_NO_STORE));
    CHECK(refuses(fen_get_from_layer(NULL, 0, 0, 0), FEN_NO_STORE) && is_part(fen_layer0(NULL, 0), 0, 0));
    CHECK(is_part(fen_layer1(NULL, 0), 0, 0) && is_part(fen_layer2(NULL, 0), 0, 0));
    CHECK(refuses(fen_is_sound(NULL, 0), FEN_NO_STORE) && refuses(fen_rebuild(NULL, 0), FEN_NO_STORE));
    CHECK(refuses(fen_bitor_assign(NULL, 0, b, L), FEN_NO_STORE) && refuses(fen_bitor_assign(a, L, NULL, 0), FEN_NO_STORE));
    CHECK(refuses(fen_bitand_assign(NULL, 0, b, L), FEN_NO_STORE) && refuses(fen_bitand_assign(a, L, NULL, 0), FEN_NO_STORE));
    CHECK(refuses(fen_bitxor_assign(NULL, 0, b, L), FEN_NO_STORE) && refuses(fen_bitxor_assign(a, L, NULL, 0), FEN_NO_STORE));
    CHECK(refuses(fen_map_write(NULL, 0, buf, 40), FEN_NO_STORE) && refuses(fen_map_write(a, L, NULL, 0), FEN_SHORT_BUFFER));
    CHECK(refuses(fen_map_read(NULL, 0, a, L), FEN_NO_MAP) && refuses(fen_map_read(map, 40, NULL, 0), FEN_NO_STORE));
    CHECK(refuses(fen_map_length(NULL, 0), FEN_NO_STORE) && refuses(fen_map_capacity(NULL, 0), FEN_NO_MAP));
    CHECK(refuses(fen_directory_open(NULL, 0, buf, 40, 40), FEN_NO_STORE) && refuses(fen_directory_open(a, L, NULL, 0, N), FEN_BAD_OWNERS));
    CHECK(refuses(fen_directory_give(NULL, 0, NULL, 0, 1), FEN_NO_STORE) && refuses(fen_directory_give(a, L, NULL, 0, 1), FEN_BAD_OWNERS));
    CHECK(refuses(fen_directory_return(NULL, 0, NULL, 0, 1, 0), FEN_NO_STORE));
    CHECK(refuses(fen_directory_return(a, L, NULL, 0, 1, 0), FEN_BAD_OWNERS));
    CHECK(kept());
}

static void nulls_of_walks(void)
{
    const uint8_t first[] = {0};
    const fen_formula no_codes = {NULL, 0, {a, NULL, NULL, NULL}, {L, 0, 0, 0}}, no_store = {first, 1, {NULL, b, NULL, NULL}, {0, L, 0, 0}};
    const fen_formula alone = {first, 1, {a, NULL, NULL, NULL}, {L, 0, 0, 0}};
    uint32_t out[2];
    fen_cursor at = {{0}, {0}, 0};
    CHECK(steps(fen_start(NULL, 0, &at), FEN_REFUSED, FEN_NO_STORE) && steps(fen_next(NULL, 0, &at, 9), FEN_REFUSED, FEN_NO_STORE));
    CHECK(steps(fen_fill(NULL, 0, &at, 9, out, 2), FEN_REFUSED, FEN_NO_STORE));
    CHECK(steps(fen_fill(NULL, 0, &at, 9, NULL, 0), FEN_REFUSED, FEN_NO_STORE));
    CHECK(steps(fen_start(a, L, &at), FEN_PAUSED, 0) && steps(fen_fill(a, L, &at, 9, NULL, 0), FEN_FULL, 0));
    CHECK(refuses(fen_over_contains(&no_codes, 1), FEN_NO_FORMULA) && refuses(fen_over_contains(&no_store, 1), FEN_NO_STORE));
    CHECK(refuses(fen_over_is_empty(&no_codes), FEN_NO_FORMULA) && refuses(fen_over_is_empty(&no_store), FEN_NO_STORE));
    CHECK(refuses(fen_over_get_from_layer(&no_codes, 0, 0), FEN_NO_FORMULA));
    CHECK(refuses(fen_over_get_from_layer(&no_store, 0, 0), FEN_NO_STORE));
    CHECK(steps(fen_over_start(&no_codes, &at), FEN_REFUSED, FEN_NO_FORMULA) && steps(fen_over_start(&no_store, &at), FEN_REFUSED, FEN_NO_STORE));
    CHECK(steps(fen_over_next(&no_codes, &at, 9), FEN_REFUSED, FEN_NO_FORMULA));
    CHECK(steps(fen_over_next(&no_store, &at, 9), FEN_REFUSED, FEN_NO_STORE));
    CHECK(steps(fen_over_fill(&no_codes, &at, 9, out, 2), FEN_REFUSED, FEN_NO_FORMULA));
    CHECK(steps(fen_over_fill(&no_store, &at, 9, out, 2), FEN_REFUSED, FEN_NO_STORE));
    CHECK(says(fen_over_contains(&alone, 64), 1) && says(fen_over_is_empty(&alone), 0) && says(fen_over_get_from_layer(&alone, 0, 1), 1));
    CHECK(steps(fen_over_start(&alone, &at), FEN_PAUSED, 0) && steps(fen_over_fill(&alone, &at, 9, NULL, 0), FEN_FULL, 0));
    CHECK(steps(fen_over_next(&alone, &at, 9), FEN_MEMBER, 0) && steps(fen_over_fill(&alone, &at, 9, out, 2), FEN_END, 1) && out[0] == 64);
}

/* A call keeps nothing: two walks of one store and one over a formula, in turn, hand out what each would alone. */
static void in_turn(void)
{
    const uint8_t not_first[] = {0, FEN_NOT};
    const fen_formula rest = {not_first, 2, {a, NULL, NULL, NULL}, {L, 0, 0, 0}};
    fen_cursor one = {{0}, {0}, 0}, two = one, three = one;
    CHECK(fen_start(a, L, &one).which == FEN_PAUSED && fen_over_start(&rest, &three).which == FEN_PAUSED);
    CHECK(steps(fen_next(a, L, &one, 9), FEN_MEMBER, 0) && fen_start(a, L, &two).which == FEN_PAUSED);
    CHECK(steps(fen_over_next(&rest, &three, 9), FEN_MEMBER, 1) && steps(fen_next(a, L, &two, 9), FEN_MEMBER, 0));
    CHECK(steps(fen_next(a, L, &one, 9), FEN_MEMBER, 64) && steps(fen_over_next(&rest, &three, 9), FEN_MEMBER, 2));
    CHECK(steps(fen_next(a, L, &two, 9), FEN_MEMBER, 64) && steps(fen_next(a, L, &one, 9), FEN_END, 0));
}

int main(void)
{
    layout();
    sizes();
    names();
    opened();
    ids();
    stores();
    layers();
    walk();
    no_room();
    in_place();
    formulas();
    kept_formulas();
    maps();
    map_headers();
    map_lengths();
    directory_refusals();
    directory_calls();
    directory_figures();
    directory_disagrees();
    nulls();
    nulls_of_walks();
    in_turn();
    return failed;
}
