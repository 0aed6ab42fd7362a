/* Fendruscla: the chunk set of a raw-photo container. Every call of the archive is proved to meet its contract (README.md, docs/CLAIMS.md).
 *
 * Memory. The caller owns all of it: stores, lists, buffers, cursors. A call reads and writes only what it is lent, keeps nothing and makes
 * nothing. A slice is lent as a pointer and a count of elements. The pointer is aligned; where the count is 0 it may be null. What a call
 * writes to does not overlap what else it is lent.
 *
 * Threads. Since a call keeps nothing, any number of calls may run at a time over memory that none of them writes.
 *
 * A store of capacity N, from 1 to 16,777,216, is fen_words(N) words; fen_open makes them one. Ids are below N. Four layers: a bit of layer 0
 * is an id, a bit above says that the word below it is not zero.
 *
 * Refusals. A refused call answers its number, and zero elsewhere, and changes nothing that it was lent. What a call can be refused for stands
 * beside it, in the order in which it is asked.
 */
#ifndef FENDRUSCLA_H
#define FENDRUSCLA_H

#include <stddef.h>
#include <stdint.h>

/* Counts are 64-bit numbers: where size_t is smaller, this is an error. */
typedef char fen_size_t_has_64_bits[sizeof(size_t) == 8 ? 1 : -1];

#ifdef __cplusplus
extern "C" {
#endif

/* The version: 100 * 100 * major + 100 * minor + patch. FEN_VERSION is the header's, fen_version answers the archive's. */
#define FEN_VERSION 300
uint64_t fen_version(void);

enum {
    FEN_OK = 0,           /* nothing is refused */
    FEN_NO_CAPACITY = 1,  /* capacity 0 or above 16,777,216 */
    FEN_NO_STORE = 2,     /* no store: length and word 0 do not fit */
    FEN_NO_ROOM = 3,      /* an id at or past the capacity */
    FEN_NO_LAYER = 4,     /* layer above 3 */
    FEN_DIFFER = 5,       /* capacities differ */
    FEN_NO_FORMULA = 6,   /* no formula over the stores that are lent */
    FEN_NO_CURSOR = 7,    /* cursor: a prefix that is none */
    FEN_SHORT_BUFFER = 8, /* buffer shorter than the map */
    FEN_NO_MAP = 9,       /* map: header wrong, or too short */
    FEN_BAD_ENTRY = 10,   /* map: an entry is wrong */
    FEN_BAD_COUNT = 11,   /* map: the count of members is wrong */
    FEN_NONE_FREE = 12,   /* every id from 1 on is a member */
    FEN_BAD_OWNERS = 13,  /* directory: not as many owner bytes as the capacity */
    FEN_NO_ITEM = 14,     /* directory: item 0 or above 200 */
    FEN_NOT_OWNER = 15    /* directory: the chunk is at or past the capacity, or its owner is not the item */
};

/* A refusal as text, never null. */
static inline const char *fen_refusal_text(uint64_t refusal)
{
    static const char *const texts[] = {
        "nothing is refused",
        "the capacity is 0 or above 16777216",
        "the words are no store",
        "an id is at or past the capacity",
        "the layer is above 3",
        "the capacities differ",
        "no formula over the stores that are lent",
        "a prefix of the cursor is none",
        "the buffer is shorter than the map",
        "the map's header is wrong or the map too short",
        "an entry of the map is wrong",
        "the map's count of members is wrong",
        "no id is free",
        "the owner bytes are not as many as the capacity",
        "the item is 0 or above 200",
        "the item does not own the chunk",
    };
    return refusal < sizeof texts / sizeof *texts ? texts[refusal] : "unknown refusal";
}

/* The refusal's number, FEN_OK for none, and the value, 0 where there is none. */
typedef struct fen_answer {
    uint64_t refusal;
    uint64_t value;
} fen_answer;

/* What a call of a walk says. */
enum {
    FEN_REFUSED = 0, /* value: the refusal's number */
    FEN_MEMBER = 1,  /* next: value is the member */
    FEN_PAUSED = 2,  /* the budget is spent; fill: value is how many members were written */
    FEN_END = 3,     /* the walk is over; fill: as above */
    FEN_FULL = 4     /* fill: the places are full, value is how many they are */
};
typedef struct fen_step {
    uint64_t which;
    uint64_t value;
} fen_step;

/* Where a walk stands. The start makes it, the calls change it unless they refuse; a copy of it is a walk of its own. masks[4] and prefix[3]
 * are room for a fifth layer and are left as they are. `reads` is how many words the last call read; a refused call leaves it as it was. */
typedef struct fen_cursor {
    uint64_t masks[5];
    uint64_t prefix[4];
    uint64_t reads;
} fen_cursor;

/* A part of a store: its first word and how many. Length 0 stands for refusal 2. */
typedef struct fen_part {
    uint64_t start;
    uint64_t length;
} fen_part;

/* A bit's number, if there is one. */
typedef struct fen_half {
    uint64_t some;
    uint64_t bit;
} fen_half;

/* How many words a store of capacity n has; FEN_WORDS for the size of an array. n is any number of 32 bits. */
#define FEN_WORDS(n) (2 + ((size_t)(n) + 63) / 64 + ((size_t)(n) + 4095) / 4096 + ((size_t)(n) + 262143) / 262144)
static inline size_t fen_words(size_t n)
{
    return FEN_WORDS(n);
}

/* ---- one store */

/* Makes `len` words an empty store of capacity n. Refusals 1, 2. */
fen_answer fen_open(uint64_t *store, size_t len, uint32_t n);
/* Empties it. Refusal 2. */
fen_answer fen_clear(uint64_t *store, size_t len);
/* Value 1 if no id is a member, by layer 3 alone. Refusal 2. */
fen_answer fen_is_empty(const uint64_t *store, size_t len);
/* Value 1 if the id is a member; 0 at and past the capacity. Refusal 2. */
fen_answer fen_contains(const uint64_t *store, size_t len, uint32_t id);
/* Adds an id. Value 1 if it was held already. Refusals 2, 3. */
fen_answer fen_add(uint64_t *store, size_t len, uint32_t id);
/* Removes an id. Value 1 if it was held; 0 at and past the capacity. Refusal 2. */
fen_answer fen_remove(uint64_t *store, size_t len, uint32_t id);
/* Adds all ids, or none if one of them has no room. Refusals 2, 3. */
fen_answer fen_add_list(uint64_t *store, size_t len, const uint32_t *ids, size_t count);
/* The lowest id from 1 on that is not a member: chunk 0 is the container's header, member or not. A capacity of 1 is full. Refusals 2, 12. */
fen_answer fen_first_free(const uint64_t *store, size_t len);
/* Value 1 if all words are equal. Refusals 2, 5. */
fen_answer fen_equal(const uint64_t *store, size_t len, const uint64_t *other, size_t other_len);
/* Value 1 if every id that a walk of the other store hands out is a member of the first. Refusals 2, 5. */
fen_answer fen_contains_set(const uint64_t *store, size_t len, const uint64_t *other, size_t other_len);
/* A layer's word; 0 past the layer's end, and layer 3 has one word at every index. Refusals 2, 4. */
fen_answer fen_get_from_layer(const uint64_t *store, size_t len, size_t layer, size_t index);
/* Where a layer's words stand in the store. Refusal 2, as a part of length 0. */
fen_part fen_layer0(const uint64_t *store, size_t len);
fen_part fen_layer1(const uint64_t *store, size_t len);
fen_part fen_layer2(const uint64_t *store, size_t len);
/* Value 1 if no bit stands where nothing is, and each summary bit is set exactly if its word is not zero. Refusal 2. */
fen_answer fen_is_sound(const uint64_t *store, size_t len);
/* Writes the layers above from layer 0. Bits at or past the capacity stay, and the store is then still unsound. Refusal 2. */
fen_answer fen_rebuild(uint64_t *store, size_t len);
/* The set bit of a word that has half of the set bits, rounded down, at or above it; none with fewer than two. */
fen_half fen_average_ones(uint64_t word);

/* ---- the walk of one store */

/* Begins a walk. Reads the top word and answers FEN_PAUSED and value 0, also of an empty store; `reads` is 1, and the cursor stands before
 * the first read below the top word. Refusal 2. */
fen_step fen_start(const uint64_t *store, size_t len, fen_cursor *cursor);
/* The next member, with at most `budget` reads. Refusals 2, 7. */
fen_step fen_next(const uint64_t *store, size_t len, fen_cursor *cursor, uint64_t budget);
/* Up to `room` members, with at most `budget` reads in all. With no room it answers FEN_FULL, value 0 and no reads, also where the walk is
 * over. Places that are not used stay as they were. Refusals 2, 7. */
fen_step fen_fill(const uint64_t *store, size_t len, fen_cursor *cursor, uint64_t budget, uint32_t *out, size_t room);

/* ---- in place: the first store becomes the union, intersection, symmetric difference. Refusals 2, 5. */

fen_answer fen_bitor_assign(uint64_t *store, size_t len, const uint64_t *other, size_t other_len);
fen_answer fen_bitand_assign(uint64_t *store, size_t len, const uint64_t *other, size_t other_len);
fen_answer fen_bitxor_assign(uint64_t *store, size_t len, const uint64_t *other, size_t other_len);

/* ---- formulas
 * 1 to 32 codes in postfix order over four slices: 0 to 3 a store, FEN_AND and so on what joins or turns the values before it; at most eight
 * wait at once. Store 0 gives the capacity; an empty slice among the others is not lent. */

enum { FEN_AND = 16, FEN_OR = 17, FEN_XOR = 18, FEN_NOT = 19, FEN_ALL = 20 };

#define FEN_FORMULA                                                                                                                  \
    const uint8_t *codes, size_t count, const uint64_t *s0, size_t n0, const uint64_t *s1, size_t n1, const uint64_t *s2, size_t n2, \
        const uint64_t *s3, size_t n3

/* Value 1 if the id is a member of the formula; 0 at and past the capacity. Refusals 2, 5, 6. */
fen_answer fen_formula_contains(FEN_FORMULA, uint32_t id);
/* Value 1 if the formula's top word is zero. Refusals 2, 5, 6. */
fen_answer fen_formula_is_empty(FEN_FORMULA);
/* A layer word of the formula. Refusals 2, 5, 4, 6. */
fen_answer fen_formula_get_from_layer(FEN_FORMULA, size_t layer, size_t index);
/* The walk, as of one store; a word of the formula is one read. Start: refusals 2, 5, 6. Next and fill: refusals 2, 5, 6, 7. */
fen_step fen_formula_start(FEN_FORMULA, fen_cursor *cursor);
fen_step fen_formula_next(FEN_FORMULA, fen_cursor *cursor, uint64_t budget);
fen_step fen_formula_fill(FEN_FORMULA, fen_cursor *cursor, uint64_t budget, uint32_t *out, size_t room);

/* The same calls over a formula that is kept in one place. */
typedef struct fen_formula {
    const uint8_t *codes;
    size_t count;
    const uint64_t *stores[4];
    size_t lens[4];
} fen_formula;

#define FEN_KEPT                                                                                                                    \
    formula->codes, formula->count, formula->stores[0], formula->lens[0], formula->stores[1], formula->lens[1], formula->stores[2], \
        formula->lens[2], formula->stores[3], formula->lens[3]

static inline fen_answer fen_over_contains(const fen_formula *formula, uint32_t id)
{
    return fen_formula_contains(FEN_KEPT, id);
}
static inline fen_answer fen_over_is_empty(const fen_formula *formula)
{
    return fen_formula_is_empty(FEN_KEPT);
}
static inline fen_answer fen_over_get_from_layer(const fen_formula *formula, size_t layer, size_t index)
{
    return fen_formula_get_from_layer(FEN_KEPT, layer, index);
}
static inline fen_step fen_over_start(const fen_formula *formula, fen_cursor *cursor)
{
    return fen_formula_start(FEN_KEPT, cursor);
}
static inline fen_step fen_over_next(const fen_formula *formula, fen_cursor *cursor, uint64_t budget)
{
    return fen_formula_next(FEN_KEPT, cursor, budget);
}
static inline fen_step fen_over_fill(const fen_formula *formula, fen_cursor *cursor, uint64_t budget, uint32_t *out, size_t room)
{
    return fen_formula_fill(FEN_KEPT, cursor, budget, out, room);
}

#undef FEN_KEPT

/* ---- the chunk map */

/* How long the map of a store of capacity n is at most. n is any number of 32 bits. */
#define FEN_MAP_MAX(n) (16 + 12 * (((size_t)(n) + 63) / 64))

/* Writes the members; value is the map's length, and later bytes stay. Bits at or past the capacity are no members. Refusals 2, 8. */
fen_answer fen_map_write(const uint64_t *store, size_t len, uint8_t *buf, size_t room);
/* The length that fen_map_write answers where there is room, of a sound store or not. Refusal 2. */
fen_answer fen_map_length(const uint64_t *store, size_t len);
/* Checks a map and puts its members into the store, all layers. Later bytes are ignored. Refusals 2, 9, 5, 10, 11. */
fen_answer fen_map_read(const uint8_t *map, size_t length, uint64_t *store, size_t len);
/* The capacity that a map names, so that a store for it can be opened. Refusal 9, exactly where fen_map_read gives it. */
fen_answer fen_map_capacity(const uint8_t *map, size_t length);

/* ---- a directory over a store
 * Chunks are the ids of a store. Those from 1 on are given to items, numbered 1 to 200; chunk 0 is the container's header and never given. For
 * each chunk a byte says which item owns it, 0 for none. The store and its `count` bytes are always lent together; `count` is the capacity.
 *
 * The caller sees to it that between an opening and the last call no other call changes the store or the bytes. Then chunks given less chunks
 * returned since the opening are as many as the members, and each member has one owner; else these figures say nothing. Every call that only
 * reads a store may read this one in between, so it can be walked.
 *
 * Where store and bytes disagree: giving goes by the store alone and writes over the byte, whatever it was; a return whose byte is right goes
 * through, also of a chunk that is no member; a member whose byte is 0 cannot be returned. On an unsound store giving and returning do the
 * steps of fen_add and fen_remove. */

/* Makes `len` words an empty store of capacity n, and all bytes 0. Refusals 1, 2, 13. */
fen_answer fen_directory_open(uint64_t *store, size_t len, uint8_t *owners, size_t count, uint32_t n);
/* Gives the lowest free chunk from 1 on to an item, so that returned chunks are used again. Value: the chunk. Refusals 2, 13, 14, 12. */
fen_answer fen_directory_give(uint64_t *store, size_t len, uint8_t *owners, size_t count, uint32_t item);
/* Takes a chunk back from the item that owns it. It is free then, and its byte 0. Refusals 2, 13, 14, 15. */
fen_answer fen_directory_return(uint64_t *store, size_t len, uint8_t *owners, size_t count, uint32_t item, uint32_t chunk);

#ifdef __cplusplus
}
#endif

#endif
