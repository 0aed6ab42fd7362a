/* The port's side of the comparison: answers a script (docs/COMPARISON.md), a line for a line, by the calls of include/fendruscla.h and
 * oracle/probe.h over the archives that it is linked with. It is a test and not proved: what it gets wrong shows as a difference.
 *
 * A command is a row of the table `commands` and a function. The row's letters say what each number of a line is: `take` makes of it what
 * the calls are lent, and `put_back` puts what they wrote where the line says. Everything lent stands between two fences: a byte written
 * outside makes the line's answer `fence`, which the other side never says. */
#include <inttypes.h>
#include <stdbool.h>
#include <stdio.h>
#include <string.h>
#include "fendruscla.h"
#include "probe.h"

enum {
    LINE = 4096,      /* a line has fewer bytes, */
    LETTERS = 8,      /* its word at most so many letters, */
    NUMBERS = 64,     /* and at most so many numbers follow */
    MEMORY = 550000,  /* words of memory, all 0 at first */
    OWNED = 17000000, /* and bytes of owners, all 0 at first */
    SLOTS = 16,       /* parts of either that lines name */
    DUMPED = 1000,    /* a slot of more words is not dumped, */
    MERGED = 16646,   /* of more words not merged into another, */
    MAPPED = 1024,    /* and of more words holds no map; */
    CODES = 40,       /* of more words it holds no codes */
    PLACES = 64,      /* a batch has at most so many places */
    MASKS = 4,        /* a cursor in a slot has so many masks */
    PREFIXES = 3,     /* and then so many prefixes */
    LENT = 8,         /* a line lends at most so many slices */
    FENCE = 64        /* bytes of a fence */
};

/* ---- what a line lends, and the fences around it */

typedef struct fence {
    unsigned char *at;
    unsigned char kept[FENCE]; /* what it stands on */
    bool post[FENCE];          /* no post stands on a byte that is lent */
} fence;

typedef struct lent {
    unsigned char *at;
    size_t size;
    fence before, behind;
} lent;

static lent lends[LENT];
static size_t lending;

static const unsigned char POST = 0xa5;

static void *lend(void *at, size_t size)
{
    lends[lending].at = at;
    lends[lending].size = size;
    lending++;
    return at;
}

static void raise_fence(fence *f, unsigned char *at)
{
    f->at = at;
    memcpy(f->kept, at, FENCE);
    memset(f->post, true, sizeof f->post);
    for (const lent *l = lends; l < lends + lending; l++)
        if (l->at < at + FENCE && at < l->at + l->size)
            for (size_t b = 0; b < FENCE; b++)
                f->post[b] = f->post[b] && !(l->at <= at + b && at + b < l->at + l->size);
    for (size_t b = 0; b < FENCE; b++)
        at[b] = f->post[b] ? POST : at[b];
}

/* What it stood on comes back. Whether every post was there. */
static bool lower_fence(const fence *f)
{
    bool stood = true;
    for (size_t b = 0; b < FENCE; b++)
        if (f->post[b]) {
            stood = stood && f->at[b] == POST;
            f->at[b] = f->kept[b];
        }
    return stood;
}

static void raise_fences(void)
{
    for (size_t i = 0; i < lending; i++) {
        raise_fence(&lends[i].before, lends[i].at - FENCE);
        raise_fence(&lends[i].behind, lends[i].at + lends[i].size);
    }
}

/* In the other order, since one fence may stand on another. */
static bool lower_fences(void)
{
    bool stood = true;
    for (size_t i = lending; i-- > 0;) {
        stood = lower_fence(&lends[i].behind) && stood;
        stood = lower_fence(&lends[i].before) && stood;
    }
    return stood;
}

/* Room for a copy of so many bytes, aligned as a word: a line lends at most one slot's words as a copy, and some small ones. */
static uint64_t copies[MERGED + 2048];
static size_t copied;

static void *copy(size_t size)
{
    unsigned char *at = (unsigned char *)(copies + copied) + FENCE;
    copied += (FENCE + size + FENCE + 7) / 8;
    return lend(at, size);
}

/* ---- slots */

typedef struct part { uint64_t *at; size_t len; } part;

static uint64_t memory[FENCE + MEMORY + FENCE];
static part slots[SLOTS];

static bool is_slot(uint64_t s) { return s < SLOTS; }

/* A slot by its number; an empty part past the last one, and before it is lent. */
static part slot(uint64_t s) { return is_slot(s) && slots[s].at ? slots[s] : (part){memory + FENCE, 0}; }

/* The owner bytes of directories stand in a memory of their own, with slots of their own. */
typedef struct owner_part { uint8_t *at; size_t len; } owner_part;

static uint8_t owned[FENCE + OWNED + FENCE];
static owner_part owner_slots[SLOTS];

static owner_part owners(uint64_t s) { return owner_slots[s].at ? owner_slots[s] : (owner_part){owned + FENCE, 0}; }

static const uint64_t NOTHING = UINT64_C(14695981039346656037); /* the digest of no words */

static uint64_t digested(uint64_t h, uint64_t w) { return (h ^ w) * UINT64_C(1099511628211); }

static uint64_t digest(const uint64_t *w, size_t n)
{
    uint64_t h = NOTHING;
    for (size_t i = 0; i < n; i++)
        h = digested(h, w[i]);
    return h;
}

/* Bytes eight a word, the first the lowest, as both processors have them; zeros fill up the last word. */
static uint64_t owner_digest(const uint8_t *b, size_t n)
{
    uint64_t h = NOTHING;
    for (size_t i = 0; i < n; i += 8) {
        uint64_t w = 0;
        memcpy(&w, b + i, n - i < 8 ? n - i : 8);
        h = digested(h, w);
    }
    return h;
}

/* ---- a line's numbers as what the calls take */

typedef struct line {
    const char *word;
    size_t count;
    uint64_t n[NUMBERS];
    part s[5];               /* the words of its slots, in order */
    fen_cursor *cursor;
    uint32_t *ids;           /* of a list, or the places of a batch */
    size_t id_count;
    uint8_t *bytes;          /* a map's, codes, or owners */
    size_t byte_count;
} line;

static bool is_id(uint64_t n) { return n <= UINT32_MAX; }
static uint32_t id(uint64_t n) { return (uint32_t)n; }

static bool take_slot(line *l, part p)
{
    size_t k = 0;
    while (l->s[k].at)
        k++;
    l->s[k] = p;
    lend(p.at, p.len * sizeof *p.at);
    return true;
}

static bool take_owners(line *l, owner_part p)
{
    l->bytes = lend(p.at, p.len);
    l->byte_count = p.len;
    return true;
}

/* A copy of a slot's words, so that it may share words with another slot. */
static bool take_copy(line *l, part p)
{
    if (p.len > MERGED)
        return false;
    part c = {copy(p.len * sizeof *p.at), p.len};
    memcpy(c.at, p.at, p.len * sizeof *p.at);
    l->s[1] = c;
    return true;
}

static bool take_cursor(line *l, part p)
{
    if (p.len < MASKS + PREFIXES)
        return false;
    l->cursor = copy(sizeof *l->cursor);
    *l->cursor = (fen_cursor){0};
    memcpy(l->cursor->masks, p.at, MASKS * sizeof *p.at);
    memcpy(l->cursor->prefix, p.at + MASKS, PREFIXES * sizeof *p.at);
    for (size_t k = 0; k < PREFIXES; k++)
        if (!is_id(l->cursor->prefix[k]))
            return false;
    return true;
}

static bool take_ids(line *l, const uint64_t *n, size_t count)
{
    l->ids = copy(count * sizeof *l->ids);
    l->id_count = count;
    for (size_t i = 0; i < count; i++)
        l->ids[i] = id(n[i]);
    return true;
}

static bool take_list(line *l, const uint64_t *n, size_t count)
{
    for (size_t i = 0; i < count; i++)
        if (!is_id(n[i]))
            return false;
    return take_ids(l, n, count);
}

static bool take_bytes(line *l, part p, size_t most)
{
    if (p.len > most)
        return false;
    l->bytes = copy(p.len);
    l->byte_count = p.len;
    for (size_t i = 0; i < p.len; i++)
        l->bytes[i] = (uint8_t)p.at[i];
    return true;
}

/* Number k of a line, by its letter. */
static bool take(line *l, char letter, size_t k)
{
    uint64_t n = l->n[k];
    part p = slot(n);
    switch (letter) {
    case 'n': return true;                                                                       /* any number */
    case 'i': return is_id(n);                                                                   /* an id, a capacity: 32 bits */
    case 'l': return take_list(l, l->n + k, l->count - k);                                       /* ids to the line's end */
    case 's': return is_slot(n) && take_slot(l, p);                                              /* a slot, lent as it is */
    case 'e': return take_slot(l, p);                                                            /* the same; past the last one, none */
    case 'o': return is_slot(n) && take_copy(l, p);                                              /* another slot, as a copy */
    case 'c': return is_slot(n) && take_cursor(l, p);                                            /* one that holds a cursor */
    case 'd': return is_slot(n) && take_ids(l, p.at, p.len < PLACES ? p.len : PLACES);           /* the places of a batch */
    case 'p': return take_ids(l, p.at, p.len < PLACES ? p.len : PLACES);                         /* the same; past the last slot, none */
    case 'f': return take_bytes(l, p, CODES);                                                    /* codes; past the last slot, none */
    case 'm': case 'w': return is_slot(n) && take_bytes(l, p, MAPPED);                           /* a map to be read, or to be written */
    case 'b': return is_slot(n) && take_owners(l, owners(n));                                    /* a slot of owner bytes, lent as it is */
    default: return false;
    }
}

/* What the calls wrote to a copy goes to the slot that number k names. */
static void put_back(const line *l, char letter, size_t k)
{
    part p = slot(l->n[k]);
    switch (letter) {
    case 'c':
        memcpy(p.at, l->cursor->masks, MASKS * sizeof *p.at);
        memcpy(p.at + MASKS, l->cursor->prefix, PREFIXES * sizeof *p.at);
        break;
    case 'd': case 'p':
        for (size_t i = 0; i < l->id_count; i++)
            p.at[i] = l->ids[i];
        break;
    case 'w':
        for (size_t i = 0; i < l->byte_count; i++)
            p.at[i] = l->bytes[i];
        break;
    default:
        break;
    }
}

/* ---- what a line says: numbers, or nothing that is known */

static uint64_t said[DUMPED];
static size_t saying;

static bool none(void) { saying = 0; return true; }
static bool one(uint64_t a) { said[0] = a; saying = 1; return true; }
static bool two(uint64_t a, uint64_t b) { one(a); said[1] = b; saying = 2; return true; }
static bool three(uint64_t a, uint64_t b, uint64_t c) { two(a, b); said[2] = c; saying = 3; return true; }

static bool told(fen_answer a) { return a.refusal ? one(a.refusal) : two(0, a.value); }
static bool stepped(fen_step s, const fen_cursor *c) { return s.which == FEN_REFUSED ? one(s.value) : three(s.which, s.value, c->reads); }
/* A line says 1 for a full batch; a fill never answers FEN_MEMBER, and 4 would say that it did. */
static bool filled(fen_step s, const fen_cursor *c)
{
    s.which = s.which == FEN_FULL ? FEN_MEMBER : s.which == FEN_MEMBER ? FEN_FULL : s.which;
    return stepped(s, c);
}

/* ---- the commands, each by the call that it names */

#define S(k) l->s[k].at, l->s[k].len
#define IDS l->ids, l->id_count
#define BYTES l->bytes, l->byte_count
#define FORMULA BYTES, S(0), S(1), S(2), S(3)

static bool c_average(line *l) { fen_half h = fen_average_ones(l->n[0]); return h.some ? one(h.bit) : none(); }
static bool c_row(line *l) { return one(fen_probe_row(id(l->n[0]), l->n[1])); }
static bool c_offset(line *l) { return one(fen_probe_offset(id(l->n[0]), l->n[1])); }
static bool c_mask(line *l) { return one(fen_probe_mask(id(l->n[0]), l->n[1])); }
static bool c_offsets(line *l) { uint64_t o[3]; fen_probe_offsets(id(l->n[0]), o); return three(o[0], o[1], o[2]); }

static bool c_lend(line *l)
{
    if (l->n[1] > MEMORY || l->n[2] > MEMORY - l->n[1])
        return false;
    slots[l->n[0]] = (part){memory + FENCE + l->n[1], l->n[2]};
    return one(0);
}
static bool c_poke(line *l) { return l->n[1] < l->s[0].len && (l->s[0].at[l->n[1]] = l->n[2], one(0)); }
static bool c_peek(line *l) { return l->n[1] < l->s[0].len && one(l->s[0].at[l->n[1]]); }
static bool c_digest(line *l) { return one(digest(S(0))); }
static bool c_dump(line *l)
{
    if (l->s[0].len > DUMPED)
        return false;
    memcpy(said, l->s[0].at, l->s[0].len * sizeof *said);
    saying = l->s[0].len;
    return true;
}

static bool c_open(line *l) { return told(fen_open(S(0), id(l->n[1]))); }
static bool c_clear(line *l) { return told(fen_clear(S(0))); }
static bool c_isempty(line *l) { return told(fen_is_empty(S(0))); }
static bool c_add(line *l) { return told(fen_add(S(0), id(l->n[1]))); }
static bool c_remove(line *l) { return told(fen_remove(S(0), id(l->n[1]))); }
static bool c_contains(line *l) { return told(fen_contains(S(0), id(l->n[1]))); }
static bool c_list(line *l) { return told(fen_add_list(S(0), IDS)); }
static bool c_free(line *l) { return told(fen_first_free(S(0))); }
static bool c_equal(line *l) { return told(fen_equal(S(0), S(1))); }
static bool c_superset(line *l) { return told(fen_contains_set(S(0), S(1))); }
static bool c_sound(line *l) { return told(fen_is_sound(S(0))); }
static bool c_rebuild(line *l) { return told(fen_rebuild(S(0))); }
static bool c_word(line *l) { return told(fen_get_from_layer(S(0), l->n[1], l->n[2])); }
static bool c_layer(line *l)
{
    static fen_part (*const calls[])(const uint64_t *, size_t) = {fen_layer0, fen_layer1, fen_layer2};
    if (l->n[1] > 2)
        return false;
    fen_part p = calls[l->n[1]](S(0));
    return two(p.length, digest(l->s[0].at + p.start, p.length));
}

/* What a merge of unsound stores leaves is open (docs/EXCEPTIONS.md): no line asks for one. */
static bool unsound(part p) { fen_answer a = fen_is_sound(p.at, p.len); return a.refusal == 0 && a.value == 0; }
static bool c_or(line *l) { return !unsound(l->s[0]) && !unsound(l->s[1]) && told(fen_bitor_assign(S(0), S(1))); }
static bool c_and(line *l) { return !unsound(l->s[0]) && !unsound(l->s[1]) && told(fen_bitand_assign(S(0), S(1))); }
static bool c_xor(line *l) { return !unsound(l->s[0]) && !unsound(l->s[1]) && told(fen_bitxor_assign(S(0), S(1))); }

static bool c_start(line *l) { return stepped(fen_start(S(0), l->cursor), l->cursor); }
static bool c_next(line *l) { return stepped(fen_next(S(0), l->cursor, l->n[2]), l->cursor); }
static bool c_fill(line *l) { return filled(fen_fill(S(0), l->cursor, l->n[2], IDS), l->cursor); }
static bool c_first(line *l) { fen_cursor c; return stepped(fen_probe_first(S(0), l->n[1], &c.reads), &c); }

static bool c_write(line *l) { return told(fen_map_write(S(0), BYTES)); }
static bool c_read(line *l) { return told(fen_map_read(BYTES, S(0))); }
static bool c_maplen(line *l) { return told(fen_map_length(S(0))); }
static bool c_mapcap(line *l) { return told(fen_map_capacity(BYTES)); }

static bool c_fempty(line *l) { return told(fen_formula_is_empty(FORMULA)); }
static bool c_fcontain(line *l) { return told(fen_formula_contains(FORMULA, id(l->n[5]))); }
static bool c_fword(line *l) { return told(fen_formula_get_from_layer(FORMULA, l->n[5], l->n[6])); }
static bool c_fstart(line *l) { return stepped(fen_formula_start(FORMULA, l->cursor), l->cursor); }
static bool c_fnext(line *l) { return stepped(fen_formula_next(FORMULA, l->cursor, l->n[6]), l->cursor); }
static bool c_ffill(line *l) { return filled(fen_formula_fill(FORMULA, l->cursor, l->n[6], IDS), l->cursor); }

static bool c_olend(line *l)
{
    if (l->n[1] > OWNED || l->n[2] > OWNED - l->n[1])
        return false;
    owner_slots[l->n[0]] = (owner_part){owned + FENCE + l->n[1], l->n[2]};
    return one(0);
}
static bool c_opoke(line *l) { return l->n[1] < l->byte_count && (l->bytes[l->n[1]] = (uint8_t)l->n[2], one(0)); }
static bool c_opeek(line *l) { return l->n[1] < l->byte_count && one(l->bytes[l->n[1]]); }
static bool c_odigest(line *l) { return one(owner_digest(BYTES)); }
static bool c_odump(line *l)
{
    if (l->byte_count > DUMPED)
        return false;
    for (saying = 0; saying < l->byte_count; saying++)
        said[saying] = l->bytes[saying];
    return true;
}
static bool c_dopen(line *l) { return told(fen_directory_open(S(0), BYTES, id(l->n[2]))); }
static bool c_give(line *l) { return told(fen_directory_give(S(0), BYTES, id(l->n[2]))); }
static bool c_return(line *l) { return told(fen_directory_return(S(0), BYTES, id(l->n[2]), id(l->n[3]))); }

/* A word, a letter for each number of its line, and the function. */
typedef struct command { const char *word, *letters; bool (*call)(line *); } command;
static const command commands[] = {
    {"average", "n", c_average},   {"row", "in", c_row},           {"offset", "in", c_offset},      {"mask", "in", c_mask},
    {"offsets", "i", c_offsets},   {"lend", "snn", c_lend},        {"poke", "snn", c_poke},         {"peek", "sn", c_peek},
    {"digest", "s", c_digest},     {"dump", "s", c_dump},          {"open", "si", c_open},          {"clear", "s", c_clear},
    {"isempty", "s", c_isempty},   {"add", "si", c_add},           {"remove", "si", c_remove},      {"contains", "si", c_contains},
    {"list", "sl", c_list},        {"free", "s", c_free},          {"equal", "ss", c_equal},        {"superset", "ss", c_superset},
    {"sound", "s", c_sound},       {"rebuild", "s", c_rebuild},    {"word", "snn", c_word},         {"layer", "sn", c_layer},
    {"or", "so", c_or},            {"and", "so", c_and},           {"xor", "so", c_xor},            {"start", "cs", c_start},
    {"next", "csn", c_next},       {"fill", "csnd", c_fill},       {"first", "sn", c_first},        {"write", "ws", c_write},
    {"read", "ms", c_read},        {"maplen", "s", c_maplen},      {"mapcap", "m", c_mapcap},       {"fempty", "feeee", c_fempty},
    {"fcontain", "feeeei", c_fcontain}, {"fword", "feeeenn", c_fword}, {"fstart", "feeeec", c_fstart}, {"fnext", "feeeecn", c_fnext},
    {"ffill", "feeeecnp", c_ffill}, {"olend", "bnn", c_olend},     {"opoke", "bnn", c_opoke},       {"opeek", "bn", c_opeek},
    {"odigest", "b", c_odigest},   {"odump", "b", c_odump},        {"dopen", "sbi", c_dopen},       {"give", "sbi", c_give},
    {"return", "sbii", c_return},
};

static const command *named(const char *word)
{
    for (size_t i = 0; i < sizeof commands / sizeof *commands; i++)
        if (strcmp(word, commands[i].word) == 0)
            return &commands[i];
    return NULL;
}

/* Whether a line has as many numbers as its command has letters; a list may have none or more. */
static bool fits(const line *l, const char *letters)
{
    size_t fixed = strcspn(letters, "l");
    return letters[fixed] ? l->count >= fixed : l->count == fixed;
}

/* Makes the call that a line names. Whether there is one. */
static bool call(line *l, bool *fenced)
{
    const command *c = named(l->word);
    if (!c || !fits(l, c->letters))
        return false;
    lending = copied = 0;
    for (size_t k = 0; c->letters[k]; k++)
        if (!take(l, c->letters[k], k))
            return false;
    raise_fences();
    bool known = c->call(l);
    *fenced = lower_fences();
    for (size_t k = 0; c->letters[k]; k++)
        put_back(l, c->letters[k], k);
    return known;
}

/* ---- lines */

/* A line's word and numbers, one blank apart. Whether it has the form of one. */
static bool parse(char *text, line *l)
{
    size_t letters = strspn(text, "abcdefghijklmnopqrstuvwxyz");
    if (letters == 0 || letters > LETTERS)
        return false;
    char *at = text + letters;
    for (l->count = 0; *at == ' '; l->count++) {
        uint64_t n = 0;
        size_t digits = strspn(++at, "0123456789");
        if (digits == 0 || l->count == NUMBERS)
            return false;
        for (; digits > 0; digits--, at++) {
            uint64_t d = (uint64_t)(*at - '0');
            if (n > (UINT64_MAX - d) / 10)
                return false;
            n = 10 * n + d;
        }
        l->n[l->count] = n;
    }
    if (*at)
        return false;
    text[letters] = 0;
    l->word = text;
    return true;
}

static void answer(char *text, uint64_t number)
{
    line l = {0};
    bool fenced = true;
    bool known = parse(text, &l) && call(&l, &fenced);
    if (!fenced)
        puts("fence");
    else if (!known)
        printf("? %" PRIu64 "\n", number);
    else if (saying == 0)
        puts("none");
    else
        for (size_t i = 0; i < saying; i++)
            printf("%" PRIu64 "%c", said[i], i + 1 < saying ? ' ' : '\n');
}

int main(void)
{
    static char text[LINE + 1];
    for (uint64_t number = 1; fgets(text, sizeof text, stdin); number++) {
        size_t len = strcspn(text, "\n");
        /* of a line that is too long the rest is passed over */
        for (int c = text[len]; len == LINE && c != '\n' && c != EOF; c = getchar())
            text[0] = 0;
        text[text[0] ? len : 0] = 0;
        answer(text, number);
    }
    return 0;
}
