/* Which words the calls of a walk really load. The proofs fix the reads that a call reports; a load that it does not report is invisible to
 * them. Here stores of 16,777,216 ids stand in memory whose pages are closed, but for those that hold a word which the call may read: any other
 * load is a fault, and is told. A plain reading of document 01 says which words those are: word 0 in every call, the top word for
 * start and is_empty, and for next the words of its descent, as many as the budget allows; of a formula, the words at these places in each store
 * that is lent. Each case is tried with each of these words as the first and as the last of a page, so that the words beside it are closed
 * in one of the two. What stands between two such words that are less than a page apart cannot be closed. It is a test and not proved. */
#define _DEFAULT_SOURCE
#include <inttypes.h>
#include <setjmp.h>
#include <signal.h>
#include <stdbool.h>
#include <stdio.h>
#include <stdlib.h>
#include <string.h>
#include <sys/mman.h>
#include <unistd.h>
#include "fendruscla.h"

enum { CAPACITY = 16777216, WORDS = FEN_WORDS(CAPACITY), STORES = 2, TOP = 3, MOST = 8 };

/* ---- stores: one to look at, and one in pages that are opened and closed */

static uint64_t plain[STORES][WORDS];
static unsigned char *pages[STORES];
static size_t page, mapped;

static size_t layer_start[TOP + 1]; /* where layer k begins in a store */

/* The store in its pages, its words `shift` words behind their begin. */
static uint64_t *closed_store(int s, size_t shift) { return (uint64_t *)(void *)pages[s] + shift; }

static void protect(int s, size_t from, size_t size, int how)
{
    if (mprotect(pages[s] + from, size, how) != 0) {
        perror("loads: mprotect");
        exit(2);
    }
}

/* Word w of store s may be read, at a shift. */
static void open_word(int s, size_t shift, size_t w)
{
    protect(s, (shift + w) * 8 / page * page, page, PROT_READ);
}

/* ---- which words a call may read */

typedef struct list { size_t count, words[MOST]; } list;

static void may(list *l, size_t w) { l->words[l->count++] = w; }

typedef struct formula {
    const char *name;
    uint8_t codes[3];
    size_t count;
    int lent; /* so many stores */
} formula;

/* No code stands for the calls on one store. */
static const formula formulas[] = {
    {"one store", {0}, 0, 1},
    {"0", {0}, 1, 1},
    {"0 not", {0, FEN_NOT}, 2, 1},
    {"0, of two", {0}, 1, 2},
    {"0 1 and", {0, 1, FEN_AND}, 3, 2},
    {"0 1 or", {0, 1, FEN_OR}, 3, 2},
    {"0 1 xor", {0, 1, FEN_XOR}, 3, 2},
};

#define OVER(f, a, b) (f)->codes, (f)->count, a, WORDS, b, (f)->lent < 2 ? 0 : WORDS, plain[0], 0, plain[0], 0

static uint64_t word_of(const formula *f, size_t layer, size_t index)
{
    return f->count ? fen_formula_get_from_layer(OVER(f, plain[0], plain[1]), layer, index).value
                    : fen_get_from_layer(plain[0], WORDS, layer, index).value;
}

/* Next, word by word: the cursor's lowest mask gives its lowest bit, and the word below it is read. */
static list descent(const formula *f, fen_cursor c, uint64_t budget)
{
    list l = {0, {0}};
    may(&l, 0);
    while (c.masks[0] == 0 && budget > 0) {
        size_t k = 1;
        while (k <= TOP && c.masks[k] == 0)
            k++;
        if (k > TOP)
            break;
        size_t bit = 0;
        while ((c.masks[k] >> bit & 1) == 0)
            bit++;
        c.masks[k] &= c.masks[k] - 1;
        size_t index = (k < TOP ? (size_t)c.prefix[k] : 0) + bit;
        may(&l, layer_start[k - 1] + index);
        c.masks[k - 1] = word_of(f, k - 1, index);
        c.prefix[k - 1] = index * 64;
        budget--;
    }
    return l;
}

/* ---- a call with all other pages closed */

typedef enum call { START, IS_EMPTY, NEXT } call;
static const char *const call_names[] = {"start", "is_empty", "next"};

static sigjmp_buf back;
static void *volatile fault;

static void faulted(int signal, siginfo_t *info, void *context)
{
    (void)signal;
    (void)context;
    fault = info->si_addr;
    siglongjmp(back, 1);
}

static void make(call what, const formula *f, const uint64_t *a, const uint64_t *b, fen_cursor *c, uint64_t budget)
{
    switch (what) {
    case START: f->count ? fen_formula_start(OVER(f, a, b), c) : fen_start(a, WORDS, c); break;
    case NEXT: f->count ? fen_formula_next(OVER(f, a, b), c, budget) : fen_next(a, WORDS, c, budget); break;
    case IS_EMPTY: f->count ? fen_formula_is_empty(OVER(f, a, b)) : fen_is_empty(a, WORDS); break;
    }
}

static unsigned long tried, faults;

/* One call at one shift: whether every load was of a page with a word that it may read. */
static bool loads(call what, const formula *f, fen_cursor c, uint64_t budget, const list *l, size_t shift)
{
    for (int s = 0; s < STORES; s++) {
        protect(s, 0, mapped, PROT_READ | PROT_WRITE);
        memmove(closed_store(s, shift), plain[s], sizeof plain[s]);
        protect(s, 0, mapped, PROT_NONE);
        for (size_t i = 0; s < f->lent && i < l->count; i++)
            open_word(s, shift, l->words[i]);
    }
    tried++;
    fault = NULL;
    if (sigsetjmp(back, 1) == 0)
        make(what, f, closed_store(0, shift), closed_store(1, shift), &c, budget);
    return fault == NULL;
}

/* A call at every shift that makes a word which it may read the first or the last of a page. */
static void look(call what, const formula *f, const fen_cursor *c, uint64_t budget, const list *l)
{
    size_t in_page = page / 8;
    for (size_t i = 0; i < l->count; i++)
        for (size_t last = 0; last < 2; last++) {
            size_t shift = (2 * in_page - l->words[i] % in_page - last) % in_page;
            if (loads(what, f, *c, budget, l, shift))
                continue;
            faults++;
            for (int s = 0; s < STORES; s++) {
                size_t at = (size_t)((unsigned char *)fault - pages[s]);
                if (at < mapped)
                    printf("loads: %s, %s, budget %" PRIu64 ": word %zu of store %d is loaded\n", f->name, call_names[what], budget, at / 8 - shift, s);
            }
        }
}

/* The walk of a formula, cut before every word; at each cut next is looked at with budgets 0 to 3. */
static void walk(const formula *f)
{
    list top = {0, {0}};
    fen_cursor c = {0};
    may(&top, 0);
    may(&top, layer_start[TOP]);
    look(START, f, &c, 0, &top);
    look(IS_EMPTY, f, &c, 0, &top);
    make(START, f, plain[0], plain[1], &c, 0);
    for (int cut = 0; cut < 40; cut++) {
        for (uint64_t budget = 0; budget < 4; budget++) {
            list l = descent(f, c, budget);
            look(NEXT, f, &c, budget, &l);
        }
        make(NEXT, f, plain[0], plain[1], &c, 1);
    }
}

/* A load that no call may make is seen: of the word behind the one that is open. */
static bool sees(void)
{
    list l = {0, {0}};
    may(&l, 0);
    size_t shift = page / 8 - 1;
    fen_cursor c = {0};
    bool start_faults = !loads(START, &formulas[0], c, 0, &l, shift);
    return start_faults && (uint64_t *)fault == closed_store(0, shift) + layer_start[TOP];
}

int main(void)
{
    static const uint32_t ids[STORES][10] = {
        {5, 63, 64, 262151, 4194303, 8388608, 8388609, 12582911, 16515072, 16777215},
        {5, 4096, 262151, 262152, 4194304, 8388608, 8388671, 12582911, 16515073, 16777215},
    };
    page = (size_t)sysconf(_SC_PAGESIZE);
    mapped = (WORDS * 8 / page + 3) * page;
    for (int s = 0; s < STORES; s++) {
        pages[s] = mmap(NULL, mapped, PROT_NONE, MAP_PRIVATE | MAP_ANONYMOUS, -1, 0);
        if (pages[s] == MAP_FAILED || fen_open(plain[s], WORDS, CAPACITY).refusal || fen_add_list(plain[s], WORDS, ids[s], 10).refusal)
            return 2;
    }
    layer_start[0] = fen_layer0(plain[0], WORDS).start;
    layer_start[1] = fen_layer1(plain[0], WORDS).start;
    layer_start[2] = fen_layer2(plain[0], WORDS).start;
    layer_start[TOP] = layer_start[2] - 1;

    struct sigaction act;
    memset(&act, 0, sizeof act);
    act.sa_sigaction = faulted;
    act.sa_flags = SA_SIGINFO;
    sigaction(SIGSEGV, &act, NULL);
    sigaction(SIGBUS, &act, NULL);

    if (!sees()) {
        puts("loads: a load of a closed page is not seen");
        return 1;
    }
    tried = 0;
    for (size_t f = 0; f < sizeof formulas / sizeof *formulas; f++)
        walk(&formulas[f]);
    printf("loads: %lu calls, %lu with a load that they may not make\n", tried, faults);
    return faults != 0;
}
