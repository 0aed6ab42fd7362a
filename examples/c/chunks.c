/* A container of 1,000 chunks of 256 bytes: which chunks are taken, the directory, and the chunk map that is stored with it. */
#include <inttypes.h>
#include <stdio.h>
#include <stdlib.h>

#include "fendruscla.h"

enum { CHUNKS = 1000, WORDS = FEN_WORDS(CHUNKS) };

/* The chunks that are taken, those of the preview picture, and a set that is read back from a map. */
static uint64_t taken[WORDS], preview[WORDS], loaded[WORDS];

static uint64_t value(fen_answer answer)
{
    if (answer.refusal != FEN_OK) {
        printf("refused: %s\n", fen_refusal_text(answer.refusal));
        exit(1);
    }
    return answer.value;
}

/* Prints what a fill has written, and says whether the walk goes on. */
static int printed(fen_step step, const uint32_t *ids)
{
    if (step.which == FEN_REFUSED)
        value((fen_answer){step.value, 0});
    for (uint64_t i = 0; i < step.value; i++)
        printf(" %" PRIu32, ids[i]);
    return step.which != FEN_END;
}

int main(void)
{
    const uint32_t picture[] = {3, 4, 5, 70, 71, 999}, thumbnail[] = {70, 71};
    const uint8_t rest[] = {0, 1, FEN_NOT, FEN_AND};
    uint32_t ids[4];
    uint8_t map[FEN_MAP_MAX(CHUNKS)];
    fen_cursor at = {0};

    value(fen_open(taken, WORDS, CHUNKS));
    value(fen_open(preview, WORDS, CHUNKS));
    value(fen_add_list(taken, WORDS, picture, 6));
    value(fen_add_list(preview, WORDS, thumbnail, 2));

    printf("chunk 5 is %s\n", value(fen_contains(taken, WORDS, 5)) ? "taken" : "free");
    uint64_t chunk = value(fen_first_free(taken, WORDS));
    value(fen_add(taken, WORDS, (uint32_t)chunk));
    printf("chunk %" PRIu64 " was the first free one\n", chunk);
    printf("chunk 1000: %s\n", fen_refusal_text(fen_add(taken, WORDS, CHUNKS).refusal));

    /* The directory: at most four chunks and three word reads a call. */
    printf("directory:");
    fen_start(taken, WORDS, &at);
    while (printed(fen_fill(taken, WORDS, &at, 3, ids, 4), ids)) {}

    /* Taken and not of the preview; stores 2 and 3 are not lent. */
    const fen_formula others = {rest, 4, {taken, preview, NULL, NULL}, {WORDS, WORDS, 0, 0}};
    printf("\nwithout the preview:");
    fen_over_start(&others, &at);
    while (printed(fen_over_fill(&others, &at, 3, ids, 4), ids)) {}

    /* The map, and a store of the capacity that it names. */
    uint64_t length = value(fen_map_write(taken, WORDS, map, sizeof map));
    uint64_t chunks = value(fen_map_capacity(map, length));
    value(fen_open(loaded, fen_words(chunks), (uint32_t)chunks));
    value(fen_map_read(map, length, loaded, fen_words(chunks)));
    printf("\na map of %" PRIu64 " bytes, read back: %s\n", length, value(fen_equal(taken, WORDS, loaded, WORDS)) ? "the same" : "another");
    return 0;
}
