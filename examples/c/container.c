/* A container of 100 chunks, of which chunk 0 is the header: items are given the others and return some, which are given again; then the
   directory is printed by a walk. */
#include <inttypes.h>
#include <stdio.h>
#include <stdlib.h>

#include "fendruscla.h"

enum { CHUNKS = 100, WORDS = FEN_WORDS(CHUNKS) };
enum { PREVIEW = 1, FIRST_PLANE = 2, SECOND_PLANE = 3, NOTES = 4 };
static const char *const names[] = {"nobody", "preview", "first raw plane", "second raw plane", "notes"};

/* The chunks that are taken, a byte for the owner of each, and how many were given and returned. */
static uint64_t store[WORDS];
static uint8_t owners[CHUNKS];
static uint64_t given, returned;

static uint64_t value(fen_answer answer)
{
    if (answer.refusal != FEN_OK) {
        printf("refused: %s\n", fen_refusal_text(answer.refusal));
        exit(1);
    }
    return answer.value;
}

static void give(uint32_t item, int count)
{
    printf("given to %s:", names[item]);
    for (; count > 0; count--) {
        printf(" %" PRIu64, value(fen_directory_give(store, WORDS, owners, CHUNKS, item)));
        given++;
    }
    printf("\n");
}

/* A return that is refused changes nothing and does not count. */
static void take_back(uint32_t item, uint32_t chunk)
{
    fen_answer answer = fen_directory_return(store, WORDS, owners, CHUNKS, item, chunk);
    printf("%" PRIu32 " back from %s: %s\n", chunk, names[item], answer.refusal == FEN_OK ? "done" : fen_refusal_text(answer.refusal));
    returned += answer.refusal == FEN_OK;
}

/* Prints the directory, at most four chunks and three word reads a call. Answers how many chunks are taken. */
static uint64_t print_directory(void)
{
    uint32_t chunks[4];
    uint64_t taken = 0;
    fen_cursor at = {0};
    fen_step step;
    fen_start(store, WORDS, &at);
    do {
        step = fen_fill(store, WORDS, &at, 3, chunks, 4);
        if (step.which == FEN_REFUSED)
            value((fen_answer){step.value, 0});
        for (uint64_t i = 0; i < step.value; i++)
            printf("chunk %2" PRIu32 "  %s\n", chunks[i], names[owners[chunks[i]]]);
        taken += step.value;
    } while (step.which != FEN_END);
    return taken;
}

int main(void)
{
    value(fen_directory_open(store, WORDS, owners, CHUNKS, CHUNKS));
    give(PREVIEW, 3);
    give(FIRST_PLANE, 4);
    give(SECOND_PLANE, 4);
    give(NOTES, 1);

    /* The preview's chunk is not the notes' to return, and the header is nobody's. What is returned is given again, the lowest first. */
    take_back(NOTES, 1);
    take_back(PREVIEW, 0);
    take_back(PREVIEW, 1);
    take_back(PREVIEW, 2);
    take_back(FIRST_PLANE, 5);
    give(NOTES, 2);
    give(SECOND_PLANE, 2);

    uint64_t taken = print_directory();
    printf("%" PRIu64 " given less %" PRIu64 " returned are %" PRIu64, given, returned, given - returned);
    printf(", and %" PRIu64 " chunks are taken\n", taken);
    return 0;
}
