// The header in C++, from C++98 on: calls of the archive, and what the header defines itself.
#include <stdio.h>
#include <string.h>

#include "fendruscla.h"
#include "fendruscla.h"

enum { N = 65, L = FEN_WORDS(N) };

static uint64_t store[L];
static uint8_t map[FEN_MAP_MAX(N)], owners[N];

int main()
{
    const uint8_t codes[] = {0, FEN_NOT};
    const fen_formula rest = {codes, 2, {store, NULL, NULL, NULL}, {fen_words(N), 0, 0, 0}};
    fen_cursor at = fen_cursor();
    bool held = fen_version() == FEN_VERSION && fen_open(store, L, N).refusal == FEN_OK && fen_add(store, L, 0).refusal == FEN_OK;
    held = held && strcmp(fen_refusal_text(fen_add(store, L, N).refusal), fen_refusal_text(FEN_NO_ROOM)) == 0;
    held = held && fen_over_start(&rest, &at).which == FEN_PAUSED && fen_over_next(&rest, &at, 3).value == 1;
    held = held && fen_map_write(store, L, map, sizeof map).value == fen_map_length(store, L).value;
    held = held && fen_directory_open(store, L, owners, N, N).refusal == FEN_OK && fen_directory_give(store, L, owners, N, 200).value == 1;
    held = held && owners[1] == 200 && fen_directory_return(store, L, owners, N, 200, 1).refusal == FEN_OK && owners[1] == 0;
    if (!held)
        puts("plus.cc: a call answers otherwise than in C");
    return held ? 0 : 1;
}
