/* What the comparison asks of the port beyond include/fendruscla.h: `row`, `offset`, `mask` and `offsets` of the Rust's util.rs, and the
 * first step of the reader. For oracle/port.c alone; the archive that users link has none of it. */
#ifndef FENDRUSCLA_PROBE_H
#define FENDRUSCLA_PROBE_H

#include "fendruscla.h"

#ifdef __cplusplus
extern "C" {
#endif

/* The place of an id's bit in its word at a shift, the word that it is in, and the word with that bit alone. */
uint64_t fen_probe_row(uint32_t id, size_t shift);
uint64_t fen_probe_offset(uint32_t id, size_t shift);
uint64_t fen_probe_mask(uint32_t id, size_t shift);
/* The words of the layers 0, 1 and 2 that an id's bits stand in. */
void fen_probe_offsets(uint32_t id, uint64_t words[3]);
/* A reader of a store is made and one step is taken of it, with at most `budget` reads; `reads` is how many it made. Refusal 2. */
fen_step fen_probe_first(const uint64_t *store, size_t len, uint64_t budget, uint64_t *reads);

#ifdef __cplusplus
}
#endif

#endif
