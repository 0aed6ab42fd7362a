/* The limit: plain loops in C over all words of layer 0, with no summary, no test of a store and no refusal. */
#include <stddef.h>
#include <stdint.h>

/* The sum of all members. */
uint64_t scan_sum(const uint64_t *words, size_t count)
{
    uint64_t sum = 0;
    for (size_t i = 0; i < count; i++)
        for (uint64_t w = words[i]; w != 0; w &= w - 1)
            sum += 64 * i + (uint64_t)__builtin_ctzll(w);
    return sum;
}

/* The sum of what two sets share. */
uint64_t scan_and_sum(const uint64_t *a, const uint64_t *b, size_t count)
{
    uint64_t sum = 0;
    for (size_t i = 0; i < count; i++)
        for (uint64_t w = a[i] & b[i]; w != 0; w &= w - 1)
            sum += 64 * i + (uint64_t)__builtin_ctzll(w);
    return sum;
}

void scan_or(uint64_t *restrict a, const uint64_t *restrict b, size_t count)
{
    for (size_t i = 0; i < count; i++)
        a[i] |= b[i];
}

void scan_and(uint64_t *restrict a, const uint64_t *restrict b, size_t count)
{
    for (size_t i = 0; i < count; i++)
        a[i] &= b[i];
}

void scan_xor(uint64_t *restrict a, const uint64_t *restrict b, size_t count)
{
    for (size_t i = 0; i < count; i++)
        a[i] ^= b[i];
}
