// What both fuzzers share: lengths and levels from bytes, and slices between bytes that must stay as they are.
#include "../bench/verified.h"

#include <stdlib.h>
#include <string.h>

static size_t cells(uint8_t byte) { return byte < 250 ? byte : byte == 250 ? 4096 : (size_t)(byte - 250) * 900; }

// Least byte first; below 2 x 10^12 where bit 62 is clear, which keeps every level that can be reached.
static uint64_t level_of(const uint8_t *bytes) {
    uint64_t level = 0;
    for (int k = 8; k-- > 0;)
        level = level << 8 | bytes[k];
    return level >> 62 & 1 ? level : level % (2 * MIGUEPO_MOST_LEVEL);
}

enum { SLICES = 5, EDGE = 64 }; // result slices of a fund, and the bytes before and behind each

// A slice of so many bytes, filled, between its edges.
static uint8_t *slice_of(size_t size, int filling) {
    uint8_t *at = malloc(size + 2 * EDGE);
    if (!at)
        abort();
    memset(at, filling, size + 2 * EDGE);
    return at + EDGE;
}

static void edges_kept(const uint8_t *at, size_t size, int filling) {
    for (size_t k = 1; k <= EDGE; k++)
        if (at[-(ptrdiff_t)k] != filling || at[size + k - 1] != filling)
            abort();
}

static void same(const void *a, const void *b, size_t size) {
    if (memcmp(a, b, size) != 0)
        abort();
}

// A copy of so many bytes.
static uint8_t *copy_of(const uint8_t *from, size_t length) {
    uint8_t *at = malloc(length ? length : 1);
    if (!at)
        abort();
    memcpy(at, from, length);
    return at;
}
