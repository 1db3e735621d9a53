// The end of a segment, found eight bytes at a time, and whether the segment passes a limit.
#ifndef SCAN_H
#define SCAN_H

#include "parts.h"

void *memcpy(void *to, const void *from, size_t n);

// Four or eight bytes as one number, the first in the lowest bits.
static inline uint32_t four_at(const uint8_t *p) {
    uint32_t x;
    memcpy(&x, p, sizeof x);
    return __BYTE_ORDER__ == __ORDER_LITTLE_ENDIAN__ ? x : __builtin_bswap32(x);
}

static inline uint64_t eight_at(const uint8_t *p) {
    uint64_t x;
    memcpy(&x, p, sizeof x);
    return __BYTE_ORDER__ == __ORDER_LITTLE_ENDIAN__ ? x : __builtin_bswap64(x);
}

// The same byte eight times.
#define EIGHT(byte) ((uint64_t)(byte) * 0x0101010101010101u)

// The highest bit of each byte that the scan stops at, exact up to the first such byte: `'`, `?`, every byte that is not permitted,
// and `!`, `"`, `%`, `&` and `_`, which are permitted but would cost more to tell apart here than they are worth. Adding 128 - b sets
// the highest bit of the bytes from b on, so two such sums differ there in a range; what a byte past 127 carries over, or one below 32
// borrows, reaches only the bytes after it.
static inline uint64_t stops_in(uint64_t x) {
    uint64_t small = x | EIGHT(0x20); // capitals as small letters, @ as the backquote, [ \ ] ^ _ as { | } ~ and 127
    uint64_t quotes = (x + EIGHT(128 - 0x21)) ^ (x + EIGHT(128 - 0x28));       // 21 to 27
    uint64_t others = (x + EIGHT(128 - 0x3f)) ^ (small + EIGHT(128 - 0x61));   // 3f, 40 and 60
    uint64_t braces = small + EIGHT(128 - 0x7b);                               // 5b to 5f, and from 7b on
    uint64_t controls = x - EIGHT(0x20);                                       // 00 to 1f, and from a0 on
    return ((quotes ^ others ^ braces) | controls) & EIGHT(0x80);
}

// The index of the first byte from `from` on that the scan stops at, or one from which on there are fewer than eight.
static inline size_t next_stop(const uint8_t *s, size_t n, size_t from) {
    size_t i = from;
    for (size_t past = n < 8 ? 0 : n - 7; i < past; i += 8) {
        uint64_t stops = stops_in(eight_at(s + i));
        if (stops)
            return i + (size_t)__builtin_ctzll(stops) / 8;
    }
    return i;
}

// The terminator's index of a segment that goes on from `from`; n where the input ends first, or a byte before it is not permitted.
size_t end_beyond(const uint8_t *s, size_t n, size_t from);

// The same. In most segments the first byte that the scan stops at is the terminator.
static inline size_t segment_end(const uint8_t *s, size_t n, size_t from) {
    size_t stop = next_stop(s, n, from);
    return stop < n && s[stop] == '\'' ? stop : end_beyond(s, n, stop);
}

// "At most 64 elements, 99 repetitions of one, 32 components in each, 512 characters in a component": whether a segment keeps to that
// which ends and has no byte that is not permitted.
int long_within(const uint8_t *g, const uint8_t *end);

// The same. After the tag and a `+` it takes 32 marks, or 513 characters, to pass a limit.
static inline int within_limits(const uint8_t *g, const uint8_t *end) { return end - g <= 4 + 31 || long_within(g, end); }

// What stands in a segment, from its first byte to its terminator: number 0 and the terminator's index, or 4, 5 or 6.
struct scanned {
    unsigned number;
    size_t at;
};
struct scanned scan(const uint8_t *s, size_t n, size_t from);

#endif
