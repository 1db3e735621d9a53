// The segments that the quick scan leaves: with releases, with many parts, or faulty. Quotations are from document 01.
#include "scan.h"

size_t end_beyond(const uint8_t *s, size_t n, size_t from) {
    for (size_t i = from;; i = next_stop(s, n, i + 1)) {
        for (; i < n && s[i] == '?'; i += 2)
            if (i + 1 == n || class_of[s[i + 1]] == BAD)
                return n;
        if (i == n || s[i] == '\'')
            return i;
        if (class_of[s[i]] == BAD)
            return n;
    }
}

// How many marks stand before a place: `+` in the segment, `*` in the element, `:` in the occurrence; and where the component begins.
// Each release moves that on by one, so that the distance to it is the number of characters.
struct counts {
    unsigned elements, repeats, components;
    const uint8_t *start;
};

// Whether the limits are kept up to a mark, which is counted.
static inline int count_mark(struct counts *c, const uint8_t *p) {
    int within = p - c->start <= 512;
    c->start = p + 1;
    if (*p == ':')
        return within & (++c->components <= 31);
    c->components = 0;
    if (*p == '*')
        return within & (++c->repeats <= 98);
    c->repeats = 0;
    return within & (++c->elements <= 64);
}

static int counted_within(const uint8_t *g, const uint8_t *end) {
    struct counts counts = {0, 0, 0, g + 3};
    for (const uint8_t *p = g + 3; p < end; p++) {
        uint8_t class = class_of[*p];
        if (class == TEXT)
            continue;
        if (class == RELEASE) {
            counts.start++;
            p++;
        } else if (!count_mark(&counts, p)) {
            return 0;
        }
    }
    return end - counts.start <= 512;
}

// Its parts are counted only where it has more than 512 characters or 31 marks after the tag and its `+`. `;` goes for a mark too, and
// those of the last eight bytes may be taken twice.
int long_within(const uint8_t *g, const uint8_t *end) {
    uint64_t marks = 0;
    if (end - g > 4 + 512)
        return counted_within(g, end);
    for (const uint8_t *p = g + 4; p < end; p += 8) {
        if (end - p < 8)
            p = end - 8;
        uint64_t other = (eight_at(p) | EIGHT(0x11)) ^ EIGHT(0x3b); // 0 for `*`, `+`, `:` and `;`
        marks += (~(other + EIGHT(0x7f)) >> 7 & EIGHT(1)) * EIGHT(1) >> 56;
    }
    return marks <= 31 || counted_within(g, end);
}

static int capital(uint8_t b) { return b >= 'A' && b <= 'Z'; }

// "a tag of three capital letters, none released, then elements, then the terminator"
static int tagged(const uint8_t *g, const uint8_t *end) {
    return end - g >= 3 && capital(g[0]) && capital(g[1]) && capital(g[2]) && (g[3] == '+' || g[3] == '\'');
}

// A segment that does not end, or has a byte that is not permitted before it does.
static struct scanned unended(const uint8_t *s, size_t n, size_t from) {
    for (size_t i = from; i < n; i++)
        if (class_of[s[i]] == BAD)
            return (struct scanned){4, i};
    return (struct scanned){5, from};
}

struct scanned scan(const uint8_t *s, size_t n, size_t from) {
    size_t end = segment_end(s, n, from);
    if (end == n)
        return unended(s, n, from);
    if (!tagged(s + from, s + end) || !within_limits(s + from, s + end))
        return (struct scanned){6, from};
    return (struct scanned){0, end};
}
