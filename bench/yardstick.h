// The yardstick: a tuned reader in C for the rules of document 01, to hold the proved reader's speed and answers against.
// The kit has no C headers, so the few types are taken from the compiler.
#ifndef YARDSTICK_H
#define YARDSTICK_H

typedef __UINT8_TYPE__ uint8_t;
typedef __UINT16_TYPE__ uint16_t;
typedef __UINT32_TYPE__ uint32_t;
typedef __UINT64_TYPE__ uint64_t;
typedef __SIZE_TYPE__ size_t;

// Number 0 is accepted, with how many rows were written; any other number is a refusal, with its position and no row.
struct reply {
    uint8_t number;
    size_t position;
    uint8_t part; // which part of a POP is wrong, beside number 10 (periods.h); 0 beside every other number
    size_t rows;
};

// Reads an interchange of n bytes and writes its rows, three numbers each (offset, group, tag), to the front of a lent buffer
// that holds `room` numbers. A refusal leaves the buffer as it was, and what stands past the rows stays too.
// The wish is whether the caller asks for the old reading, in which a POP with neither form means every day.
struct reply yardstick_read(const uint8_t *s, size_t n, _Bool old_reading, uint32_t *rows, size_t room);

// A place of a segment table. A group's place stands before the places that it holds and has its trigger's tag.
struct place {
    uint32_t tag;
    uint32_t most;
    uint8_t mandatory;
    uint8_t group;     // the group's number, 0 for none
    uint8_t level;     // how many groups it stands in
    uint8_t held;      // how many places follow that it holds; 0 for a segment
    uint8_t outer;     // the place of the group that it stands in
};

// The tables, for the generator of the comparison.
extern const struct place yardstick_skdupd[];
extern const struct place yardstick_tsdupd[];
extern const size_t yardstick_skdupd_places;
extern const size_t yardstick_tsdupd_places;

#endif
