// The answers of a comparison: whether two are the same, and how often each came up.
#ifndef TALLY_H
#define TALLY_H

#include "yardstick.h"

int printf(const char *format, ...);

static inline int same_reply(struct reply a, struct reply b) {
    return a.number == b.number && a.position == b.position && a.part == b.part && a.rows == b.rows;
}

// How often each number was answered, and beside 10 each part of a POP: to callers who do not ask for the old reading, and to those who do.
struct tally {
    unsigned long numbers[32], parts[2][8];
};

static inline void count_answer(struct tally *t, uint8_t number, uint8_t part, _Bool old_reading) {
    t->numbers[number < 31 ? number : 31]++;
    if (number == 10)
        t->parts[old_reading][part < 7 ? part : 7]++;
}

// The parts of the 10s, those that never came up too.
static inline void show_parts(const struct tally *t) {
    for (unsigned part = 1; part <= 6; part++)
        printf("    10, part %u: %lu without the old reading asked for, %lu with it\n", part, t->parts[0][part], t->parts[1][part]);
}

static inline void show_refusals(const struct tally *t) {
    for (unsigned i = 1; i < 32; i++) {
        if (t->numbers[i])
            printf("  refused %2u: %lu\n", i, t->numbers[i]);
        if (i == 10)
            show_parts(t);
    }
}

#endif
