// What the two yardsticks read with: the classes of bytes, the parts of a segment, dates. Quotations are from document 01.
#ifndef PARTS_H
#define PARTS_H

#include "yardstick.h"

// No segment is shorter than a tag and its terminator.
enum { LONGEST = 60000, MOST_ROWS = LONGEST / 4 };

#define TAG(a, b, c) ((uint32_t)(a) << 16 | (uint32_t)(b) << 8 | (uint32_t)(c))

// "Permitted bytes: 32 (space, permitted) to 126 without # $ @ [ \ ] ^ and the backquote, { | } ~", and the service characters.
enum { TEXT, BAD, ELEMENT, REPEAT, COMPONENT, RELEASE, END };

static const uint8_t class_of[256] = {
    [0 ... 31] = BAD,
    ['#'] = BAD, ['$'] = BAD, ['@'] = BAD, ['['] = BAD, ['\\'] = BAD, [']'] = BAD, ['^'] = BAD, ['`'] = BAD,
    [123 ... 255] = BAD,
    ['+'] = ELEMENT, ['*'] = REPEAT, [':'] = COMPONENT, ['?'] = RELEASE, ['\''] = END,
};

// A part of the input, as written.
struct part {
    const uint8_t *from, *to;
};

// Component c, counted from 1, of the first occurrence of element e of a segment; empty where absent.
static inline struct part part_of(const uint8_t *g, const uint8_t *end, unsigned e, unsigned c) {
    const uint8_t *p = g;
    while (e > 0) {
        if (p == end)
            return (struct part){end, end};
        if (*p == '?')
            p++;
        else if (*p == '+')
            e--;
        p++;
    }
    while (--c > 0) {
        for (;; p++) {
            if (p == end || *p == '+' || *p == '*')
                return (struct part){end, end};
            if (*p == ':')
                break;
            if (*p == '?')
                p++;
        }
        p++;
    }
    const uint8_t *q = p;
    while (q < end && *q != '+' && *q != '*' && *q != ':')
        q += *q == '?' ? 2 : 1;
    return (struct part){p, q};
}

static inline int present(struct part p) { return p.from < p.to; }

// "compared after release"
static inline int says(struct part p, const char *text) {
    const uint8_t *a = p.from;
    for (; *text; text++, a++) {
        if (a < p.to && *a == '?')
            a++;
        if (a >= p.to || *a != (uint8_t)*text)
            return 0;
    }
    return a == p.to;
}

// "Dates are yyyy-mm-dd, Gregorian, 1990-01-01 to 2099-12-31": the day's number from 1 on, 0 where it is no date. The years are counted from
// March on, so that a leap day is a year's last, and from 1988-03-01, 671 days before 1990-01-01. March to July have 153 days, and so have August to December.
static inline unsigned day_made(unsigned year, unsigned month, unsigned day) {
    static const uint8_t length[13] = {0, 31, 28, 31, 30, 31, 30, 31, 31, 30, 31, 30, 31};
    if (year < 1990 || year > 2099 || month < 1 || month > 12)
        return 0;
    unsigned leap = year % 4 == 0; // 2000 is a leap year, 2100 is past the last date
    if (day < 1 || day > length[month] + (month == 2 ? leap : 0u))
        return 0;
    unsigned years = year - 1988 - (month < 3), months = month < 3 ? month + 9 : month - 3;
    return years * 365 + years / 4 + (months * 153 + 2) / 5 + day - 671;
}

// The number of a date that is written in ten characters.
static inline unsigned day_number(const uint8_t *d) {
    static const uint8_t digits[8] = {0, 1, 2, 3, 5, 6, 8, 9};
    unsigned v[8];
    for (unsigned i = 0; i < 8; i++) {
        v[i] = (unsigned)d[digits[i]] - '0';
        if (v[i] > 9)
            return 0;
    }
    if (d[4] != '-' || d[7] != '-')
        return 0;
    return day_made(v[0] * 1000 + v[1] * 100 + v[2] * 10 + v[3], v[4] * 10 + v[5], v[6] * 10 + v[7]);
}

// The next character of a component after release, or -1 at its end.
static inline int next_character(const uint8_t **p, const uint8_t *end) {
    const uint8_t *q = *p;
    if (q == end || *q == '+' || *q == ':' || *q == '*')
        return -1;
    if (*q == '?')
        q++;
    *p = q + 1;
    return *q;
}

#endif
