// What a POP says. Quotations are from document 01.
#include "periods.h"

#include "scan.h"

enum { MOST_DAYS = 512, DATES = 4 + 4 + 21 }; // `POP+`, `273:` and the two dates

// How many days there are from one to another, both counted; 0 where one is no day or there are too many.
static unsigned days_between(unsigned first, unsigned last) {
    return first && last && last >= first && last - first < MOST_DAYS ? last - first + 1 : 0;
}

// ---- The usual forms, eight bytes at a time ----

// Eight bytes less a pattern's: 0 to 9 where the pattern has a 0, and 0 elsewhere. Else the highest bit of a byte is set in what is
// told beside them: a digit may grow by `room` without reaching it, any other byte not at all.
struct digits {
    uint64_t at, wrong;
};

static inline struct digits digits_at(const uint8_t *p, uint64_t pattern, uint64_t room) {
    uint64_t x = eight_at(p) ^ pattern;
    return (struct digits){x, x | (x + room)};
}

// Each digit's tens with the units of the one after it, in two digits' place.
static inline uint64_t pairs_of(uint64_t digits) { return digits * 10 + (digits >> 8); }

static inline unsigned byte_of(uint64_t x, unsigned k) { return (unsigned)(x >> 8 * k) & 255; }

#define EIGHT_OF(a, b, c, d, e, f, g, h)                                                                                                        \
    ((uint64_t)(a) | (uint64_t)(b) << 8 | (uint64_t)(c) << 16 | (uint64_t)(d) << 24 | (uint64_t)(e) << 32 | (uint64_t)(f) << 40 |               \
     (uint64_t)(g) << 48 | (uint64_t)(h) << 56)

// The days of `yyyy-mm-dd/yyyy-mm-dd`, 0 where it is not written so or wrong.
static inline unsigned usual_days(const uint8_t *p) {
    enum { D = 118, M = 127 }; // a digit and a mark
    struct digits a = digits_at(p, EIGHT_OF('0', '0', '0', '0', '-', '0', '0', '-'), EIGHT_OF(D, D, D, D, M, D, D, M));
    struct digits b = digits_at(p + 8, EIGHT_OF('0', '0', '/', '0', '0', '0', '0', '-'), EIGHT_OF(D, D, M, D, D, D, D, M));
    struct digits c = digits_at(p + 13, EIGHT_OF('0', '0', '-', '0', '0', '-', '0', '0'), EIGHT_OF(D, D, M, D, D, M, D, D));
    if ((a.wrong | b.wrong | c.wrong) & EIGHT(128))
        return 0;
    uint64_t x = pairs_of(a.at), y = pairs_of(b.at), z = pairs_of(c.at);
    return days_between(day_made(byte_of(x, 0) * 100 + byte_of(x, 2), byte_of(x, 5), byte_of(y, 0)),
                        day_made(byte_of(y, 3) * 100 + byte_of(y, 5), byte_of(z, 3), byte_of(z, 6)));
}

// Whether each of n characters is 0 or 1.
static inline int only_bits(const uint8_t *p, size_t n) {
    uint64_t other = 0;
    for (; n >= 8; n -= 8, p += 8)
        other |= eight_at(p) ^ EIGHT('0');
    for (; n; n--)
        other |= *p++ ^ '0';
    return !(other & ~EIGHT(1));
}

// Whether characters are weekdays, strictly rising.
static inline int only_weekdays(const uint8_t *p, const uint8_t *end) {
    for (uint8_t before = '0'; p < end; before = *p++)
        if (*p <= before || *p > '7')
            return 0;
    return 1;
}

int usual_period(const uint8_t *g, const uint8_t *end, _Bool old_reading) {
    const uint8_t *p = g + DATES;
    unsigned days;
    if (end < p || four_at(g + 4) != (uint32_t)EIGHT_OF('2', '7', '3', ':', 0, 0, 0, 0) || !(days = usual_days(g + 8)))
        return 0;
    if (p == end)
        return old_reading;
    if (*p == '+')
        return p + 1 == end ? old_reading : only_weekdays(p + 1, end);
    if (end - p <= 2 || p[0] != ':' || p[1] != ':')
        return 0;
    size_t told = (size_t)(end - p) - 2;
    return told <= days && only_bits(p + 2, told);
}

// ---- Any form, a character at a time ----

// Passes what is left of a component.
static void rest_of_component(const uint8_t **p, const uint8_t *end) {
    while (next_character(p, end) >= 0)
        ;
}

// Passes what is left of an element; whether it is repeated.
static int rest_of_element(const uint8_t **p, const uint8_t *end) {
    const uint8_t *q = *p;
    int repeated = 0;
    while (q < end && *q != '+') {
        repeated |= *q == '*';
        q += *q == '?' ? 2 : 1;
    }
    *p = q;
    return repeated;
}

// Passes a component; whether it is a text.
static int component_says(const uint8_t **p, const uint8_t *end, const char *text) {
    int c;
    while ((c = next_character(p, end)) == *text)
        text++;
    if (c < 0)
        return !*text;
    rest_of_component(p, end);
    return 0;
}

// Passes a `:` and the two dates; how many days they are, 0 where they are absent or wrong.
static unsigned days_of(const uint8_t **p, const uint8_t *end) {
    uint8_t dates[21];
    if (*p == end || **p != ':')
        return 0;
    ++*p;
    for (unsigned i = 0; i < 21; i++) {
        int c = next_character(p, end);
        if (c < 0)
            return 0;
        dates[i] = (uint8_t)c;
    }
    if (next_character(p, end) >= 0 || dates[10] != '/')
        return 0;
    return days_between(day_number(dates), day_number(dates + 11));
}

// "Component 4440 is a string of 0 and 1": how many, or -1 where one is neither.
static int bits_of(const uint8_t **p, const uint8_t *end) {
    int c, bits = 0;
    for (unsigned components = 2; components; components--) {
        rest_of_component(p, end);
        if (*p == end || **p != ':')
            return 0;
        ++*p;
    }
    for (; (c = next_character(p, end)) >= 0; bits++)
        if (c != '0' && c != '1')
            return -1;
    return bits;
}

// "Element 2160 is a string of weekdays, Monday 1 to Sunday 7, strictly rising.": how many, or -1 where it is none. Its `+` is passed too.
static int weekdays_of(const uint8_t **p, const uint8_t *end) {
    int c, weekdays = 0;
    if (*p == end)
        return 0;
    ++*p;
    for (int before = '0'; (c = next_character(p, end)) >= 0; before = c, weekdays++)
        if (c <= before || c > '7')
            return -1;
    return weekdays;
}

// Which part of the two forms is wrong: so many days, and what `bits_of` and `weekdays_of` found.
static unsigned wrong_forms(int days, int bits, int weekdays, _Bool old_reading) {
    // "A shorter string, of at least one character, means not running on the days left. A longer one stays wrong." (document 02, A3)
    if (bits < 0 || bits > days)
        return WRONG_DAY_STRING;
    if (weekdays < 0)
        return WRONG_WEEKDAYS;
    // "Giving both is wrong."
    if (bits && weekdays)
        return BOTH_FORMS;
    // "From now on a POP with neither form is refused unless the caller asks for the old reading." (document 02, A2)
    return !bits && !weekdays && !old_reading ? NEITHER_FORM : ALL_GOOD;
}

unsigned wrong_part(const uint8_t *g, const uint8_t *end, _Bool old_reading) {
    const uint8_t *p = g + 3;
    if (p == end)
        return WRONG_DATES;
    p++;
    int other = !component_says(&p, end, "273");
    unsigned days = days_of(&p, end);
    if (!days)
        return WRONG_DATES;
    int bits = bits_of(&p, end);
    other |= rest_of_element(&p, end);
    int weekdays = weekdays_of(&p, end);
    other |= rest_of_element(&p, end);
    unsigned wrong = wrong_forms((int)days, bits, weekdays, old_reading);
    return wrong ? wrong : other ? WRONG_OTHERWISE : ALL_GOOD;
}
