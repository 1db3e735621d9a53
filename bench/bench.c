// Holds the proved reader against the yardstick, in one process: the same answers, and how long each takes.
//   bench compare N SEED   N interchanges, good ones and damaged ones, through both with the same wish; stops at the first difference
//   bench time             yardstick's time over ours for realistic interchanges: 1.0 or more means at least as fast
//   bench costs            what a byte of extreme interchanges costs, over what a byte of a realistic one costs
//   bench where            what our time goes to, by interchanges that differ in one thing
//   bench parcels          the whole reader's time over that in parcels of 1,460 bytes, and what a byte costs byte by byte (parcels.c)
//   bench compare_parcels N SEED   N interchanges in parcels, under cuts by chance, and by the whole reader; stops at the first difference
//   bench once WHO KIND N  one reading by `ours`, `parcels`, `yardstick` or `nobody` of `skdupd`, `tsdupd` or `12b` of N bytes, for counting instructions
#include "measure.h"
#include "parcels.h"
#include "samples.h"
#include "tally.h"
#include "yardstick.h"

int fflush(void *file);
int strcmp(const char *a, const char *b);
size_t strlen(const char *a);
unsigned long strtoul(const char *text, char **end, int base);
int memcmp(const void *a, const void *b, size_t n);
void *memcpy(void *to, const void *from, size_t n);
void *memmove(void *to, const void *from, size_t n);

enum { LONGEST = 60000, MOST_SEGMENTS = 16000, MOST_NUMBERS = 45000, GUARD = 8 };

// ---- Interchanges by chance ----

// The segments before they are joined, without their terminators. A trailer is written when they are joined.
enum { PLAIN, HEADER, TRAILER, CLOSER };
struct segment {
    size_t from, n;
    int kind;
    size_t reference, reference_n; // of a header: its reference after release
};
static struct text pool;
static struct segment segments[MOST_SEGMENTS];
static size_t segment_count;
static unsigned fault_rate;   // one in so many contents is faulty
static int formless;          // whether there are POPs with neither form on purpose
static struct text dialogue;  // after release

static const char *const tags[] = {
    "ADS", "ALS", "ASD", "CNY", "CON", "DTI", "ERI", "FRQ", "HDR", "IFT", "LNG", "MES", "MSD", "NME", "ODI", "ORG", "PDT", "POP", "POR",
    "PRD", "RFR", "RLS", "SER", "TCE", "TFF", "TIZ", "TRF", "UIH", "UIT", "UIB", "UIZ", "UNA", "XYZ", "AAA", "ZZZ"};
enum { TAGS = sizeof tags / sizeof tags[0] };

static int any_character(void) {
    if (one_in(12))
        return "+:*?'"[below(5)];
    if (one_in(3))
        return ' ' + (int)below(1);
    for (;;) {
        int c = 32 + (int)below(91);
        if (permitted(c))
            return c;
    }
}

static void put_any(struct text *t, unsigned most) {
    for (unsigned n = below(most + 1); n; n--)
        put_character(t, any_character());
}

// Elements with repetitions and components.
static void put_elements(struct text *t, unsigned most) {
    for (unsigned e = below(most + 1); e; e--) {
        put(t, '+');
        for (unsigned o = one_in(5) ? 1 + below(4) : 1; o; o--) {
            for (unsigned c = one_in(2) ? 1 + below(5) : 1; c; c--) {
                put_any(t, one_in(30) ? 60 : 9);
                if (c > 1)
                    put(t, ':');
            }
            if (o > 1)
                put(t, '*');
        }
    }
}

static struct segment *begin(const char *tag, int kind) {
    if (segment_count == MOST_SEGMENTS)
        segment_count--;
    struct segment *g = &segments[segment_count++];
    *g = (struct segment){pool.n, 0, kind, 0, 0};
    puts_to(&pool, tag);
    return g;
}

static void end(struct segment *g) { g->n = pool.n - g->from; }

static const char *const odd_dates[] = {
    "2000-02-29", "2000-02-30", "2001-02-29", "2001-02-28", "2004-02-29", "2096-02-29", "2099-12-31", "2100-01-01", "1989-12-31", "1990-01-01",
    "2000-00-10", "2000-13-10", "2000-04-31", "2000-06-31", "2000-09-31", "2000-11-31", "2000-12-32", "2000-01-00", "2000-1-010", "2000/01/01",
    "20000101", "2000-01-1", "2000-01-011", "", "200a-01-01", "2000-0:-01", "2000-01-0 ", "1996-02-29", "2000-10-31", "2000-07-31", "2000-08-31"};

static void put_day(struct text *t, unsigned day) {
    if (fault_rate && one_in(fault_rate))
        put_word(t, odd_dates[below(sizeof odd_dates / sizeof odd_dates[0])]);
    else
        put_date(t, day);
}

static const char *const odd_weekdays[] = {"76", "66", "0", "8", "12345678", "1234567 ", "a", "11", "7 1", "01", "135", "7", "1", "67", "246"};

static void put_odd_weekdays(struct text *t) { put_word(t, odd_weekdays[below(sizeof odd_weekdays / sizeof odd_weekdays[0])]); }

static void put_good_weekdays(struct text *t) {
    unsigned set = below(128);
    for (int d = 0; d < 7; d++)
        if (set >> d & 1)
            put_character(t, '1' + d);
}

static void put_weekdays(struct text *t) {
    if (fault_rate && one_in(fault_rate))
        put_odd_weekdays(t);
    else
        put_good_weekdays(t);
}

static const char *const odd_periods[] = {
    "1989-12-31/1990-01-01", "1990-01-01/1990-01-01", "2099-12-31/2100-01-01", "2099-12-31/2099-12-31", "2099-12-01/2099-12-32", "2100-01-01/2100-01-02",
    "1989-01-01/1989-01-02", "2000-02-29/2000-03-01", "2001-02-29/2001-03-01", "2000-02-28/2000-02-30", "2096-02-29/2096-02-29", "2000-01-01/2001-05-26",
    "2000-01-01/2001-05-27", "2000-04-30/2000-04-31", "2000-06-30/2000-06-31", "2000-09-30/2000-09-31", "2000-11-30/2000-11-31", "2000-01-31/2000-02-01",
    "2000-03-31/2000-04-01", "2000-05-31/2000-06-01", "2000-07-31/2000-08-31", "2000-10-31/2000-12-31", "2000-08-02/2000-08-01", "2000-12-31/2000-01-01",
    "2000-01-01 2000-01-02", "2000-01-01/2000-01-02 ", "2000-01-01/2000-13-01", "2000-00-01/2000-01-01", "2000-01-00/2000-01-01", "1992-02-29/1992-03-01",
    "1993-02-28/1993-02-29", "2000-01-01/2000-1-001", "2000-01:01/2000-01-02", "2000-01-01", "2000-01-01/", "/2000-01-01", "2000-01-0a/2000-01-31"};

static void put_odd_dates(struct text *t) { put_word(t, odd_periods[below(sizeof odd_periods / sizeof odd_periods[0])]); }

// A period's dates that are odd, with weekdays or with nothing.
static void put_odd_period(struct text *t) {
    puts_to(t, "+");
    put_word(t, "273");
    puts_to(t, ":");
    put_odd_dates(t);
    if (!formless || one_in(3)) {
        put(t, '+');
        put_word(t, one_in(2) ? "67" : "1234567");
    }
}

static const char *const odd_qualifiers[] = {"274", "27", "2733", "", "73", " 273", "372"};

static void put_odd_qualifier(struct text *t) { put_word(t, odd_qualifiers[below(sizeof odd_qualifiers / sizeof odd_qualifiers[0])]); }

// A day string: none, one that fits, one that is too long, or one with a character that is neither 0 nor 1.
static void put_any_string(struct text *t, unsigned days) {
    enum { NONE, FITTING, TOO_LONG, OTHER, KINDS };
    unsigned kind = below(KINDS), told = kind == NONE ? 0 : kind == TOO_LONG ? days + 1 + below(2) : one_in(2) ? days : short_string(days);
    unsigned other = kind == OTHER ? below(told) : told;
    for (unsigned k = 0; k < told; k++)
        put_character(t, k == other ? "/2 A"[below(4)] : '0' + (int)below(2));
}

// Now and then an element once more, with what would be read if it stood first.
static void put_again(struct text *t, const char *again) {
    if (one_in(6)) {
        put(t, '*');
        puts_to(t, one_in(3) ? "" : again);
    }
}

static void put_any_dates(struct text *t, unsigned days) {
    unsigned first = below(40177 - 511);
    if (one_in(6)) {
        put_odd_dates(t);
        return;
    }
    put_date(t, first);
    put_character(t, '/');
    put_date(t, first + days - 1);
}

static void put_any_weekdays(struct text *t) {
    if (one_in(2))
        put_odd_weekdays(t);
    else if (one_in(2))
        put_good_weekdays(t);
}

// A POP whose parts are each good, wrong or absent, whatever the others are, so that several are wrong at once.
static void put_any_parts(struct text *t) {
    unsigned days = one_in(20) ? 511 + below(2) : 1 + below(20);
    put(t, '+');
    if (one_in(3))
        put_odd_qualifier(t);
    else
        put_word(t, "273");
    put(t, one_in(40) ? '*' : ':');
    put_any_dates(t, days);
    if (one_in(2)) {
        put(t, ':');
        put_any(t, one_in(3) ? 3 : 0);
        put(t, ':');
        put_any_string(t, days);
    }
    put_again(t, "273:2000-08-01/2000-08-31::1");
    if (one_in(2)) {
        put(t, '+');
        put_any_weekdays(t);
        put_again(t, "67");
    } else if (one_in(4)) {
        puts_to(t, "++A*B");
    }
}

// A POP: a period in each form.
static void put_period(struct text *t) {
    if (fault_rate && fault_rate < 30 && one_in(3)) {
        put_odd_period(t);
        return;
    }
    if (fault_rate && fault_rate < 30 && one_in(2)) {
        put_any_parts(t);
        return;
    }
    unsigned days = one_in(4) ? 1 : one_in(4) ? 512 : one_in(8) ? 13 : 1 + below(512);
    unsigned first = one_in(10) ? 0 : one_in(10) ? 40177 - days : below(40177 - 511), form = formless ? below(4) : 1 + below(2), told = days, last;
    if (fault_rate && one_in(fault_rate))
        days = one_in(2) ? 513 : one_in(2) ? 512 : below(2000);
    last = first + days - 1;
    if (fault_rate && one_in(fault_rate) && first)
        last = first - 1;
    if (fault_rate && one_in(fault_rate))
        told = one_in(2) ? told + 1 : 0;
    else if (one_in(3))
        told = short_string(told);
    if (fault_rate && one_in(4 * fault_rate))
        return;
    put(t, '+');
    if (fault_rate && one_in(fault_rate))
        put_odd_qualifier(t);
    else
        put_word(t, "273");
    put(t, ':');
    put_day(t, first);
    put_character(t, fault_rate && one_in(fault_rate) ? '-' : '/');
    put_day(t, last);
    if (form == 1 || (fault_rate && one_in(fault_rate))) {
        put(t, ':');
        if (one_in(3))
            put_any(t, 5);
        put(t, ':');
        for (unsigned k = 0; k < told; k++)
            put_character(t, fault_rate && one_in(60 * fault_rate) ? '2' : '0' + (int)below(2));
        if (one_in(6)) {
            put(t, ':');
            put_any(t, 5);
        }
    } else if (one_in(10)) {
        puts_to(t, one_in(2) ? "::" : ":");
    }
    if (fault_rate && one_in(fault_rate)) {
        put(t, '*');
        put_any(t, 5);
    }
    if (form == 2 || (fault_rate && one_in(fault_rate))) {
        put(t, '+');
        put_weekdays(t);
        if (one_in(6)) {
            put(t, ':');
            put_any(t, 5);
        }
        if (fault_rate && one_in(fault_rate))
            put(t, '*');
    } else if (one_in(8)) {
        put(t, '+');
    }
    if (one_in(10)) {
        puts_to(t, form == 2 ? "+" : "++");
        put_any(t, 5);
        if (one_in(2))
            puts_to(t, "*A*B");
    }
}

static void tag_text(uint32_t tag, char *to) {
    to[0] = (char)(tag >> 16);
    to[1] = (char)(tag >> 8);
    to[2] = (char)tag;
    to[3] = 0;
}

// A place whose greatest number is to be reached, or passed by one; past the table for none. The groups around it are entered.
enum { NO_TARGET = 999 };
static size_t target = NO_TARGET;

static void put_segment(const char *tag, int read, unsigned density) {
    struct segment *g = begin(tag, PLAIN);
    if (read && target != NO_TARGET && !strcmp(tag, "POP"))
        puts_to(&pool, formless ? "+273:2000-01-01/2000-01-01" : "+273:2000-01-01/2000-01-01+6");
    else if (!strcmp(tag, "POP") && (read || one_in(2)))
        put_period(&pool);
    else if (density)
        put_elements(&pool, one_in(10) ? 12 : 4);
    end(g);
}

// Walks the places of a group, or of a message, from one up to another.
static void put_places(const struct place *t, size_t from, size_t to, int type, unsigned density) {
    char tag[4];
    for (size_t p = from; p < to; p += 1u + t[p].held) {
        unsigned times = t[p].mandatory;
        if (!times && density && below(10) < density)
            times = 1;
        if (times && t[p].most > 1 && one_in(3))
            times += below(t[p].held ? 4 : t[p].most < 4 ? t[p].most : 4);
        // the greatest number, and one more
        unsigned thin = 0;
        if (times && pool.n < 12000 && one_in(t[p].most < 10 ? 40 : t[p].most < 100 ? 150 : 600) && t[p].most < 1000) {
            times = t[p].most + below(2);
            thin = 1;
        }
        if (p == target) {
            times = t[p].most + below(2);
            thin = 1;
        } else if (p < target && target <= p + t[p].held && !times) {
            times = 1;
        }
        tag_text(t[p].tag, tag);
        for (; times && pool.n < (target != NO_TARGET ? 55000 : 25000); times--) {
            if (!t[p].held) {
                put_segment(tag, type == SKDUPD && t[p].group == 4, thin ? 0 : density);
                continue;
            }
            put_segment(tag, type == SKDUPD && t[p].group == 4, thin ? 0 : density);
            put_places(t, p + 2, p + 1 + t[p].held, type, thin ? 0 : t[p].level > 1 ? density / 2 : density - density / 4);
        }
    }
}

// What an interchange looks into: anything, the greatest number of one place, or the contents of a period.
enum { ANYTHING, AT_LIMIT, PERIODS };

// SKDUPD as often as TSDUPD, of either directory.
static int any_type(void) { return one_in(2) ? SKDUPD : one_in(2) ? TSDUPD : TSDUPD_12B; }

static int faulty(void) { return fault_rate && one_in(2 * fault_rate); }

static void put_header(int type, unsigned density) {
    struct segment *g = begin("UIH", HEADER);
    static struct text reference;
    reference.n = 0;
    for (unsigned n = 1 + below(one_in(4) ? 20 : 3); n; n--)
        put(&reference, any_character());
    puts_to(&pool, "+");
    put_word(&pool, faulty() ? (one_in(2) ? "" : one_in(2) ? "SKDUP" : "SKDUPD") : type == SKDUPD ? "SKDUPD" : "TSDUPD");
    puts_to(&pool, ":");
    put_word(&pool, faulty() ? (one_in(2) ? "" : "E") : "D");
    puts_to(&pool, ":");
    put_word(&pool, faulty() ? (one_in(2) ? "" : one_in(2) ? "12B" : "04B") : type == TSDUPD_12B ? "12B" : "04A");
    puts_to(&pool, ":");
    put_word(&pool, faulty() ? "X" : "");
    puts_to(&pool, ":");
    put_word(&pool, faulty() ? (one_in(2) ? "" : "UM") : "UN");
    if (one_in(6)) {
        puts_to(&pool, ":");
        put_any(&pool, 4);
    }
    if (one_in(8))
        puts_to(&pool, "*A:B");
    puts_to(&pool, "+");
    if (!faulty()) {
        g->reference = pool.n;
        put_characters(&pool, reference.at, reference.n);
        g->reference_n = pool.n - g->reference;
    }
    if (one_in(8))
        puts_to(&pool, one_in(2) ? ":more" : "*more");
    if (density && one_in(4))
        put_elements(&pool, 3);
    end(g);
}

static void put_message(int type, unsigned density, int at_limit) {
    const struct place *t = type == SKDUPD ? yardstick_skdupd : yardstick_tsdupd;
    size_t places = type == SKDUPD ? yardstick_skdupd_places : yardstick_tsdupd_places;
    put_header(type, density);
    // a group of up to 99,999 is more than an interchange holds
    target = at_limit ? 1 + below((unsigned)places - 2) : NO_TARGET;
    if (at_limit && t[target].most > 2000)
        target++;
    put_places(t, 1, places - 1, type, density);
    target = NO_TARGET;
    end(begin("UIT", TRAILER));
}

static void put_interchange(int focus) {
    pool.n = segment_count = dialogue.n = 0;
    release_rate = one_in(3) ? 2 + below(30) : 0;
    fault_rate = one_in(3) ? 30 + below(200) : 0;
    if (focus)
        fault_rate = 0;
    struct segment *g = begin("UIB", PLAIN);
    puts_to(&pool, "+");
    put_word(&pool, faulty() ? "UNOA" : "UNOB");
    puts_to(&pool, ":");
    put_word(&pool, faulty() ? "3" : "4");
    if (one_in(6))
        puts_to(&pool, ":X:Y");
    if (one_in(10))
        puts_to(&pool, "*Z");
    puts_to(&pool, "+");
    if (faulty() && one_in(2))
        puts_to(&pool, "*");
    for (unsigned n = 1 + below(one_in(4) ? 30 : 4); n; n--)
        put(&dialogue, any_character());
    if (!faulty())
        put_characters(&pool, dialogue.at, dialogue.n);
    if (one_in(6))
        puts_to(&pool, one_in(2) ? ":x" : "*y");
    if (one_in(4))
        put_elements(&pool, 5);
    end(g);
    if (focus == AT_LIMIT) {
        put_message(any_type(), 0, 1);
    } else if (focus == PERIODS) {
        put_header(1, 0);
        put_segment("MSD", 0, 0);
        put_segment("ORG", 0, 0);
        put_segment("HDR", 0, 0);
        put_segment("PRD", 0, 0);
        fault_rate = 8 + below(22);
        for (unsigned n = 1 + below(2); n; n--)
            put_segment("POP", 1, 0);
        fault_rate = 0;
        end(begin("UIT", TRAILER));
    } else {
        for (unsigned n = one_in(40) ? 12 : one_in(3) ? 1 + below(4) : 1; n; n--)
            put_message(any_type(), below(8), 0);
    }
    end(begin("UIZ", CLOSER));
}

// ---- Joining, with the counts ----

struct text joined;

static void put_count(unsigned long n) {
    static struct text digits;
    digits.n = 0;
    if (fault_rate && one_in(fault_rate))
        n = one_in(2) ? n + 1 : n - 1;
    if (fault_rate && one_in(fault_rate))
        put(&digits, '0');
    put_number(&digits, n, 1);
    if (fault_rate && one_in(fault_rate))
        put(&digits, one_in(2) ? ' ' : '0');
    if (fault_rate && one_in(fault_rate))
        digits.n = 0;
    put_characters(&joined, digits.at, digits.n);
}

// A trailer repeats a reference; `written` says that it is as written, with its releases.
static void put_trailer(const char *tag, const uint8_t *reference, size_t n, int written, unsigned long count) {
    puts_to(&joined, tag);
    put(&joined, '+');
    if (!faulty()) {
        for (size_t i = 0; i < n; i++) {
            if (written && reference[i] == '?')
                i++;
            put_character(&joined, reference[i]);
        }
    }
    if (faulty())
        put(&joined, 'x');
    if (one_in(10))
        puts_to(&joined, one_in(2) ? ":a" : "*b");
    put(&joined, '+');
    put_count(count);
    if (one_in(10))
        puts_to(&joined, one_in(2) ? ":a" : "*b");
    if (one_in(10))
        puts_to(&joined, "+c:d");
}

// With right counts for the segments as they stand, unless a fault is put in.
static void join(void) {
    size_t header = 0, messages = 0;
    joined.n = 0;
    for (size_t i = 0; i < segment_count; i++) {
        const struct segment *g = &segments[i];
        if (g->kind == TRAILER) {
            put_trailer("UIT", pool.at + segments[header].reference, segments[header].reference_n, 1, i - header + 1);
            messages++;
        } else if (g->kind == CLOSER) {
            put_trailer("UIZ", dialogue.at, dialogue.n, 0, messages);
        } else {
            for (size_t k = 0; k < g->n; k++)
                put(&joined, pool.at[g->from + k]);
        }
        if (g->kind == HEADER)
            header = i;
        put(&joined, '\'');
    }
}

// ---- Damage ----

static void remove_segment(size_t i) {
    memmove(segments + i, segments + i + 1, (segment_count - i - 1) * sizeof *segments);
    segment_count--;
}

static void insert_segment(size_t i, struct segment g) {
    if (segment_count == MOST_SEGMENTS)
        return;
    memmove(segments + i + 1, segments + i, (segment_count - i) * sizeof *segments);
    segments[i] = g;
    segment_count++;
}

// A segment anew at the pool's end, so that it may be changed.
static struct segment *own(size_t i) {
    struct segment *g = &segments[i];
    size_t from = pool.n;
    for (size_t k = 0; k < g->n; k++)
        put(&pool, pool.at[g->from + k]);
    if (g->kind == HEADER)
        g->reference = g->reference - g->from + from;
    g->from = from;
    return g;
}

static void damage_segments(void) {
    size_t i = below((unsigned)segment_count);
    struct segment *g;
    switch (below(9)) {
    case 0:
        remove_segment(i);
        break;
    case 1:
        insert_segment(i, segments[i]);
        break;
    case 2:
        if (i + 1 < segment_count) {
            struct segment other = segments[i];
            segments[i] = segments[i + 1];
            segments[i + 1] = other;
        }
        break;
    case 3: // another tag
        g = own(i);
        if (g->kind >= TRAILER) {
            g->kind = PLAIN;
            g->n = 0;
            g->from = pool.n;
        }
        memcpy(pool.at + g->from, tags[below(TAGS)], 3);
        if (g->n < 3) {
            g->n = 3;
            pool.n += 3;
        }
        break;
    case 4: // cut
        g = own(i);
        if (g->kind < TRAILER)
            g->n = below((unsigned)g->n + 1);
        break;
    case 5: // bytes appended
        g = own(i);
        if (g->kind < TRAILER) {
            put_any(&pool, 4);
            if (one_in(2))
                put_elements(&pool, 6);
            g->n = pool.n - g->from;
        }
        break;
    case 6: // a segment more, of any tag
    case 7: {
        struct segment *more = begin(tags[below(TAGS)], PLAIN);
        if (one_in(2))
            put_elements(&pool, 3);
        end(more);
        struct segment h = *more;
        segment_count--;
        insert_segment(i, h);
        break;
    }
    case 8: { // moved
        struct segment h = segments[i];
        remove_segment(i);
        insert_segment(below((unsigned)segment_count + 1), h);
        break;
    }
    }
}

// A segment at a limit, or one past it.
static void put_limit(void) {
    size_t i = 1 + below((unsigned)segment_count - 1);
    struct segment *g = own(i);
    unsigned more = below(2), n = 0;
    if (g->kind >= TRAILER)
        return;
    if (g->n < 3)
        return;
    // with nothing else in it the segment has the length from which on a reader counts
    if (g->kind == PLAIN && one_in(2))
        g->n = 3, pool.n = g->from + 3;
    switch (below(5)) {
    case 0: // 64 elements
        for (size_t k = 0; k < g->n; k++) {
            n += pool.at[g->from + k] == '+';
            if (pool.at[g->from + k] == '?')
                k++;
        }
        for (; n < 64 + more; n++)
            put(&pool, '+');
        break;
    case 1: // 99 occurrences
        puts_to(&pool, "+");
        for (n = 0; n < 98 + more; n++) {
            put(&pool, '*');
            if (one_in(30))
                put_any(&pool, 3);
            if (one_in(30))
                puts_to(&pool, "?*");
        }
        break;
    case 2: // 32 components
        puts_to(&pool, one_in(2) ? "+" : "+A*");
        for (n = 0; n < 31 + more; n++) {
            put(&pool, ':');
            if (one_in(20))
                put_any(&pool, 3);
        }
        if (one_in(2))
            puts_to(&pool, one_in(2) ? "*:::" : "+:::");
        break;
    case 3: // 512 characters
        puts_to(&pool, one_in(2) ? "+" : one_in(2) ? "+A:" : "+B*");
        for (unsigned odd = one_in(2) ? 20 : 100000; n < 512 + more; n++)
            put_character(&pool, one_in(odd) ? any_character() : 'A');
        if (one_in(3))
            puts_to(&pool, one_in(2) ? "*" : one_in(2) ? ":" : "+");
        break;
    case 4: // the tag
        pool.at[g->from + below(3)] = (uint8_t) "@[az0 ?'+*:A"[below(12)];
        break;
    }
    g->n = pool.n - g->from;
}

static int any_byte(void) {
    static const uint8_t odd[] = {0, 10, 13, 31, 127, 128, 255, '#', '$', '@', '[', '\\', ']', '^', '`', '{', '|', '}', '~', 'a', 'z', ' ', '!', 'Z', '/'};
    switch (below(4)) {
    case 0:
        return "+:*?'"[below(5)];
    case 1:
        return '?';
    case 2:
        return odd[below(sizeof odd)];
    default:
        return (int)below(256);
    }
}

static void damage_bytes(void) {
    if (!joined.n)
        return;
    size_t i = below((unsigned)joined.n);
    if (one_in(4))
        i = below(joined.n < 60 ? (unsigned)joined.n : 60);
    else if (one_in(4))
        i = joined.n - 1 - below(joined.n < 30 ? (unsigned)joined.n : 30);
    switch (below(6)) {
    case 0:
        joined.at[i] ^= (uint8_t)(1u << below(8));
        break;
    case 1:
    case 2:
        memmove(joined.at + i + 1, joined.at + i, joined.n - i);
        joined.at[i] = (uint8_t)any_byte();
        joined.n++;
        break;
    case 3:
        memmove(joined.at + i, joined.at + i + 1, joined.n - i - 1);
        joined.n--;
        break;
    case 4:
        joined.at[i] = (uint8_t)any_byte();
        break;
    case 5:
        if (one_in(3))
            joined.n = i;
        else
            joined.at[i] = '?';
        break;
    }
}

// A message of so many bytes, whole, or one byte over: stations, or services, up to the length.
static void put_sized(size_t n) {
    static const char *const headers[TYPES] = {"UIH+TSDUPD:D:04A::UN+", "UIH+SKDUPD:D:04A::UN+", "UIH+TSDUPD:D:12B::UN+"};
    int type = any_type();
    pool.n = segment_count = dialogue.n = 0;
    release_rate = fault_rate = 0;
    puts_to(&dialogue, "7");
    struct segment *g = begin("UIB+UNOB:4+7", PLAIN);
    end(g);
    g = begin(headers[type], HEADER);
    g->reference = pool.n;
    put(&pool, '1');
    g->reference_n = 1;
    end(g);
    end(begin("MSD", PLAIN));
    if (type == SKDUPD) {
        end(begin("ORG", PLAIN));
        end(begin("HDR", PLAIN));
    }
    int shortest = one_in(2);
    for (;;) {
        end(begin("UIT", TRAILER));
        end(begin("UIZ", CLOSER));
        join();
        segment_count -= 2;
        size_t left = n > joined.n ? n - joined.n : 0;
        // a count that grows by a digit may leave the length a byte short, which is as good
        if (left < 4)
            break;
        for (unsigned k = left > 6000 ? 200 : left > 600 ? 10 : 1; k; k--) {
            g = begin(type == SKDUPD ? "PRD" : "ALS", PLAIN);
            size_t most = left < 1200 ? left - 4 : 500;
            if (most && (left < 1200 || !shortest)) {
                put(&pool, '+');
                for (size_t m = left < 8 ? left - 5 : left < 500 ? left - 5 : below(30); m; m--)
                    put(&pool, 'A');
            }
            end(g);
        }
    }
    end(begin("UIT", TRAILER));
    end(begin("UIZ", CLOSER));
    join();
}

// A POP with neither form ends a reading where the caller does not ask for the old one: three in four of those interchanges have none on
// purpose.
void put_case(_Bool old_reading) {
    formless = old_reading || one_in(4);
    if (one_in(400)) {
        put_sized(one_in(3) ? LONGEST + 1 : one_in(2) ? LONGEST : LONGEST - below(3));
        while (one_in(3))
            damage_bytes();
        return;
    }
    if (one_in(2000)) {
        joined.n = 0;
        return;
    }
    if (one_in(5)) {
        put_interchange(one_in(4) ? AT_LIMIT : PERIODS);
        join();
        return;
    }
    put_interchange(ANYTHING);
    switch (below(12)) {
    case 0:
    case 1:
    case 2:
        for (unsigned n = 1 + below(3); n && segment_count > 1; n--)
            damage_segments();
        join();
        break;
    case 3:
        put_limit();
        join();
        break;
    case 4:
    case 5:
    case 6:
        join();
        for (unsigned n = 1 + below(3); n; n--)
            damage_bytes();
        break;
    case 7: // both
        damage_segments();
        join();
        damage_bytes();
        break;
    case 8: // bytes after the end
        join();
        put(&joined, any_byte());
        break;
    default:
        join();
    }
}

// ---- The comparison ----

static uint32_t ours[MOST_NUMBERS + 1000 + GUARD], theirs[MOST_NUMBERS + 1000 + GUARD];

void show(const char *who, struct reply r) {
    printf("%s: number %u, position %lu, part %u, rows %lu\n", who, r.number, (unsigned long)r.position, r.part, (unsigned long)r.rows);
}

void show_input(void) {
    printf("input of %lu bytes:\n", (unsigned long)joined.n);
    for (size_t i = 0; i < joined.n; i++) {
        int c = joined.at[i];
        if (c >= 32 && c < 127 && c != '\\')
            printf("%c", c);
        else
            printf("\\x%02x", c);
    }
    printf("\n");
}

static int compare(unsigned long n, unsigned long seed) {
    static struct tally tally;
    unsigned long bytes = 0;
    chance = seed * 0x9E3779B97F4A7C15u + 88172645463325252u;
    for (unsigned long k = 0; k < n; k++) {
        _Bool old_reading = one_in(2);
        put_case(old_reading);
        if (joined.n > LONGEST + 1)
            joined.n = LONGEST + 1;
        size_t quotes = 0;
        for (size_t i = 0; i < joined.n; i++)
            quotes += joined.at[i] == '\'';
        size_t room = quotes * 3;
        switch (below(8)) {
        case 0:
            room += below(50);
            break;
        case 1:
            room -= room ? 1 + below(room < 4 ? (unsigned)room : 4) : 0;
            break;
        case 2:
            room = below(20) ? room : below((unsigned)room + 1);
            break;
        }
        if (room > MOST_NUMBERS + 1000)
            room = MOST_NUMBERS + 1000;
        for (size_t i = 0; i < room + GUARD; i++)
            ours[i] = theirs[i] = (uint32_t)(i * 2654435761u + k);
        struct reply a = drumcallisto_read(joined.at, joined.n, old_reading, ours, room);
        struct reply b = yardstick_read(joined.at, joined.n, old_reading, theirs, room);
        int same = same_reply(a, b) && !memcmp(ours, theirs, (room + GUARD) * sizeof *ours);
        for (size_t i = a.number ? 0 : a.rows * 3; i < room + GUARD; i++)
            same &= ours[i] == (uint32_t)(i * 2654435761u + k);
        if (!same) {
            printf("case %lu of seed %lu differs, room for %lu numbers, old reading %d\n", k, seed, (unsigned long)room, old_reading);
            show("ours     ", a);
            show("yardstick", b);
            for (size_t i = 0; i < room + GUARD; i++)
                if (ours[i] != theirs[i]) {
                    printf("first other number at %lu: ours %u, yardstick %u\n", (unsigned long)i, ours[i], theirs[i]);
                    break;
                }
            show_input();
            return 1;
        }
        count_answer(&tally, a.number, a.part, old_reading);
        bytes += joined.n;
    }
    printf("%lu interchanges, %lu bytes, no difference; accepted %lu\n", n, bytes, tally.numbers[0]);
    show_refusals(&tally);
    return 0;
}

// ---- Interchanges for the costs ----

// Some text again and again while the interchange stays below a length.
static void put_same(struct text *t, int type, const char *first, const char *again, size_t longest) {
    open_text(t, type);
    puts_to(t, first);
    while (t->n + strlen(again) + 40 <= longest)
        puts_to(t, again);
    close_text(t);
}

// ---- Time ----

typedef struct reply reader(const uint8_t *, size_t, _Bool, uint32_t *, size_t);

static double took(reader *read, const struct text *t, unsigned times) {
    double start = now();
    for (unsigned k = 0; k < times; k++) {
        struct reply r = read(t->at, t->n, OLD_READING, ours, MOST_NUMBERS);
        if (r.number)
            printf("refused %u at %lu\n", r.number, (unsigned long)r.position);
    }
    return (now() - start) / times;
}

enum { MOST_ROUNDS = 200 };

// Both readers in turn, many rounds; nanoseconds for one reading.
static void measure(const struct text *t, unsigned rounds, struct times *us, struct times *them) {
    static double a[MOST_ROUNDS], b[MOST_ROUNDS];
    unsigned times = 1 + (unsigned)(2e6 / took(drumcallisto_read, t, 2));
    took(yardstick_read, t, 2);
    for (unsigned k = 0; k < rounds; k++) {
        a[k] = took(drumcallisto_read, t, times);
        b[k] = took(yardstick_read, t, times);
    }
    *us = sorted(a, rounds);
    *them = sorted(b, rounds);
}

static struct text sample;

static void time_one(const char *name, unsigned rounds) {
    struct times us, them;
    struct reply r = drumcallisto_read(sample.at, sample.n, OLD_READING, ours, MOST_NUMBERS);
    if (r.number) {
        printf("%s: refused %u at %lu\n", name, r.number, (unsigned long)r.position);
        return;
    }
    measure(&sample, rounds, &us, &them);
    double n = (double)sample.n;
    printf("%-22s %6lu bytes %5lu segments  ratio %.2f (least) %.2f (median)  ours %.2f, yardstick %.2f ns per byte\n", name, (unsigned long)sample.n,
           (unsigned long)r.rows, them.least / us.least, them.median / us.median, us.least / n, them.least / n);
    fflush(0);
}

static void time_all(unsigned rounds) {
    printf("ratio: the yardstick's time over ours, so that 1.0 or more means at least as fast\n");
    put_realistic(&sample, SKDUPD, LONGEST);
    time_one("SKDUPD, 60,000 bytes", rounds);
    put_realistic(&sample, TSDUPD, LONGEST);
    time_one("TSDUPD, 60,000 bytes", rounds);
    put_realistic(&sample, SKDUPD, 6000);
    time_one("SKDUPD, 6,000 bytes", rounds);
    put_realistic(&sample, TSDUPD, 6000);
    time_one("TSDUPD, 6,000 bytes", rounds);
    put_realistic(&sample, TSDUPD_12B, LONGEST);
    time_one("D.12B, 60,000 bytes", rounds);
}

static double usual_ours, usual_theirs;

static void cost_one(const char *name, unsigned rounds) {
    struct times us, them;
    struct reply r = drumcallisto_read(sample.at, sample.n, OLD_READING, ours, MOST_NUMBERS);
    if (r.number) {
        printf("%s: refused %u at %lu\n", name, r.number, (unsigned long)r.position);
        return;
    }
    measure(&sample, rounds, &us, &them);
    double a = us.least / (double)sample.n, b = them.least / (double)sample.n;
    if (usual_ours == 0) {
        usual_ours = a;
        usual_theirs = b;
    }
    printf("%-30s %5lu segments  ours %6.2f ns per byte, %5.2f of the realistic; yardstick %6.2f, %5.2f; ratio %.2f\n", name, (unsigned long)r.rows, a,
           a / usual_ours, b, b / usual_theirs, b / a);
    fflush(0);
}

static char long_text[4000];

// Two segments that are read, each with much in it that is not: occurrences of S306 in the UIH, components of 2160 in a POP.
static void put_long_parts(void) {
    sample.n = 0;
    puts_to(&sample, "UIB+UNOB:4+0080-2000-0001'UIH+SKDUPD:D:04A::UN");
    for (unsigned o = 0; o < 80; o++) {
        put(&sample, '*');
        for (unsigned k = 0; k < 512; k++)
            put(&sample, 'A');
    }
    puts_to(&sample, "+1'MSD'ORG'HDR'PRD'POP+273:2000-01-01/2000-01-02+1");
    for (unsigned c = 0; c < 31; c++) {
        put(&sample, ':');
        for (unsigned k = 0; k < 512; k++)
            put(&sample, 'A');
    }
    put(&sample, '\'');
    close_text(&sample);
}

static void costs(unsigned rounds) {
    char *p = long_text;
    put_realistic(&sample, SKDUPD, LONGEST);
    cost_one("realistic SKDUPD", rounds);
    put_same(&sample, TSDUPD, "", "ALS'", LONGEST);
    cost_one("shortest segments, ALS", rounds);
    put_same(&sample, SKDUPD, "", "PRD'", LONGEST);
    cost_one("shortest segments, PRD", rounds);
    put_same(&sample, TSDUPD, "", "ALS'RFR'PRD'", LONGEST);
    cost_one("shortest, far apart", rounds);
    memcpy(p, "ALS+", 4);
    p += 4;
    for (unsigned k = 0; k < 512; k++, p += 2)
        memcpy(p, k % 3 ? "??" : "?'", 2);
    memcpy(p, "'", 2);
    put_same(&sample, TSDUPD, "", long_text, LONGEST);
    cost_one("releases", rounds);
    p = long_text;
    memcpy(p, "POP+273:2000-01-01/2001-05-26::", 31);
    p += 31;
    for (unsigned k = 0; k < 512; k++)
        *p++ = "0110111"[k % 7];
    memcpy(p, "'", 2);
    put_same(&sample, SKDUPD, "PRD+1'", long_text, LONGEST);
    cost_one("periods of 512 days", rounds);
    memcpy(long_text + 31 + 400, "'", 2);
    put_same(&sample, SKDUPD, "PRD+1'", long_text, LONGEST);
    cost_one("400 characters for 512", rounds);
    put_same(&sample, SKDUPD, "", "PRD'POP+273:2000-01-01/2001-05-26'", LONGEST);
    cost_one("periods without days", rounds);
    put_long_parts();
    cost_one("parts not read, 512 each", rounds);
    p = long_text;
    memcpy(p, "ALS+", 4);
    p += 4;
    for (unsigned k = 0; k < 500; k++)
        *p++ = 'A';
    memcpy(p, "'", 2);
    put_same(&sample, TSDUPD, "", long_text, LONGEST);
    cost_one("long plain text", rounds);
    put_same(&sample, TSDUPD, "", "ALS+A:B:C:D*A:B:C:D+A:B:C*D:E+A:B:C:D'", LONGEST);
    cost_one("many marks", rounds);
}

// What a call costs whatever it is given: an interchange of 63 bytes, and none.
static void where(unsigned rounds) {
    struct times us, them;
    sample.n = 0;
    puts_to(&sample, "UIB+UNOB:4+7'UIH+TSDUPD:D:04A::UN+1'MSD+AAR:61'UIT+1+3'UIZ+7+1'");
    measure(&sample, rounds, &us, &them);
    printf("%-30s ours %8.0f ns, yardstick %8.0f ns a call\n", "63 bytes", us.least, them.least);
    costs(rounds);
}

// Reads nothing: what a process costs without a reading.
static struct reply nobody(const uint8_t *s, size_t n, _Bool old_reading, uint32_t *rows, size_t room) {
    (void)s, (void)n, (void)old_reading, (void)rows, (void)room;
    return (struct reply){0, 0, 0, 0};
}

static int once(const char *who, const char *kind, unsigned long longest) {
    put_realistic(&sample, !strcmp(kind, "skdupd") ? SKDUPD : !strcmp(kind, "tsdupd") ? TSDUPD : TSDUPD_12B, longest);
    reader *read = !strcmp(who, "ours") ? drumcallisto_read : !strcmp(who, "parcels") ? read_in_parcels : !strcmp(who, "yardstick") ? yardstick_read : nobody;
    struct reply r = read(sample.at, sample.n, OLD_READING, ours, MOST_NUMBERS);
    printf("%s %s: %lu bytes, %lu segments, number %u\n", who, kind, (unsigned long)sample.n, (unsigned long)r.rows, r.number);
    return r.number;
}

int main(int n, char **words) {
    const char *mode = n > 1 ? words[1] : "";
    if (!strcmp(mode, "compare"))
        return compare(n > 2 ? strtoul(words[2], 0, 10) : 100000, n > 3 ? strtoul(words[3], 0, 10) : 1);
    if (!strcmp(mode, "compare_parcels"))
        return compare_parcels(n > 2 ? strtoul(words[2], 0, 10) : 100000, n > 3 ? strtoul(words[3], 0, 10) : 1);
    if (!strcmp(mode, "once") && n > 4)
        return once(words[2], words[3], strtoul(words[4], 0, 10));
    unsigned rounds = n > 2 ? (unsigned)strtoul(words[2], 0, 10) : 60;
    rounds = rounds < 1 ? 1 : rounds > MOST_ROUNDS ? MOST_ROUNDS : rounds;
    if (!strcmp(mode, "time"))
        time_all(rounds);
    else if (!strcmp(mode, "costs"))
        costs(rounds);
    else if (!strcmp(mode, "where"))
        where(rounds);
    else if (!strcmp(mode, "parcels"))
        time_parcels(rounds);
    else {
        printf("bench compare N SEED | compare_parcels N SEED | time ROUNDS | parcels ROUNDS | costs ROUNDS | where ROUNDS | once WHO KIND N\n");
        return 2;
    }
    return 0;
}
