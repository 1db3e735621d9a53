// A reader in C as fast as portable C was made here: the end of a segment is found eight bytes at a time, its parts are counted only
// where it may pass a limit, its place is looked up. No allocation; the rows are gathered on the stack, since a refusal leaves the
// lent buffer as it was. Quotations are from document 01.
#include "hints.h"
#include "periods.h"

// "compared after release"
static int same(struct part p, struct part q) {
    const uint8_t *a = p.from, *b = q.from;
    while (a < p.to && b < q.to) {
        if (*a == '?')
            a++;
        if (*b == '?')
            b++;
        if (*a++ != *b++)
            return 0;
    }
    return a == p.to && b == q.to;
}

// "counts are decimal with no leading zero"
static int counts(struct part p, size_t n) {
    char text[21];
    unsigned i = 20;
    text[i] = 0;
    do
        text[--i] = (char)('0' + n % 10);
    while (n /= 10);
    return says(p, text + i);
}

// "UIT repeats 0340 and gives the number of segments"; "UIZ gives the dialogue reference of UIB and the number of messages"
static int trailer(const uint8_t *g, const uint8_t *end, struct part reference, size_t count) {
    struct part p = part_of(g, end, 1, 1);
    return present(p) && same(p, reference) && counts(part_of(g, end, 2, 1), count);
}

// "UIH names in S306 the type, D, 04A, an empty 0113 and UN; then the reference 0340": 0, or 7 where one is absent, or 8. Document 02, A8: a TSDUPD
// may name 12B; the table of document 003 has the places of document 000's, and what differs, the positions, no reader tells.
static unsigned header(const uint8_t *g, const uint8_t *end, int *skdupd, struct part *reference) {
    struct part type = part_of(g, end, 1, 1), version = part_of(g, end, 1, 2), release = part_of(g, end, 1, 3);
    struct part agency = part_of(g, end, 1, 5);
    *reference = part_of(g, end, 2, 1);
    if (!present(type) || !present(version) || !present(release) || !present(agency) || !present(*reference))
        return 7;
    if (!says(version, "D") || present(part_of(g, end, 1, 4)) || !says(agency, "UN"))
        return 8;
    *skdupd = says(release, "04A") && says(type, "SKDUPD");
    return *skdupd || (says(type, "TSDUPD") && (says(release, "04A") || says(release, "12B"))) ? 0 : 8;
}

// How far a reading has come: the offset of the next segment, and where its row goes.
struct front {
    size_t at;
    uint32_t *row;
};

static inline void put_row(struct front *f, size_t end, uint32_t group, uint32_t tag) {
    f->row[0] = (uint32_t)f->at;
    f->row[1] = group;
    f->row[2] = tag;
    f->row += 3;
    f->at = end + 1;
}

// The segments of a message while each is placed by its hint, is good and cannot pass a limit. It stops before any other, whatever
// it may be, and before the input's last bytes. Apart from the careful steps, so that its registers are its own.
__attribute__((noinline)) static struct front run(const uint8_t *s, size_t n, const struct message *m, struct reached *r, struct front f,
                                                  _Bool old_reading) {
    const uint32_t bare = (uint32_t)('+' ^ '\'') << 24;
    while (f.at + 8 <= n) {
        uint32_t head = four_at(s + f.at);
        const struct hint *h = &m->hints[r->at][hint_of(head)];
        uint32_t count = (r->count[h->level] & h->again) + 1;
        size_t end = f.at + 3;
        if (count > h->most)
            break;
        if (head == h->head) {
            end = segment_end(s, n, f.at + 4);
            if (end == n)
                break;
            if (h->period ? !usual_period(s + f.at, s + end, old_reading) : !within_limits(s + f.at, s + end))
                break;
        } else if ((head ^ h->head) != bare || h->period) {
            break;
        }
        r->count[h->level] = count;
        r->count[h->level + 1] = 1; // of a group's trigger; read of no other place
        r->at = h->at;
        put_row(&f, end, h->group, h->tag);
    }
    return f;
}

enum phase { OPENING, BETWEEN, INSIDE, CLOSED };

// A reading: what has come so far.
struct reading {
    enum phase phase;
    _Bool old_reading; // the caller's wish
    uint8_t part;      // of a POP that is refused; 0 before
    struct part dialogue, reference;
    const struct message *message;
    struct reached reached;
    size_t messages, segments;
};

// A segment inside a message: 0 and its group, or the number of its refusal.
static unsigned inside(struct reading *d, const uint8_t *g, const uint8_t *end, uint32_t tag, uint32_t *group) {
    const struct message *m = d->message;
    if (!step(m, &d->reached, tag))
        return 9;
    *group = m->table[d->reached.at].group;
    d->segments++;
    if (tag == TAG('U', 'I', 'T')) {
        if (!trailer(g, end, d->reference, d->segments))
            return 7;
        d->messages++;
        d->phase = BETWEEN;
    } else if (tag == TAG('P', 'O', 'P') && *group == 4 && m->table == yardstick_skdupd) {
        d->part = (uint8_t)wrong_part(g, end, d->old_reading);
        return d->part ? 10 : 0;
    }
    return 0;
}

// A segment outside of messages: 0, or the number of its refusal.
static unsigned outside(struct reading *d, const uint8_t *g, const uint8_t *end, uint32_t tag) {
    int skdupd;
    if (d->phase == OPENING) {
        d->dialogue = part_of(g, end, 2, 1);
        d->phase = BETWEEN;
        return tag == TAG('U', 'I', 'B') && says(part_of(g, end, 1, 1), "UNOB") && says(part_of(g, end, 1, 2), "4") && present(d->dialogue) ? 0 : 7;
    }
    if (tag == TAG('U', 'I', 'H')) {
        unsigned number = header(g, end, &skdupd, &d->reference);
        if (number)
            return number;
        d->message = &yardstick_messages[skdupd];
        d->reached = (struct reached){0, {1}};
        d->segments = 1;
        d->phase = INSIDE;
        return 0;
    }
    // "between messages only UIH and UIZ may stand, else 7"; "one or more messages"
    d->phase = CLOSED;
    return tag == TAG('U', 'I', 'Z') && d->messages && trailer(g, end, d->dialogue, d->messages) ? 0 : 7;
}

static inline struct reply refused(unsigned number, size_t position) { return (struct reply){(uint8_t)number, position, 0, 0}; }

struct reply yardstick_read(const uint8_t *s, size_t n, _Bool old_reading, uint32_t *rows, size_t room) {
    uint32_t gathered[MOST_ROWS * 3];
    struct front f = {0, gathered};
    struct reading d = {.phase = OPENING, .old_reading = old_reading};
    if (n == 0 || n > LONGEST)
        return refused(3, 0);
    while (f.at < n) {
        if (d.phase == INSIDE) {
            struct front on = run(s, n, d.message, &d.reached, f, old_reading);
            d.segments += (size_t)(on.row - f.row) / 3;
            f = on;
        }
        if (f.at == n)
            break;
        if (d.phase == CLOSED)
            return refused(7, f.at);
        struct scanned found = scan(s, n, f.at);
        if (found.number)
            return refused(found.number, found.at);
        const uint8_t *g = s + f.at, *end = s + found.at;
        uint32_t tag = TAG(g[0], g[1], g[2]), group = 0;
        unsigned number = d.phase == INSIDE ? inside(&d, g, end, tag, &group) : outside(&d, g, end, tag);
        if (number)
            return (struct reply){(uint8_t)number, f.at, d.part, 0};
        put_row(&f, found.at, group, tag);
    }
    if (d.phase != CLOSED)
        return refused(7, n);
    size_t numbers = (size_t)(f.row - gathered);
    if (room < numbers)
        return refused(17, 0);
    memcpy(rows, gathered, numbers * sizeof *rows);
    return (struct reply){0, 0, 0, numbers / 3};
}
