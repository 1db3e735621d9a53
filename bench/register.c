// A plain register in C over the bytes of docs/REGISTER.md: no allocation, every test before the first store. Quotations are from
// document 01.
#include "register.h"

#include "parts.h"

void *memcpy(void *to, const void *from, size_t n);
void *memmove(void *to, const void *from, size_t n);
void *memset(void *to, int byte, size_t n);
int memcmp(const void *a, const void *b, size_t n);

// Offsets in a register and in a slot.
enum { QUOTAS = 2, HEAD = 18, SLOT = 140, SLOTS = 256 };
enum { NUMBER = 10, LIVE = 10, LIVE_DAYS = 11, PENDING = 75, PENDING_DAYS = 76, CALENDAR = 64 };
enum { NOTHING, PUT, REMOVAL };
// The dates from 1990-01-01 to 2099-12-31, and the days of a window.
enum { DATES = 40177, WINDOW = 512 };

static struct answer done(size_t value) { return (struct answer){0, 0, 0, value}; }

static struct answer refuse(unsigned number, size_t position) { return (struct answer){(uint8_t)number, position, 0, 0}; }

// ---- Whether a buffer is a register ----

static unsigned two_bytes(const uint8_t *p) { return p[0] + 256u * p[1]; }

static unsigned quota_of(const uint8_t *b, size_t account) { return two_bytes(b + QUOTAS + 2 * (account - 1)); }

static int all_zero(const uint8_t *p, size_t n) {
    uint8_t any = 0;
    for (size_t i = 0; i < n; i++)
        any |= p[i];
    return !any;
}

// "service number (1 to 10 permitted characters)", then zeros
static int good_number(const uint8_t *p) {
    size_t n = 0;
    while (n < NUMBER && class_of[p[n]] != BAD)
        n++;
    return n && all_zero(p + n, NUMBER - n);
}

// "A record has a live calendar or none, and a pending entry or none ..; a removal only beside a live calendar; at least one of the
// two is there."
static int good_slot(const uint8_t *p) {
    if (!good_number(p) || p[LIVE] > 1 || p[PENDING] > REMOVAL)
        return 0;
    if (!p[LIVE] && (p[PENDING] != PUT || !all_zero(p + LIVE_DAYS, CALENDAR)))
        return 0;
    return p[PENDING] == PUT || all_zero(p + PENDING_DAYS, CALENDAR);
}

// Used slots first, in order of number; "unused room is zero".
static int good_room(const uint8_t *p, unsigned quota) {
    const uint8_t *end = p + (size_t)quota * SLOT;
    for (const uint8_t *before = 0; p < end && *p; before = p, p += SLOT)
        if (!good_slot(p) || (before && memcmp(before, p, NUMBER) >= 0))
            return 0;
    return all_zero(p, (size_t)(end - p));
}

static int good_head(const uint8_t *b) {
    unsigned slots = 0;
    for (size_t account = 1; account <= ACCOUNTS; account++)
        slots += quota_of(b, account);
    return slots <= SLOTS && two_bytes(b) + WINDOW <= DATES;
}

uint8_t yardstick_is_register(const uint8_t *b, size_t n) {
    if (n != REGISTER_LENGTH || !good_head(b))
        return 0;
    const uint8_t *p = b + HEAD;
    for (size_t account = 1; account <= ACCOUNTS; account++) {
        unsigned quota = quota_of(b, account);
        if (!good_room(p, quota))
            return 0;
        p += (size_t)quota * SLOT;
    }
    return all_zero(p, (size_t)(b + REGISTER_LENGTH - p));
}

// ---- An account's room ----

// Which slots of a register an account has: the first, how many it may use, and how many it uses.
struct room {
    size_t from, quota, used;
};

static size_t slot_offset(size_t k) { return HEAD + k * SLOT; }

static struct room room_of(const uint8_t *b, size_t account) {
    struct room r = {0, quota_of(b, account), 0};
    for (size_t a = 1; a < account; a++)
        r.from += quota_of(b, a);
    size_t most = r.quota;
    while (r.used < most) {
        size_t middle = r.used + (most - r.used) / 2;
        if (b[slot_offset(r.from + middle)])
            r.used = middle + 1;
        else
            most = middle;
    }
    return r;
}

// A number filled up with zeros.
struct key {
    uint8_t at[NUMBER];
};

// Where a number stands in a room, or belongs.
struct found {
    size_t at;
    int there;
};

static struct found find(const uint8_t *b, struct room r, struct key key) {
    size_t low = 0, high = r.used;
    while (low < high) {
        size_t middle = low + (high - low) / 2;
        int order = memcmp(b + slot_offset(r.from + middle), key.at, NUMBER);
        if (!order)
            return (struct found){slot_offset(r.from + middle), 1};
        if (order < 0)
            low = middle + 1;
        else
            high = middle;
    }
    return (struct found){slot_offset(r.from + low), 0};
}

// "Room left by a dropped record is used again."
static void drop_slot(uint8_t *b, struct room *r, size_t at) {
    size_t last = slot_offset(r->from + r->used - 1);
    memmove(b + at, b + at + SLOT, last - at);
    memset(b + last, 0, SLOT);
    r->used--;
}

static void insert_slot(uint8_t *b, struct room *r, size_t at, struct key key) {
    size_t end = slot_offset(r->from + r->used);
    memmove(b + at + SLOT, b + at, end - at);
    memset(b + at, 0, SLOT);
    memcpy(b + at, key.at, NUMBER);
    r->used++;
}

static void clear_pending(uint8_t *slot) { memset(slot + PENDING, 0, 1 + CALENDAR); }

// 1, then 2: what each call but opening asks first.
static unsigned unfit(const uint8_t *b, size_t n, size_t account) {
    if (!yardstick_is_register(b, n))
        return 1;
    return account < 1 || account > ACCOUNTS ? 2 : 0;
}

// ---- Open, release, withdraw ----

struct answer yardstick_open(uint8_t *b, size_t n, uint16_t year, uint8_t month, uint8_t day, const uint32_t *quotas) {
    unsigned first = day_made(year, month, day);
    uint64_t slots = 0;
    for (size_t a = 0; a < ACCOUNTS; a++)
        slots += quotas[a];
    if (n != REGISTER_LENGTH)
        return refuse(1, 0);
    if (!first || first - 1 + WINDOW > DATES || slots > SLOTS)
        return refuse(18, 0);
    memset(b, 0, n);
    b[0] = (uint8_t)(first - 1);
    b[1] = (uint8_t)((first - 1) >> 8);
    for (size_t a = 0; a < ACCOUNTS; a++) {
        b[QUOTAS + 2 * a] = (uint8_t)quotas[a];
        b[QUOTAS + 2 * a + 1] = (uint8_t)(quotas[a] >> 8);
    }
    return done(0);
}

// "every pending entry becomes live or removes its record. Returns the number of entries, 0 if none."
struct answer yardstick_release(uint8_t *b, size_t n, size_t account) {
    unsigned number = unfit(b, n, account);
    if (number)
        return refuse(number, 0);
    struct room r = room_of(b, account);
    uint8_t *to = b + slot_offset(r.from), *end = to + r.used * SLOT;
    size_t entries = 0;
    for (const uint8_t *p = to; p < end; p += SLOT) {
        entries += p[PENDING] != NOTHING;
        if (p[PENDING] == REMOVAL)
            continue;
        if (to != p)
            memcpy(to, p, SLOT);
        if (to[PENDING] == PUT) {
            memcpy(to + LIVE, to + PENDING, 1 + CALENDAR);
            clear_pending(to);
        }
        to += SLOT;
    }
    memset(to, 0, (size_t)(end - to));
    return done(entries);
}

// "drops that pending entry, and the record if nothing is live"; a number with a zero byte is that of no record
struct answer yardstick_withdraw(uint8_t *b, size_t n, size_t account, const uint8_t *number, size_t length) {
    unsigned refused = unfit(b, n, account);
    if (refused)
        return refuse(refused, 0);
    struct key key = {{0}};
    if (length < 1 || length > NUMBER)
        return refuse(16, 0);
    memcpy(key.at, number, length);
    if (!key.at[length - 1])
        return refuse(16, 0);
    struct room r = room_of(b, account);
    struct found f = find(b, r, key);
    if (!f.there || b[f.at + PENDING] == NOTHING)
        return refuse(16, 0);
    if (b[f.at + LIVE])
        clear_pending(b + f.at);
    else
        drop_slot(b, &r, f.at);
    return done(0);
}

// ---- Show ----

static size_t number_length(const uint8_t *slot) {
    size_t n = NUMBER;
    while (!slot[n - 1])
        n--;
    return n;
}

// A line up to its last field; where it goes on.
static uint8_t *put_fields(uint8_t *out, const uint8_t *slot, const char *word) {
    size_t n = number_length(slot);
    memcpy(out, slot, n);
    out += n;
    *out++ = '\t';
    while (*word)
        *out++ = (uint8_t)*word++;
    *out++ = '\t';
    return out;
}

// "512 characters of 0 and 1 over the window", and the line's end
static uint8_t *put_days(uint8_t *out, const uint8_t *days) {
    for (unsigned k = 0; k < WINDOW; k++)
        *out++ = (uint8_t)('0' + (days[k / 8] >> k % 8 & 1));
    *out++ = '\n';
    return out;
}

// "number, live, put or del, 512 characters .. (empty for del). Live first."
static size_t text_length(const uint8_t *slot) {
    static const uint16_t pending[3] = {[PUT] = sizeof "\tput\t\n" - 1 + WINDOW, [REMOVAL] = sizeof "\tdel\t\n" - 1};
    size_t n = number_length(slot), length = 0;
    if (slot[LIVE])
        length += n + sizeof "\tlive\t\n" - 1 + WINDOW;
    if (slot[PENDING] != NOTHING)
        length += n + pending[slot[PENDING]];
    return length;
}

static void put_text(uint8_t *out, const uint8_t *slot) {
    if (slot[LIVE])
        out = put_days(put_fields(out, slot, "live"), slot + LIVE_DAYS);
    if (slot[PENDING] == PUT)
        put_days(put_fields(out, slot, "put"), slot + PENDING_DAYS);
    if (slot[PENDING] == REMOVAL)
        *put_fields(out, slot, "del") = '\n';
}

struct answer yardstick_show(const uint8_t *b, size_t n, size_t account, size_t k, uint8_t *out, size_t room) {
    unsigned number = unfit(b, n, account);
    if (number)
        return refuse(number, 0);
    struct room r = room_of(b, account);
    if (k >= r.used)
        return refuse(16, 0);
    const uint8_t *slot = b + slot_offset(r.from + k);
    size_t length = text_length(slot);
    if (length > room)
        return refuse(17, 0);
    put_text(out, slot);
    return done(length);
}

// ---- Stage ----

// A service: its PRD, its number, whether it is a removal, and the days of its periods over the window.
struct service {
    uint32_t prd;
    struct key key;
    uint8_t removal;
    uint8_t days[CALENDAR];
};

// The shortest service that is not refused is `PRD+1'MSD+:56'`.
enum { MOST_SERVICES = LONGEST / 14 };

// An accepted interchange and its rows, three numbers each. A segment ends where the next one begins.
struct reading {
    const uint8_t *s;
    const uint32_t *rows;
    size_t count;
};

static int is_row(const struct reading *x, size_t row, uint32_t tag, uint32_t group) {
    return x->rows[3 * row + 2] == tag && x->rows[3 * row + 1] == group;
}

static struct part segment_of(const struct reading *x, size_t row) {
    return (struct part){x->s + x->rows[3 * row], x->s + x->rows[3 * row + 3] - 1};
}

static struct part component(struct part g, unsigned e, unsigned c) { return part_of(g.from, g.to, e, c); }

// "The number, 1 to 10 characters after release"
static int read_number(struct part p, struct key *to) {
    size_t n = 0;
    int c;
    while ((c = next_character(&p.from, p.to)) >= 0) {
        if (n == NUMBER)
            return 0;
        to->at[n++] = (uint8_t)c;
    }
    return n > 0;
}

static void set_day(uint8_t *days, unsigned k) { days[k / 8] |= (uint8_t)(1u << k % 8); }

static void join_string(uint8_t *days, unsigned from, struct part p) {
    int c;
    for (unsigned k = from; (c = next_character(&p.from, p.to)) >= 0; k++)
        if (c == '1')
            set_day(days, k);
}

// Weekdays, Monday 1, as bits 0 to 6; "Giving neither means every day.", and where the caller does not ask for that, no POP gives neither.
static unsigned weekdays_of(struct part p) {
    unsigned set = 0;
    int c;
    while ((c = next_character(&p.from, p.to)) >= 0)
        set |= 1u << (c - '1');
    return set ? set : 127;
}

static void join_weekdays(uint8_t *days, unsigned origin, unsigned from, unsigned to, unsigned set) {
    unsigned weekday = (origin + from) % 7; // 1990-01-01 is a Monday
    for (unsigned k = from; k < to; k++) {
        if (set >> weekday & 1)
            set_day(days, k);
        weekday = weekday == 6 ? 0 : weekday + 1;
    }
}

// Adds the days of a POP that the reader found good; 0 where its period is not wholly in the window from `origin` on.
static int join_period(uint8_t *days, unsigned origin, struct part g) {
    struct part dates = component(g, 1, 2), string = component(g, 1, 4);
    uint8_t text[21];
    for (unsigned i = 0; i < sizeof text; i++)
        text[i] = (uint8_t)next_character(&dates.from, dates.to);
    unsigned first = day_number(text) - 1, to = day_number(text + 11);
    if (first < origin || to > origin + WINDOW)
        return 0;
    if (present(string))
        join_string(days, first - origin, string);
    else
        join_weekdays(days, origin, first - origin, to - origin, weekdays_of(component(g, 2, 1)));
    return 1;
}

// The row after a service's last one.
static size_t service_end(const struct reading *x, size_t row) {
    do
        row++;
    while (!is_row(x, row, TAG('P', 'R', 'D'), 2) && !is_row(x, row, TAG('U', 'I', 'T'), 0));
    return row;
}

// "Where 1225-1 in the group's MSD is 56 it is a removal and carries no POP; any other code, or none, is a put and carries at least
// one POP." Whether that, and the number, are right: else 11.
static int read_service(const struct reading *x, size_t row, size_t end, struct service *to) {
    size_t periods = 0;
    *to = (struct service){.prd = x->rows[3 * row]};
    int good = read_number(component(segment_of(x, row), 1, 1), &to->key);
    for (row++; row < end; row++) {
        if (is_row(x, row, TAG('M', 'S', 'D'), 2))
            to->removal = says(component(segment_of(x, row), 1, 2), "56") != 0;
        periods += is_row(x, row, TAG('P', 'O', 'P'), 4);
    }
    return good && (to->removal ? !periods : periods > 0);
}

static int is_twice(const struct service *all, size_t count) {
    for (size_t i = 0; i < count; i++)
        if (!memcmp(all[i].key.at, all[count].key.at, NUMBER))
            return 1;
    return 0;
}

// The row of the first POP that is not wholly in the window, or `end`; the days of those before it are joined.
static size_t join_periods(const struct reading *x, size_t row, size_t end, unsigned origin, uint8_t *days) {
    for (; row < end; row++)
        if (is_row(x, row, TAG('P', 'O', 'P'), 4) && !join_period(days, origin, segment_of(x, row)))
            break;
    return row;
}

// What a service does to the number of records: 1, 0 or -1. "it is unknown where the account has no record or already a pending
// removal": UNKNOWN.
enum { UNKNOWN = 2 };

static int change_by(const uint8_t *b, struct room r, const struct service *v) {
    struct found f = find(b, r, v->key);
    if (!v->removal)
        return !f.there;
    if (!f.there || b[f.at + PENDING] == REMOVAL)
        return UNKNOWN;
    return b[f.at + LIVE] ? 0 : -1;
}

// "services in order, each 11, 12, 13, 14; then 15". No number stands twice, so that what one service finds is no work of another and
// the register can be asked as it is.
static struct answer test_services(const uint8_t *b, struct room r, const struct reading *x, struct service *all, size_t length) {
    size_t count = 0, records = r.used;
    for (size_t row = 0; row < x->count;) {
        if (!is_row(x, row, TAG('P', 'R', 'D'), 2)) {
            row++;
            continue;
        }
        struct service *v = &all[count];
        size_t end = service_end(x, row);
        if (!read_service(x, row, end, v))
            return refuse(11, x->rows[3 * row]);
        if (is_twice(all, count))
            return refuse(12, v->prd);
        size_t outside = join_periods(x, row, end, two_bytes(b), v->days);
        if (outside < end)
            return refuse(13, x->rows[3 * outside]);
        int change = change_by(b, r, v);
        if (change == UNKNOWN)
            return refuse(14, v->prd);
        records += (size_t)(long)change;
        count++;
        row = end;
    }
    return records > r.quota ? refuse(15, length) : done(count);
}

static void enter_removal(uint8_t *b, struct room *r, const struct service *v) {
    size_t at = find(b, *r, v->key).at;
    if (!b[at + LIVE]) {
        drop_slot(b, r, at);
        return;
    }
    clear_pending(b + at);
    b[at + PENDING] = REMOVAL;
}

static void enter_put(uint8_t *b, struct room *r, const struct service *v) {
    struct found f = find(b, *r, v->key);
    if (!f.there)
        insert_slot(b, r, f.at, v->key);
    b[f.at + PENDING] = PUT;
    memcpy(b + f.at + PENDING_DAYS, v->days, CALENDAR);
}

// Removals first, so that the room never holds more than at the end.
static void enter_all(uint8_t *b, struct room *r, const struct service *all, size_t count) {
    for (size_t i = 0; i < count; i++)
        if (all[i].removal)
            enter_removal(b, r, &all[i]);
    for (size_t i = 0; i < count; i++)
        if (!all[i].removal)
            enter_put(b, r, &all[i]);
}

struct answer yardstick_stage(uint8_t *b, size_t n, size_t account, const uint8_t *s, size_t length, _Bool old_reading) {
    uint32_t rows[MOST_ROWS * 3];
    struct service all[MOST_SERVICES];
    unsigned number = unfit(b, n, account);
    if (number)
        return refuse(number, 0);
    struct reply reading = yardstick_read(s, length, old_reading, rows, MOST_ROWS * 3);
    if (reading.number)
        return (struct answer){reading.number, reading.position, reading.part, 0};
    struct room r = room_of(b, account);
    struct reading x = {s, rows, reading.rows};
    struct answer answer = test_services(b, r, &x, all, length);
    if (!answer.number)
        enter_all(b, &r, all, answer.value);
    return answer;
}
