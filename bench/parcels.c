// Reading in parcels against the whole reader: the same rows and answer under cuts by chance, and how long each takes.
#include "parcels.h"
#include "measure.h"
#include "tally.h"

int fflush(void *file);
int memcmp(const void *a, const void *b, size_t n);
void *memcpy(void *to, const void *from, size_t n);

enum { LONGEST = 60000, MOST_NUMBERS = 45000, GUARD = 8 };

// ---- The comparison ----

// What a reading came to: its rows, and the answer at the end.
struct outcome {
    struct reply reply;
    size_t rows;
    uint32_t at[MOST_NUMBERS + GUARD];
};
static struct outcome once, cut;
static _Bool old_reading;   // the wish of both readings
static struct reply answer; // the whole reader's, and its rows
static uint32_t whole[MOST_NUMBERS];
static unsigned long parcels, again, beyond, broken;

static void put_noise(uint8_t *to, size_t n) {
    for (size_t i = 0; i < n; i++)
        to[i] = (uint8_t)next_chance();
}

// What is wrong, once; a run stops at it.
static const char *fault;
static void expect(int good, const char *what) {
    if (!good && !fault)
        fault = what;
}

// One of six parts beside 10, and none beside any other number.
static void expect_answer(struct reply r) {
    expect(r.number <= 21, "a number that there is not");
    expect(r.number == 10 ? r.part >= 1 && r.part <= 6 : !r.part, "a part that there is not");
}

// One call, whose rows go to a buffer with room for so many numbers: what stands past them, and past the store, stays as it was. The
// parcel is lent for this call alone: it is a copy, and the next one is written over it.
static uint8_t store[STORE_LENGTH + GUARD];
static uint32_t lent[MOST_NUMBERS + GUARD];
static struct reply take(const uint8_t *s, size_t n, size_t room) {
    static uint8_t parcel[SPACE];
    uint8_t behind[GUARD];
    memcpy(parcel, s, n);
    put_noise(behind, GUARD);
    memcpy(store + STORE_LENGTH, behind, GUARD);
    uint32_t mark = (uint32_t)next_chance();
    for (size_t i = 0; i < room + GUARD; i++)
        lent[i] = mark + (uint32_t)i;
    struct reply r = drumcallisto_take(store, STORE_LENGTH, parcel, n, lent, room);
    expect(r.rows * 3 <= room, "more rows than there is room for");
    for (size_t i = r.rows * 3; i < room + GUARD; i++)
        expect(lent[i] == mark + (uint32_t)i, "a number past the rows was written");
    expect(!memcmp(store + STORE_LENGTH, behind, GUARD), "a byte past the store was written");
    expect(!memcmp(parcel, s, n), "the parcel was written");
    expect_answer(r);
    parcels++;
    return r;
}

// Numbers that hold the rows of n bytes, of which there are at least four in a segment; no interchange has more than 45,000.
static size_t ample(size_t n) {
    size_t numbers = (n + 3) / 4 * 3;
    return numbers < MOST_NUMBERS ? numbers : MOST_NUMBERS;
}

// A parcel with too little room by chance, and then the same one with room. Where it did not fit, nothing has changed.
static struct reply take_again(const uint8_t *s, size_t n) {
    static uint8_t before[STORE_LENGTH];
    size_t most = ample(n) > 12 && one_in(2) ? 12 : ample(n), room = most ? below((unsigned)most) : 0;
    memcpy(before, store, STORE_LENGTH);
    struct reply r = take(s, n, room);
    if (r.number != 17)
        return r;
    expect(r.position == 0 && r.rows == 0, "17 has a position or rows");
    expect(!memcmp(before, store, STORE_LENGTH), "17 has changed the store");
    r = take(s, n, ample(n));
    expect(r.number != 17 && r.rows * 3 > room, "17 where the rows fit");
    again++;
    return r;
}

// How an interchange is cut: as one parcel, into single bytes, into parcels of one length, or by chance, of which some are empty.
enum { ONE, SINGLE, EQUAL, CHANCE, WAYS };
static size_t next_length(int way, size_t equal, size_t left) {
    size_t n = way == ONE ? left : way == SINGLE ? 1 : way == EQUAL ? equal : one_in(4) ? 0 : 1 + below(one_in(3) ? 1460 : one_in(2) ? 40 : 4);
    return n < left ? n : left;
}

// Reads the input in parcels. Once the answer is final, later calls repeat it and give no row.
static void read_cut(struct outcome *o, int way) {
    size_t equal = 1 + below(one_in(2) ? 2000 : 70);
    int tight = way != ONE && one_in(3);
    expect(drumcallisto_begin(store, STORE_LENGTH, old_reading).number == 0, "begin refuses");
    o->rows = 0;
    struct reply r = {0, 0, 0, 0};
    for (size_t at = 0; at < joined.n || (way == CHANCE && one_in(3));) {
        size_t n = next_length(way, equal, joined.n - at);
        struct reply next = tight && one_in(4) ? take_again(joined.at + at, n) : take(joined.at + at, n, r.number ? below(20) : ample(n));
        if (r.number)
            expect(same_reply(next, r), "a final answer is not repeated");
        at += n;
        for (size_t i = 0; i < next.rows * 3 && o->rows * 3 + i < MOST_NUMBERS; i++)
            o->at[o->rows * 3 + i] = lent[i];
        o->rows += next.rows;
        int first = !r.number && next.number;
        r = (struct reply){next.number, next.position, next.part, 0};
        // the rest brings nothing: it is given seldom
        if (fault || (first && !one_in(8)))
            break;
    }
    o->reply = drumcallisto_finish(store, STORE_LENGTH);
    expect(!r.number || same_reply(o->reply, r), "finish does not repeat the final answer");
    expect(same_reply(drumcallisto_finish(store, STORE_LENGTH), o->reply), "a second finish answers otherwise");
    struct reply after = take((const uint8_t *)"UIB'", 4, 3);
    expect(same_reply(after, (struct reply){o->reply.number, o->reply.position, o->reply.part, 0}), "a parcel after the end is not passed over");
}

// So many bytes more in a segment, before its terminator: mostly elements that no rule looks at.
static void put_before(size_t end, size_t bytes) {
    static uint8_t rest[SPACE];
    size_t left = joined.n - end;
    memcpy(rest, joined.at + end, left);
    joined.n = end;
    for (size_t i = 0; i < bytes; i++)
        put(&joined, i % 500 == 0 ? '+' : one_in(20000) ? '\n' : 'A');
    for (size_t i = 0; i < left; i++)
        put(&joined, rest[i]);
}

// A segment becomes 4,096 bytes long with its terminator, or one or two more or fewer.
static void lengthen(void) {
    size_t from = 0, end = 0, length = SEGMENT_LENGTH + 2 - below(5);
    for (size_t i = 0, which = 1 + below(8); i < joined.n && which; i++) {
        if (joined.at[i] == '?') {
            i++;
        } else if (joined.at[i] == '\'') {
            from = end ? end + 1 : 0;
            end = i;
            which--;
        }
    }
    if (end + 1 - from < length)
        put_before(end, length - (end + 1 - from));
}

// A realistic interchange of 60,000 bytes, or one or two more or fewer, and some bytes after it. Services have POPs with neither form and are
// read to the end only with the wish: without it there are mostly stations.
static void put_longest(void) {
    size_t end = 0, length = LONGEST + 2 - (one_in(2) ? 2 : below(5));
    int services = old_reading ? one_in(2) : one_in(8);
    uint64_t kept = chance;
    put_realistic(&joined, services ? SKDUPD : TSDUPD, LONGEST - 40);
    chance = kept;
    while (joined.at[end] != '\'')
        end++;
    put_before(end, joined.n < length ? length - joined.n : 0);
    for (unsigned n = one_in(2) ? below(20) : 0; n; n--)
        put(&joined, below(256));
}

// What must be answered, and up to where each segment has its row. It is what the whole reader says while no byte is over a limit. Else
// the segments before that byte decide, and where they are good so far it is 7 behind a UIZ, or 3 or 21.
static struct reply wanted(size_t *before) {
    size_t from = 0, i = 0;
    for (int released = 0; i < joined.n && i < LONGEST && i - from < SEGMENT_LENGTH; i++) {
        if (!released && joined.at[i] == '\'')
            from = i + 1;
        released = !released && joined.at[i] == '?';
    }
    int within = i == joined.n;
    struct reply r = {7, 0, 0, 0};
    if (within || from)
        r = drumcallisto_read(joined.at, within ? i : from, old_reading, whole, MOST_NUMBERS);
    *before = r.number && r.number != 3 ? r.position : from;
    if (within || (r.number && (r.number != 7 || r.position != from)))
        return r;
    beyond++;
    if (i == LONGEST && (r.number || from == i))
        return (struct reply){3, 0, 0, 0};
    return (struct reply){r.number ? 21 : 7, from, 0, 0};
}

// "after the rows of the segments before the fault": offset and tag of each segment that ends before a position, and no more.
static void expect_segments(const struct outcome *o, size_t position) {
    size_t from = 0, k = 0;
    for (size_t i = 0; i < position; i++) {
        if (joined.at[i] == '?') {
            i++;
        } else if (joined.at[i] == '\'') {
            const uint8_t *g = joined.at + from;
            uint32_t tag = (uint32_t)g[0] << 16 | (uint32_t)g[1] << 8 | g[2];
            expect(k < o->rows && o->at[3 * k] == from && o->at[3 * k + 2] == tag, "a row is not that of its segment");
            from = i + 1;
            k++;
        }
    }
    expect(k == o->rows, "rows of segments that do not stand before the fault");
}

// In one parcel and cut by chance: the same, and what the whole reader has.
static void agree(void) {
    size_t before;
    int way = (int)below(joined.n > 10000 ? WAYS * 4 : WAYS);
    read_cut(&once, ONE);
    read_cut(&cut, way < WAYS ? way : CHANCE);
    if (fault)
        return;
    expect(same_reply(once.reply, cut.reply), "the answer depends on the cuts");
    expect(once.rows == cut.rows && !memcmp(once.at, cut.at, once.rows * 3 * sizeof *once.at), "the rows depend on the cuts");
    answer = wanted(&before);
    expect(same_reply(once.reply, answer), "the whole reader answers otherwise");
    expect_segments(&once, before);
    if (!answer.number)
        expect(once.rows == answer.rows && !memcmp(once.at, whole, once.rows * 3 * sizeof *whole), "the whole reader has other rows");
}

// The accepted interchange once more, with a byte changed or cut off there: up to that byte the rows are those that it had, groups and all.
static void agree_damaged(void) {
    static uint32_t good[MOST_NUMBERS];
    size_t n = joined.n, rows = once.rows, at = below((unsigned)n), k = 0;
    memcpy(good, once.at, rows * 3 * sizeof *good);
    if (one_in(2))
        joined.n = at;
    else
        joined.at[at] = (uint8_t)(one_in(2) ? (int)"+:*?'"[below(5)] : (int)below(256));
    agree();
    if (fault)
        return;
    // a row's segment ends where the next one begins
    while (k < rows && (k + 1 < rows ? good[3 * k + 3] : n) <= at)
        k++;
    expect(once.rows >= k && !memcmp(once.at, good, k * 3 * sizeof *good), "the rows before a damaged byte are others");
}

// A store of noise, or one that a reading left with some bytes changed: every call answers, and writes no more than it may.
static void read_broken(void) {
    if (one_in(3)) {
        put_noise(store, STORE_LENGTH);
    } else {
        drumcallisto_begin(store, STORE_LENGTH, old_reading);
        take(joined.at, below((unsigned)joined.n + 1), MOST_NUMBERS);
        for (unsigned n = 1 + below(6); n; n--)
            store[one_in(4) ? below(STORE_LENGTH) : below(44)] = (uint8_t)(one_in(2) ? below(256) : below(5));
    }
    for (unsigned n = 1 + below(6); n && !fault; n--) {
        size_t from = below((unsigned)joined.n + 1), length = below((unsigned)(joined.n - from) + 1);
        take(joined.at + from, one_in(3) ? 0 : length, one_in(2) ? ample(length) : below((unsigned)ample(length) + 1));
        if (one_in(2))
            expect_answer(drumcallisto_finish(store, STORE_LENGTH));
    }
    size_t length = one_in(2) ? STORE_LENGTH - 1 : one_in(2) ? STORE_LENGTH + 1 : below(STORE_LENGTH);
    unsigned number = one_in(2) ? drumcallisto_begin(store, length, old_reading).number : drumcallisto_finish(store, length).number;
    expect(number == 17 && drumcallisto_take(store, length, joined.at, joined.n, lent, MOST_NUMBERS).number == 17, "a store of another length was taken");
    broken++;
}

int compare_parcels(unsigned long n, unsigned long seed) {
    static struct tally tally;
    unsigned long bytes = 0;
    chance = seed * 0x9E3779B97F4A7C15u + 88172645463325252u;
    for (unsigned long k = 0; k < n; k++) {
        old_reading = one_in(2);
        if (one_in(400))
            put_longest();
        else
            put_case(old_reading);
        if (one_in(20))
            lengthen();
        if (joined.n > LONGEST + 40)
            joined.n = LONGEST + 40;
        bytes += joined.n;
        agree();
        count_answer(&tally, once.reply.number, once.reply.part, old_reading);
        if (!fault && !once.reply.number && one_in(2))
            agree_damaged();
        if (!fault && one_in(4))
            read_broken();
        if (fault) {
            printf("case %lu of seed %lu, old reading %d: %s\n", k, seed, old_reading, fault);
            show("whole       ", answer);
            show("in one piece", once.reply);
            show("in parcels  ", cut.reply);
            show_input();
            return 1;
        }
    }
    printf("%lu interchanges, %lu bytes, %lu parcels, no difference; accepted %lu\n", n, bytes, parcels, tally.numbers[0]);
    show_refusals(&tally);
    printf("  %lu judged by a limit of its own, %lu parcels without room and then with it, %lu broken stores\n", beyond, again, broken);
    return 0;
}

// ---- Time ----

enum { MOST_ROUNDS = 200, PARCEL = 1460 };

// In parcels of one length. The rows are put one behind the other.
static struct reply read_by(size_t length, const uint8_t *s, size_t n, _Bool wish, uint32_t *rows, size_t room) {
    drumcallisto_begin(store, STORE_LENGTH, wish);
    for (size_t at = 0, numbers = 0; at < n; at += length)
        numbers += 3 * drumcallisto_take(store, STORE_LENGTH, s + at, n - at < length ? n - at : length, rows + numbers, room - numbers).rows;
    return drumcallisto_finish(store, STORE_LENGTH);
}

struct reply read_in_parcels(const uint8_t *s, size_t n, _Bool wish, uint32_t *rows, size_t room) { return read_by(PARCEL, s, n, wish, rows, room); }

static struct reply read_by_bytes(const uint8_t *s, size_t n, _Bool wish, uint32_t *rows, size_t room) { return read_by(1, s, n, wish, rows, room); }

// Nanoseconds for one reading.
static double took(struct reply read(const uint8_t *, size_t, _Bool, uint32_t *, size_t), const struct text *t, unsigned times) {
    double start = now();
    for (unsigned k = 0; k < times; k++) {
        struct reply r = read(t->at, t->n, OLD_READING, whole, MOST_NUMBERS);
        if (r.number)
            printf("refused %u at %lu\n", r.number, (unsigned long)r.position);
    }
    return (now() - start) / times;
}

// The three in turn, many rounds; the least time of each for a byte.
static void time_one(const char *name, int type, size_t longest, unsigned rounds) {
    static struct text sample;
    static double a[MOST_ROUNDS], b[MOST_ROUNDS], c[MOST_ROUNDS];
    put_realistic(&sample, type, longest);
    double n = (double)sample.n;
    unsigned times = 1 + (unsigned)(2e6 / took(drumcallisto_read, &sample, 2)), few = 1 + (unsigned)(2e6 / took(read_by_bytes, &sample, 1));
    for (unsigned k = 0; k < rounds; k++) {
        a[k] = took(drumcallisto_read, &sample, times) / n;
        b[k] = took(read_in_parcels, &sample, times) / n;
        c[k] = took(read_by_bytes, &sample, few) / n;
    }
    struct times us = sorted(a, rounds), cuts = sorted(b, rounds), bytes = sorted(c, rounds);
    printf("%-22s %6lu bytes  ratio %.2f (least) %.2f (median)  whole %.2f, in parcels %.2f, byte by byte %.2f ns per byte\n", name,
           (unsigned long)sample.n, us.least / cuts.least, us.median / cuts.median, us.least, cuts.least, bytes.least);
    fflush(0);
}

void time_parcels(unsigned rounds) {
    printf("ratio: the whole reader's time over that in parcels of %d bytes; byte by byte, a byte should cost the same at both lengths\n", PARCEL);
    time_one("SKDUPD, 60,000 bytes", SKDUPD, LONGEST, rounds);
    time_one("TSDUPD, 60,000 bytes", TSDUPD, LONGEST, rounds);
    time_one("SKDUPD, 6,000 bytes", SKDUPD, 6000, rounds);
    time_one("TSDUPD, 6,000 bytes", TSDUPD, 6000, rounds);
}
