// Holds the proved register against the yardstick's, in one process: the same answers and bytes, and how long each takes.
//   registers compare N SEED   N commands by chance over several registers, through both; stops at the first difference
//   registers time ROUNDS      staging against reading, and release, withdraw and show on a full register
#include "measure.h"
#include "proved.h"
#include "samples.h"
#include "tally.h"

int fflush(void *file);
int strcmp(const char *a, const char *b);
unsigned long strtoul(const char *text, char **end, int base);
int memcmp(const void *a, const void *b, size_t n);
void *memcpy(void *to, const void *from, size_t n);
void *memset(void *to, int byte, size_t n);

enum { LONGEST = 60000, GUARD = 8, BUFFER = REGISTER_LENGTH + GUARD, ROOM = 2000, REGISTERS = 8 };
// Offsets of docs/REGISTER.md.
enum { HEAD = 18, SLOT = 140, SLOTS = 256, LATEST = 39665, WINDOW = 512 };

// A register as each of the two left it. A damaged one is mended, from what was saved, after so many commands.
struct pair {
    uint8_t ours[BUFFER], theirs[BUFFER], saved[BUFFER];
    unsigned damaged;
};
static struct pair pairs[REGISTERS];

// ---- Commands by chance ----

enum { OPEN, STAGE, RELEASE, WITHDRAW, SHOW, IS_REGISTER, KINDS };
static const char *const names[KINDS] = {"open", "stage", "release", "withdraw", "show", "is_register"};

struct command {
    int kind;
    size_t length; // of the buffer that is lent
    size_t account, k, room;
    unsigned year, month, day;
    uint32_t quotas[ACCOUNTS];
    uint8_t number[16];
    size_t number_length;
    _Bool old_reading; // the wish of a staging
};
static struct text interchange;

static unsigned two_bytes(const uint8_t *p) { return p[0] + 256u * p[1]; }

// Where an account's room begins and how many slots it has; a damaged register may say anything.
static size_t room_from(const uint8_t *b, size_t account, size_t *slots) {
    size_t from = 0;
    for (size_t a = 1; a < account; a++)
        from += two_bytes(b + 2 * a);
    *slots = two_bytes(b + 2 * account);
    if (from > SLOTS)
        from = SLOTS;
    if (*slots > SLOTS - from)
        *slots = SLOTS - from;
    return HEAD + from * SLOT;
}

static unsigned used_slots(const uint8_t *b, size_t account) {
    size_t slots;
    unsigned used = 0;
    if (account < 1 || account > ACCOUNTS)
        return 0;
    const uint8_t *p = b + room_from(b, account, &slots);
    while (used < slots && p[(size_t)used * SLOT])
        used++;
    return used;
}

// The number of a record that the account has, or 0.
static size_t held_number(const uint8_t *b, size_t account, uint8_t *to) {
    size_t slots, n = 0;
    unsigned used = used_slots(b, account);
    if (!used)
        return 0;
    const uint8_t *p = b + room_from(b, account, &slots) + below(used) * (size_t)SLOT;
    while (n < 10 && p[n])
        n++;
    memcpy(to, p, n);
    return n;
}

static size_t any_number(uint8_t *to) {
    static const char few[] = "0179A +'?";
    size_t n = one_in(3) ? 1 : one_in(2) ? 2 : one_in(8) ? 10 : one_in(40) ? 11 : 1 + below(4);
    for (size_t i = 0; i < n; i++)
        to[i] = (uint8_t)(n > 8 && i < 9 ? '1' : few[below(sizeof few - 1)]);
    return one_in(100) ? 0 : n;
}

static size_t some_number(const uint8_t *b, size_t account, unsigned held_in, uint8_t *to) {
    size_t n = one_in(held_in) ? 0 : held_number(b, account, to);
    return n ? n : any_number(to);
}

// A date of a period, by its number; before the first date there is one that is none.
static void put_day(struct text *t, long day) {
    if (day < 0)
        put_word(t, "1989-12-31");
    else
        put_date(t, (unsigned)day);
}

// What POPs an interchange has.
static unsigned fault_rate; // one in so many of their parts is wrong, none where it is 0
static int formless;        // whether there are some with neither form on purpose

static int faulty(void) { return fault_rate && one_in(fault_rate); }

static void put_string(struct text *t, unsigned days) {
    unsigned told = faulty() ? days + 1 : one_in(3) ? short_string(days) : days;
    for (; told; told--)
        put_character(t, faulty() && one_in(days) ? '2' : '0' + (int)below(2));
}

static void put_weekdays(struct text *t) {
    static const char *const wrong[] = {"76", "66", "0", "8", "12345678", "7 ", "01"};
    if (faulty()) {
        put_word(t, wrong[below(sizeof wrong / sizeof wrong[0])]);
        return;
    }
    for (int d = '1'; d <= '7'; d++)
        if (one_in(2))
            put_character(t, d);
}

// A day string, weekdays or neither, and where something is wrong both.
static void put_form(struct text *t, unsigned days) {
    unsigned form = below(formless ? 3 : 2);
    if (form == 0 || faulty()) {
        puts_to(t, "::");
        put_string(t, days);
    }
    if (form == 1 || faulty()) {
        put(t, '+');
        put_weekdays(t);
    }
}

// A POP, mostly within the window and now and then a day before it or past it.
static void put_period(struct text *t, unsigned first) {
    unsigned days = one_in(3) ? 1 : one_in(6) ? WINDOW : 1 + below(WINDOW);
    long from = first + (one_in(4) ? 0 : one_in(4) ? WINDOW - days : below(WINDOW - days + 1));
    if (one_in(60))
        from = one_in(2) ? (long)first - 1 : (long)first + WINDOW - days + 1;
    puts_to(t, faulty() ? "POP+274:" : "POP+273:");
    put_day(t, from);
    put_word(t, faulty() ? "-" : "/");
    put_day(t, from + days - 1);
    put_form(t, days);
    puts_to(t, faulty() ? "*'" : "'");
}

// The numbers that an interchange has so far.
static struct {
    size_t length;
    uint8_t at[16];
} given[200];
static size_t given_count;

static int is_given(const uint8_t *number, size_t n) {
    for (size_t i = 0; i < given_count; i++)
        if (given[i].length == n && !memcmp(given[i].at, number, n))
            return 1;
    return 0;
}

// A number that is mostly not given yet.
static size_t next_number(const uint8_t *b, size_t account, int removal, uint8_t *to) {
    size_t n = 0;
    for (unsigned tries = one_in(40) ? 1 : 20; tries; tries--) {
        n = some_number(b, account, removal ? 20 : 3, to);
        if (!is_given(to, n))
            break;
    }
    given[given_count].length = n;
    memcpy(given[given_count++].at, to, n);
    return n;
}

static void put_service(struct text *t, const uint8_t *b, size_t account) {
    uint8_t number[16];
    int removal = one_in(3) && (used_slots(b, account) || one_in(20));
    size_t n = next_number(b, account, removal, number);
    puts_to(t, "PRD+");
    put_characters(t, number, n);
    puts_to(t, one_in(6) ? ":11*18+0080'PDT'" : one_in(60) ? "*18'" : "'");
    if (removal || one_in(6)) {
        puts_to(t, "MSD+AAR:");
        put_word(t, removal ? "56" : one_in(2) ? "54" : "056");
        puts_to(t, "'");
    }
    unsigned periods = removal ? 0 : 1 + (unsigned)one_in(3);
    if (one_in(80))
        periods = !periods;
    for (; periods; periods--) {
        put_period(t, two_bytes(b));
        if (one_in(6))
            puts_to(t, "POR+1'RFR'ODI'");
    }
}

static unsigned long segments_of(const struct text *t, size_t from) {
    unsigned long n = 0;
    for (size_t i = from; i < t->n; i++) {
        if (t->at[i] == '?')
            i++;
        else
            n += t->at[i] == '\'';
    }
    return n;
}

static void put_message(struct text *t, const uint8_t *b, size_t account) {
    size_t from = t->n;
    int skdupd = !one_in(10);
    puts_to(t, skdupd ? "UIH+SKDUPD:D:04A::UN+1'MSD+AAR:" : one_in(2) ? "UIH+TSDUPD:D:04A::UN+1'MSD+AAR:" : "UIH+TSDUPD:D:12B::UN+1'MSD+AAR:");
    puts_to(t, one_in(2) ? "56'" : "61'");
    puts_to(t, skdupd ? "ORG'HDR'" : "ALS'RFR'PRD+1'POP'");
    unsigned many = two_bytes(b + 2) > 60 && one_in(3) ? 60 : 4;
    for (unsigned n = skdupd ? 1 + below(many) : 0; n; n--)
        put_service(t, b, account);
    puts_to(t, one_in(100) ? "XXX'UIT+1+" : "UIT+1+");
    put_number(t, segments_of(t, from) + 1 + (unsigned)one_in(100), 1);
    puts_to(t, "'");
}

// More than an interchange may have, or nothing.
static void put_odd_length(struct text *t) {
    t->n = 0;
    if (one_in(2))
        for (size_t i = 0; i <= LONGEST; i++)
            put(t, 'A');
}

// A POP with neither form ends a staging where the caller does not ask for the old reading: five in six of those interchanges have none on
// purpose.
static void put_interchange(struct text *t, const uint8_t *b, size_t account, _Bool old_reading) {
    unsigned messages = 1 + (unsigned)one_in(4);
    t->n = given_count = 0;
    release_rate = one_in(3) ? 2 + below(20) : 0;
    fault_rate = one_in(6) ? 4 + below(20) : 0;
    formless = old_reading || one_in(6);
    puts_to(t, "UIB+UNOB:4+7'");
    for (unsigned m = messages; m; m--)
        put_message(t, b, account);
    puts_to(t, "UIZ+7+");
    put_number(t, messages + (unsigned)one_in(100), 1);
    puts_to(t, one_in(100) ? "'\n" : "'");
    if (one_in(30))
        t->at[below((unsigned)t->n)] = (uint8_t)next_chance();
    if (one_in(60))
        t->n = below((unsigned)t->n + 1);
    if (one_in(200))
        put_odd_length(t);
}

static void any_quotas(uint32_t *to, size_t which) {
    static const uint32_t odd[] = {0, 1, 2, 255, 256, 257, 65536, 4294967295u};
    for (size_t a = 0; a < ACCOUNTS; a++)
        to[a] = which == 4 ? 32 : which > 4 ? 0 : below(7);
    if (which > 4)
        to[0] = which == 5 ? 256 : 30 + below(60);
    if (one_in(8))
        to[below(ACCOUNTS)] = odd[below(sizeof odd / sizeof odd[0])];
}

// The window's first date: any, the first and the last that may be, those beside them, and three numbers that make none.
static void any_first(struct command *c) {
    static struct text date;
    date.n = release_rate = 0;
    put_date(&date, one_in(5) ? LATEST + below(2) : one_in(5) ? 0 : below(LATEST));
    const uint8_t *d = date.at;
    c->year = (d[0] - 48u) * 1000 + (d[1] - 48u) * 100 + (d[2] - 48u) * 10 + (d[3] - 48u);
    c->month = (d[5] - 48u) * 10 + (d[6] - 48u);
    c->day = (d[8] - 48u) * 10 + (d[9] - 48u);
    if (one_in(10))
        *(one_in(3) ? &c->year : one_in(2) ? &c->month : &c->day) = below(256);
    if (one_in(20))
        c->year = one_in(2) ? 1989 : 2100;
}

static int any_kind(void) {
    static const uint8_t often[] = {STAGE, STAGE, STAGE, STAGE, STAGE, STAGE, STAGE, STAGE, RELEASE, RELEASE,
                                    WITHDRAW, WITHDRAW, WITHDRAW, SHOW, SHOW, SHOW, IS_REGISTER};
    return one_in(60) ? OPEN : often[below(sizeof often)];
}

static size_t any_length(void) {
    if (!one_in(100))
        return REGISTER_LENGTH;
    return one_in(3) ? REGISTER_LENGTH + 1 : one_in(2) ? REGISTER_LENGTH - 1 : below(REGISTER_LENGTH);
}

static size_t any_account(void) {
    return !one_in(3) ? 1 : !one_in(10) ? 1 + below(ACCOUNTS) : one_in(2) ? 0 : one_in(2) ? 9 : (size_t)-1;
}

// The room of a show: what is needed, a byte less, or any.
static size_t any_room(const struct pair *p, const struct command *c) {
    static uint8_t out[ROOM];
    struct answer a = yardstick_show(p->theirs, c->length, c->account, c->k, out, ROOM);
    if (a.value && !one_in(4))
        return a.value - (unsigned)one_in(2);
    return one_in(2) ? ROOM : below(ROOM);
}

static struct command any_command(const struct pair *p, size_t which) {
    struct command c = {.kind = any_kind(), .length = any_length(), .account = any_account()};
    switch (c.kind) {
    case OPEN:
        any_first(&c);
        any_quotas(c.quotas, which);
        break;
    case STAGE:
        c.old_reading = one_in(2);
        put_interchange(&interchange, p->theirs, c.account, c.old_reading);
        break;
    case WITHDRAW:
        c.number_length = some_number(p->theirs, c.account, 4, c.number);
        if (c.number_length < 11 && one_in(8))
            c.number[c.number_length++] = one_in(2) ? 0 : (uint8_t)next_chance();
        break;
    case SHOW:
        c.k = one_in(10) ? (size_t)next_chance() : below(used_slots(p->theirs, c.account) + 1);
        c.room = any_room(p, &c);
        break;
    }
    return c;
}

// ---- Damage ----

static void noise(uint8_t *b, size_t from, size_t to) {
    for (; from < to; from++)
        b[from] = (uint8_t)next_chance();
}

// A slot, mostly a used one.
static uint8_t *any_slot(uint8_t *b) {
    size_t account = 1 + below(ACCOUNTS), slots;
    unsigned used = used_slots(b, account);
    if (!used)
        return b + HEAD + below(SLOTS) * (size_t)SLOT;
    return b + room_from(b, account, &slots) + below(used) * (size_t)SLOT;
}

static void damage_slot(uint8_t *b) {
    static const uint8_t values[] = {0, 1, 2, 3, '0', '9', ' ', '#', 127, 255}, edges[] = {0, 9, 10, 11, 74, 75, 76, 139};
    uint8_t kept[SLOT];
    uint8_t *p = any_slot(b), *q = one_in(3) ? any_slot(b) : p + SLOT > b + REGISTER_LENGTH - SLOT ? p : p + SLOT;
    memcpy(kept, p, SLOT);
    switch (below(7)) {
    case 0: // a flag
        p[one_in(2) ? 10 : 75] = (uint8_t)below(4);
        break;
    case 1: // a byte of the number
        p[below(10)] = values[below(sizeof values)];
        break;
    case 2: // two slots in each other's place
        memcpy(p, q, SLOT);
        memcpy(q, kept, SLOT);
        break;
    case 3: // a slot twice
        memcpy(q, p, SLOT);
        break;
    case 4: // the first or the last byte of a part
        p[edges[below(sizeof edges)]] = (uint8_t)next_chance();
        break;
    case 5: // a removal with nothing live
        memset(p + 10, 0, SLOT - 10);
        p[75] = 2;
        break;
    default: // any byte of it
        p[below(SLOT)] = (uint8_t)next_chance();
    }
}

// The latest window and the one after it; quotas that sum to 256 and to 257.
static void damage_head(uint8_t *b) {
    unsigned more = below(2), sum = 0;
    for (size_t a = 1; a <= ACCOUNTS; a++)
        sum += two_bytes(b + 2 * a);
    if (one_in(3)) {
        b[0] = (uint8_t)(LATEST + more);
        b[1] = (uint8_t)((LATEST + more) >> 8);
    } else if (one_in(2) && sum <= SLOTS) {
        unsigned last = two_bytes(b + 2 * ACCOUNTS) + SLOTS - sum + more;
        b[2 * ACCOUNTS] = (uint8_t)last;
        b[2 * ACCOUNTS + 1] = (uint8_t)(last >> 8);
    } else {
        b[below(HEAD)] = (uint8_t)next_chance();
    }
}

static void damage(uint8_t *b) {
    size_t from;
    switch (below(8)) {
    case 0: // noise, from somewhere on or all of it
        from = one_in(2) ? 0 : below(REGISTER_LENGTH);
        noise(b, from, one_in(2) ? REGISTER_LENGTH : from + below((unsigned)(REGISTER_LENGTH - from) + 1));
        break;
    case 1:
        damage_head(b);
        break;
    case 2: // one bit anywhere
        b[below(REGISTER_LENGTH)] ^= (uint8_t)(1u << below(8));
        break;
    default:
        damage_slot(b);
    }
}

static void damage_pair(struct pair *p) {
    memcpy(p->saved, p->ours, BUFFER);
    damage(p->ours);
    memcpy(p->theirs, p->ours, BUFFER);
    p->damaged = 1 + below(6);
}

// What is still a register stays as it is.
static void mend_pair(struct pair *p) {
    if (!yardstick_is_register(p->theirs, REGISTER_LENGTH)) {
        memcpy(p->ours, p->saved, BUFFER);
        memcpy(p->theirs, p->saved, BUFFER);
    }
}

// ---- The comparison ----

// What a command came to: its answer, and for a show the output.
struct outcome {
    struct answer answer;
    uint8_t out[ROOM + GUARD];
};
static struct outcome ours, theirs;

static void run_ours(const struct command *c, uint8_t *b, struct outcome *o) {
    struct answer a = {0, 0, 0, 0};
    switch (c->kind) {
    case OPEN:
        a = drumcallisto_open(b, c->length, (struct date){c->year, c->month, c->day}, c->quotas);
        break;
    case STAGE:
        a = drumcallisto_stage(b, c->length, c->account, interchange.at, interchange.n, c->old_reading);
        break;
    case RELEASE:
        a = drumcallisto_release(b, c->length, c->account);
        break;
    case WITHDRAW:
        a = drumcallisto_withdraw(b, c->length, c->account, c->number, c->number_length);
        break;
    case SHOW:
        a = drumcallisto_show(b, c->length, c->account, c->k, o->out, c->room);
        break;
    case IS_REGISTER:
        a.value = drumcallisto_is_register(b, c->length);
        break;
    }
    o->answer = a;
}

static void run_theirs(const struct command *c, uint8_t *b, struct outcome *o) {
    struct answer a = {0, 0, 0, 0};
    switch (c->kind) {
    case OPEN:
        a = yardstick_open(b, c->length, (uint16_t)c->year, (uint8_t)c->month, (uint8_t)c->day, c->quotas);
        break;
    case STAGE:
        a = yardstick_stage(b, c->length, c->account, interchange.at, interchange.n, c->old_reading);
        break;
    case RELEASE:
        a = yardstick_release(b, c->length, c->account);
        break;
    case WITHDRAW:
        a = yardstick_withdraw(b, c->length, c->account, c->number, c->number_length);
        break;
    case SHOW:
        a = yardstick_show(b, c->length, c->account, c->k, o->out, c->room);
        break;
    case IS_REGISTER:
        a.value = yardstick_is_register(b, c->length);
        break;
    }
    o->answer = a;
}

static int same_answer(struct answer a, struct answer b) {
    return a.number == b.number && a.position == b.position && a.part == b.part && a.value == b.value;
}

static void show_answer(const char *who, struct answer a) {
    printf("%s: number %u, position %lu, part %u, value %lu\n", who, a.number, (unsigned long)a.position, a.part, (unsigned long)a.value);
}

static void show_bytes(const char *what, const uint8_t *s, size_t n) {
    printf("%s of %lu bytes: ", what, (unsigned long)n);
    for (size_t i = 0; i < n; i++)
        printf(s[i] >= 32 && s[i] < 127 && s[i] != '\\' ? "%c" : "\\x%02x", s[i]);
    printf("\n");
}

static void show_first_other(const char *what, const uint8_t *a, const uint8_t *b, size_t n) {
    for (size_t i = 0; i < n; i++)
        if (a[i] != b[i]) {
            printf("first other byte of the %s at %lu: ours %u, yardstick %u\n", what, (unsigned long)i, a[i], b[i]);
            return;
        }
}

static void show_difference(const struct command *c, const struct pair *p) {
    printf("%s, account %lu, buffer of %lu bytes\n", names[c->kind], (unsigned long)c->account, (unsigned long)c->length);
    show_answer("ours     ", ours.answer);
    show_answer("yardstick", theirs.answer);
    show_first_other("register", p->ours, p->theirs, BUFFER);
    show_first_other("output", ours.out, theirs.out, sizeof ours.out);
    if (c->kind == OPEN)
        printf("first date %u %u %u\n", c->year, c->month, c->day);
    if (c->kind == STAGE) {
        printf("old reading %d\n", c->old_reading);
        show_bytes("interchange", interchange.at, interchange.n);
    }
    if (c->kind == WITHDRAW)
        show_bytes("number", c->number, c->number_length);
    if (c->kind == SHOW)
        printf("record %lu, room for %lu\n", (unsigned long)c->k, (unsigned long)c->room);
}

// A refusal changes no lent buffer, and past an output's written end everything stays.
static int left_alone(const struct command *c, const uint8_t *before, const struct pair *p, uint8_t fill) {
    if ((ours.answer.number || c->kind == SHOW || c->kind == IS_REGISTER) && memcmp(before, p->ours, BUFFER))
        return 0;
    for (size_t i = c->kind == SHOW ? ours.answer.value : 0; i < sizeof ours.out; i++)
        if (ours.out[i] != fill)
            return 0;
    return 1;
}

static int run_both(const struct command *c, struct pair *p) {
    static uint8_t before[BUFFER];
    uint8_t fill = (uint8_t)next_chance();
    for (size_t i = 0; i < sizeof ours.out; i++)
        ours.out[i] = theirs.out[i] = fill;
    memcpy(before, p->ours, BUFFER);
    run_ours(c, p->ours, &ours);
    run_theirs(c, p->theirs, &theirs);
    return same_answer(ours.answer, theirs.answer) && !memcmp(p->ours, p->theirs, BUFFER) && !memcmp(ours.out, theirs.out, sizeof ours.out) &&
           left_alone(c, before, p, fill);
}

static struct tally tallies[KINDS];

static void show_counts(void) {
    for (unsigned kind = 0; kind < KINDS; kind++) {
        printf("  %s:", names[kind]);
        for (unsigned i = 0; i < 32; i++)
            if (tallies[kind].numbers[i])
                printf(" %lu with %u", tallies[kind].numbers[i], i);
        printf("\n");
        if (kind == STAGE)
            show_parts(&tallies[kind]);
    }
}

// Each register is noise before it is first opened, and is damaged and mended now and then.
static int compare(unsigned long n, unsigned long seed) {
    unsigned long on_damaged = 0;
    chance = seed * 0x9E3779B97F4A7C15u + 88172645463325252u;
    for (size_t i = 0; i < REGISTERS; i++) {
        noise(pairs[i].ours, 0, BUFFER);
        memcpy(pairs[i].theirs, pairs[i].ours, BUFFER);
    }
    for (unsigned long k = 0; k < n; k++) {
        size_t which = below(REGISTERS);
        struct pair *p = &pairs[which];
        if (!p->damaged && one_in(30))
            damage_pair(p);
        struct command c = any_command(p, which);
        on_damaged += p->damaged > 0;
        if (!run_both(&c, p)) {
            printf("command %lu of seed %lu differs, on register %lu\n", k, seed, (unsigned long)which);
            show_difference(&c, p);
            return 1;
        }
        count_answer(&tallies[c.kind], ours.answer.number, ours.answer.part, c.old_reading);
        if (p->damaged && !--p->damaged)
            mend_pair(p);
    }
    printf("%lu commands over %d registers, %lu of them on damaged ones, no difference\n", n, REGISTERS, on_damaged);
    show_counts();
    return 0;
}

// ---- Time ----

enum { COPIES = 4, MOST_ROUNDS = 400 };
static uint8_t full[REGISTER_LENGTH], copies[COPIES][REGISTER_LENGTH], out[ROOM];
static uint32_t rows[45000];
static struct text sample;

static const uint32_t one_account[ACCOUNTS] = {SLOTS, 0, 0, 0, 0, 0, 0, 0};

typedef struct answer call(uint8_t *b);

static struct answer reading(struct reply r) { return (struct answer){r.number, r.position, r.part, r.rows}; }

static struct answer our_read(uint8_t *b) {
    (void)b;
    return reading(drumcallisto_read(sample.at, sample.n, OLD_READING, rows, 45000));
}
static struct answer their_read(uint8_t *b) {
    (void)b;
    return reading(yardstick_read(sample.at, sample.n, OLD_READING, rows, 45000));
}
static struct answer our_stage(uint8_t *b) { return drumcallisto_stage(b, REGISTER_LENGTH, 1, sample.at, sample.n, OLD_READING); }
static struct answer their_stage(uint8_t *b) { return yardstick_stage(b, REGISTER_LENGTH, 1, sample.at, sample.n, OLD_READING); }
static struct answer our_release(uint8_t *b) { return drumcallisto_release(b, REGISTER_LENGTH, 1); }
static struct answer their_release(uint8_t *b) { return yardstick_release(b, REGISTER_LENGTH, 1); }
static struct answer our_withdraw(uint8_t *b) { return drumcallisto_withdraw(b, REGISTER_LENGTH, 1, (const uint8_t *)"1128", 4); }
static struct answer their_withdraw(uint8_t *b) { return yardstick_withdraw(b, REGISTER_LENGTH, 1, (const uint8_t *)"1128", 4); }
static struct answer our_show(uint8_t *b) { return drumcallisto_show(b, REGISTER_LENGTH, 1, 128, out, ROOM); }
static struct answer their_show(uint8_t *b) { return yardstick_show(b, REGISTER_LENGTH, 1, 128, out, ROOM); }

// The time of one call, each on a copy of its own that was made before.
static double took(call *f, const uint8_t *from) {
    for (size_t i = 0; i < COPIES; i++)
        memcpy(copies[i], from, REGISTER_LENGTH);
    double start = now();
    for (size_t i = 0; i < COPIES; i++) {
        struct answer a = f(copies[i]);
        if (a.number)
            printf("refused %u at %lu\n", a.number, (unsigned long)a.position);
    }
    return (now() - start) / COPIES;
}

static void measure(call *us, call *them, const uint8_t *from, unsigned rounds, double *a, double *b) {
    static double x[MOST_ROUNDS], y[MOST_ROUNDS];
    for (unsigned k = 0; k < rounds; k++) {
        x[k] = took(us, from);
        y[k] = took(them, from);
    }
    *a = sorted(x, rounds).least;
    *b = sorted(y, rounds).least;
}

static void show_times(const char *name, double a, double b) {
    printf("%-30s ours %8.0f ns, yardstick %8.0f ns, ratio %.2f\n", name, a, b, b / a);
    fflush(0);
}

static void time_call(const char *name, call *us, call *them, unsigned rounds) {
    double a, b;
    measure(us, them, full, rounds, &a, &b);
    show_times(name, a, b);
}

// The services 1000 to 1255, each on every second day or so of the window.
static void put_numbers(struct text *t, size_t from, size_t to) {
    open_text(t, SKDUPD);
    for (; from < to; from++) {
        puts_to(t, "PRD+");
        put_number(t, 1000 + from, 1);
        puts_to(t, "'POP+273:2000-08-01/2001-07-31+246'");
    }
    close_text(t);
}

// Every slot used, with a live calendar and a put.
static void fill_register(void) {
    yardstick_open(full, REGISTER_LENGTH, 2000, 8, 1, one_account);
    put_numbers(&sample, 0, SLOTS);
    their_stage(full);
    their_release(full);
    their_stage(full);
}

static void time_all(unsigned rounds) {
    static uint8_t empty[REGISTER_LENGTH];
    double read_a, read_b, stage_a, stage_b;
    release_rate = 0;
    yardstick_open(empty, REGISTER_LENGTH, 2000, 8, 1, one_account);
    put_realistic(&sample, SKDUPD, LONGEST);
    measure(our_read, their_read, empty, rounds, &read_a, &read_b);
    measure(our_stage, their_stage, empty, rounds, &stage_a, &stage_b);
    show_times("reading SKDUPD", read_a, read_b);
    show_times("staging SKDUPD", stage_a, stage_b);
    printf("SKDUPD of %lu bytes, staged over read: ours %.2f, yardstick %.2f\n", (unsigned long)sample.n, stage_a / read_a, stage_b / read_b);
    printf("on a full register; ratio: the yardstick's time over ours, so that 1.0 or more means at least as fast\n");
    fill_register();
    time_call("release of 256 puts", our_release, their_release, rounds);
    time_call("withdraw", our_withdraw, their_withdraw, rounds);
    time_call("show", our_show, their_show, rounds);
}

int main(int n, char **words) {
    const char *mode = n > 1 ? words[1] : "";
    unsigned long first = n > 2 ? strtoul(words[2], 0, 10) : 0;
    if (!strcmp(mode, "compare"))
        return compare(first ? first : 200000, n > 3 ? strtoul(words[3], 0, 10) : 1);
    if (!strcmp(mode, "time")) {
        time_all(first < 1 ? 200 : first > MOST_ROUNDS ? MOST_ROUNDS : (unsigned)first);
        return 0;
    }
    printf("registers compare N SEED | time ROUNDS\n");
    return 2;
}
