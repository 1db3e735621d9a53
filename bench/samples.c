// Chance, texts that grow, and realistic interchanges. All from a seed, so that a run can be had again.
#include "samples.h"

size_t strlen(const char *a);

// Chance, from a seed.
uint64_t chance = 88172645463325252u;

uint64_t next_chance(void) {
    chance ^= chance << 13;
    chance ^= chance >> 7;
    chance ^= chance << 17;
    return chance * 2685821657736338717u >> 11;
}

unsigned below(unsigned n) { return (unsigned)(next_chance() % n); }

int one_in(unsigned n) { return below(n) == 0; }

void put(struct text *t, int c) {
    if (t->n < SPACE)
        t->at[t->n++] = (uint8_t)c;
}

void puts_to(struct text *t, const char *s) {
    while (*s)
        put(t, *s++);
}

void put_number(struct text *t, unsigned long n, unsigned width) {
    char digits[24];
    unsigned i = 0;
    do
        digits[i++] = (char)('0' + n % 10);
    while ((n /= 10) || i < width);
    while (i)
        put(t, digits[--i]);
}

unsigned release_rate;

static int service(int c) { return c == '+' || c == ':' || c == '*' || c == '?' || c == '\''; }

int permitted(int c) {
    return c >= 32 && c < 123 && c != '#' && c != '$' && c != '@' && c != '[' && c != '\\' && c != ']' && c != '^' && c != '`';
}

// A character of a text; service characters are released.
void put_character(struct text *t, int c) {
    if (service(c) || (release_rate && one_in(release_rate)))
        put(t, '?');
    put(t, c);
}

void put_characters(struct text *t, const uint8_t *s, size_t n) {
    for (size_t i = 0; i < n; i++)
        put_character(t, s[i]);
}

void put_word(struct text *t, const char *s) { put_characters(t, (const uint8_t *)s, strlen(s)); }

static unsigned leap(unsigned y) { return (y % 4 == 0 && y % 100 != 0) || y % 400 == 0; }

static unsigned month_length(unsigned y, unsigned m) { return m == 2 ? 28 + leap(y) : m == 4 || m == 6 || m == 9 || m == 11 ? 30 : 31; }

// The date so many days after 1990-01-01, which may lie past 2099.
unsigned short_string(unsigned days) {
    return one_in(3) ? 1 : one_in(2) && days > 1 ? days - 1 : 1 + below(days);
}

void put_date(struct text *t, unsigned day) {
    unsigned y = 1990, m = 1;
    while (day >= 365 + leap(y))
        day -= 365 + leap(y++);
    while (day >= month_length(y, m))
        day -= month_length(y, m++);
    char d[11] = {(char)('0' + y / 1000), (char)('0' + y / 100 % 10), (char)('0' + y / 10 % 10), (char)('0' + y % 10), '-',
                  (char)('0' + m / 10), (char)('0' + m % 10), '-', (char)('0' + (day + 1) / 10), (char)('0' + (day + 1) % 10), 0};
    put_word(t, d);
}

// ---- Realistic interchanges ----

static const char *pick(const char *const *from, unsigned n) { return from[below(n)]; }

static const char *const stations[] = {"BRUXELLES MIDI", "PARIS NORD", "KOELN HBF", "AIX LA CHAPELLE", "Basel SBB", "Lille Europe", "Gare de l?'Est", "Wien Hbf",
                                       "Amsterdam Centraal", "Zuerich HB", "Milano C.le", "Lyon Part Dieu"};

static void end_text(struct text *t) { put(t, '\''); }

static void put_station(struct text *t) { put_number(t, 8700000 + below(200000), 7); }

static void put_hour(struct text *t) { put_number(t, below(24) * 100 + below(60), 4); }

static unsigned long text_segments(const struct text *t, size_t from) {
    unsigned long n = 0;
    for (size_t i = from; i < t->n; i++) {
        if (t->at[i] == '?')
            i++;
        else
            n += t->at[i] == '\'';
    }
    return n;
}

void open_text(struct text *t, int type) {
    t->n = 0;
    puts_to(t, "UIB+UNOB:4+0080-2000-0001+++0080+1187+20000715:142200'");
    if (type == SKDUPD) {
        puts_to(t, "UIH+SKDUPD:D:04A::UN+1'MSD+AAR:61'ORG+0080+++0080'HDR+81+273:2000-08-01/2001-05-26*11:2000-07-15T1422*45:2000-07-15T1422+0003'");
        return;
    }
    puts_to(t, type == TSDUPD ? "UIH+TSDUPD:D:04A::UN+1'" : "UIH+TSDUPD:D:12B::UN+1'");
    puts_to(t, "MSD+AAR:61'HDR+81+273:2000-08-01/2001-05-26*45:2000-07-15T1422+0003'");
}

void close_text(struct text *t) {
    unsigned long n = text_segments(t, 0); // without the UIB, with the UIT
    puts_to(t, "UIT+1+");
    put_number(t, n, 1);
    puts_to(t, "'UIZ+0080-2000-0001+1'");
}

// A service: its segments as document 000's examples have them.
static void put_service(struct text *t) {
    puts_to(t, "PRD+");
    put_number(t, 1 + below(29999), 1);
    puts_to(t, one_in(4) ? ":11:::::Alexander von Humboldt+0080*0088'" : ":::37+0080'");
    puts_to(t, "PDT++:::62'");
    if (one_in(3))
        puts_to(t, "IFT+AUY:::EN+RESERVATION COMPULSORY'");
    if (one_in(3))
        puts_to(t, "ASD+26++67'");
    for (unsigned periods = 1 + below(3); periods; periods--) {
        unsigned first = 3865 + below(200), days = 20 + below(240), form = below(4);
        puts_to(t, "POP+273:");
        put_date(t, first);
        put(t, '/');
        put_date(t, first + days - 1);
        if (form == 0) {
            puts_to(t, "::");
            for (unsigned k = 0; k < days; k++)
                put(t, '0' + (int)below(2));
        } else if (form < 3) {
            puts_to(t, form == 1 ? "+12345" : "+67");
        }
        end_text(t);
        if (one_in(3))
            puts_to(t, "PDT++:::67'");
        if (one_in(3))
            puts_to(t, "ASD+26++67'");
        for (unsigned stops = 4 + below(9); stops; stops--) {
            puts_to(t, "POR+");
            put_station(t);
            put(t, '+');
            put_hour(t);
            put(t, '*');
            put_hour(t);
            if (one_in(2)) {
                put(t, '+');
                put_number(t, 1 + below(20), 1);
            }
            end_text(t);
            if (one_in(6))
                puts_to(t, "MES+25:KMT'");
            if (one_in(6))
                puts_to(t, "ASD+7:1730:1830:::::P12++12345'");
            if (one_in(8))
                puts_to(t, "TRF+1'");
            if (one_in(12))
                puts_to(t, "RFR+AUE:39:::0088'RLS+13+8'");
        }
        for (unsigned relations = 1 + below(3); relations; relations--) {
            puts_to(t, "ODI+");
            put_station(t);
            put(t, '*');
            put_station(t);
            puts_to(t, one_in(2) ? "+2*5'" : "'");
            puts_to(t, "PDT++:::67'");
            if (one_in(2))
                puts_to(t, "TFF+SP'");
            puts_to(t, "ASD+26++67'");
            if (one_in(2))
                puts_to(t, "SER+33::::2:13+273:2000-06-01/2000-09-30'ASD+26++67'");
        }
    }
}

static void put_place(struct text *t) {
    puts_to(t, "ALS+29+00");
    put_station(t);
    put(t, ':');
    puts_to(t, pick(stations, sizeof stations / sizeof stations[0]));
    puts_to(t, "+47:32:51N*7:35:22E'");
    if (one_in(5))
        puts_to(t, "ADS+:1:2+5:48 AVENUE FONSNY+BRUSSELS+1060+BE'");
    if (one_in(2))
        puts_to(t, "POP+273:2000-08-01/2001-05-26++1234567'");
    if (one_in(4))
        puts_to(t, "CON+WF:3225259152:TE*WF:3225252952:FX'");
    if (one_in(3))
        puts_to(t, "TRF+1'");
    if (one_in(3))
        puts_to(t, "CNY+BE+88:2000-03-28*98:2000-09-27+1*1'TIZ+WET:1'");
    if (one_in(4))
        puts_to(t, "LNG+6+FR'");
    if (one_in(3))
        puts_to(t, "SER+101'");
    for (unsigned n = below(3); n; n--)
        puts_to(t, one_in(2) ? "IFT+AGW::::FR+AIX LA CHAPELLE'" : "IFT+AGW::::NL+AKEN'");
    for (unsigned n = below(4); n; n--)
        puts_to(t, one_in(4) ? "ASD+26++67'CON+HN:3225252989:TE'" : "ASD+26++67'");
    for (unsigned n = one_in(3) ? 1 + below(2) : 0; n; n--)
        puts_to(t, "PRD+:::8:11+1080*1088'SER+28'");
    for (unsigned n = below(5); n; n--) {
        puts_to(t, "RFR+AWN:00");
        put_station(t);
        end_text(t);
        puts_to(t, one_in(2) ? "MES+10:MIN*125:MTR'" : "MES+10:MIN'");
        if (one_in(2))
            puts_to(t, "RLS+13+14'");
        if (one_in(3))
            puts_to(t, "PRD+:::8:8+0019*1080'");
    }
}

// Whole services, or stations, while the interchange stays below a length.
void put_realistic(struct text *t, int type, size_t longest) {
    chance = 20000801u + longest + (unsigned)(type == SKDUPD);
    open_text(t, type);
    for (;;) {
        size_t n = t->n;
        type == SKDUPD ? put_service(t) : put_place(t);
        if (t->n + 40 > longest) {
            t->n = n;
            break;
        }
    }
    close_text(t);
}
