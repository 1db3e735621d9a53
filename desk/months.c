// Dates, and a record's days month by month. This is for the eye: which days run, the library says.
#include "desk.h"
#include <stdio.h>
#include <string.h>
#include <unistd.h>

static unsigned month_length(drumcallisto_date d) {
    static const uint8_t lengths[13] = {0, 31, 28, 31, 30, 31, 30, 31, 31, 30, 31, 30, 31};
    return lengths[d.month] + (d.month == 2 && d.year % 4 == 0 ? 1u : 0u); // 2000 is a leap year, 2100 is past the last date
}

// A day of the window, whose first stands in the register's first two bytes, counted from 1990-01-01 (docs/REGISTER.md).
drumcallisto_date date_of(const struct store *f, unsigned k) {
    drumcallisto_date d = {1990, 1, 1};
    for (k += f->bytes[0] + 256u * f->bytes[1]; k >= month_length(d); d.year += d.month / 12, d.month = d.month % 12 + 1)
        k -= month_length(d);
    d.day = k + 1;
    return d;
}

// The days of one month, `n` of them from the window's day k on; 1990-01-01 is a Monday. On a terminal the days that run stand out.
static void put_month(const struct store *f, const char *days, unsigned k, unsigned n) {
    drumcallisto_date d = date_of(f, k);
    unsigned weekday = (f->bytes[0] + 256u * f->bytes[1] + k) % 7;
    printf("%04u-%02u  Mo Tu We Th Fr Sa Su\n%*s", d.year, d.month, (int)(8 + weekday * 3), "");
    for (unsigned i = k; i < k + n; i++, d.day++, weekday = (weekday + 1) % 7) {
        if (!weekday && i > k)
            printf("\n%8s", "");
        if (days[i] == '1')
            printf(isatty(1) ? " \033[1;7m%2u\033[0m" : " %2u", d.day);
        else
            printf("  .");
    }
    printf("\n");
}

// The months of the window in which a day runs. A line is a number, a tab, `live`, `put` or `del`, a tab, the days or nothing, a newline.
void print_months(const struct store *f, const char *lines) {
    for (; *lines; lines = strchr(lines, '\n') + 1) {
        const char *word = strchr(lines, '\t') + 1, *days = strchr(word, '\t') + 1;
        printf("%.*s, %.*s\n", (int)(word - 1 - lines), lines, (int)(days - 1 - word), word);
        for (unsigned k = 0, n; *days != '\n' && k < DRUMCALLISTO_WINDOW_DAYS; k += n) {
            drumcallisto_date d = date_of(f, k);
            unsigned left = month_length(d) - d.day + 1, most = DRUMCALLISTO_WINDOW_DAYS - k;
            n = left < most ? left : most;
            if (memchr(days + k, '1', n))
                put_month(f, days, k, n);
        }
    }
}
