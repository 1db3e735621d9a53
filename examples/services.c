// Reads an interchange and lists its services: number, put or del, and the days over 512 days from a first date. A POP that gives no days
// is refused: this program does not ask for the old reading.
//   services FILE 2000-08-01
#include "drumcallisto.h"
#include <stdio.h>

static uint8_t file[DRUMCALLISTO_INTERCHANGE_LENGTH + 1];
static uint32_t rows[DRUMCALLISTO_ROW_NUMBERS];

static int refused(drumcallisto_reply r) {
    printf("refused\t%u\t%zu\t%u\n", (unsigned)r.number, r.position, (unsigned)r.part);
    return 1;
}

// A service's days as characters; bit k % 8 of byte k / 8 is day k.
static void print_days(const uint8_t *days) {
    for (unsigned k = 0; k < DRUMCALLISTO_WINDOW_DAYS; k++)
        putchar('0' + (days[k / 8] >> k % 8 & 1));
}

static int list(size_t length, size_t count, drumcallisto_date first) {
    uint8_t number[512];
    drumcallisto_service v = drumcallisto_next_service(file, length, rows, DRUMCALLISTO_ROW_NUMBERS, count, 0);
    for (; v.found; v = drumcallisto_next_service(file, length, rows, DRUMCALLISTO_ROW_NUMBERS, count, v.from + 1)) {
        uint8_t days[DRUMCALLISTO_CALENDAR_LENGTH] = {0};
        drumcallisto_reply r = drumcallisto_number(file, length, v.number_from, v.number_to, number, sizeof number);
        if (r.number)
            return refused(r);
        printf("%.*s\t%s\t", (int)r.value, (const char *)number, v.removal ? "del" : "put");
        r = drumcallisto_days(file, length, rows, DRUMCALLISTO_ROW_NUMBERS, (drumcallisto_rows){v.from, v.to}, first, false, days, sizeof days);
        if (r.number)
            return refused(r);
        if (!v.removal)
            print_days(days);
        putchar('\n');
    }
    return 0;
}

int main(int count, char **words) {
    drumcallisto_date first;
    if (count != 3 || sscanf(words[2], "%4u-%2u-%2u", &first.year, &first.month, &first.day) != 3) {
        fprintf(stderr, "services FILE yyyy-mm-dd\n");
        return 2;
    }
    FILE *in = fopen(words[1], "rb");
    if (!in) {
        perror(words[1]);
        return 2;
    }
    size_t length = fread(file, 1, sizeof file, in);
    drumcallisto_reply r = drumcallisto_read(file, length, false, rows, DRUMCALLISTO_ROW_NUMBERS);
    return r.number ? refused(r) : list(length, r.value, first);
}
