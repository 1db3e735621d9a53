// The table of document 01, a line for each segment: of a file, or of standard input as it arrives.
#include "desk.h"
#include <stdio.h>
#include <string.h>
#include <unistd.h>

static uint8_t interchange[DRUMCALLISTO_INTERCHANGE_LENGTH + 1];
static uint32_t rows[DRUMCALLISTO_ROW_NUMBERS];

// Rows, with the table's head before the first of them.
static void put_rows(size_t count, bool first) {
    if (count && first)
        fputs("offset\tgroup\ttag\n", stdout);
    for (const uint32_t *r = rows; r < rows + 3 * count; r += 3)
        printf("%u\t%u\t%c%c%c\n", r[0], r[1], (int)(r[2] >> 16 & 255), (int)(r[2] >> 8 & 255), (int)(r[2] & 255));
}

// What one call of read brings is a parcel, and its rows go out before the next one is waited for. After a refusal, and where the rows
// cannot go out, nothing more is read. The bytes are kept to show the place of a refusal; byte 60,001, the last with room here, is one.
static int read_parcels(const char *name, bool every_day) {
    static uint8_t store[DRUMCALLISTO_STORE_LENGTH];
    struct text text = {name, interchange, 0};
    drumcallisto_reply reply = drumcallisto_begin(store, sizeof store, every_day);
    size_t told = 0;
    for (ssize_t n = 1; n && !reply.number && !ferror(stdout); text.length += (size_t)n, told += reply.value) {
        uint8_t *parcel = interchange + text.length;
        n = read(0, parcel, sizeof interchange - text.length);
        if (n < 0)
            return failed(name, "");
        reply = drumcallisto_take(store, sizeof store, parcel, (size_t)n, rows, DRUMCALLISTO_ROW_NUMBERS);
        put_rows(reply.value, !told);
        fflush(stdout);
    }
    if (!ferror(stdout))
        reply = drumcallisto_finish(store, sizeof store);
    return reply.number ? refuse(reply, &text, NULL) : DONE;
}

int read_command(const char *name, bool every_day) {
    struct text text = {name, interchange, 0};
    if (!strcmp(name, "-"))
        return read_parcels(name, every_day);
    if (read_file(name, interchange, sizeof interchange, &text.length))
        return FAILED;
    drumcallisto_reply reply = drumcallisto_read(interchange, text.length, every_day, rows, DRUMCALLISTO_ROW_NUMBERS);
    if (reply.number)
        return refuse(reply, &text, NULL);
    put_rows(reply.value, true);
    return DONE;
}
