// What each number of documents 01 and 02 means, in words, and where in the text it points.
#include "desk.h"
#include <stdio.h>
#include <string.h>

static const char *const meanings[] = {
    "done",
    "not a register",
    "no such account: accounts are 1 to 8",
    "the file is empty or has more than 60,000 bytes",
    "a byte that is not permitted",
    "the file ends inside a segment",
    "a segment with a wrong tag or over a limit",
    "the envelope is wrong: order, contents or counts of UIB, UIH, UIT, UIZ, or bytes after UIZ",
    "the message's type or directory is not known",
    "a segment out of place",
    "a POP with wrong contents",
    "a service with a wrong number, or with a POP missing or not allowed",
    "a service number for the second time in the file",
    "a period not wholly in the register's window",
    "removal of a service that the account does not have, or has a removal pending for already",
    "the account would have more records than its quota",
    "nothing pending under this number, or no record at this place",
    "the room for the answer is too short",
    "quotas over 256 together, a first date that is none, or a window outside 1990-01-01 to 2099-12-31",
    "a calendar with bad dates, a bad length or a day past its last",
    "a calendar that has no weekday form",
    "a segment of more than 4,096 bytes, read as it arrives",
};

// Which part of a POP is wrong.
static const char *const parts[] = {
    "",
    ": its dates",
    ": its day string",
    ": its weekdays",
    ": it has both a day string and weekdays",
    ": it has neither a day string nor weekdays, and --every-day is not said",
    ": its qualifier, or an element that is repeated",
};

const char *meaning_of(unsigned number) { return number < sizeof meanings / sizeof meanings[0] ? meanings[number] : NULL; }

// Bytes that are not permitted are shown as numbers, so that the braces, and the brackets that mark a place, can be nothing else.
static void put_bytes(const uint8_t *from, const uint8_t *to) {
    for (; from < to; from++)
        fprintf(stderr, *from >= ' ' && *from <= 'z' && !strchr("#$@[\\]^`", *from) ? "%c" : "{%02X}", *from);
}

// The bytes before a place, and the segment there, or the byte that is not permitted, in brackets.
static void put_place(const struct text *p, unsigned number, size_t at) {
    enum { BEFORE = 24, WITHIN = 60 };
    size_t from = at > BEFORE ? at - BEFORE : 0, to = at;
    while (to < p->length && p->bytes[to] != '\'' && number != DRUMCALLISTO_BYTE_NOT_PERMITTED)
        to += p->bytes[to] == '?' ? 2 : 1;
    size_t end = to < p->length ? to + 1 : p->length, shown = end - at > WITHIN ? at + WITHIN : end;
    fprintf(stderr, ", at byte %zu of %s: %s", at, p->name, from ? ".." : "");
    put_bytes(p->bytes + from, p->bytes + at);
    fputc('[', stderr);
    put_bytes(p->bytes + at, p->bytes + shown);
    fputs(shown < end ? "..]" : "]", stderr);
}

int refuse(drumcallisto_reply reply, const struct text *text, const struct store *f) {
    unsigned n = reply.number;
    printf("refused\t%u\t%zu\t%u\n", n, reply.position, (unsigned)reply.part);
    fflush(stdout);
    fprintf(stderr, "desk: refused %u: %s%s", n, meaning_of(n) ? meaning_of(n) : "a number without words",
            reply.part < sizeof parts / sizeof parts[0] ? parts[reply.part] : "");
    if (n == DRUMCALLISTO_NOT_A_REGISTER && f)
        fprintf(stderr, ": %s has %ld bytes, a register %d%s", f->path, (long)f->stat.st_size, DRUMCALLISTO_REGISTER_LENGTH,
                f->length == DRUMCALLISTO_REGISTER_LENGTH ? ", but not these" : "");
    if (n == DRUMCALLISTO_OUTSIDE_WINDOW && f) {
        drumcallisto_date a = date_of(f, 0), b = date_of(f, DRUMCALLISTO_WINDOW_DAYS - 1);
        fprintf(stderr, ", %04u-%02u-%02u to %04u-%02u-%02u", a.year, a.month, a.day, b.year, b.month, b.day);
    }
    bool placed = (n >= DRUMCALLISTO_BYTE_NOT_PERMITTED && n <= DRUMCALLISTO_UNKNOWN_SERVICE) || n == DRUMCALLISTO_SEGMENT_TOO_LONG;
    if (placed && text && reply.position <= text->length)
        put_place(text, n, reply.position);
    fputc('\n', stderr);
    return REFUSED;
}
