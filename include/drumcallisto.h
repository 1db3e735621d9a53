/* Drumcallisto for C: a reader, calendars and a register for railway timetables.
 *
 * Each function answers on every input and ends; what it promises is proved (docs/CONTRACTS.md). The caller owes only what no
 * function can see: each pointer is valid for its length, and no two buffers of one call overlap.
 * A reply's number is 0 where all is done; any other is a refusal, with its position and beside 10 its part, and then no lent buffer
 * has changed; in parcels alone a call that names a fault writes the rows read before it, and its store. docs/NUMBERS.md says what each
 * number means.
 * `old_reading`, which each call that reads a POP takes: whether the caller asks that a POP with neither form, no day string and no
 * weekdays, mean every day; else it is 10, part 5. */
#ifndef DRUMCALLISTO_H
#define DRUMCALLISTO_H

#include <stdbool.h>
#include <stddef.h>
#include <stdint.h>

#ifdef __cplusplus
extern "C" {
#endif

enum {
    DRUMCALLISTO_DONE = 0,
    DRUMCALLISTO_NOT_A_REGISTER = 1,      /* for opening: wrong length */
    DRUMCALLISTO_BAD_ACCOUNT = 2,         /* not 1 to 8 */
    DRUMCALLISTO_BAD_SIZE = 3,            /* an interchange that is empty or over 60,000 bytes */
    DRUMCALLISTO_BYTE_NOT_PERMITTED = 4,  /* position: that byte */
    DRUMCALLISTO_INPUT_ENDS = 5,          /* inside a segment; position: its first byte */
    DRUMCALLISTO_WRONG_SEGMENT = 6,       /* tag or a limit; position: the segment */
    DRUMCALLISTO_WRONG_ENVELOPE = 7,      /* order, contents, counts, bytes after UIZ; position: the segment, or the first byte after */
    DRUMCALLISTO_UNKNOWN_TYPE = 8,        /* type or directory; position: the UIH */
    DRUMCALLISTO_OUT_OF_PLACE = 9,        /* position: the segment */
    DRUMCALLISTO_WRONG_PERIOD = 10,       /* contents of a POP; position: the segment */
    DRUMCALLISTO_WRONG_SERVICE = 11,      /* number, or POP missing or present wrongly; position: its PRD */
    DRUMCALLISTO_NUMBER_TWICE = 12,       /* in the interchange; position: the second PRD */
    DRUMCALLISTO_OUTSIDE_WINDOW = 13,     /* a period not wholly in the window; position: the POP */
    DRUMCALLISTO_UNKNOWN_SERVICE = 14,    /* its removal; position: the PRD */
    DRUMCALLISTO_OVER_QUOTA = 15,         /* more records at the end; position: the interchange's length */
    DRUMCALLISTO_NOTHING_THERE = 16,      /* nothing pending to withdraw, or no k-th record */
    DRUMCALLISTO_OUTPUT_TOO_SHORT = 17,
    DRUMCALLISTO_BAD_OPENING = 18,        /* quotas' sum over 256, first date invalid, or window outside the dates */
    DRUMCALLISTO_BAD_CALENDAR = 19,       /* bad dates, bad length, or a bit past the last day */
    DRUMCALLISTO_NO_WEEKDAY_FORM = 20,
    DRUMCALLISTO_SEGMENT_TOO_LONG = 21    /* over 4,096 bytes with its terminator, in parcels; position: its first byte */
};

/* Which part of a POP is wrong, beside 10; the lowest that applies. 0 beside every other number. */
enum {
    DRUMCALLISTO_WRONG_DATES = 1,
    DRUMCALLISTO_WRONG_DAY_STRING = 2,
    DRUMCALLISTO_WRONG_WEEKDAYS = 3,
    DRUMCALLISTO_BOTH_FORMS = 4,
    DRUMCALLISTO_NEITHER_FORM = 5,        /* where the caller does not ask for the old reading */
    DRUMCALLISTO_WRONG_OTHERWISE = 6      /* the qualifier, or element repetition */
};

enum {
    DRUMCALLISTO_REGISTER_LENGTH = 35858,    /* bytes of a register */
    DRUMCALLISTO_CALENDAR_LENGTH = 64,       /* bytes of a calendar: bit k % 8, from the lowest, of byte k / 8 is day k */
    DRUMCALLISTO_WINDOW_DAYS = 512,
    DRUMCALLISTO_ACCOUNTS = 8,
    DRUMCALLISTO_QUOTA_SUM = 256,
    DRUMCALLISTO_NUMBER_LENGTH = 10,         /* characters of a service number */
    DRUMCALLISTO_INTERCHANGE_LENGTH = 60000, /* bytes */
    DRUMCALLISTO_ROW_NUMBERS = 45000,        /* numbers that hold the rows of any interchange, three each */
    DRUMCALLISTO_RECORD_LENGTH = 1057,       /* bytes that hold any record's lines */
    DRUMCALLISTO_STORE_LENGTH = 12328        /* bytes of a store that a reading in parcels is kept in */
};

typedef struct {
    uint8_t number;
    size_t position;
    uint8_t part;
    size_t value;
} drumcallisto_reply;

typedef struct {
    uint32_t year, month, day;
} drumcallisto_date;

/* A service: a group 2 of a SKDUPD message. */
typedef struct {
    bool found;                     /* false: there is no more, and the rest is 0 */
    bool removal;                   /* else it is a put */
    size_t prd;                     /* the offset of its PRD */
    size_t number_from, number_to;  /* its number in the interchange, as written */
    size_t from, to;                /* its rows, from the PRD's up to and without another */
} drumcallisto_service;

/* Some of the rows: from one up to and without another. */
typedef struct {
    size_t from, to;
} drumcallisto_rows;

/* Reads an interchange and writes its rows, three numbers each (offset, group, the tag's three bytes as one number), to the front
 * of `rows`. value: how many rows. 3 to 10, then 17. */
drumcallisto_reply drumcallisto_read(const uint8_t *interchange, size_t length, bool old_reading, uint32_t *rows, size_t room);

/* Reading in parcels: begin, a take for each parcel, which is lent for that call alone, and finish. What is known between two calls is in
 * the store, DRUMCALLISTO_STORE_LENGTH bytes, which may be copied; any bytes of that length are some reading and do no harm. However
 * an interchange is cut, rows and answer are those of drumcallisto_read while no segment is over 4,096 bytes; where that refuses,
 * the rows of the segments before the fault are given out too. A store of another length is 17 for each of the three. */

/* The store becomes a reading before its first byte, which keeps the wish for all that follows. 17. */
drumcallisto_reply drumcallisto_begin(uint8_t *store, size_t length, bool old_reading);

/* Reads on in a parcel, which may be empty, and writes the rows of the segments that end in it to the front of `rows`, their offsets
 * counted from the interchange's first byte. value: how many rows, beside a refusal too. 3, 4, 6 to 10 and 21 are final: later calls
 * repeat the answer and write nothing. 17, where the rows do not fit, is not: nothing is written, and the parcel may be given again
 * with more room. n bytes bring at most (n + 3) / 4 rows. After an accepted finish it is 0, with no row. */
drumcallisto_reply drumcallisto_take(uint8_t *store, size_t length, const uint8_t *parcel, size_t parcel_length, uint32_t *rows, size_t room);

/* The input is over. value: how many rows in all. 3 for no byte, 4 or 5 inside a segment, 7, or the refusal that was final. Later
 * calls repeat the answer. */
drumcallisto_reply drumcallisto_finish(uint8_t *store, size_t length);

/* The first service at row i or later, of the first n rows; the next one is looked for from its `from` + 1 on. Any rows do no harm. */
drumcallisto_service drumcallisto_next_service(const uint8_t *interchange, size_t length, const uint32_t *rows, size_t room, size_t n, size_t i);

/* What stands between two offsets of the interchange after release, to the front of `out`: a service's number. value: its length. 17. */
drumcallisto_reply drumcallisto_number(const uint8_t *interchange, size_t length, size_t from, size_t to, uint8_t *out, size_t room);

/* Writes to `days`, a calendar of 64 bytes, the days of the POPs among some rows, a service's `from` and `to`, over the window of 512 days
 * from `first` on. 19 for a first date that is none or another length, 13 at the first POP that is not wholly in the window. A POP that is
 * wrong has no days; give the `old_reading` that the rows were read with. */
drumcallisto_reply drumcallisto_days(const uint8_t *interchange, size_t length, const uint32_t *rows, size_t room,
                                     drumcallisto_rows among, drumcallisto_date first, bool old_reading, uint8_t *days, size_t days_length);

/* The calendar as a whole POP segment, with a day string or with weekdays, to the front of `out`. value: the bytes written. 19, 20, 17.
   A day string has a character for each day or, where `short_form` is asked for, those up to the last running day, and a single 0 where
   there is none; it is never 20. */
drumcallisto_reply drumcallisto_write_day_string(const uint8_t *days, size_t days_length, drumcallisto_date first, drumcallisto_date last, bool short_form, uint8_t *out, size_t room);
drumcallisto_reply drumcallisto_write_weekdays(const uint8_t *days, size_t days_length, drumcallisto_date first, drumcallisto_date last, uint8_t *out, size_t room);

/* Whether the buffer is a register. */
bool drumcallisto_is_register(const uint8_t *reg, size_t length);

/* A register of no records, with a window of 512 days from `first` on and a quota for each of accounts 1 to 8. 1, 18. */
drumcallisto_reply drumcallisto_open(uint8_t *reg, size_t length, drumcallisto_date first, const uint32_t quotas[8]);

/* The interchange's services become pending, all of them or none. value: how many. 1, 2, 3 to 10, 11 to 14 service by service, 15. */
drumcallisto_reply drumcallisto_stage(uint8_t *reg, size_t length, size_t account, const uint8_t *interchange, size_t interchange_length, bool old_reading);

/* Every pending entry becomes live or removes its record. value: how many. 1, 2. */
drumcallisto_reply drumcallisto_release(uint8_t *reg, size_t length, size_t account);

/* Drops the pending entry of a number, plain and not released. 1, 2, 16. */
drumcallisto_reply drumcallisto_withdraw(uint8_t *reg, size_t length, size_t account, const uint8_t *number, size_t number_length);

/* The lines of the account's k-th record, from 0, to the front of `out`. value: the bytes written. 1, 2, 16, 17. */
drumcallisto_reply drumcallisto_show(const uint8_t *reg, size_t length, size_t account, size_t k, uint8_t *out, size_t room);

#ifdef __cplusplus
}
#endif

#endif
