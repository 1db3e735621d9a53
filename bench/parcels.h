// Reading in parcels against the whole reader, both of the static library of the crate `desk`.
#ifndef PARCELS_H
#define PARCELS_H

#include "samples.h"

enum { STORE_LENGTH = 12328, SEGMENT_LENGTH = 4096 };
struct reply drumcallisto_read(const uint8_t *s, size_t n, _Bool old_reading, uint32_t *rows, size_t room);
struct reply drumcallisto_begin(uint8_t *store, size_t length, _Bool old_reading);
struct reply drumcallisto_take(uint8_t *store, size_t length, const uint8_t *parcel, size_t n, uint32_t *rows, size_t room);
struct reply drumcallisto_finish(uint8_t *store, size_t length);

// bench.c. An interchange by chance for a reading with a wish, and how it is printed.
extern struct text joined;
void put_case(_Bool old_reading);
void show(const char *who, struct reply r);
void show_input(void);

// N interchanges under cuts by chance; a reading in parcels of 1,460 bytes, and its times.
int compare_parcels(unsigned long n, unsigned long seed);
struct reply read_in_parcels(const uint8_t *s, size_t n, _Bool old_reading, uint32_t *rows, size_t room);
void time_parcels(unsigned rounds);

#endif
