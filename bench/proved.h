// The proved reader and register, by the static library of the crate `desk`. A slice is a pointer and, after it, a length.
#ifndef PROVED_H
#define PROVED_H

#include "register.h"
#include "yardstick.h"

struct reply drumcallisto_read(const uint8_t *s, size_t n, _Bool old_reading, uint32_t *rows, size_t room);

// What document 01's calls come to, over the bytes of docs/REGISTER.md.
_Bool drumcallisto_is_register(const uint8_t *b, size_t n);
struct date {
    uint32_t year, month, day;
};
struct answer drumcallisto_open(uint8_t *b, size_t n, struct date first, const uint32_t *quotas);
struct answer drumcallisto_stage(uint8_t *b, size_t n, size_t account, const uint8_t *s, size_t length, _Bool old_reading);
struct answer drumcallisto_release(uint8_t *b, size_t n, size_t account);
struct answer drumcallisto_withdraw(uint8_t *b, size_t n, size_t account, const uint8_t *number, size_t length);
struct answer drumcallisto_show(const uint8_t *b, size_t n, size_t account, size_t k, uint8_t *out, size_t room);

#endif
