// The register's yardstick: the calls of document 01 in plain C, over the bytes that docs/REGISTER.md lays out, to hold the proved
// register's answers, bytes and speed against.
#ifndef REGISTER_H
#define REGISTER_H

#include "yardstick.h"

enum { REGISTER_LENGTH = 35858, ACCOUNTS = 8 };

// Number 0 is done, with the value that the call returns; any other number is a refusal, with its position and nothing changed.
struct answer {
    uint8_t number;
    size_t position;
    uint8_t part; // which part of a POP is wrong, beside number 10; 0 beside every other number
    size_t value;
};

// Each takes a buffer of n bytes. The window's first date is given as three numbers that need not make a date. Staging takes the wish
// that the interchange is read with.
uint8_t yardstick_is_register(const uint8_t *b, size_t n);
struct answer yardstick_open(uint8_t *b, size_t n, uint16_t year, uint8_t month, uint8_t day, const uint32_t *quotas);
struct answer yardstick_stage(uint8_t *b, size_t n, size_t account, const uint8_t *s, size_t length, _Bool old_reading);
struct answer yardstick_release(uint8_t *b, size_t n, size_t account);
struct answer yardstick_withdraw(uint8_t *b, size_t n, size_t account, const uint8_t *number, size_t length);
struct answer yardstick_show(const uint8_t *b, size_t n, size_t account, size_t k, uint8_t *out, size_t room);

#endif
