// Chance, texts that grow, and realistic interchanges, for the comparisons.
#ifndef SAMPLES_H
#define SAMPLES_H

#include "yardstick.h"

// Chance, from a seed.
extern uint64_t chance;
uint64_t next_chance(void);
unsigned below(unsigned n);
int one_in(unsigned n);

enum { SPACE = 200000 };

// A text that grows.
struct text {
    size_t n;
    uint8_t at[SPACE];
};

void put(struct text *t, int c);
void puts_to(struct text *t, const char *s);
void put_number(struct text *t, unsigned long n, unsigned width);

// Characters of a text; service characters are released, and one in so many plain ones, none where it is 0.
extern unsigned release_rate;
int permitted(int c);
void put_character(struct text *t, int c);
void put_characters(struct text *t, const uint8_t *s, size_t n);
void put_word(struct text *t, const char *s);

// How many characters a short day string has for so many days: one, all but one, or any number.
unsigned short_string(unsigned days);

// The date so many days after 1990-01-01, which may lie past 2099.
void put_date(struct text *t, unsigned day);

// The types of messages, that of D.12B apart.
enum { TSDUPD, SKDUPD, TSDUPD_12B, TYPES };

// An interchange with one message, up to where its services or stations begin, and from where they end.
void open_text(struct text *t, int type);
void close_text(struct text *t);

// What is timed is read with the wish for the old reading: the services have POPs with neither form.
enum { OLD_READING = 1 };

// Whole services, or stations, while the interchange stays below a length.
void put_realistic(struct text *t, int type, size_t longest);

#endif
