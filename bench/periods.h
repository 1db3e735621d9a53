// "POP in group 4 of SKDUPD: qualifier 273, then first/last, both counted, 1 to 512 days .."
#ifndef PERIODS_H
#define PERIODS_H

#include "parts.h"

// Whether such a POP, from its tag to its terminator, is good and passes no limit, told only where it is written in one of the usual
// forms: its dates, and behind them nothing, weekdays or at most a character for each day, with no release. One with nothing behind
// its dates is good only to a caller who asks for the old reading.
int usual_period(const uint8_t *g, const uint8_t *end, _Bool old_reading);

// The parts of a POP, each judged by itself.
enum { ALL_GOOD, WRONG_DATES, WRONG_DAY_STRING, WRONG_WEEKDAYS, BOTH_FORMS, NEITHER_FORM, WRONG_OTHERWISE };

// The lowest part that is wrong, however the POP is written. Neither form is wrong only where the caller does not ask for the old reading.
unsigned wrong_part(const uint8_t *g, const uint8_t *end, _Bool old_reading);

#endif
