// The placing rule, and hints by which most segments are placed without walking the table. Quotations are from document 01.
#ifndef HINTS_H
#define HINTS_H

#include "scan.h"

// "The place reached": a place, and how often each level has been entered.
struct reached {
    size_t at;
    uint32_t count[6];
};

// Where a tag leads from a place, unless the place that it leads to has been entered as often as it may.
struct hint {
    uint32_t head;  // the tag and a `+`, as they stand in the input
    uint32_t tag;
    uint16_t most;  // the greatest number of the place that is entered; 0 where there is no hint
    uint16_t again; // all bits where that is the same place again, none where it is entered anew
    uint8_t level;  // its level
    uint8_t at;     // the place reached, in a group its trigger
    uint8_t group;
    uint8_t period; // whether it is a POP that is read
};

enum { HINT_BITS = 5, HINTS = 1 << HINT_BITS, MOST_PLACES = 55 };

// A message type: its table, and for each place the hints of the tags that may follow on it.
struct message {
    const struct place *table;
    size_t places;
    struct hint hints[MOST_PLACES][HINTS];
};
extern struct message yardstick_messages[2]; // TSDUPD, SKDUPD

// Which of a place's hints is that of the tag at the head of a segment. The factor is one of those by which no two tags that may follow
// on the same place share a hint; its lowest byte is zero, so that the byte after the tag has no part in it.
static inline size_t hint_of(uint32_t head) { return head * 0x00675700u >> (32 - HINT_BITS); }

// "A segment goes to the first of these that its tag fits": whether there is one; then the place reached is that.
int step(const struct message *m, struct reached *r, uint32_t tag);

#endif
