// The placing rule by a walk over the table, and the hints that are made by it before the program begins.
#include "hints.h"

struct message yardstick_messages[2];

// "the same place again while its number allows; a later place of the same group, no mandatory place still empty being passed; the
// group once more ..; the places after the group one level up"
static int walk(const struct message *m, struct reached *r, uint32_t tag) {
    const struct place *t = m->table;
    for (size_t at = r->at;; at = t[at].outer) {
        unsigned level = t[at].level;
        if (t[at].tag == tag && r->count[level] < t[at].most) {
            r->count[level]++;
            r->at = at;
            return 1;
        }
        size_t end = level ? t[at].outer + 1u + t[t[at].outer].held : m->places;
        for (size_t next = at + 1u + t[at].held; next < end; next += 1u + t[next].held) {
            if (t[next].tag == tag) {
                r->count[level] = 1;
                r->at = next;
                return 1;
            }
            if (t[next].mandatory)
                return 0;
        }
        if (!level)
            return 0;
    }
}

int step(const struct message *m, struct reached *r, uint32_t tag) {
    if (!walk(m, r, tag))
        return 0;
    // "its trigger is mandatory and comes once at its head"
    if (m->table[r->at].held)
        r->count[m->table[++r->at].level] = 1;
    return 1;
}

// The hint for a place and a tag: where the rule leads if every place around it has been entered once. With more entries it leads
// there too, unless that is the same place again and its number no longer allows it.
static void make_hint(struct message *m, size_t at, uint32_t tag) {
    const struct place *t = m->table;
    struct reached r = {at, {1, 1, 1, 1, 1, 1}};
    if (tag == TAG('U', 'I', 'T') || !step(m, &r, tag))
        return;
    const struct place *entered = t + r.at - (t[r.at - 1].held != 0);
    uint32_t head = tag >> 16 | (tag & 0xff00) | (tag & 0xff) << 16 | (uint32_t)'+' << 24;
    m->hints[at][hint_of(head)] = (struct hint){
        .head = head,
        .tag = tag,
        .most = entered->most < 65535 ? (uint16_t)entered->most : 65535, // no interchange has more segments
        .again = r.count[entered->level] > 1 ? 65535 : 0,
        .level = entered->level,
        .at = (uint8_t)r.at,
        .group = entered->group,
        .period = t == yardstick_skdupd && entered->group == 4 && tag == TAG('P', 'O', 'P'),
    };
}

__attribute__((constructor)) static void make_hints(void) {
    yardstick_messages[0].table = yardstick_tsdupd;
    yardstick_messages[0].places = yardstick_tsdupd_places;
    yardstick_messages[1].table = yardstick_skdupd;
    yardstick_messages[1].places = yardstick_skdupd_places;
    for (struct message *m = yardstick_messages; m < yardstick_messages + 2; m++)
        for (size_t at = 0; at < m->places; at++)
            for (size_t k = 1; k < m->places && !m->table[at].held; k++)
                make_hint(m, at, m->table[k].tag);
}
