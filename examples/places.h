/* Where the bytes of a line stood in the capture, across joins: clp_join with a note of each byte's place. It needs clp.h and nothing else. */
#ifndef CLP_PLACES_H
#define CLP_PLACES_H

#include "clp.h"

/* All zeros before the first byte of a capture. */
typedef struct {
    uint64_t state;                      /* the joiner's */
    uint64_t used;                       /* how many bytes of the capture were used */
    uint64_t places[CLP_LINE_BYTES + 1]; /* of each byte that the buffer holds */
    uint8_t buffer[CLP_LINE_BYTES];      /* the line */
} clp_placed;

/* Joins as clp_join does, a byte in each call. After a line of n bytes (and after one that is too long, n = CLP_LINE_BYTES) places[i] is where byte i
 * of the line stood in the capture, and places[n] where the byte stood that ended it (or that was the first too many). So every place that a refusal
 * of this line names has its byte of the capture. */
static clp_joined clp_join_placed(clp_placed *p, const uint8_t *part, size_t part_len)
{
    clp_joined a = {0, CLP_NONE, 0, 0};
    size_t i = 0;
    while (i < part_len && a.number == 0 && a.value == CLP_NONE) {
        uint64_t before = p->state, held = before & CLP_STATE_HELD;
        /* a backtick that waited is held only with the byte after it, and was the byte before this one */
        uint64_t from = p->used - ((before & CLP_STATE_GRAVE) != 0 ? 1 : 0);
        a = clp_join(before, p->buffer, sizeof p->buffer, part + i, 1);
        if (a.used == 0)
            break; /* refused: no state of a capture */
        while (held < (a.state & CLP_STATE_HELD))
            p->places[held++] = from++;
        if ((a.state & CLP_STATE_LONG) > (before & CLP_STATE_LONG))
            p->places[CLP_LINE_BYTES] = from;
        if (a.number == 0 && a.value != CLP_NONE)
            p->places[a.value] = p->used;
        p->state = a.state;
        p->used++;
        i++;
    }
    a.used = i;
    a.state = p->state;
    return a;
}

#endif
