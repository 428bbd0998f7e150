/* Rows of pulses, for the frame and the minute of the C baseline: binary groups, the lowest pulse first. */
#ifndef ROW_H
#define ROW_H

#include "plain.h"

static inline unsigned bits(const uint8_t *s, unsigned count)
{
    unsigned value = 0;
    for (unsigned i = 0; i < count; i++)
        value += (unsigned)s[i] << i;
    return value;
}

static inline void put_bits(uint8_t *s, unsigned count, unsigned value)
{
    for (unsigned i = 0; i < count; i++)
        s[i] = value >> i & 1;
}

/* Whether the ones are odd in number; a mark, a 2, counts as none. */
static inline bool is_odd(const uint8_t *s, size_t from, size_t to)
{
    unsigned ones = 0;
    for (size_t i = from; i <= to; i++)
        ones += s[i] & 1;
    return ones % 2 != 0;
}

#endif
