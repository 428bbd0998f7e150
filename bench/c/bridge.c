/* C baseline: the bridge from either clock string to an IEEE 1344 frame. */
#include "formats.h"

struct answer bridge_with(unsigned base, const uint8_t *s, size_t length, enum coasting way, uint8_t *out, size_t room)
{
    enum kind kind;
    struct reading r;
    bool coasting;
    if (room < FRAME_LENGTH)
        return refused(WRONG_LENGTH);
    struct answer a = string_read(base, s, length, &kind, &r, &coasting);
    if (a.code)
        return a;
    bool within = r.second >= 1 && r.second <= 59;
    r.leap = r.leap && within && in_leap_minute(&r);
    r.change = r.change && within && r.minute == 59;
    if (coasting && way == COASTING_WORSE)
        r.quality = 15;
    return frame_write(base, &r, out, room);
}

struct answer bridge(unsigned base, const uint8_t *s, size_t length, uint8_t *out, size_t room)
{
    return bridge_with(base, s, length, COASTING_WORSE, out, room);
}
