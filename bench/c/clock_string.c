/* C baseline: the one door for both clock strings. The length says which of them it is. */
#include "formats.h"

struct answer string_read(unsigned base, const uint8_t *s, size_t length, enum kind *kind, struct reading *r, bool *coasting)
{
    if (length != MEINBERG_LENGTH && length != ERLANGEN_LENGTH)
        return refused(WRONG_LENGTH);
    if (RARELY(!base_is_good(base)))
        return refused(WRONG_BASE);
    *kind = length == MEINBERG_LENGTH ? MEINBERG : ERLANGEN;
    return length == MEINBERG_LENGTH ? meinberg_read(base, s, r, coasting) : erlangen_read(base, s, r, coasting);
}
