/* C baseline: the readers that take one pulse at a time. */
#include "formats.h"

enum { MARK = 2, GAP = 2, NO_PULSE = 255 };

void frame_reader_start(unsigned base, struct frame_reader *f)
{
    memset(f->last, NO_PULSE, sizeof f->last);
    f->oldest = 0;
    f->base = base;
}

bool frame_reader_take(struct frame_reader *f, uint8_t pulse, struct answer *a, struct reading *r)
{
    f->last[f->oldest] = pulse;
    f->oldest = f->oldest + 1 == FRAME_LENGTH ? 0 : f->oldest + 1;
    /* a frame begins and ends with a mark */
    if (pulse != MARK || f->last[f->oldest] != MARK)
        return false;
    uint8_t window[FRAME_LENGTH];
    memcpy(window, f->last + f->oldest, FRAME_LENGTH - f->oldest);
    memcpy(window + FRAME_LENGTH - f->oldest, f->last, f->oldest);
    if (!frame_is_outlined(window))
        return false;
    *a = frame_read(f->base, window, FRAME_LENGTH, r);
    return true;
}

void minute_reader_start(unsigned base, struct minute_reader *m)
{
    m->count = LONG_MINUTE_LENGTH;
    m->base = base;
}

bool minute_reader_take(struct minute_reader *m, uint8_t symbol, struct answer *a, struct reading *r, uint16_t *head)
{
    if (symbol != GAP) {
        if (symbol > 1 || m->count >= LONG_MINUTE_LENGTH - 1)
            m->count = LONG_MINUTE_LENGTH;
        else
            m->marks[m->count++] = symbol;
        return false;
    }
    unsigned count = m->count;
    m->count = 0;
    if (count != MINUTE_LENGTH - 1 && count != LONG_MINUTE_LENGTH - 1)
        return false;
    m->marks[count] = GAP;
    *a = minute_read(m->base, m->marks, count + 1, r, head);
    return true;
}
