/* Digits of text, and the checks of date and time, for the two clock strings of the C baseline. */
#ifndef TEXT_H
#define TEXT_H

#include "reading.h"

static inline bool is_digit(uint8_t c) { return c >= '0' && c <= '9'; }

/* Whether a byte is the one that a picture shows; a 0 in a picture stands for any digit. */
static inline bool is_shown(char picture, uint8_t c) { return picture == '0' ? is_digit(c) : c == (uint8_t)picture; }

static inline unsigned two_digits(const uint8_t *s) { return (s[0] - '0') * 10u + (s[1] - '0'); }

static inline void put_two_digits(uint8_t *s, unsigned number)
{
    s[0] = (uint8_t)('0' + number / 10);
    s[1] = (uint8_t)('0' + number % 10);
}

/* The first of the codes 15, 16 and 6 of a date, a weekday and a time that start at these places, within a code the lowest
   place; code 0 where all is well. Day and month, and hour, minute and second, stand three bytes apart. */
static inline struct answer date_and_time_answer(const struct reading *r, unsigned said, size_t date, size_t weekday_at,
                                                 size_t time)
{
    if (r->hour > 23)
        return refused_at(WRONG_TIME, time);
    if (r->minute > 59)
        return refused_at(WRONG_TIME, time + 3);
    if (r->second > 60)
        return refused_at(WRONG_TIME, time + 6);
    if (!day_is_good(r))
        return refused_at(WRONG_DATE, date);
    if (!month_is_good(r))
        return refused_at(WRONG_DATE, date + 3);
    if (said < 1 || said > 7)
        return refused_at(WRONG_DATE, weekday_at);
    if (said != weekday(r->year, r->month, r->day))
        return refused_at(WRONG_WEEKDAY, weekday_at);
    return accepted(0);
}

#endif
