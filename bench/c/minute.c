/* C baseline: the DCF77 minute of 60 or 61 marks. */
#include "formats.h"
#include "row.h"

enum { ZONE = 17, START = 20, MINUTE = 21, HOUR = 29, DAY = 36, WEEKDAY = 42, MONTH = 45, YEAR = 50, MARKS = 59 };
enum { GAP = 2 };

/* Marks 0 to 58 are 0 or 1, but the first is 0 and mark 20 is 1; a 0 at 59 where there are 61, and the gap at the end. */
static size_t first_bad_place(const uint8_t *s, size_t length)
{
    for (size_t i = 0; i < MARKS; i++)
        if (s[i] > (i == 0 ? 0 : 1) || (i == START && s[i] != 1))
            return i;
    if (length == LONG_MINUTE_LENGTH && s[MARKS] != 0)
        return MARKS;
    return s[length - 1] == GAP ? length : length - 1;
}

/* The first mark of the lowest field that has a digit over nine, or 0. */
static size_t field_over_nine(const uint8_t *s)
{
    if (bits(s + MINUTE, 4) > 9)
        return MINUTE;
    if (bits(s + HOUR, 4) > 9)
        return HOUR;
    if (bits(s + DAY, 4) > 9)
        return DAY;
    if (bits(s + MONTH, 4) > 9)
        return MONTH;
    return bits(s + YEAR, 4) > 9 || bits(s + YEAR + 4, 4) > 9 ? YEAR : 0;
}

/* The lowest parity that is wrong, or 0. */
static size_t wrong_parity(const uint8_t *s)
{
    return is_odd(s, 21, 28) ? 28 : is_odd(s, 29, 35) ? 35 : is_odd(s, 36, 58) ? 58 : 0;
}

static void set_fields(unsigned base, struct reading *r, const uint8_t *s)
{
    r->minute = (uint8_t)(bits(s + 21, 4) + 10 * bits(s + 25, 3));
    r->hour = (uint8_t)(bits(s + 29, 4) + 10 * bits(s + 33, 2));
    r->day = (uint8_t)(bits(s + 36, 4) + 10 * bits(s + 40, 2));
    r->month = (uint8_t)(bits(s + 45, 4) + 10 * bits(s + 49, 1));
    r->year = (uint16_t)year_of(base, bits(s + 50, 4) + 10 * bits(s + 54, 4));
    r->second = 0;
    r->quality = 0;
    r->change = s[16];
    r->summer = s[17];
    r->offset = s[17] ? SUMMER_OFFSET : WINTER_OFFSET;
    r->leap = s[19];
}

/* The first of the codes 15, 16 and 6, within a code the lowest mark; code 0 where all is well. */
static struct answer date_and_time_answer(const struct reading *r, unsigned said)
{
    if (r->minute > 59)
        return refused_at(WRONG_TIME, MINUTE);
    if (r->hour > 23)
        return refused_at(WRONG_TIME, HOUR);
    if (!day_is_good(r))
        return refused_at(WRONG_DATE, DAY);
    if (said == 0)
        return refused_at(WRONG_DATE, WEEKDAY);
    if (!month_is_good(r))
        return refused_at(WRONG_DATE, MONTH);
    if (said != weekday(r->year, r->month, r->day))
        return refused_at(WRONG_WEEKDAY, WEEKDAY);
    return accepted(0);
}

static bool is_long(const struct reading *r) { return r->leap && after_leap_minute(r); }

struct answer minute_read(unsigned base, const uint8_t *s, size_t length, struct reading *r, uint16_t *head)
{
    if (length != MINUTE_LENGTH && length != LONG_MINUTE_LENGTH)
        return refused(WRONG_LENGTH);
    if (RARELY(!base_is_good(base)))
        return refused(WRONG_BASE);
    size_t bad = first_bad_place(s, length);
    if (bad < length)
        return refused_at(WRONG_BYTE, bad);
    size_t over = field_over_nine(s);
    if (over)
        return refused_at(WRONG_DIGIT, over);
    size_t parity = wrong_parity(s);
    if (parity)
        return refused_at(WRONG_PARITY, parity);
    set_fields(base, r, s);
    struct answer fault = date_and_time_answer(r, bits(s + WEEKDAY, 3));
    if (fault.code)
        return fault;
    if (s[ZONE] == s[ZONE + 1])
        return refused_at(WRONG_OFFSET, ZONE);
    if (is_long(r) != (length == LONG_MINUTE_LENGTH))
        return refused_at(WRONG_SECOND, length - 1);
    *head = (uint16_t)bits(s + 1, 15);
    return accepted(length);
}

static bool is_carried(const struct reading *r)
{
    return r->second == 0 && r->quality == 0 && r->offset == (r->summer ? SUMMER_OFFSET : WINTER_OFFSET);
}

static void put_marks(uint8_t *out, const struct reading *r, uint16_t head)
{
    unsigned year = year_digits(r->year);
    out[0] = 0;
    put_bits(out + 1, 15, head);
    out[16] = r->change;
    out[17] = r->summer;
    out[18] = !r->summer;
    out[19] = r->leap;
    out[START] = 1;
    put_bits(out + 21, 4, r->minute % 10);
    put_bits(out + 25, 3, r->minute / 10);
    out[28] = is_odd(out, 21, 27);
    put_bits(out + 29, 4, r->hour % 10);
    put_bits(out + 33, 2, r->hour / 10);
    out[35] = is_odd(out, 29, 34);
    put_bits(out + 36, 4, r->day % 10);
    put_bits(out + 40, 2, r->day / 10);
    put_bits(out + 42, 3, weekday(r->year, r->month, r->day));
    put_bits(out + 45, 4, r->month % 10);
    out[49] = r->month / 10;
    put_bits(out + 50, 4, year % 10);
    put_bits(out + 54, 4, year / 10);
    out[58] = is_odd(out, 36, 57);
}

struct answer minute_write(unsigned base, const struct reading *r, uint16_t head, uint8_t *out, size_t room)
{
    if (room < MINUTE_LENGTH)
        return refused(WRONG_LENGTH);
    if (RARELY(!base_is_good(base)))
        return refused(WRONG_BASE);
    uint8_t code = reading_code(base, r, head);
    if (code)
        return refused(code);
    if (!is_carried(r))
        return refused(NOT_CARRIED);
    size_t length = is_long(r) ? LONG_MINUTE_LENGTH : MINUTE_LENGTH;
    if (room < length)
        return refused(WRONG_LENGTH);
    put_marks(out, r, head);
    out[MARKS] = 0;
    out[length - 1] = GAP;
    return accepted(length);
}
