/* C baseline: the IEEE 1344 frame of 100 pulses. */
#include "formats.h"
#include "row.h"

/* A 2 is a mark, a 0 is always 0, and a 1 stands for 0 or 1. */
static const char outline[] =
    "2111101112" "1111011102" "1111011002" "1111011112" "1100000002"
    "1111011112" "1111111112" "1111110002" "1111111112" "1111111102";
enum { SECOND = 1, MINUTE = 10, HOUR = 20, DAY = 30, YEAR = 50, DELETION = 61, SIGN = 64, PARITY = 75, SECOND_OF_DAY = 80 };
enum { MARK = 2 };
/* The pulses count half hours, a reading's offset quarters. */
enum { QUARTERS_PER_HALF = 2 };

static size_t first_bad_place(const uint8_t *s)
{
    for (size_t i = 0; i < FRAME_LENGTH; i++)
        if (outline[i] == '1' ? s[i] > 1 : s[i] != outline[i] - '0')
            return i;
    return FRAME_LENGTH;
}

bool frame_is_outlined(const uint8_t *s)
{
    for (size_t i = 0; i < FRAME_LENGTH; i++)
        if (outline[i] == '2' ? s[i] != MARK : s[i] > 1)
            return false;
    return true;
}

/* The first pulse of the lowest field that has a digit over nine, or 0. */
static size_t field_over_nine(const uint8_t *s)
{
    if (bits(s + SECOND, 4) > 9)
        return SECOND;
    if (bits(s + MINUTE, 4) > 9)
        return MINUTE;
    if (bits(s + HOUR, 4) > 9)
        return HOUR;
    if (bits(s + DAY, 4) > 9 || bits(s + DAY + 5, 4) > 9)
        return DAY;
    return bits(s + YEAR, 4) > 9 || bits(s + YEAR + 5, 4) > 9 ? YEAR : 0;
}

/* Month and day of a day of the year; false where the year does not have it. */
static bool set_date(struct reading *r, unsigned day)
{
    if (day < 1 || day > 365u + is_leap(r->year))
        return false;
    unsigned month = 1;
    for (unsigned length; day > (length = month_length(r->year, month)); month++)
        day -= length;
    r->month = (uint8_t)month;
    r->day = (uint8_t)day;
    return true;
}

/* Everything but the date and the offset. */
static void set_fields(unsigned base, struct reading *r, const uint8_t *s)
{
    r->second = (uint8_t)(bits(s + 1, 4) + 10 * bits(s + 6, 3));
    r->minute = (uint8_t)(bits(s + 10, 4) + 10 * bits(s + 15, 3));
    r->hour = (uint8_t)(bits(s + 20, 4) + 10 * bits(s + 25, 2));
    r->year = (uint16_t)year_of(base, bits(s + 50, 4) + 10 * bits(s + 55, 4));
    r->leap = s[60];
    r->change = s[62];
    r->summer = s[63];
    r->quality = (uint8_t)bits(s + 71, 4);
}

struct answer frame_read(unsigned base, const uint8_t *s, size_t length, struct reading *r)
{
    if (length != FRAME_LENGTH)
        return refused(WRONG_LENGTH);
    if (RARELY(!base_is_good(base)))
        return refused(WRONG_BASE);
    size_t bad = first_bad_place(s);
    if (bad < FRAME_LENGTH)
        return refused_at(WRONG_BYTE, bad);
    size_t over = field_over_nine(s);
    if (over)
        return refused_at(WRONG_DIGIT, over);
    if (is_odd(s, 1, PARITY))
        return refused_at(WRONG_PARITY, PARITY);
    set_fields(base, r, s);
    unsigned day = bits(s + 30, 4) + 10 * bits(s + 35, 4) + 100 * bits(s + 40, 2);
    if (!time_is_good(r))
        return refused_at(WRONG_TIME, r->second > 60 ? SECOND : r->minute > 59 ? MINUTE : HOUR);
    if (!set_date(r, day))
        return refused_at(WRONG_DATE, DAY);
    if (bits(s + 80, 9) + (bits(s + 90, 8) << 9) != r->hour * 3600u + r->minute * 60u + r->second)
        return refused_at(WRONG_SECOND_OF_DAY, SECOND_OF_DAY);
    int added = QUARTERS_PER_HALF * (int)(2 * bits(s + 65, 4) + s[70]);
    bool minus = s[SIGN];
    r->offset = (int8_t)(minus ? added : -added);
    if ((minus && added == 0) || !offset_is_good(r->offset))
        return refused_at(WRONG_OFFSET, SIGN);
    if (!second_is_good(r))
        return refused_at(WRONG_SECOND, SECOND);
    if (s[DELETION])
        return refused_at(DELETED, DELETION);
    return accepted(FRAME_LENGTH);
}

static void put_date(uint8_t *out, const struct reading *r)
{
    unsigned day = day_of_year(r->year, r->month, r->day), year = year_digits(r->year);
    put_bits(out + 30, 4, day % 10);
    put_bits(out + 35, 4, day / 10 % 10);
    put_bits(out + 40, 2, day / 100);
    put_bits(out + 50, 4, year % 10);
    put_bits(out + 55, 4, year / 10);
}

static void put_time(uint8_t *out, const struct reading *r)
{
    unsigned second_of_day = r->hour * 3600u + r->minute * 60u + r->second;
    put_bits(out + 1, 4, r->second % 10);
    put_bits(out + 6, 3, r->second / 10);
    put_bits(out + 10, 4, r->minute % 10);
    put_bits(out + 15, 3, r->minute / 10);
    put_bits(out + 20, 4, r->hour % 10);
    put_bits(out + 25, 2, r->hour / 10);
    put_bits(out + 80, 9, second_of_day);
    put_bits(out + 90, 8, second_of_day >> 9);
}

struct answer frame_write(unsigned base, const struct reading *r, uint8_t *out, size_t room)
{
    if (room < FRAME_LENGTH)
        return refused(WRONG_LENGTH);
    if (RARELY(!base_is_good(base)))
        return refused(WRONG_BASE);
    uint8_t code = reading_code(base, r, 0);
    if (code)
        return refused(code);
    if (r->offset % QUARTERS_PER_HALF != 0)
        return refused(NOT_CARRIED);
    memset(out, 0, FRAME_LENGTH);
    out[0] = MARK;
    for (size_t mark = 9; mark < FRAME_LENGTH; mark += 10)
        out[mark] = MARK;
    put_time(out, r);
    put_date(out, r);
    unsigned halves = (unsigned)(r->offset < 0 ? -r->offset : r->offset) / QUARTERS_PER_HALF;
    out[60] = r->leap;
    out[62] = r->change;
    out[63] = r->summer;
    out[64] = r->offset > 0; /* what is added to local time is then minus */
    put_bits(out + 65, 4, halves / 2);
    out[70] = halves % 2;
    put_bits(out + 71, 4, r->quality);
    out[PARITY] = is_odd(out, 1, PARITY - 1);
    return accepted(FRAME_LENGTH);
}
