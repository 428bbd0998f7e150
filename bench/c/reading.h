/* The plain C baseline's reading: its fields, its calendar and the checks that every format shares. Small functions stand
   here so that each format's file can have them inlined. */
#ifndef READING_H
#define READING_H

#include "plain.h"

enum {
    WRONG_LENGTH = 1, WRONG_BYTE, WRONG_DIGIT, WRONG_PARITY, WRONG_WEEKDAY = 6, WRONG_SECOND_OF_DAY, WRONG_OFFSET,
    WRONG_SECOND, DELETED, NOT_CARRIED, OUTSIDE_YEARS, CUT_SHORT, UNKNOWN_KIND, WRONG_TIME, WRONG_DATE,
    WRONG_QUALITY /* or the head */, WRONG_RULE, WRONG_BASE
};

/* Where the hundred years of two year digits start: one of these, and any other number is refused. */
enum { EARLY_BASE = 1990, USUAL_BASE = 2000 };

/* What an offset counts, and how far it goes to either side of UTC. */
enum { MINUTES_PER_QUARTER = 15, QUARTERS_PER_HOUR = 4, LOWEST_OFFSET = -48, HIGHEST_OFFSET = 56 };
/* Central European time's. */
enum { WINTER_OFFSET = QUARTERS_PER_HOUR, SUMMER_OFFSET = 2 * QUARTERS_PER_HOUR };

struct reading {
    uint16_t year;
    uint8_t month, day, hour, minute, second;
    int8_t offset; /* local minus UTC, in quarter hours */
    bool summer, leap, change;
    uint8_t quality;
};

/* code 0: accepted, and the value is the length written; else the value is the place. */
struct answer {
    uint8_t code;
    size_t value;
};

static inline struct answer refused(uint8_t code) { return (struct answer){code, 0}; }
static inline struct answer refused_at(uint8_t code, size_t place) { return (struct answer){code, place}; }
static inline struct answer accepted(size_t length) { return (struct answer){0, length}; }

/* Each refusal makes what comes after it look half as likely, and with one more of them clang does not inline a reader's last
   functions. So the one for a base is said to be rare. */
#define RARELY(condition) __builtin_expect(condition, 0)

static inline bool base_is_good(unsigned base) { return base == EARLY_BASE || base == USUAL_BASE; }

/* The one year of the base's hundred that has these last two digits. */
static inline unsigned year_of(unsigned base, unsigned digits)
{
    unsigned year = 2000 + digits;
    return year <= base + 99u ? year : year - 100;
}

static inline unsigned year_digits(unsigned year) { return year % 100; }

/* Whether a year is of the base's hundred. */
static inline bool year_is_good(unsigned base, unsigned year) { return year >= base && year <= base + 99u; }

static inline bool is_leap(unsigned year) { return year % 4 == 0 && (year % 100 != 0 || year % 400 == 0); }

static inline unsigned month_length(unsigned year, unsigned month)
{
    static const uint8_t lengths[12] = {31, 28, 31, 30, 31, 30, 31, 31, 30, 31, 30, 31};
    return month == 2 && is_leap(year) ? 29 : lengths[month - 1];
}

static inline unsigned day_of_year(unsigned year, unsigned month, unsigned day)
{
    static const uint16_t before[12] = {0, 31, 59, 90, 120, 151, 181, 212, 243, 273, 304, 334};
    return before[month - 1] + day + (month > 2 && is_leap(year));
}

/* The days since 1 January 1988, for the years 1988 to 2099: the first is a leap year, and so is every fourth after it. */
static inline unsigned days_since_1988(unsigned year, unsigned month, unsigned day)
{
    unsigned years = year - 1988;
    return years * 365 + (years + 3) / 4 + day_of_year(year, month, day) - 1;
}

/* 1 is Monday; 1 January 1988 is a Friday. */
static inline unsigned weekday(unsigned year, unsigned month, unsigned day)
{
    return (days_since_1988(year, month, day) + 4) % 7 + 1;
}

/* 1 January 2000 is day 0; the first day of 1990 and the last of 2099 are the first and the last that have a stamp. */
enum { DAY_ZERO_SINCE_1988 = 4383, FIRST_STAMPED_DAY = -3652, LAST_STAMPED_DAY = 36524 };

/* The days since 1 January 2000, negative before it, of the same years. */
static inline int day_number(unsigned year, unsigned month, unsigned day)
{
    return (int)days_since_1988(year, month, day) - DAY_ZERO_SINCE_1988;
}

static inline bool month_is_good(const struct reading *r) { return r->month >= 1 && r->month <= 12; }

/* Under a bad month a day is bad only outside 1 to 31. */
static inline bool day_is_good(const struct reading *r)
{
    return r->day >= 1 && r->day <= (month_is_good(r) ? month_length(r->year, r->month) : 31);
}

static inline bool date_is_good(unsigned base, const struct reading *r)
{
    return year_is_good(base, r->year) && month_is_good(r) && day_is_good(r);
}

static inline bool time_is_good(const struct reading *r) { return r->hour <= 23 && r->minute <= 59 && r->second <= 60; }

static inline bool offset_is_good(int offset) { return offset >= LOWEST_OFFSET && offset <= HIGHEST_OFFSET; }

/* The local minute of the day less the offset: UTC's, but 1440 too low or too high where UTC has another date. */
static inline int utc_minutes(const struct reading *r) { return r->hour * 60 + r->minute - MINUTES_PER_QUARTER * r->offset; }

/* The UTC minute of the day, 0 to 1439, and the UTC month and day of a reading with good fields. */
struct utc {
    int minute;
    unsigned month, day;
};

static inline struct utc utc_of(const struct reading *r)
{
    struct utc u = {utc_minutes(r), r->month, r->day};
    if (u.minute < 0) {
        u.minute += 1440;
        if (--u.day == 0) {
            u.month = u.month == 1 ? 12 : u.month - 1;
            u.day = month_length(r->year, u.month);
        }
    } else if (u.minute >= 1440) {
        u.minute -= 1440;
        if (++u.day > month_length(r->year, u.month)) {
            u.month = u.month == 12 ? 1 : u.month + 1;
            u.day = 1;
        }
    }
    return u;
}

/* 23:59 UTC on the last day of a month. A UTC date in another year than the local one is in December or January, whose
   length no year changes. */
static inline bool in_leap_minute(const struct reading *r)
{
    struct utc u = utc_of(r);
    return u.minute == 1439 && u.day == month_length(r->year, u.month);
}

/* 00:00 UTC on the first of a month. */
static inline bool after_leap_minute(const struct reading *r)
{
    struct utc u = utc_of(r);
    return u.minute == 0 && u.day == 1;
}

static inline bool second_is_good(const struct reading *r) { return r->second != 60 || in_leap_minute(r); }

/* The stamp of a reading that its reader accepted, whichever the base; false where its UTC day lies outside 1990 to 2099. */
static inline bool stamp_of(const struct reading *r, int64_t *stamp)
{
    int minute = utc_minutes(r);
    int day = day_number(r->year, r->month, r->day) + (minute < 0 ? -1 : minute >= 1440 ? 1 : 0);
    if (day < FIRST_STAMPED_DAY || day > LAST_STAMPED_DAY)
        return false;
    minute += minute < 0 ? 1440 : minute >= 1440 ? -1440 : 0;
    *stamp = (int64_t)day * 86401 + minute * 60 + r->second;
    return true;
}

/* What every writer asks of a reading, under a good base, and of a head, 0 where the format has none: 0, or the first of the
   codes 15, 16, 17, 8 and 9. */
static inline uint8_t reading_code(unsigned base, const struct reading *r, uint16_t head)
{
    if (!time_is_good(r))
        return WRONG_TIME;
    if (!date_is_good(base, r))
        return WRONG_DATE;
    if (r->quality > 15 || head > 32767)
        return WRONG_QUALITY;
    if (!offset_is_good(r->offset))
        return WRONG_OFFSET;
    return second_is_good(r) ? 0 : WRONG_SECOND;
}

#endif
