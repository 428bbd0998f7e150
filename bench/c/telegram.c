/* C baseline: the DCF77 minute made from a summer rule, a configured leap second and the UTC minute being sent. */
#include "formats.h"

/* A common year has no 29 February, which no set date may be. */
enum { COMMON_YEAR = 2001, LARGEST_HEAD = 32767, LATEST_AFTER = 6 };

static bool set_day_is_good(const struct set_day *s)
{
    return s->weekday >= 1 && s->weekday <= 7 && s->month >= 1 && s->month <= 12 && s->day >= 1
        && s->day <= month_length(COMMON_YEAR, s->month) && (s->month < 12 || s->day <= 25);
}

/* In a leap year the end is as far from the begin as in a common one, or a day further where 29 February lies between. */
static bool rule_is_good(const struct summer_rule *rule)
{
    const struct set_day *begin = &rule->begin, *end = &rule->end;
    return set_day_is_good(begin) && set_day_is_good(end)
        && day_of_year(COMMON_YEAR, begin->month, begin->day) + LATEST_AFTER < day_of_year(COMMON_YEAR, end->month, end->day);
}

static bool leap_is_good(unsigned base, const struct leap_second *leap)
{
    return !leap->is_set || (year_is_good(base, leap->year) && leap->month >= 1 && leap->month <= 12
                             && leap->day == month_length(leap->year, leap->month));
}

/* The day of the year of the first day at or after the set date that falls on the set weekday. */
static unsigned day_of_change(const struct set_day *s, unsigned year)
{
    return day_of_year(year, s->month, s->day) + (s->weekday + 7 - weekday(year, s->month, s->day)) % 7;
}

static void go_to_next_day(struct reading *r)
{
    if (++r->day <= month_length(r->year, r->month))
        return;
    r->day = 1;
    if (++r->month <= 12)
        return;
    r->month = 1;
    r->year++;
}

static void add_minute(struct reading *r)
{
    if (++r->minute < 60)
        return;
    r->minute = 0;
    if (++r->hour < 24)
        return;
    r->hour = 0;
    go_to_next_day(r);
}

/* The zone of the minute, still in UTC, and whether a change is announced: where the hour being sent is the first of its day,
   that day is the minute's too. */
static void set_summer(struct reading *r, const struct summer_rule *rule, const struct sent_minute *sent)
{
    unsigned day = day_of_year(r->year, r->month, r->day);
    unsigned begin = day_of_change(&rule->begin, r->year), end = day_of_change(&rule->end, r->year);
    unsigned hour = day * 24 + r->hour;
    r->summer = begin * 24 + 1 <= hour && hour < end * 24 + 1;
    r->offset = r->summer ? SUMMER_OFFSET : WINTER_OFFSET;
    r->change = sent->hour == 0 && (day == begin || day == end);
}

static bool is_last_hour_of(const struct leap_second *leap, const struct sent_minute *sent)
{
    return leap->is_set && sent->hour == 23 && sent->day == leap->day && sent->month == leap->month && sent->year == leap->year;
}

/* From UTC to the time of the zone. */
static void go_to_zone(struct reading *r)
{
    r->hour += r->offset / QUARTERS_PER_HOUR;
    if (r->hour >= 24) {
        r->hour -= 24;
        go_to_next_day(r);
    }
}

struct answer telegram_write(unsigned base, const struct summer_rule *rule, const struct leap_second *leap,
                             const struct sent_minute *sent, uint8_t *out, size_t room, uint16_t head)
{
    if (room < MINUTE_LENGTH)
        return refused(WRONG_LENGTH);
    if (RARELY(!base_is_good(base)))
        return refused(WRONG_BASE);
    if (!rule_is_good(rule))
        return refused(WRONG_RULE);
    struct reading r = {.year = sent->year, .month = sent->month, .day = sent->day, .hour = sent->hour, .minute = sent->minute};
    if (!time_is_good(&r))
        return refused(WRONG_TIME);
    if (!date_is_good(base, &r))
        return refused(WRONG_DATE);
    if (head > LARGEST_HEAD)
        return refused(WRONG_QUALITY);
    if (!leap_is_good(base, leap))
        return refused(WRONG_SECOND);
    add_minute(&r);
    if (!year_is_good(base, r.year))
        return refused(OUTSIDE_YEARS);
    set_summer(&r, rule, sent);
    r.leap = is_last_hour_of(leap, sent);
    go_to_zone(&r);
    return year_is_good(base, r.year) ? minute_write(base, &r, head, out, room) : refused(OUTSIDE_YEARS);
}
