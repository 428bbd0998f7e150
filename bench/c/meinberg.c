/* C baseline: the Meinberg string, STX D:dd.mm.yy;T:w;U:hh.mm.ss;uvxy ETX. */
#include "formats.h"
#include "text.h"

static const char picture[] = "\x02" "D:00.00.00;T:0;U:00.00.00;";
enum { DATE = 3, WEEKDAY = 14, TIME = 18, SECOND = 24, LETTERS = 27, LAST = MEINBERG_LENGTH - 1 };

/* The lowest place with a byte that is not allowed there, or the length. */
static size_t first_bad_place(const uint8_t *s)
{
    for (size_t i = 0; i < LETTERS; i++)
        if (!is_shown(picture[i], s[i]))
            return i;
    if (s[27] != '#' && s[27] != ' ')
        return 27;
    if (s[28] != '*' && s[28] != ' ')
        return 28;
    if (s[29] != 'U' && s[29] != ' ' && s[29] != 'S')
        return 29;
    if (s[30] != '!' && s[30] != 'A' && s[30] != ' ')
        return 30;
    return s[LAST] == 3 ? MEINBERG_LENGTH : LAST;
}

/* For the door alone. */
struct answer meinberg_read(unsigned base, const uint8_t *s, struct reading *r, bool *coasting)
{
    size_t bad = first_bad_place(s);
    if (bad < MEINBERG_LENGTH)
        return refused_at(WRONG_BYTE, bad);
    r->day = two_digits(s + 3);
    r->month = two_digits(s + 6);
    r->year = (uint16_t)year_of(base, two_digits(s + 9));
    r->hour = two_digits(s + 18);
    r->minute = two_digits(s + 21);
    r->second = two_digits(s + 24);
    r->quality = s[27] == '#' ? 15 : 0;
    r->offset = s[29] == 'U' ? 0 : s[29] == 'S' ? SUMMER_OFFSET : WINTER_OFFSET;
    r->summer = s[29] == 'S';
    r->leap = s[30] == 'A';
    r->change = s[30] == '!';
    struct answer fault = date_and_time_answer(r, s[WEEKDAY] - '0', DATE, WEEKDAY, TIME);
    if (fault.code)
        return fault;
    if (!second_is_good(r))
        return refused_at(WRONG_SECOND, SECOND);
    *coasting = s[28] == '*';
    return accepted(MEINBERG_LENGTH);
}

static bool is_carried(const struct reading *r)
{
    bool zone = r->summer ? r->offset == SUMMER_OFFSET : r->offset == 0 || r->offset == WINTER_OFFSET;
    return zone && !(r->leap && r->change) && (r->quality == 0 || r->quality == 15);
}

struct answer meinberg_write(unsigned base, const struct reading *r, bool coasting, uint8_t *out, size_t room)
{
    if (room < MEINBERG_LENGTH)
        return refused(WRONG_LENGTH);
    if (RARELY(!base_is_good(base)))
        return refused(WRONG_BASE);
    uint8_t code = reading_code(base, r, 0);
    if (code)
        return refused(code);
    if (!is_carried(r))
        return refused(NOT_CARRIED);
    memcpy(out, picture, LETTERS);
    put_two_digits(out + 3, r->day);
    put_two_digits(out + 6, r->month);
    put_two_digits(out + 9, year_digits(r->year));
    out[14] = (uint8_t)('0' + weekday(r->year, r->month, r->day));
    put_two_digits(out + 18, r->hour);
    put_two_digits(out + 21, r->minute);
    put_two_digits(out + 24, r->second);
    out[27] = r->quality == 15 ? '#' : ' ';
    out[28] = coasting ? '*' : ' ';
    out[29] = r->summer ? 'S' : r->offset == 0 ? 'U' : ' ';
    out[30] = r->change ? '!' : r->leap ? 'A' : ' ';
    out[LAST] = 3;
    return accepted(MEINBERG_LENGTH);
}
