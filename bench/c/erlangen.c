/* C baseline: the Uni Erlangen string, STX dd.mm.yy; w; hh:mm:ss; voo:oo; acdfg i; 26 position bytes ETX. */
#include "formats.h"
#include "text.h"

static const char date_and_time[] = "\x02" "00.00.00; 0; 00:00:00; ";
static const char offset_digits[] = "00:00; ";
enum { DATE = 1, WEEKDAY = 11, TIME = 14, SECOND = 20, SIGN = 24, OFFSET = 25, LETTERS = 32, LAST = ERLANGEN_LENGTH - 1 };

static bool is_printable(uint8_t c) { return c >= 32 && c <= 126; }

static bool is_letter_or_space(uint8_t c, char letter) { return c == (uint8_t)letter || c == ' '; }

/* The lowest place with a byte that is not allowed there, or the length. */
static size_t first_bad_place(const uint8_t *s)
{
    static const char letters[] = "#*S!A L";
    for (size_t i = 0; i < SIGN; i++)
        if (!is_shown(date_and_time[i], s[i]))
            return i;
    if (s[SIGN] != '+' && s[SIGN] != '-')
        return SIGN;
    for (size_t i = OFFSET; i < LETTERS; i++)
        if (!is_shown(offset_digits[i - OFFSET], s[i]))
            return i;
    for (size_t i = LETTERS; i < 39; i++)
        if (!is_letter_or_space(s[i], letters[i - LETTERS]))
            return i;
    if (s[39] != ';')
        return 39;
    if (s[40] != ' ')
        return 40;
    for (size_t i = POSITION_START; i < LAST; i++)
        if (!is_printable(s[i]))
            return i;
    return s[LAST] == 3 ? ERLANGEN_LENGTH : LAST;
}

/* The offset in quarter hours; false for minutes other than 00, 15, 30 and 45, minus zero, and what is out of range. */
static bool said_offset(const uint8_t *s, int8_t *offset)
{
    unsigned hours = two_digits(s + OFFSET), minutes = two_digits(s + OFFSET + 3);
    if (minutes >= 60 || minutes % MINUTES_PER_QUARTER != 0)
        return false;
    int size = (int)(QUARTERS_PER_HOUR * hours + minutes / MINUTES_PER_QUARTER);
    bool minus = s[SIGN] == '-';
    if (minus && size == 0)
        return false;
    int said = minus ? -size : size;
    *offset = (int8_t)said;
    return offset_is_good(said);
}

/* For the door alone. */
struct answer erlangen_read(unsigned base, const uint8_t *s, struct reading *r, bool *coasting)
{
    size_t bad = first_bad_place(s);
    if (bad < ERLANGEN_LENGTH)
        return refused_at(WRONG_BYTE, bad);
    r->day = two_digits(s + 1);
    r->month = two_digits(s + 4);
    r->year = (uint16_t)year_of(base, two_digits(s + 7));
    r->hour = two_digits(s + 14);
    r->minute = two_digits(s + 17);
    r->second = two_digits(s + 20);
    r->quality = s[32] == '#' ? 15 : 0;
    r->summer = s[34] == 'S';
    r->change = s[35] == '!';
    r->leap = s[36] == 'A';
    struct answer fault = date_and_time_answer(r, s[WEEKDAY] - '0', DATE, WEEKDAY, TIME);
    if (fault.code)
        return fault;
    if (!said_offset(s, &r->offset))
        return refused_at(WRONG_OFFSET, SIGN);
    if ((s[38] == 'L') != (r->second == 60) || !second_is_good(r))
        return refused_at(WRONG_SECOND, SECOND);
    *coasting = s[33] == '*';
    return accepted(ERLANGEN_LENGTH);
}

static void put_text(uint8_t *out, const struct reading *r, bool coasting)
{
    unsigned size = (unsigned)(r->offset < 0 ? -r->offset : r->offset);
    memcpy(out, date_and_time, SIGN);
    put_two_digits(out + 1, r->day);
    put_two_digits(out + 4, r->month);
    put_two_digits(out + 7, year_digits(r->year));
    out[11] = (uint8_t)('0' + weekday(r->year, r->month, r->day));
    put_two_digits(out + 14, r->hour);
    put_two_digits(out + 17, r->minute);
    put_two_digits(out + 20, r->second);
    out[SIGN] = r->offset < 0 ? '-' : '+';
    memcpy(out + OFFSET, offset_digits, LETTERS - OFFSET);
    put_two_digits(out + OFFSET, size / QUARTERS_PER_HOUR);
    put_two_digits(out + OFFSET + 3, MINUTES_PER_QUARTER * (size % QUARTERS_PER_HOUR));
    out[32] = r->quality == 15 ? '#' : ' ';
    out[33] = coasting ? '*' : ' ';
    out[34] = r->summer ? 'S' : ' ';
    out[35] = r->change ? '!' : ' ';
    out[36] = r->leap ? 'A' : ' ';
    out[37] = ' ';
    out[38] = r->second == 60 ? 'L' : ' ';
    out[39] = ';';
    out[40] = ' ';
}

struct answer erlangen_write(unsigned base, const struct reading *r, const uint8_t *position, size_t position_length,
                             uint8_t *out, size_t room, bool coasting)
{
    if (room < ERLANGEN_LENGTH || position_length != POSITION_LENGTH)
        return refused(WRONG_LENGTH);
    if (RARELY(!base_is_good(base)))
        return refused(WRONG_BASE);
    for (size_t i = 0; i < POSITION_LENGTH; i++)
        if (!is_printable(position[i]))
            return refused_at(WRONG_BYTE, i);
    uint8_t code = reading_code(base, r, 0);
    if (code)
        return refused(code);
    if (r->quality != 0 && r->quality != 15)
        return refused(NOT_CARRIED);
    put_text(out, r, coasting);
    memcpy(out + POSITION_START, position, POSITION_LENGTH);
    out[LAST] = 3;
    return accepted(ERLANGEN_LENGTH);
}
