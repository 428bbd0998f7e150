/* The listing program over the C baseline: the records of a book on standard input, a line each. The first argument is the base
   of the years, 1990 or 2000; without one it is 2000. */
#include "cases.h"
#include "formats.h"

enum { LARGEST_BOOK = 65536, LONGEST_LINE = 64, FIRST_LINE = 32, NO_BASE = 0 };

static uint8_t book[LARGEST_BOOK + 1];
/* no record is shorter than a byte, but only the last is that short */
static uint8_t page[FIRST_LINE + LARGEST_BOOK / MEINBERG_LENGTH * LONGEST_LINE + LONGEST_LINE];
static size_t end;

static void put(const char *text)
{
    while (*text)
        page[end++] = (uint8_t)*text++;
}

static void put_number(uint64_t number)
{
    uint8_t digits[20];
    size_t count = 0;
    do {
        digits[count++] = (uint8_t)('0' + number % 10);
        number /= 10;
    } while (number);
    while (count)
        page[end++] = digits[--count];
}

static void put_signed(int64_t number)
{
    if (number < 0)
        put("-");
    put_number((uint64_t)(number < 0 ? -number : number));
}

static void put_line(size_t at, uint8_t kind, const char *word, int64_t value, uint64_t place)
{
    put_number(at);
    put(" ");
    put_number(kind);
    put(word);
    put_signed(value);
    put(" ");
    put_number(place);
    put("\n");
}

/* The kind has fixed the length, and so which of the two strings the door reads. */
static struct answer read_body(unsigned base, uint8_t kind, const uint8_t *body, size_t length, struct reading *r)
{
    enum kind string;
    bool coasting;
    uint16_t head;
    switch (kind) {
    case 1:
    case 2: return string_read(base, body, length, &string, r, &coasting);
    case 3: return frame_read(base, body, length, r);
    default: return minute_read(base, body, length, r, &head);
    }
}

static void put_record(unsigned base, size_t at, uint8_t kind, size_t length)
{
    struct reading r;
    int64_t stamp;
    struct answer a = read_body(base, kind, book + at + 1, length, &r);
    if (a.code)
        put_line(at, kind, " no ", a.code, a.value);
    else if (!stamp_of(&r, &stamp))
        put_line(at, kind, " no ", OUTSIDE_YEARS, 0);
    else
        put_line(at, kind, " ok ", stamp, 0);
}

static void put_records(unsigned base, size_t size)
{
    static const uint8_t lengths[] = {0, MEINBERG_LENGTH, ERLANGEN_LENGTH, FRAME_LENGTH, MINUTE_LENGTH, LONG_MINUTE_LENGTH};
    for (size_t at = 0; at < size;) {
        uint8_t kind = book[at];
        if (kind < 1 || kind > 5) {
            put_line(at, kind, " no ", UNKNOWN_KIND, 0);
            return;
        }
        size_t length = lengths[kind];
        if (size - at - 1 < length) {
            put_line(at, kind, " no ", CUT_SHORT, 0);
            return;
        }
        put_record(base, at, kind, length);
        at += 1 + length;
    }
}

/* What the word says, or a base that is none. */
static unsigned base_said(const char *word)
{
    return strcmp(word, "1990") == 0 ? EARLY_BASE : strcmp(word, "2000") == 0 ? USUAL_BASE : NO_BASE;
}

int main(int count, char **words)
{
    unsigned base = count > 1 ? base_said(words[1]) : USUAL_BASE;
    size_t size = read_full(book, sizeof book);
    put("at kind answer value place\n");
    if (size > LARGEST_BOOK)
        put_line(0, 0, " no ", WRONG_LENGTH, 0);
    else if (!base_is_good(base))
        put_line(0, 0, " no ", WRONG_BASE, 0);
    else
        put_records(base, size);
    write(1, page, end);
    return 0;
}
