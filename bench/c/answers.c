/* The program crates/vectors over the C baseline: answers the cases that stand on standard input, a line each, in the words
   that second/README.md gives. */
#include "cases.h"

enum { LARGEST = 65536, LENT = 256 };

static uint8_t line[2 * LARGEST];
static size_t end;

static void put(const char *text)
{
    while (*text)
        line[end++] = (uint8_t)*text++;
}

static void put_number(unsigned number)
{
    if (number >= 10)
        put_number(number / 10);
    line[end++] = (uint8_t)('0' + number % 10);
}

static void put_hex(const uint8_t *bytes, size_t count)
{
    if (count == 0)
        put("-");
    for (size_t i = 0; i < count; i++) {
        line[end++] = (uint8_t)"0123456789abcdef"[bytes[i] >> 4];
        line[end++] = (uint8_t)"0123456789abcdef"[bytes[i] & 15];
    }
}

static void put_field(char between, unsigned number)
{
    line[end++] = (uint8_t)between;
    put_number(number);
}

static void put_refusal(char between, struct answer a)
{
    put("no");
    put_field(between, a.code);
    put_field(between, (unsigned)a.value);
}

static void put_time(const char *first, char between, const struct reading *r)
{
    const unsigned before[] = {r->year, r->month, r->day, r->hour, r->minute, r->second};
    const unsigned after[] = {r->summer, r->leap, r->change, r->quality};
    put(first);
    for (size_t i = 0; i < 6; i++)
        put_field(between, before[i]);
    line[end++] = (uint8_t)between;
    if (r->offset < 0)
        put("-");
    put_number((unsigned)(r->offset < 0 ? -r->offset : r->offset));
    for (size_t i = 0; i < 4; i++)
        put_field(between, after[i]);
}

/* Only an accepted Uni Erlangen string has a position part. */
static void put_string(unsigned base, const uint8_t *s, size_t length)
{
    enum kind kind = MEINBERG;
    struct reading r;
    bool coasting;
    struct answer a = string_read(base, s, length, &kind, &r, &coasting);
    if (a.code)
        put_refusal(' ', a);
    else {
        put_time(kind == MEINBERG ? "meinberg" : "erlangen", ' ', &r);
        put_field(' ', coasting);
    }
    put(" part ");
    if (!a.code && kind == ERLANGEN)
        put_hex(s + POSITION_START, POSITION_LENGTH);
    else
        put("-");
}

static void put_pulses(uint8_t op, unsigned base, const uint8_t *s, size_t length)
{
    struct reading r;
    uint16_t head;
    struct answer a = op == 3 ? frame_read(base, s, length, &r) : minute_read(base, s, length, &r, &head);
    if (a.code)
        put_refusal(' ', a);
    else
        put_time("time", ' ', &r);
    if (!a.code && op == 4)
        put_field(' ', head);
}

static void put_written(struct answer a, const uint8_t *lent, size_t room)
{
    if (a.code)
        put_refusal(' ', a);
    else {
        put("wrote");
        put_field(' ', (unsigned)a.value);
    }
    put(" ");
    put_hex(lent, room);
}

static void put_write(uint8_t op, unsigned base, const uint8_t *p, size_t length)
{
    uint8_t lent[LENT];
    struct reading r = reading_in(p);
    uint16_t beside = beside_in(p);
    size_t room = p[14];
    memset(lent, 0xA5, sizeof lent);
    struct answer a = op == 5 ? meinberg_write(base, &r, beside != 0, lent, room)
        : op == 6 ? erlangen_write(base, &r, p + WRITER_LENGTH, length - WRITER_LENGTH, lent, room, beside != 0)
        : op == 7 ? frame_write(base, &r, lent, room) : minute_write(base, &r, beside, lent, room);
    put_written(a, lent, room);
}

static void put_telegram(unsigned base, const uint8_t *p)
{
    uint8_t lent[LENT];
    size_t room = telegram_room_in(p);
    memset(lent, 0xA5, sizeof lent);
    put_written(telegram_in(base, p, lent, room), lent, room);
}

static void put_bridged(unsigned base, const uint8_t *p, size_t length)
{
    uint8_t lent[LENT];
    memset(lent, 0xA5, sizeof lent);
    put_written(bridge(base, p + 1, length - 1, lent, p[0]), lent, p[0]);
}

static void put_bridged_with(unsigned base, const uint8_t *p, size_t length)
{
    uint8_t lent[LENT];
    memset(lent, 0xA5, sizeof lent);
    put_written(bridge_with(base, p + 2, length - 2, p[1], lent, p[0]), lent, p[0]);
}

static void put_said(size_t at, struct answer a, const struct reading *r)
{
    put_field(' ', (unsigned)at);
    put(":");
    if (a.code)
        put_refusal(',', a);
    else
        put_time("time", ',', r);
}

static void put_frames(unsigned base, const uint8_t *pulses, size_t count)
{
    struct frame_reader f;
    struct answer a;
    struct reading r;
    put("said");
    frame_reader_start(base, &f);
    for (size_t i = 0; i < count; i++)
        if (frame_reader_take(&f, pulses[i], &a, &r))
            put_said(i + 1, a, &r);
}

static void put_minutes(unsigned base, const uint8_t *symbols, size_t count)
{
    struct minute_reader m;
    struct answer a;
    struct reading r;
    uint16_t head;
    put("said");
    minute_reader_start(base, &m);
    for (size_t i = 0; i < count; i++)
        if (minute_reader_take(&m, symbols[i], &a, &r, &head)) {
            put_said(i + 1, a, &r);
            if (!a.code)
                put_field(',', head);
        }
}

static void put_answer(uint8_t op, unsigned base, const uint8_t *payload, size_t length)
{
    if (op == 1)
        put_string(base, payload, length);
    else if (op == 3 || op == 4)
        put_pulses(op, base, payload, length);
    else if (op >= 5 && op <= 8 && length >= WRITER_LENGTH)
        put_write(op, base, payload, length);
    else if (op == 10 && length >= 1)
        put_bridged(base, payload, length);
    else if (op == 11)
        put_frames(base, payload, length);
    else if (op == 12)
        put_minutes(base, payload, length);
    else if (op == 15 && length >= TELEGRAM_LENGTH)
        put_telegram(base, payload);
    else if (op == 16 && length >= 2 && (payload[1] == COASTING_WORSE || payload[1] == COASTING_DROPPED))
        put_bridged_with(base, payload, length);
    else
        put("bad");
}

int main(void)
{
    static uint8_t payload[LARGEST];
    uint8_t head[5];
    while (read_full(head, 5) == 5) {
        size_t length = number_at(head + 3);
        if (read_full(payload, length) < length)
            break;
        end = 0;
        put_answer(head[0], number_at(head + 1), payload, length);
        line[end++] = '\n';
        write(1, line, end);
    }
    return 0;
}
