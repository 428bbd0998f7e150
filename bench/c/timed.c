/* The program crates/timed over the C baseline: one operation on each of the records that stand on standard input, and a
   sum over the answers. Before them stand the operation, the length of a record and the base of the years. */
#include "cases.h"

static uint64_t of_reading(const struct reading *r)
{
    unsigned offset = (unsigned)(r->offset < 0 ? -r->offset : r->offset);
    return (uint64_t)r->year + r->month + r->day + r->hour + r->minute + r->second + offset
        + r->summer + r->leap + r->change + r->quality;
}

static uint64_t of_answer(struct answer a) { return 256 * (uint64_t)a.code + a.value; }

static uint64_t of_read(struct answer a, const struct reading *r, unsigned beside)
{
    return a.code ? of_answer(a) : of_reading(r) + beside;
}

/* What a telegram is made of is taken apart here, within the record's own work, as crates/timed does. */
static uint64_t of_telegram(unsigned base, const uint8_t *record, size_t size, uint8_t *page)
{
    if (size < TELEGRAM_LENGTH)
        return 0;
    size_t room = telegram_room_in(record);
    return of_answer(telegram_in(base, record, page, room < PAGE ? room : PAGE));
}

/* Not inlined, so that the choice of the operation is made for each record, as it is in crates/timed. */
__attribute__((noinline)) static uint64_t read_one(uint8_t op, unsigned base, const uint8_t *record, size_t size, uint8_t *page)
{
    struct reading r;
    bool coasting = false;
    uint16_t head = 0;
    enum kind kind = MEINBERG;
    struct answer a;
    switch (op) {
    case 1: a = string_read(base, record, size, &kind, &r, &coasting); return of_read(a, &r, coasting + (unsigned)kind);
    case 3: a = frame_read(base, record, size, &r); return of_read(a, &r, 0);
    case 4: a = minute_read(base, record, size, &r, &head); return of_read(a, &r, head);
    case 13: return of_answer(bridge(base, record, size, page, PAGE));
    case 14: return of_answer(bridge_with(base, record, size, COASTING_DROPPED, page, PAGE));
    case 15: return of_telegram(base, record, size, page);
    default: return size;
    }
}

static uint64_t frames(unsigned base, const uint8_t *pulses, size_t count)
{
    struct frame_reader f;
    struct answer a;
    struct reading r;
    uint64_t sum = 0;
    frame_reader_start(base, &f);
    for (size_t i = 0; i < count; i++)
        if (frame_reader_take(&f, pulses[i], &a, &r))
            sum += a.code ? of_answer(a) : of_reading(&r);
    return sum;
}

static uint64_t minutes(unsigned base, const uint8_t *symbols, size_t count)
{
    struct minute_reader m;
    struct answer a;
    struct reading r;
    uint16_t head;
    uint64_t sum = 0;
    minute_reader_start(base, &m);
    for (size_t i = 0; i < count; i++)
        if (minute_reader_take(&m, symbols[i], &a, &r, &head))
            sum += a.code ? of_answer(a) : of_reading(&r) + head;
    return sum;
}

/* Where the record that starts at `at` ends; the last may be cut off. */
static size_t end_of(size_t at, size_t size, size_t length)
{
    return size < 1 || length - at < size ? length : at + size;
}

static uint64_t reads(uint8_t op, size_t size, unsigned base, const uint8_t *records, size_t length, uint8_t *page)
{
    uint64_t sum = 0;
    for (size_t at = 0, end; at < length; at = end) {
        end = end_of(at, size, length);
        sum += read_one(op, base, records + at, end - at, page);
    }
    return sum;
}

__attribute__((noinline)) static uint64_t write_one(uint8_t op, unsigned base, const struct reading *r, const uint8_t *record,
                                                    size_t size, uint8_t *page)
{
    if (size < WRITER_LENGTH)
        return 0;
    uint16_t beside = beside_in(record);
    size_t room = record[14] < PAGE ? record[14] : PAGE;
    switch (op) {
    case 5: return of_answer(meinberg_write(base, r, beside != 0, page, room));
    case 6: return of_answer(erlangen_write(base, r, record + WRITER_LENGTH, size - WRITER_LENGTH, page, room, beside != 0));
    case 7: return of_answer(frame_write(base, r, page, room));
    case 8: return of_answer(minute_write(base, r, beside, page, room));
    default: return beside;
    }
}

/* All readings are taken apart first, as crates/timed does. */
static uint64_t writes(uint8_t op, size_t size, unsigned base, const uint8_t *records, size_t length, uint8_t *page)
{
    static struct reading readings[MOST];
    uint64_t sum = 0;
    for (size_t at = 0, n = 0, end; at < length && n < MOST; at = end, n++) {
        end = end_of(at, size, length);
        if (end - at >= WRITER_LENGTH)
            readings[n] = reading_in(records + at);
    }
    for (size_t at = 0, n = 0, end; at < length && n < MOST; at = end, n++) {
        end = end_of(at, size, length);
        sum += write_one(op, base, &readings[n], records + at, end - at, page);
    }
    return sum;
}

int main(void)
{
    static uint8_t input[65536], page[PAGE];
    uint8_t head[4];
    read_full(head, 4);
    size_t length = read_full(input, sizeof input);
    uint8_t op = head[0];
    unsigned base = number_at(head + 2);
    uint64_t sum = op == 11 ? frames(base, input, length)
        : op == 12 ? minutes(base, input, length)
        : op >= 5 && op <= 9 ? writes(op, head[1], base, input, length, page)
        : reads(op, head[1], base, input, length, page);
    print_decimal(sum);
    write(1, "\n", 1);
    write(1, page, PAGE);
    return 0;
}
