/* What the two programs of the C baseline read: whole input, the reading in a record's first twelve bytes, and what a telegram
   is made of. */
#ifndef CASES_H
#define CASES_H

#include "formats.h"

/* A writer's record has a reading, what stands beside it and the room that is lent; then the position part. */
enum { PAGE = 128, WRITER_LENGTH = 15, TELEGRAM_LENGTH = 20, MOST = 600 };

static inline size_t read_full(uint8_t *buffer, size_t room)
{
    size_t done = 0;
    for (ssize_t got; done < room && (got = read(0, buffer + done, room - done)) > 0;)
        done += (size_t)got;
    return done;
}

static inline void print_decimal(uint64_t number)
{
    uint8_t text[20];
    size_t at = sizeof text;
    do {
        text[--at] = (uint8_t)('0' + number % 10);
        number /= 10;
    } while (number);
    write(1, text + at, sizeof text - at);
}

static inline struct reading reading_in(const uint8_t *p)
{
    return (struct reading){
        .year = (uint16_t)(p[0] + 256 * p[1]), .month = p[2], .day = p[3], .hour = p[4], .minute = p[5], .second = p[6],
        .offset = (int8_t)p[7], .summer = p[8] != 0, .leap = p[9] != 0, .change = p[10] != 0, .quality = p[11]};
}

static inline uint16_t number_at(const uint8_t *p) { return (uint16_t)(p[0] + 256 * p[1]); }

/* A telegram of a record of TELEGRAM_LENGTH bytes, written to what is lent. */
static inline struct answer telegram_in(unsigned base, const uint8_t *p, uint8_t *lent, size_t room)
{
    const struct summer_rule rule = {{p[0], p[1], p[2]}, {p[3], p[4], p[5]}};
    const struct sent_minute sent = {number_at(p + 6), p[8], p[9], p[10], p[11]};
    const struct leap_second leap = {p[12] != 0, number_at(p + 13), p[15], p[16]};
    return telegram_write(base, &rule, &leap, &sent, lent, room, number_at(p + 17));
}

static inline size_t telegram_room_in(const uint8_t *p) { return p[19]; }

static inline uint16_t beside_in(const uint8_t *p) { return (uint16_t)(p[12] + 256 * p[13]); }

#endif
