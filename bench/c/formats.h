/* The formats of the C baseline: readers, of which one takes both clock strings, writers, the telegram made from a summer rule,
   the bridge and the pulse readers. A reader's answer has code 0 where it filled in the reading, and what stands beside it.
   Each takes the base of the two year digits, any number, and refuses a base that is none straight after code 1. */
#ifndef FORMATS_H
#define FORMATS_H

#include "reading.h"

enum { MEINBERG_LENGTH = 32, ERLANGEN_LENGTH = 68, POSITION_START = 41, POSITION_LENGTH = 26,
       FRAME_LENGTH = 100, MINUTE_LENGTH = 60, LONG_MINUTE_LENGTH = 61 };

/* Which of the two clock strings; the numbers are those of a book. */
enum kind { MEINBERG = 1, ERLANGEN };
/* The one door for both: goes by the length, and says which of them it is. */
struct answer string_read(unsigned base, const uint8_t *s, size_t length, enum kind *kind, struct reading *r, bool *coasting);
/* For the door alone, which has looked at the length and at the base. */
struct answer meinberg_read(unsigned base, const uint8_t *s, struct reading *r, bool *coasting);
struct answer erlangen_read(unsigned base, const uint8_t *s, struct reading *r, bool *coasting);

struct answer meinberg_write(unsigned base, const struct reading *r, bool coasting, uint8_t *out, size_t room);
/* Of seven arguments one goes by the stack: here, and for a telegram, the one that is looked at last. */
struct answer erlangen_write(unsigned base, const struct reading *r, const uint8_t *position, size_t position_length,
                             uint8_t *out, size_t room, bool coasting);

struct answer frame_read(unsigned base, const uint8_t *s, size_t length, struct reading *r);
/* Marks exactly where due, and 0 or 1 elsewhere, in 100 pulses. */
bool frame_is_outlined(const uint8_t *s);
struct answer frame_write(unsigned base, const struct reading *r, uint8_t *out, size_t room);

struct answer minute_read(unsigned base, const uint8_t *s, size_t length, struct reading *r, uint16_t *head);
struct answer minute_write(unsigned base, const struct reading *r, uint16_t head, uint8_t *out, size_t room);

/* What a telegram is made of. Summer begins and ends at 01:00 UTC on the first day at or after a set date that falls on a set
   weekday, 1 is Monday. The dates and the minute are in UTC. */
struct set_day {
    uint8_t month, day, weekday;
};
struct summer_rule {
    struct set_day begin, end;
};
struct leap_second {
    bool is_set;
    uint16_t year;
    uint8_t month, day;
};
struct sent_minute {
    uint16_t year;
    uint8_t month, day, hour, minute;
};
/* Writes the minute that names the one after the minute being sent. */
struct answer telegram_write(unsigned base, const struct summer_rule *rule, const struct leap_second *leap,
                             const struct sent_minute *sent, uint8_t *out, size_t room, uint16_t head);

/* What becomes of a string's coasting mark, for which a frame has no pulse: the quality is 15, or the mark is dropped. The
   numbers are those of op 16 (second/README.md). */
enum coasting { COASTING_WORSE = 1, COASTING_DROPPED };
/* Reads a string, whichever it is, and writes the frame of its reading. */
struct answer bridge_with(unsigned base, const uint8_t *s, size_t length, enum coasting way, uint8_t *out, size_t room);
/* The same with COASTING_WORSE. */
struct answer bridge(unsigned base, const uint8_t *s, size_t length, uint8_t *out, size_t room);

/* The pulse readers take the base when they are started, and say true where the pulse closed a frame or a minute, and then the
   answer, which under a base that is none is its refusal. */
struct frame_reader {
    uint8_t last[FRAME_LENGTH]; /* a ring; the oldest pulse stands at `oldest` */
    unsigned oldest;
    unsigned base;
};
void frame_reader_start(unsigned base, struct frame_reader *f);
bool frame_reader_take(struct frame_reader *f, uint8_t pulse, struct answer *a, struct reading *r);

struct minute_reader {
    uint8_t marks[LONG_MINUTE_LENGTH];
    unsigned count; /* marks since the last gap; one more than fit where there are too many, or there was no gap */
    unsigned base;
};
void minute_reader_start(unsigned base, struct minute_reader *m);
bool minute_reader_take(struct minute_reader *m, uint8_t symbol, struct answer *a, struct reading *r, uint16_t *head);

#endif
