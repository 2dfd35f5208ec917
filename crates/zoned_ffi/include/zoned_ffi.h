/* zoned_ffi.h: the proved calls of Sahvumbi, whose name is zoned in C and Rattle. zoned.h has them and zones by name.

   Open a zone once and ask it by its handle, as often as you like:

     struct zoned_zone paris = {0};
     uint32_t number = zoned_open(ZONED_FILE, bytes, len, &paris);
     int32_t offset;
     if (number == ZONED_OK) number = zoned_zone_offset(&paris, 1615705200, &offset);
     zoned_close(&paris);

   The man page zoned(3), crates/zoned_ffi/install/zoned.3 of the sources, says what holds for all calls: handles, arrays, threads,
   memory, linking and the order of errors. */
#ifndef ZONED_FFI_H
#define ZONED_FFI_H

#include <stddef.h>
#include <stdint.h>

/* The version of this header, as a text and as a number: a million times its first number, a thousand times the second, and the
   third. The soname of the library has the first, and until 1.0 the second too. */
#define ZONED_VERSION "0.4.0"
#define ZONED_VERSION_NUMBER 4000

/* The offset of an instant at which the zone has none. No zone has it as an offset. */
#define ZONED_NO_OFFSET INT32_MIN

/* No time: the value of a missing time in a column, as NaT of numpy. */
#define ZONED_NO_TIME INT64_MIN

#ifdef __cplusplus
extern "C" {
#endif

/* Plain declarations begin: without macros and directives, for cffi and its like. */

/* How bytes are read: `kind`. */
enum zoned_kind {
    ZONED_FILE = 0, /* a TZif file of version 1, 2 or 3 (RFC 8536), as those of /usr/share/zoneinfo; version 4 (RFC 9636) is
                       rejected (14). Debian's files under right/ have leap seconds and no footer: their last type stays */
    ZONED_TEXT = 1, /* a TZ string (POSIX.1 section 8.3), such as EST5EDT,M3.2.0,M11.1.0, with no zero byte after it. An empty
                       one is UTC. White space around it is skipped. The extensions of RFC 8536 section 3.3.1 are faults:
                       a sign of a time of day (10) and hours of it above 24 (6). In the footer of a file they are read */
    ZONED_EXTENDED_STRING = 2 /* a TZ string that may have these extensions: hours of a time of day from -167 to 167, such as
                       <-02>2<-01>,M3.5.0/-1,M10.5.0/0, the footer of America/Nuuk's file. White space around it and an
                       empty string are faults. Bytes that are not ASCII are wrong bytes (3, 7, 8 or 10), never 16 */
};

/* The number that a call returns. 3 to 16 and 41 to 44 say why bytes make no zone. A file gives 3, 5 to 8, 10, 13 to 16 or 41 to 44,
   and never 12; a TZ string gives 3, 6 to 8, 10, 13, 15 or 16. docs/PROGRAMS.md of the sources says more of 3 to 16, and has 12 for
   what is 41 to 44 here. An abbreviation has three to seven letters, digits, + or - (else 3), and an offset of a TZ string or a footer
   is less than 24 hours (else 6). */
enum zoned_number {
    ZONED_OK = 0,                      /* every answer is written; a zoned_resolved has a number of its own: test it too */
    ZONED_LOCAL_TIME_TYPE = 3,         /* an offset or abbreviation that no local time type can have */
    ZONED_INVALID_TZ_FILE = 5,         /* a fault in the form of a TZif file */
    ZONED_INVALID_TZ_STRING = 6,       /* a time or offset of a TZ string is out of its limits, or extra bytes follow the string */
    ZONED_UNEXPECTED_END = 7,          /* unexpected end of input */
    ZONED_MISSING_TAG = 8,             /* unexpected byte in a TZ string */
    ZONED_PARSE_INT = 10,              /* a number of a TZ string is missing or too large */
    ZONED_TIME_ZONE = 12,              /* the lists of a TZif file make no valid zone */
    ZONED_TRANSITION_RULE = 13,        /* a month, week, weekday or day of a TZ string is out of its limits */
    ZONED_UNSUPPORTED_TZ_FILE = 14,    /* a TZif version other than 1, 2 and 3 */
    ZONED_UNSUPPORTED_TZ_STRING = 15,  /* a TZ string names daylight saving time but has no rule for it */
    ZONED_UTF8 = 16,                   /* a TZ string that is not UTF-8 */
    ZONED_OUT_OF_MEMORY = 17,          /* out of memory */
    ZONED_IN_GAP = 21,                 /* the local time lies in a gap, and `gap` is ZONED_GAP_REFUSE */
    ZONED_IN_FOLD = 22,                /* the local time lies in a fold, and `fold` is ZONED_FOLD_REFUSE */
    ZONED_INSTANT_OUT_OF_RANGE = 23,   /* the local time or the instant lies outside the years -262143 to 262142, or an answer
                                          of a column doesn't fit 64 bits of its unit (of zoned_column_locals: 37) */
    ZONED_UNKNOWN_KIND = 31,           /* no kind of bytes has that number */
    ZONED_OTHER_SIZE = 32,             /* there is room for another count of answers */
    ZONED_NOT_OPEN = 33,               /* the handle has no zone open */
    ZONED_UNKNOWN_CHOICE = 34,         /* no policy for gaps or folds has that number */
    ZONED_NO_CHANGE = 35,              /* there is no such change of the clocks; clocks show the local time once */
    ZONED_UNKNOWN_UNIT = 36,           /* no unit has that count in a second */
    ZONED_NO_LOCAL_TIME = 37,          /* an instant has no local time */
    ZONED_NO_DATE_TIME = 39,           /* the calendar has no such date, or a clock no such time of day */
    ZONED_WIDE_ZONE = 40,              /* an offset of the zone is a day or more */
    ZONED_OTHER_TYPE_INDEX = 41,       /* a transition of a TZif file names no local time type */
    ZONED_OTHER_TRANSITION_TIMES = 42, /* the transition times of a TZif file do not rise */
    ZONED_OTHER_LEAP_SECONDS = 43,     /* the leap seconds of a TZif file cannot follow one another */
    ZONED_OTHER_RULE = 44,             /* the footer of a TZif file disagrees with the last transition */
    ZONED_NO_SUCH_ZONE = 45,           /* there is no time zone of that name */
    ZONED_UNREADABLE_FILE = 46,        /* the file of a time zone can't be read */
    ZONED_UNKNOWN_STEP = 47,           /* no step of the local clock has that number */
    ZONED_ABOVE_LIMITS = 48            /* a TZif file has more transitions or leap seconds than allowed */
};

/* How often the clocks of a zone show a local time: `shown`. */
enum zoned_shown {
    ZONED_NEVER = 0,         /* never: the clocks skipped it */
    ZONED_ONCE = 1,          /* once */
    ZONED_SEVERAL_TIMES = 2, /* several times, as after the clocks were set back */
    ZONED_OUT_OF_RANGE = 3   /* not known: it lies outside the years -262143 to 262142 */
};

/* A zone that you keep: a handle. Start it as {0}. */
typedef struct zoned_zone {
    void *zone; /* NULL if none is open */
} zoned_zone;

/* Reads a zone, and opens it: ZONED_OK, or why the bytes are rejected, and then `out` is as it was. A zone that `out` had open is
   closed. */
uint32_t zoned_open(uint32_t kind, const void *zone, size_t zone_len, struct zoned_zone *out);

/* As zoned_open, but a file of more transitions or leap seconds than that is rejected: ZONED_ABOVE_LIMITS. It is found in the file's
   headers, before memory is taken. The counts are those of the data block that the zone is read from: the only one of version 1, the
   second one of versions 2 and 3. A fault of the headers, or of a file that is too short for its counts, comes first. A TZ string has no
   transitions.

   No file of Debian's tzdata 2025b has more than 310 transitions or 27 leap seconds. */
uint32_t zoned_open_limited(uint32_t kind, const void *zone, size_t zone_len,
                            size_t most_transitions, size_t most_leap_seconds, struct zoned_zone *out);

/* Returns how many bytes are in front of the fault for which zoned_open rejects the bytes. In a TZ string the fault is the first byte
   that can't continue one; the number, the time or the name that is out of its limits; the end if bytes are missing; or the first byte
   that is not UTF-8. In a file: the end if it is too short, and else the first byte of the field whose value is rejected, such as a
   version, a count, a type's DST flag or a transition's time. In the TZ string of a file's footer: as in a TZ string, or its first
   byte if the rule disagrees with the last transition (44).

   zoned_open_name keeps no bytes: read the file yourself to find its fault.

   SIZE_MAX: the bytes make a zone, no kind has that number, or there is no memory for a file's lists. */
size_t zoned_fault_position(uint32_t kind, const void *zone, size_t zone_len);

/* Opens the zone whose clocks are always `offset` seconds ahead of UTC. Its type has no abbreviation. ZONED_LOCAL_TIME_TYPE: no zone
   has the offset INT32_MIN. ZONED_OUT_OF_MEMORY. Then `out` is as it was. */
uint32_t zoned_open_fixed(int32_t offset, struct zoned_zone *out);

/* Opens the zone of `zone` in `out` too, another struct, without parsing it again: ZONED_OK; or ZONED_NOT_OPEN, or 17 if memory
   runs out, and then `out` is as it was. */
uint32_t zoned_share(const struct zoned_zone *zone, struct zoned_zone *out);

/* Closes the zone, if one is open. The last handle that is closed frees it. To close twice does no harm, and zoned_close(NULL)
   does nothing (in the archive of `rt lib`, which has no C code, it takes no NULL). */
void zoned_close(struct zoned_zone *zone);

/* *offset is the offset in force at the instant, and offsets[i] that at instants[i], in seconds east of UTC.

   An instant is a Unix second, any of 64 bits. The offset is ZONED_NO_OFFSET if the zone has none there: before the year
   -2147483646 and after 2147483645, if a rule of two types is asked; and near the ends of 64 bits, if the zone has leap
   seconds. The other instants are answered all the same.

   offsets_len is instants_len. */
uint32_t zoned_zone_offset(const struct zoned_zone *zone, int64_t instant, int32_t *offset);
uint32_t zoned_zone_offsets(const struct zoned_zone *zone,
                            const int64_t *instants, size_t instants_len,
                            int32_t *offsets, size_t offsets_len);

/* locals[i] is the local time of instants[i]. Both are counted in one unit, of which per_second make a second: 1, 1000, 1000000
   or 1000000000. The local time is the instant plus the offset in force at the second that the instant lies in: -1 nanosecond
   lies in second -1. ZONED_NO_TIME stays. A column in the order of time costs little more than a copy of it.

   ZONED_UNKNOWN_UNIT: there is no such unit, and nothing is written. ZONED_NO_LOCAL_TIME: instants[*row] is the first that has
   no local time, since the zone has no offset there or the sum doesn't fit 64 bits; the rows before it are written. In all other
   cases *row is as it was.

   That row and those after it are as they were. To go on, write ZONED_NO_TIME into locals[*row], and call again for the rows after
   it: both pointers move on by *row + 1, and the next *row counts from there. Don't convert in place: answers must not overlap the
   times that are asked about. This holds for every zoned_column_ call.

   locals_len is instants_len. */
uint32_t zoned_column_locals(const struct zoned_zone *zone, int64_t per_second,
                             const int64_t *instants, size_t instants_len,
                             int64_t *locals, size_t locals_len, size_t *row);

/* A local time type: what is in force at an instant. */
typedef struct zoned_local_type {
    int32_t offset;       /* seconds east of UTC; ZONED_NO_OFFSET if the zone has none there */
    int32_t is_dst;       /* 1: daylight saving time, 0: not */
    char abbreviation[8]; /* such as CEST: three to seven letters, digits, + and -, and zero bytes after them; empty if the type
                             has no abbreviation, or the zone no type */
} zoned_local_type;

/* *local_type is the type in force at the instant, and types[i] that at instants[i].

   types_len is instants_len. */
uint32_t zoned_zone_type(const struct zoned_zone *zone, int64_t instant, zoned_local_type *local_type);
uint32_t zoned_zone_types(const struct zoned_zone *zone,
                          const int64_t *instants, size_t instants_len,
                          zoned_local_type *types, size_t types_len);

/* A span: the seconds from `from` on and before `until`. One type is in force at all of them, and not at the second before and
   the one after: another type is in force there, or the zone has none. */
typedef struct zoned_span {
    int64_t from;  /* the first second, a Unix second; INT64_MIN if the type is in force at all seconds before */
    int64_t until; /* the first second after the span; INT64_MAX if the type is in force at all seconds after */
    zoned_local_type local_type;
} zoned_span;

/* *span is the span that the instant lies in. New York's at 1609459200 (2021-01-01 00:00:00 UTC) is EST, from 1604210400 (1
   November, 06:00 UTC) until 1615705200 (14 March, 07:00 UTC).

   ZONED_NO_LOCAL_TIME: the zone has no type at the instant, and nothing is written. A span ends when the zone ceases to have a
   type, which is no change of the clocks: the last one of the rule EST5EDT,M3.2.0,M11.1.0 ends at 67767976170460800, when the year
   2147483646 begins, and the call has no answer from then on. A change may come at INT64_MAX, which is then a span of its own.

   For instants near one another keep the span, and ask again only outside it:

     zoned_span span = {INT64_MAX, INT64_MIN, {0}};
     for (size_t i = 0; i < count; i++) {
         if (instants[i] < span.from || instants[i] >= span.until)
             if (zoned_zone_span(&zone, instants[i], &span) != ZONED_OK) break;
         .. span.local_type.abbreviation ..
     } */
uint32_t zoned_zone_span(const struct zoned_zone *zone, int64_t instant, zoned_span *span);

/* The parts of the offset in force, which is their sum. */
typedef struct zoned_saving {
    int64_t standard_offset; /* the offset of standard time, in seconds east of UTC */
    int64_t amount;          /* what daylight saving time adds, in seconds: 0 if and only if the DST flag is 0 */
} zoned_saving;

/* *saving is the standard offset and the amount of daylight saving time in force at the instant. A TZif file doesn't have the
   amount: it is inferred from standard time before and after the instant, at most 64 clock changes away. No inference is right for
   every file, since sources with other amounts compile to the same bytes. The amount is less than 24 hours; it is negative if clocks
   are behind standard time.

   In New York at 1625097600 (2021-07-01 00:00:00 UTC) the offset is -4 hours: -18000 and 3600. In Dublin at 1609459200 (2021-01-01
   00:00:00 UTC), by Debian's files, it is 0: 3600 and -3600.

   ZONED_NO_LOCAL_TIME: the zone has no type at the instant, and nothing is written. */
uint32_t zoned_zone_standard_offset(const struct zoned_zone *zone, int64_t instant, zoned_saving *saving);

/* A change of the clocks: at the second `at` another type is in force than at the second before it, one of another offset,
   DST flag or abbreviation. */
typedef struct zoned_change {
    int64_t at; /* a Unix second */
    zoned_local_type before;
    zoned_local_type after;
} zoned_change;

/* *change is the first change after that second, or the last one at that second or before it. ZONED_NO_CHANGE: no change
   comes at a second of 64 bits, and nothing is written. The changes of a zone are listed by asking again after change->at.

   A transition of the file that changes nothing doesn't count, and what a rule does after the last transition does. A second at
   which the zone starts or stops having a type is no change either: the last change of the rule EST5EDT,M3.2.0,M11.1.0, which answers up to the
   year 2147483645, is that of November of that year, 67767976165557600, also before INT64_MAX. The calls skip any
   number of transitions that change nothing at once.

   Bound a loop that asks again and again: a rule of two types has two changes in each of the 4,294,967,292 years that it answers in,
   so it takes some 8.6 billion calls until there is no next change. */
uint32_t zoned_zone_next_change(const struct zoned_zone *zone, int64_t after, zoned_change *change);
uint32_t zoned_zone_previous_change(const struct zoned_zone *zone, int64_t before_or_at, zoned_change *change);

/* As these two, of the changes at which the offset changes: others change only the DST flag or the abbreviation, and are passed over.
   They are the transitions of java.time and Joda-Time. In London clocks were set forward on 1968-02-18, British summer time became
   standard time on 1968-10-27 (-37242000) at the same offset, and clocks were set back on 1971-10-31 (57722400): after 1968-02-18 that
   is the next change of the offset.

   The calls go from change to change, and past at most one more than the file has transitions. They end where a rule begins whose two
   types have one offset. */
uint32_t zoned_zone_next_offset_change(const struct zoned_zone *zone, int64_t after, zoned_change *change);
uint32_t zoned_zone_previous_offset_change(const struct zoned_zone *zone, int64_t before_or_at, zoned_change *change);

/* Writes the TZ string of the rule that governs from the zone's last transition on, as much as fits into `text` with a zero byte after it
   (nothing if text_len is 0). *length is the length of the whole string, as with snprintf: 0 if the zone has no rule.

   It is the shortest string, with minutes and seconds in two digits, that zoned_open reads as that rule with ZONED_EXTENDED_STRING;
   New York's is EST5EDT,M3.2.0,M11.1.0. A zone of zoned_open_fixed has no rule, nor has one of a file whose footer is empty.

   ZONED_OUT_OF_MEMORY: this call takes memory, and gives it back. Nothing is written then. */
uint32_t zoned_zone_rule_text(const struct zoned_zone *zone, char *text, size_t text_len, size_t *length);

/* *count is how many changes there are from the second `from` on and before the second `until`, or `most` if there are more: 0 if
   `until` is `from` or comes before it. The first of them, as many as changes_len, are written to `changes`, in the order of time;
   the elements after them are as they were. So *count > changes_len says that the list is cut short, as with snprintf, and
   changes_len may be 0. New York has 2 changes in 2021 (from 1609459200 to 1640995200): with 1 as `most` the count is 1.

   The call takes as long as stepping through what it counts. A rule of two types has two changes in each of the 4,294,967,292 years
   that it answers in, some 8.6 billion in all: give it the stretch that you mean to list, or `most`. changes_len + 1 as `most` still
   says whether there are more than fit.

   A change at INT64_MAX comes before no second: zoned_zone_previous_change returns it. */
uint32_t zoned_zone_changes(const struct zoned_zone *zone, int64_t from, int64_t until, size_t most,
                            zoned_change *changes, size_t changes_len, size_t *count);

/* When the clocks of a zone show a local time. */
typedef struct zoned_wall_clock {
    int32_t shown;        /* how often: ZONED_NEVER, ZONED_ONCE, .. */
    int32_t first_offset; /* the offset at the first second that shows it, in seconds east of UTC */
    int32_t last_offset;  /* the offset at the last one */
    int64_t first;        /* the first second that shows it, a Unix second */
    int64_t last;         /* the last one */
} zoned_wall_clock;       /* all but `shown` are 0 if it is ZONED_NEVER or ZONED_OUT_OF_RANGE */

/* *clock says when the zone's clocks show the local time, and clocks[i] when they show locals[i]. A local time is the number of seconds
   from 1970-01-01 00:00:00 to it on the clock, every day counted as 86,400.

   clocks_len is locals_len. */
uint32_t zoned_zone_wall_clock(const struct zoned_zone *zone, int64_t local, zoned_wall_clock *clock);
uint32_t zoned_zone_wall_clocks(const struct zoned_zone *zone,
                                const int64_t *locals, size_t locals_len,
                                zoned_wall_clock *clocks, size_t clocks_len);

/* `gap`: what to return for a local time that the clocks skipped. */
enum zoned_gap {
    ZONED_GAP_REFUSE = 0,       /* no instant: the answer is ZONED_IN_GAP */
    ZONED_GAP_SHIFT_FORWARD = 1, /* the instant at which a clock that was not set forward shows it. New York's clocks skipped
                                    02:30 on 2021-03-14: it is the instant at which they showed 03:30 */
    ZONED_GAP_END = 2,          /* the second at which the gap ends: the instant at which they showed 03:00 */
    ZONED_GAP_SHIFT_BACKWARD = 3, /* the instant at which a clock that had been set forward already shows it: the instant at which
                                     they showed 01:30. Temporal's and jiff's "earlier", fold=1 of Python's PEP 495, cctz's `post` */
    ZONED_GAP_NO_TIME = 4        /* in zoned_column_instants: ZONED_NO_TIME, as NaT in pandas. Other calls have no such policy */
};

/* `fold`: what to return for a local time that they show several times. */
enum zoned_fold {
    ZONED_FOLD_REFUSE = 0,   /* no instant: the answer is ZONED_IN_FOLD */
    ZONED_FOLD_EARLIEST = 1, /* the first instant */
    ZONED_FOLD_LATEST = 2,   /* the last */
    ZONED_FOLD_NO_TIME = 3   /* in zoned_column_instants: ZONED_NO_TIME */
};

/* The instant of a local time. */
typedef struct zoned_resolved {
    uint32_t number; /* ZONED_OK, or ZONED_IN_GAP, ZONED_IN_FOLD or ZONED_INSTANT_OUT_OF_RANGE: then the others are 0 */
    int32_t offset;  /* the offset in force at the instant, in seconds east of UTC: in a gap that is shifted forward usually
                        the one after it, and in one that is shifted backward the one before it */
    int64_t instant; /* a Unix second */
} zoned_resolved;

/* *resolved is the instant of the local time under the policies, and resolved[i] that of locals[i]. The call returns ZONED_OK also if
   a local time has no instant: `number` says why.

   zoned_local_of makes a local time of a date and a time of day. For valid fields the two calls do what mktime does with tm_isdst -1,
   with your policies in gaps and folds. (In a fold glibc's answer may depend on the call before it: 1636263000 or 1636266600 for 01:30
   on 2021-11-07 in New York.) In New York's gaps and folds tm_isdst 0 is ZONED_GAP_SHIFT_FORWARD and ZONED_FOLD_LATEST, and 1 is
   ZONED_GAP_SHIFT_BACKWARD and ZONED_FOLD_EARLIEST. mktime normalises other fields; zoned_local_of returns ZONED_NO_DATE_TIME.

   resolved_len is locals_len. */
uint32_t zoned_zone_instant(const struct zoned_zone *zone, uint32_t gap, uint32_t fold, int64_t local, zoned_resolved *resolved);
uint32_t zoned_zone_instants(const struct zoned_zone *zone, uint32_t gap, uint32_t fold,
                             const int64_t *locals, size_t locals_len,
                             zoned_resolved *resolved, size_t resolved_len);

/* instants[i] is the instant of locals[i] under the policies. Both are counted in one unit, of which per_second make a second, as
   in zoned_column_locals. The policies decide for the second that the local time lies in, and what it has beyond that second is
   added to the instant, unless the instant is the end of a gap. ZONED_NO_TIME stays; by ZONED_GAP_NO_TIME and ZONED_FOLD_NO_TIME local
   times in gaps and in folds become it.

   ZONED_IN_GAP, ZONED_IN_FOLD, ZONED_INSTANT_OUT_OF_RANGE: locals[*row] is the first that has no instant, for this reason; it is
   out of range if it lies outside the years -262143 to 262142 or its instant doesn't fit 64 bits. The rows before it are
   written. In all other cases *row is as it was. ZONED_UNKNOWN_CHOICE comes before ZONED_UNKNOWN_UNIT.

   In New York, in milliseconds, with ZONED_GAP_END and ZONED_FOLD_LATEST: 1615689000500 (2021-03-14 02:30:00.5, in a gap) is
   1615705200000, and 1636248600500 (2021-11-07 01:30:00.5, in a fold) is 1636266600500.

   instants_len is locals_len. */
uint32_t zoned_column_instants(const struct zoned_zone *zone, uint32_t gap, uint32_t fold, int64_t per_second,
                               const int64_t *locals, size_t locals_len,
                               int64_t *instants, size_t instants_len, size_t *row);

/* *reached is the first instant at which a clock of the zone shows the local time or a later one, and the offset in force then;
   reached[i] is that of locals[i].
   If the local time lies in a gap, it is the second at which the gap ends; in a fold, the first of the instants that show it. A
   later local time never has an earlier answer, so the answers of midnights divide time into days.

   In New York 02:30 on 2021-03-14 (1615689000) lies in a gap: the answer is 1615705200, 03:00 EDT, at the offset -14400.

   The number in it is ZONED_OK, or ZONED_INSTANT_OUT_OF_RANGE: then the others are 0. reached_len is locals_len. */
uint32_t zoned_zone_first_at_or_after(const struct zoned_zone *zone, int64_t local, zoned_resolved *reached);
uint32_t zoned_zone_firsts_at_or_after(const struct zoned_zone *zone,
                                       const int64_t *locals, size_t locals_len,
                                       zoned_resolved *reached, size_t reached_len);

/* *change is the change of the clocks around the local time: in a gap the one that skips it, and in a fold the one that sets clocks back,
   so that they show it again. In a gap the offset after the change is greater than the one before it, and in a fold it is less. If
   clocks are set back more than once between the first and the last second that show the local time, it is the last change whose
   previous second showed it or a later time.

   In New York 02:30 on 2021-03-14 (1615689000) lies in a gap: the change is at 1615705200, from EST, -18000, to EDT, -14400. And 01:30
   on 2021-11-07 (1636248600) lies in a fold: the change is at 1636264800, back to EST.

   ZONED_INSTANT_OUT_OF_RANGE: the local time lies outside the years -262143 to 262142. ZONED_NO_CHANGE: clocks show the local
   time once. Nothing is written then. */
uint32_t zoned_zone_local_change(const struct zoned_zone *zone, int64_t local, zoned_change *change);

/* How often the clocks of a zone show a local time, and the spans of the seconds that show it: C++20's local_info. */
typedef struct zoned_local_info {
    int32_t shown;    /* ZONED_NEVER, ZONED_ONCE or ZONED_SEVERAL_TIMES */
    zoned_span first; /* that of the first second that shows it; in a gap the span up to the change that skips it */
    zoned_span last;  /* that of the last one; in a gap the span from the change on */
} zoned_local_info;

/* *info is that of the local time. One search finds it, and one more each span.

   ZONED_INSTANT_OUT_OF_RANGE: the local time lies outside the years -262143 to 262142, and nothing is written. */
uint32_t zoned_zone_local_info(const struct zoned_zone *zone, int64_t local, zoned_local_info *info);

/* *local is the last local time that clocks of the zone have shown up to the instant: the local time at the instant, unless clocks
   were set back and haven't caught up yet. A later instant never has an earlier answer, and zoned_zone_first_at_or_after of a local
   time is at or before the instant if and only if the local time is at or before *local.

   In New York at 1636266600 (2021-11-07 01:30:00 EST, on the second pass) it is 2021-11-07 01:59:59, 1636250399.

   ZONED_WIDE_ZONE: an offset of the zone is a day or more. ZONED_INSTANT_OUT_OF_RANGE: the instant lies outside the years -262143
   to 262142. Nothing is written then. */
uint32_t zoned_zone_reached(const struct zoned_zone *zone, int64_t instant, int64_t *local);

/* The day that an instant lies in. */
typedef struct zoned_day {
    int64_t date;  /* its date, as the local time of its midnight: zoned_fields_of has its year, month and day */
    int64_t begin; /* its first second, a Unix second */
    int64_t end;   /* the first second of the next day */
} zoned_day;

/* *day is the day that the instant lies in. A day begins at the first second at which clocks show its midnight or a later local
   time, and lasts to before the next day begins. So each instant lies in one day; clocks that were set back over midnight show the
   date before again, but stay in the later day.

   In St. John's at 1130641320 (2005-10-30 03:02:00 UTC) clocks show 23:32:00 of 2005-10-29 again: the day is 2005-10-30, 1130630400,
   from 1130639400 (02:30 UTC) until 1130729400.

   ZONED_WIDE_ZONE: an offset of the zone is a day or more. ZONED_INSTANT_OUT_OF_RANGE: the instant, or where the day begins or
   ends, lies outside the years -262143 to 262142. Nothing is written then. */
uint32_t zoned_zone_day(const struct zoned_zone *zone, int64_t instant, zoned_day *day);

/* A step of the local clock: `step`. It is a number of seconds of which a day has a whole number, such as 900 or the first three, or
   one of the others. A step of seconds is counted from midnight. */
enum zoned_step {
    ZONED_STEP_MINUTE = 60,
    ZONED_STEP_HOUR = 3600,
    ZONED_STEP_DAY = 86400,
    ZONED_STEP_WEEK = 100000,  /* more by the weekday that it begins on, 0, Sunday, to 6: 100001 is a week from Monday */
    ZONED_STEP_MONTH = 200000, /* from its first day */
    ZONED_STEP_YEAR = 300000   /* from 1 January */
};

/* *floor is the second at which the step that the instant lies in begins, and *ceil the first second from the instant on at which
   one begins. A step begins at the first second at which clocks show its first local time or a later one, and lasts to before the
   next one begins. It doesn't begin again if clocks are set back: until they have caught up, instants lie in the step in which
   that happened.

   In New York at 1636266600 (2021-11-07 01:30:00 EST, on the second pass) the hour of 01:00, which has 120 minutes, has begun at
   1636261200 (01:00 EDT), and the next one begins at 1636268400 (02:00 EST).

   ZONED_UNKNOWN_STEP: no step has that number. ZONED_WIDE_ZONE: an offset of the zone is a day or more.
   ZONED_INSTANT_OUT_OF_RANGE: the instant or the answer lies outside the years -262143 to 262142. Nothing is written then. */
uint32_t zoned_zone_floor(const struct zoned_zone *zone, uint32_t step, int64_t instant, int64_t *floor);
uint32_t zoned_zone_ceil(const struct zoned_zone *zone, uint32_t step, int64_t instant, int64_t *ceil);

/* locals[i], floors[i] and ceils[i] are the answers of the three calls above to instants[i]. All are counted in one unit, of which
   per_second make a second, as in zoned_column_locals. The local time that clocks have reached and the beginnings of steps are whole
   seconds: floors[i] is at or before instants[i], and ceils[i] at or after it. ZONED_NO_TIME stays. A row takes a lookup or
   two: no answer is kept for the rows after it.

   The date of the day that instants[i] lies in is that of locals[i], and ceils of instants[i] + 1 are where the next steps begin.

   ZONED_WIDE_ZONE, ZONED_INSTANT_OUT_OF_RANGE: instants[*row] is the first that has no answer, for this reason; it is out of range
   too if its answer doesn't fit 64 bits. The rows before it are written. In all other cases *row is as it was. ZONED_UNKNOWN_STEP
   comes before ZONED_UNKNOWN_UNIT.

   The answers are as many as the instants. */
uint32_t zoned_column_reached(const struct zoned_zone *zone, int64_t per_second,
                              const int64_t *instants, size_t instants_len,
                              int64_t *locals, size_t locals_len, size_t *row);
uint32_t zoned_column_floors(const struct zoned_zone *zone, uint32_t step, int64_t per_second,
                             const int64_t *instants, size_t instants_len,
                             int64_t *floors, size_t floors_len, size_t *row);
uint32_t zoned_column_ceils(const struct zoned_zone *zone, uint32_t step, int64_t per_second,
                            const int64_t *instants, size_t instants_len,
                            int64_t *ceils, size_t ceils_len, size_t *row);

/* A date and a time of day on a clock, and what the calendar says of the date. C's struct tm counts otherwise: tm_year from 1900,
   tm_mon from 0 and tm_yday from 0. */
typedef struct zoned_fields {
    int32_t year;         /* -262143 to 262142; the year 0 is 1 BC */
    uint32_t month;       /* 1 to 12 */
    uint32_t day;         /* 1 to 31 */
    uint32_t hour;        /* 0 to 23 */
    uint32_t minute;      /* 0 to 59 */
    uint32_t second;      /* 0 to 59 */
    uint32_t weekday;     /* 0, Sunday, to 6, Saturday, as tm_wday of C and c_encoding() of C++20 */
    uint32_t day_of_year; /* 1 to 366 */
} zoned_fields;

/* *fields is the date and the time of day that clocks of the zone show at the instant. In New York at 1615705200 (2021-03-14
   07:00:00 UTC) they show 2021-03-14 03:00:00, a Sunday, the day 73 of the year.

   ZONED_NO_LOCAL_TIME: the zone has no type at the instant. ZONED_INSTANT_OUT_OF_RANGE: the local time lies outside the years
   -262143 to 262142. Nothing is written then. */
uint32_t zoned_zone_fields(const struct zoned_zone *zone, int64_t instant, zoned_fields *fields);

/* *fields is the date and the time of day of the local time, in seconds from 1970-01-01 00:00:00.
   ZONED_INSTANT_OUT_OF_RANGE: it lies outside the years -262143 to 262142, and nothing is written. */
uint32_t zoned_fields_of(int64_t local, zoned_fields *fields);

/* *local is the local time of the date and the time of day: for valid fields what timegm returns. `weekday` and `day_of_year` are not
   read. ZONED_NO_DATE_TIME: the calendar doesn't have the date, such as 2021-02-29, or a clock the time, such as 24:00:00.
   ZONED_INSTANT_OUT_OF_RANGE: they lie outside the years -262143 to 262142. Nothing is written then. */
uint32_t zoned_local_of(const zoned_fields *fields, int64_t *local);

/* Returns the version of the library: ZONED_VERSION_NUMBER of the header that it was built with. */
uint32_t zoned_version(void);

/* Writes what a number of this header means, in English, as much as fits into `text` with a zero byte after it (nothing if
   text_len is 0). Returns the length of the whole text. 128 bytes are enough for each. */
size_t zoned_error_text(uint32_t number, char *text, size_t text_len);

/* Plain declarations end. */

/* Compilers warn if the number of a call is dropped, or if NULL is passed for a handle or for the place of one answer. */
#if defined(__GNUC__) || defined(__clang__)
#pragma GCC diagnostic push
#pragma GCC diagnostic ignored "-Wredundant-decls"
#define ZONED_CHECKED(call, pointers) extern __typeof__(call) call __attribute__((warn_unused_result, nonnull pointers))
ZONED_CHECKED(zoned_open, (4));
ZONED_CHECKED(zoned_open_limited, (6));
ZONED_CHECKED(zoned_open_fixed, (2));
ZONED_CHECKED(zoned_share, (1, 2));
ZONED_CHECKED(zoned_zone_offset, (1, 3));
ZONED_CHECKED(zoned_zone_offsets, (1));
ZONED_CHECKED(zoned_column_locals, (1, 7));
ZONED_CHECKED(zoned_zone_type, (1, 3));
ZONED_CHECKED(zoned_zone_types, (1));
ZONED_CHECKED(zoned_zone_span, (1, 3));
ZONED_CHECKED(zoned_zone_standard_offset, (1, 3));
ZONED_CHECKED(zoned_zone_next_change, (1, 3));
ZONED_CHECKED(zoned_zone_previous_change, (1, 3));
ZONED_CHECKED(zoned_zone_next_offset_change, (1, 3));
ZONED_CHECKED(zoned_zone_previous_offset_change, (1, 3));
ZONED_CHECKED(zoned_zone_rule_text, (1, 4));
ZONED_CHECKED(zoned_zone_changes, (1, 7));
ZONED_CHECKED(zoned_zone_wall_clock, (1, 3));
ZONED_CHECKED(zoned_zone_wall_clocks, (1));
ZONED_CHECKED(zoned_zone_instant, (1, 5));
ZONED_CHECKED(zoned_zone_instants, (1));
ZONED_CHECKED(zoned_column_instants, (1, 9));
ZONED_CHECKED(zoned_zone_first_at_or_after, (1, 3));
ZONED_CHECKED(zoned_zone_firsts_at_or_after, (1));
ZONED_CHECKED(zoned_zone_local_change, (1, 3));
ZONED_CHECKED(zoned_zone_local_info, (1, 3));
ZONED_CHECKED(zoned_zone_reached, (1, 3));
ZONED_CHECKED(zoned_zone_day, (1, 3));
ZONED_CHECKED(zoned_zone_floor, (1, 4));
ZONED_CHECKED(zoned_zone_ceil, (1, 4));
ZONED_CHECKED(zoned_column_reached, (1, 7));
ZONED_CHECKED(zoned_column_floors, (1, 8));
ZONED_CHECKED(zoned_column_ceils, (1, 8));
ZONED_CHECKED(zoned_zone_fields, (1, 3));
ZONED_CHECKED(zoned_fields_of, (2));
ZONED_CHECKED(zoned_local_of, (1, 2));
#undef ZONED_CHECKED
#pragma GCC diagnostic pop
#endif

#ifdef __cplusplus
}
#endif
#endif
