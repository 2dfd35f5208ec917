/* What zoned_ffi.h says of numbers and answers, compared with the archive. The assertions are tried when this file is
   compiled, and fail if the header says something else than the callers of today were built with. The program is linked
   with the archive and asks it: the numbers and the places that the archive writes are those of the header. With -DOWN_HEAP
   the library takes its memory by the three functions below, and not by those of the kit. It prints nothing and ends with 0,
   or names the line that differs. tools/try_examples.py compiles and runs it both ways. */
#include "../crates/zoned_ffi/include/zoned_ffi.h"

#include <stdbool.h>
#include <stdio.h>
#include <stdlib.h>
#include <string.h>

_Static_assert(sizeof(struct zoned_zone) == sizeof(void *), "the size of a handle");

_Static_assert(ZONED_FILE == 0 && ZONED_TEXT == 1 && ZONED_EXTENDED_STRING == 2, "the kinds");
_Static_assert(ZONED_OK == 0 && ZONED_UNKNOWN_KIND == 31 && ZONED_OTHER_SIZE == 32, "the numbers of a call");
_Static_assert(ZONED_UNKNOWN_UNIT == 36 && ZONED_NO_LOCAL_TIME == 37, "other numbers of a call");
_Static_assert(ZONED_NO_DATE_TIME == 39 && ZONED_WIDE_ZONE == 40, "numbers of dates and offsets");
_Static_assert(ZONED_NO_SUCH_ZONE == 45 && ZONED_UNREADABLE_FILE == 46, "numbers of names");
_Static_assert(ZONED_UNKNOWN_STEP == 47 && ZONED_ABOVE_LIMITS == 48, "the numbers of no step and of a file above the limits");
_Static_assert(ZONED_STEP_MINUTE == 60 && ZONED_STEP_HOUR == 3600 && ZONED_STEP_DAY == 86400, "steps of seconds");
_Static_assert(ZONED_STEP_WEEK == 100000 && ZONED_STEP_MONTH == 200000 && ZONED_STEP_YEAR == 300000, "other steps");
_Static_assert(sizeof(enum zoned_number) == 4, "the size of a number");
_Static_assert(ZONED_NOT_OPEN == 33 && ZONED_UNKNOWN_CHOICE == 34 && ZONED_NO_CHANGE == 35, "the numbers of a call by handle");
_Static_assert(ZONED_OTHER_TYPE_INDEX == 41 && ZONED_OTHER_TRANSITION_TIMES == 42, "faults of lists");
_Static_assert(ZONED_OTHER_LEAP_SECONDS == 43 && ZONED_OTHER_RULE == 44, "faults of lists");
_Static_assert(ZONED_LOCAL_TIME_TYPE == 3 && ZONED_INVALID_TZ_FILE == 5 && ZONED_INVALID_TZ_STRING == 6, "faults of the bytes");
_Static_assert(ZONED_UNEXPECTED_END == 7 && ZONED_MISSING_TAG == 8 && ZONED_PARSE_INT == 10, "faults of the bytes");
_Static_assert(ZONED_TIME_ZONE == 12 && ZONED_TRANSITION_RULE == 13 && ZONED_UNSUPPORTED_TZ_FILE == 14, "faults of the bytes");
_Static_assert(ZONED_UNSUPPORTED_TZ_STRING == 15 && ZONED_UTF8 == 16 && ZONED_OUT_OF_MEMORY == 17, "faults of the bytes");
_Static_assert(ZONED_GAP_REFUSE == 0 && ZONED_GAP_SHIFT_FORWARD == 1 && ZONED_GAP_END == 2, "choices for gaps");
_Static_assert(ZONED_GAP_SHIFT_BACKWARD == 3 && ZONED_GAP_NO_TIME == 4, "choices for gaps");
_Static_assert(ZONED_FOLD_REFUSE == 0 && ZONED_FOLD_EARLIEST == 1 && ZONED_FOLD_LATEST == 2 && ZONED_FOLD_NO_TIME == 3,
               "choices for folds");
_Static_assert(ZONED_IN_GAP == 21 && ZONED_IN_FOLD == 22 && ZONED_INSTANT_OUT_OF_RANGE == 23, "why there is no instant");
_Static_assert(ZONED_NEVER == 0 && ZONED_ONCE == 1 && ZONED_SEVERAL_TIMES == 2 && ZONED_OUT_OF_RANGE == 3, "how often");
_Static_assert(ZONED_NO_OFFSET == -2147483647 - 1, "no offset");

static int differences = 0;

#define IS(given, due)                                                                                         \
    do {                                                                                                       \
        if ((long long)(given) != (long long)(due)) {                                                          \
            fprintf(stderr, "header_pins.c:%d: %s is %lld, and not %lld\n", __LINE__, #given,                  \
                    (long long)(given), (long long)(due));                                                     \
            differences++;                                                                                     \
        }                                                                                                      \
    } while (0)

/* Compares a struct without padding with what it is due to be. */
#define SHOWS(given, ...)                                                                                      \
    do {                                                                                                       \
        const __typeof__(given) due = {__VA_ARGS__};                                                           \
        if (memcmp(&(given), &due, sizeof due)) {                                                              \
            fprintf(stderr, "header_pins.c:%d: %s is not {%s}\n", __LINE__, #given, #__VA_ARGS__);             \
            differences++;                                                                                     \
        }                                                                                                      \
    } while (0)

#define EST {-18000, 0, "EST"}
#define EDT {-14400, 1, "EDT"}

#ifdef OWN_HEAP
/* How many blocks the library has, and how often it asked for one. */
static long blocks = 0, requests = 0;

struct tried { bool ok; void *p; };
static char none;

static struct tried tried_as(void *block) { return (struct tried){block != NULL, block ? block : &none}; }

struct tried rattle_alloc(size_t size, size_t align) {
    void *block = malloc(size ? size : align);
    requests++;
    blocks += block != NULL;
    return tried_as(block);
}

struct tried rattle_realloc(void *block, size_t kept, size_t size, size_t align) {
    (void)kept;
    requests++;
    return tried_as(realloc(block, size ? size : align));
}

void rattle_dealloc(void *block) {
    blocks--;
    free(block);
}
#endif

/* New York since 2007. Clocks are set forward at 2021-03-14 07:00:00 UTC, and back at 2021-11-07 06:00:00 UTC. */
static const uint8_t NEW_YORK[] = "EST5EDT,M3.2.0,M11.1.0";
#define LEN (sizeof NEW_YORK - 1)

/* 2021-03-14 02:30:00 lies in a gap, 2021-11-07 01:30:00 in a fold, noon of that day is shown once, and the last one is the
   first second after the calendar's range. */
static const int64_t LOCALS[4] = {1615689000, 1636248600, 1636286400, 8210266876800};

/* What opening a zone returns. */
static uint32_t opened(uint32_t kind, const void *bytes, size_t len) {
    struct zoned_zone zone = {0};
    const uint32_t number = zoned_open(kind, bytes, len, &zone);
    zoned_close(&zone);
    return number;
}

/* A file of version 1 whose transitions are the given ones, with one local time type. */
static uint32_t fault_of(int32_t first, uint8_t first_index, int32_t second, uint8_t second_index) {
    uint8_t file[64] = {'T', 'Z', 'i', 'f'};
    file[35] = 2, file[39] = 1, file[43] = 4;
    for (int k = 0; k < 4; k++) file[44 + k] = (uint8_t)((uint32_t)first >> (24 - 8 * k)), file[48 + k] = (uint8_t)((uint32_t)second >> (24 - 8 * k));
    file[52] = first_index, file[53] = second_index;
    memcpy(file + 60, "UTC", 4);
    return opened(ZONED_FILE, file, sizeof file);
}

/* What opening it with those limits returns. */
static uint32_t limited(uint32_t kind, const void *bytes, size_t len, size_t most_transitions, size_t most_leap_seconds) {
    struct zoned_zone zone = {0};
    const uint32_t number = zoned_open_limited(kind, bytes, len, most_transitions, most_leap_seconds, &zone);
    IS(zone.zone != NULL, number == ZONED_OK);
    zoned_close(&zone);
    return number;
}

/* A file of two transitions and a leap second, that of 1972-06-30: of version 1, and of version 2 before another block, which has none. */
static void try_limits(void) {
    uint8_t file[72 + 44 + 10 + 2] = {'T', 'Z', 'i', 'f'};
    uint8_t *const times = file + 44, *const next = file + 72;
    file[31] = 1, file[35] = 2, file[39] = 1, file[43] = 4;
    times[3] = 1, times[7] = 2;
    memcpy(file + 60, "UTC\0\x04\xb2\x58\0\0\0\0\x01", 12);
    memcpy(next, "TZif2", 5);
    next[39] = 1, next[43] = 4;
    memcpy(next + 50, "UTC\0\n\n", 6);
    IS(limited(ZONED_FILE, file, 72, 2, 1), ZONED_OK);
    IS(limited(ZONED_FILE, file, 72, SIZE_MAX, SIZE_MAX), ZONED_OK);
#ifdef OWN_HEAP
    const long before = requests;
#endif
    IS(limited(ZONED_FILE, file, 72, 1, 1), ZONED_ABOVE_LIMITS);
    IS(limited(ZONED_FILE, file, 72, 2, 0), ZONED_ABOVE_LIMITS);
    IS(limited(ZONED_FILE, file, 71, 0, 0), ZONED_UNEXPECTED_END);
    times[7] = 1; /* not later than the one before */
    IS(limited(ZONED_FILE, file, 72, 1, 1), ZONED_ABOVE_LIMITS);
#ifdef OWN_HEAP
    IS(requests, before);
#endif
    IS(limited(ZONED_FILE, file, 72, 2, 1), ZONED_OTHER_TRANSITION_TIMES);
    file[4] = '2';
    IS(limited(ZONED_FILE, file, sizeof file, 0, 0), ZONED_OK);
    IS(limited(ZONED_TEXT, NEW_YORK, LEN, 0, 0), ZONED_OK);
    IS(limited(3, file, 72, 0, 0), ZONED_UNKNOWN_KIND);
}

/* The position of a file's fault. Counted by RFC 8536, section 3: a header has 44 bytes, with the version after 4 of them; in this file
   two times of 4 bytes follow, two type indexes, a type of 6 bytes, four bytes of its designation, and a leap second. */
static void try_positions(void) {
    uint8_t file[73] = {'T', 'Z', 'i', 'f'};
    file[31] = 1, file[35] = 2, file[39] = 1, file[43] = 4, file[47] = 1, file[51] = 2;
    memcpy(file + 60, "UTC\0\x04\xb2\x58\0\0\0\0\x01", 12);
    IS(zoned_fault_position(ZONED_FILE, file, 72), SIZE_MAX);
    IS(zoned_fault_position(ZONED_FILE, file, 71), 71);
    IS(zoned_fault_position(ZONED_FILE, file, 73), 72);
    IS(zoned_fault_position(ZONED_FILE, file, 3), 3);
    IS(zoned_fault_position(3, file, 71), SIZE_MAX);
    const struct { uint8_t place, value, position; } FAULTS[] = {{0, 'X', 0}, {4, '4', 4}, {51, 1, 48}, {52, 1, 52}, {53, 1, 53}, {58, 2, 58}, {71, 2, 64}};
    for (size_t i = 0; i < sizeof FAULTS / sizeof *FAULTS; i++) {
        const uint8_t before = file[FAULTS[i].place];
        file[FAULTS[i].place] = FAULTS[i].value;
        IS(zoned_fault_position(ZONED_FILE, file, 72), FAULTS[i].position);
        file[FAULTS[i].place] = before;
    }
}

static uint32_t parsed(const char *text) { return opened(ZONED_TEXT, text, strlen(text)); }

int main(void) {
    const int64_t instants[3] = {1615705199, 1615705200, INT64_MAX};
    int32_t offsets[3];
    struct zoned_zone zone = {0};
    IS(zoned_open(ZONED_TEXT, NEW_YORK, LEN, &zone), ZONED_OK);
    IS(zoned_zone_offsets(&zone, instants, 3, offsets, 3), ZONED_OK);
    SHOWS(offsets, -18000, -14400, ZONED_NO_OFFSET);

    const int32_t told[12] = {ZONED_NEVER, 0,      0,      ZONED_SEVERAL_TIMES, -14400, -18000,
                              ZONED_ONCE,  -18000, -18000, ZONED_OUT_OF_RANGE,  0,      0};
    zoned_wall_clock clocks[4];
    memset(clocks, 0x55, sizeof clocks); /* what stood there doesn't matter */
    IS(zoned_zone_wall_clocks(&zone, LOCALS, 4, clocks, 4), ZONED_OK);
    for (int i = 0; i < 4; i++) {
        IS(clocks[i].shown, told[3 * i]);
        IS(clocks[i].first_offset, told[3 * i + 1]);
        IS(clocks[i].last_offset, told[3 * i + 2]);
    }
    IS(clocks[0].first, 0);
    IS(clocks[0].last, 0);
    IS(clocks[1].first, 1636263000);
    IS(clocks[1].last, 1636266600);
    IS(clocks[2].first, 1636304400);
    IS(clocks[2].last, 1636304400);

    zoned_close(&zone);

    try_limits();
    try_positions();

    /* Numbers of faults. */
    IS(opened(ZONED_TEXT, NEW_YORK, LEN), ZONED_OK);
    IS(opened(ZONED_FILE, NEW_YORK, LEN), 5);
    IS(opened(ZONED_FILE, "TZif", 4), 7);
    IS(opened(3, NEW_YORK, LEN), ZONED_UNKNOWN_KIND);
    IS(fault_of(0, 0, 1, 0), ZONED_OK);
    IS(fault_of(0, 0, 1, 1), ZONED_OTHER_TYPE_INDEX);
    IS(fault_of(0, 0, 0, 0), ZONED_OTHER_TRANSITION_TIMES);
    IS(parsed(" EST5EDT,M3.2.0,M11.1.0\r\n"), ZONED_OK);
    IS(parsed("EST5EDT,M13.2.0,M11.1.0"), ZONED_TRANSITION_RULE);
    IS(parsed("EST5EDT"), ZONED_UNSUPPORTED_TZ_STRING);
    IS(parsed("<-03>3<-02>,M3.5.0/-2,M10.5.0/-1"), ZONED_PARSE_INT);
    IS(parsed("IST-2IDT,M3.4.4/26,M10.5.0"), ZONED_INVALID_TZ_STRING);
    IS(opened(ZONED_EXTENDED_STRING, "<-03>3<-02>,M3.5.0/-2,M10.5.0/-1", 32), ZONED_OK);
    IS(opened(ZONED_EXTENDED_STRING, "IST-2IDT,M3.4.4/26,M10.5.0", 26), ZONED_OK);
    IS(opened(ZONED_EXTENDED_STRING, "IST-2IDT,M3.4.4/168,M10.5.0", 27), ZONED_INVALID_TZ_STRING);
    IS(opened(ZONED_EXTENDED_STRING, " UTC0", 5) != ZONED_OK, 1);
    IS(opened(ZONED_EXTENDED_STRING, "", 0) != ZONED_OK, 1);
    IS(opened(ZONED_FILE, (const uint8_t[44]){'T', 'Z', 'i', 'f', '4'}, 44), ZONED_UNSUPPORTED_TZ_FILE);

    /* By a handle. The gap's instant by the offset before it is 2021-03-14 07:30:00 UTC. */
    int32_t offset = 77;
    IS(zoned_zone_offset(&zone, 0, &offset), ZONED_NOT_OPEN);
    IS(offset, 77);
    IS(zoned_open(ZONED_FILE, NEW_YORK, LEN, &zone), 5);
    IS(zoned_open(3, NEW_YORK, LEN, &zone), ZONED_UNKNOWN_KIND);
    IS(zone.zone != NULL, 0);
    IS(zoned_open(ZONED_TEXT, NEW_YORK, LEN, &zone), ZONED_OK);
    IS(zone.zone != NULL, 1);
    IS(zoned_zone_offset(&zone, instants[1], &offset), ZONED_OK);
    IS(offset, -14400);
    zoned_local_type types[3];
    IS(zoned_zone_types(&zone, instants, 3, types, 3), ZONED_OK);
    SHOWS(types, EST, EDT, {ZONED_NO_OFFSET, 0, ""});
    zoned_resolved taken[4];
    const uint32_t numbers[4] = {ZONED_IN_GAP, ZONED_IN_FOLD, ZONED_OK, ZONED_INSTANT_OUT_OF_RANGE};
    IS(zoned_zone_instants(&zone, ZONED_GAP_REFUSE, ZONED_FOLD_REFUSE, LOCALS, 4, taken, 4), ZONED_OK);
    for (int i = 0; i < 4; i++) IS(taken[i].number, numbers[i]);
    IS(taken[2].instant, 1636304400);
    IS(zoned_zone_instants(&zone, ZONED_GAP_SHIFT_FORWARD, ZONED_FOLD_EARLIEST, LOCALS, 4, taken, 4), ZONED_OK);
    SHOWS(taken[0], ZONED_OK, -14400, 1615707000);
    SHOWS(taken[1], ZONED_OK, -14400, 1636263000);
    IS(zoned_zone_instant(&zone, ZONED_GAP_REFUSE, ZONED_FOLD_LATEST, LOCALS[1], taken), ZONED_OK);
    SHOWS(taken[0], ZONED_OK, -18000, 1636266600);
    IS(zoned_zone_instant(&zone, ZONED_GAP_NO_TIME, ZONED_FOLD_LATEST, LOCALS[1], taken), ZONED_UNKNOWN_CHOICE);
    IS(zoned_zone_instant(&zone, ZONED_GAP_REFUSE, ZONED_FOLD_NO_TIME, LOCALS[1], taken), ZONED_UNKNOWN_CHOICE);
    IS(zoned_zone_instant(&zone, ZONED_GAP_END, ZONED_FOLD_REFUSE, LOCALS[0], taken), ZONED_OK);
    SHOWS(taken[0], ZONED_OK, -14400, 1615705200);
    IS(zoned_zone_instant(&zone, ZONED_GAP_SHIFT_BACKWARD, ZONED_FOLD_REFUSE, LOCALS[0], taken), ZONED_OK);
    SHOWS(taken[0], ZONED_OK, -18000, 1615703400);
    /* The change of the gap, with both its sides, and that of the fold; noon; out of range. */
    zoned_change around;
    IS(zoned_zone_local_change(&zone, LOCALS[0], &around), ZONED_OK);
    SHOWS(around, 1615705200, EST, EDT);
    IS(zoned_zone_local_change(&zone, LOCALS[1], &around), ZONED_OK);
    SHOWS(around, 1636264800, EDT, EST);
    IS(zoned_zone_local_change(&zone, LOCALS[2], &around), ZONED_NO_CHANGE);
    IS(zoned_zone_local_change(&zone, LOCALS[3], &around), ZONED_INSTANT_OUT_OF_RANGE);
    IS(around.at, 1636264800);
    /* The spans around: of the gap, of the fold, and of noon. */
    zoned_local_info info;
    const int32_t shown_times[3] = {ZONED_NEVER, ZONED_SEVERAL_TIMES, ZONED_ONCE};
    const int64_t first_from[3] = {1604210400, 1615705200, 1636264800}, last_from[3] = {1615705200, 1636264800, 1636264800};
    for (int i = 0; i < 3; i++) {
        IS(zoned_zone_local_info(&zone, LOCALS[i], &info), ZONED_OK);
        IS(info.shown, shown_times[i]);
        IS(info.first.from, first_from[i]);
        IS(info.last.from, last_from[i]);
    }
    SHOWS(info.last, 1636264800, 1647154800, EST);
    IS(zoned_zone_local_info(&zone, LOCALS[3], &info), ZONED_INSTANT_OUT_OF_RANGE);
    IS(info.shown, ZONED_ONCE);
    /* The rule's string, with room and without. */
    char rule[24] = "";
    size_t length = 77;
    IS(zoned_zone_rule_text(&zone, rule, sizeof rule, &length), ZONED_OK);
    IS(length, LEN);
    IS(strcmp(rule, (const char *)NEW_YORK), 0);
    IS(zoned_zone_rule_text(&zone, rule, 4, &length), ZONED_OK);
    IS(length, LEN);
    IS(strcmp(rule, "EST"), 0);
    IS(zoned_zone_rule_text(&zone, NULL, 0, &length), ZONED_OK);
    IS(length, LEN);
    /* The changes of 2021, from the first one on and before the second, and on into 2022 (2022-03-13 07:00:00 UTC). After an
       error all is as it was, and so is what comes after the list. */
    zoned_change changes[3], next;
    size_t count = 77;
    memset(changes, 0x55, sizeof changes);
    IS(zoned_zone_changes(&zone, 1615705200, 1647154801, SIZE_MAX, changes, 2, &count), ZONED_OK);
    IS(count, 3);
    SHOWS(changes[0], 1615705200, EST, EDT);
    SHOWS(changes[1], 1636264800, EDT, EST);
    IS(changes[2].at, 0x5555555555555555);
    IS(zoned_zone_changes(&zone, 1615705201, 1636264800, SIZE_MAX, changes, 3, &count), ZONED_OK);
    IS(count, 0);
    IS(zoned_zone_changes(&zone, INT64_MAX, INT64_MIN, SIZE_MAX, changes, 0, &count), ZONED_OK);
    IS(count, 0);
    IS(zoned_zone_changes(&zone, 1615705200, INT64_MAX, 2, changes, 1, &count), ZONED_OK);
    IS(count, 2);
    IS(changes[0].at, 1615705200);
    IS(zoned_zone_next_change(&zone, 1636264800, &next), ZONED_OK);
    IS(next.at, 1647154800);
    /* The rule answers up to the year 2147483645: that November has its last change. */
    IS(zoned_zone_previous_change(&zone, INT64_MAX, &next), ZONED_OK);
    IS(next.at, 67767976165557600);
    IS(zoned_zone_next_change(&zone, next.at, &next), ZONED_NO_CHANGE);
    IS(next.at, 67767976165557600);
    /* Its changes change the offset, too. Those of AAA0BBB0,J60,J300 never do, whichever of them is asked for. */
    IS(zoned_zone_next_offset_change(&zone, 1615705199, &next), ZONED_OK);
    SHOWS(next, 1615705200, EST, EDT);
    IS(zoned_zone_previous_offset_change(&zone, 1615705199, &next), ZONED_OK);
    IS(next.at, 1604210400);
    IS(zoned_zone_next_offset_change(&zone, 67767976165557600, &next), ZONED_NO_CHANGE);
    IS(next.at, 1604210400);
    struct zoned_zone flags = {0};
    IS(zoned_open(ZONED_TEXT, "AAA0BBB0,J60,J300", 17, &flags), ZONED_OK);
    IS(zoned_zone_next_change(&flags, 0, &next), ZONED_OK);
    IS(zoned_zone_next_offset_change(&flags, 0, &next), ZONED_NO_CHANGE);
    IS(zoned_zone_previous_offset_change(&flags, INT64_MAX, &next), ZONED_NO_CHANGE);
    zoned_close(&flags);
    /* The spans around 2021-03-14 07:00:00 UTC; the last one of the rule; a second without a type. */
    zoned_span span;
    IS(zoned_zone_span(&zone, 1615705199, &span), ZONED_OK);
    SHOWS(span, 1604210400, 1615705200, EST);
    IS(zoned_zone_span(&zone, 1615705200, &span), ZONED_OK);
    SHOWS(span, 1615705200, 1636264800, EDT);
    IS(zoned_zone_span(&zone, 67767976165557600, &span), ZONED_OK);
    SHOWS(span, 67767976165557600, 67767976170460800, EST);
    IS(zoned_zone_span(&zone, 67767976170460800, &span), ZONED_NO_LOCAL_TIME);
    IS(zoned_zone_span(&zone, INT64_MAX, &span), ZONED_NO_LOCAL_TIME);
    IS(span.from, 67767976165557600);
    /* Daylight saving time adds an hour to standard time, which is 5 hours behind UTC. */
    zoned_saving saving;
    IS(zoned_zone_standard_offset(&zone, 1615705200, &saving), ZONED_OK);
    SHOWS(saving, -18000, 3600);
    IS(zoned_zone_standard_offset(&zone, 67767976170460800, &saving), ZONED_NO_LOCAL_TIME);
    IS(saving.amount, 3600);
    IS(zoned_zone_standard_offset(&zone, 1615705199, &saving), ZONED_OK);
    SHOWS(saving, -18000, 0);
    /* In the gap and in the fold, at noon, and out of range. */
    const int64_t reached[3] = {1615705200, 1636263000, 1636304400};
    const int32_t offsets_there[3] = {-14400, -14400, -18000};
    for (int i = 0; i < 3; i++) {
        IS(zoned_zone_first_at_or_after(&zone, LOCALS[i], taken), ZONED_OK);
        SHOWS(taken[0], ZONED_OK, offsets_there[i], reached[i]);
    }
    IS(zoned_zone_first_at_or_after(&zone, LOCALS[3], taken), ZONED_OK);
    SHOWS(taken[0], ZONED_INSTANT_OUT_OF_RANGE, 0, 0);
    IS(zoned_zone_firsts_at_or_after(&zone, LOCALS, 4, taken, 4), ZONED_OK);
    for (int i = 0; i < 3; i++) IS(taken[i].instant, reached[i]);
    IS(taken[3].number, ZONED_INSTANT_OUT_OF_RANGE);
    IS(zoned_zone_firsts_at_or_after(&zone, LOCALS, 4, taken, 3), ZONED_OTHER_SIZE);
    /* 2021-03-14 03:00:00 in New York, a Sunday; a second without a type; and one after the last year of the calendar. */
    zoned_fields fields;
    memset(&fields, 0x55, sizeof fields);
    IS(zoned_zone_fields(&zone, INT64_MAX, &fields), ZONED_NO_LOCAL_TIME);
    IS(zoned_zone_fields(&zone, 8210266876800 + 18000, &fields), ZONED_INSTANT_OUT_OF_RANGE);
    IS(fields.year, 0x55555555);
    IS(zoned_zone_fields(&zone, 1615705200, &fields), ZONED_OK);
    SHOWS(fields, 2021, 3, 14, 3, 0, 0, 0, 73);
    /* The last second of 1969 and of the leap year 2000, and the ends of the range. */
    IS(zoned_fields_of(-1, &fields), ZONED_OK);
    SHOWS(fields, 1969, 12, 31, 23, 59, 59, 3, 365);
    IS(zoned_fields_of(978307199, &fields), ZONED_OK);
    SHOWS(fields, 2000, 12, 31, 23, 59, 59, 0, 366);
    IS(zoned_fields_of(8210266876799, &fields), ZONED_OK);
    SHOWS(fields, 262142, 12, 31, 23, 59, 59, 1, 365);
    IS(zoned_fields_of(-8334601228800, &fields), ZONED_OK);
    SHOWS(fields, -262143, 1, 1, 0, 0, 0, 4, 1);
    IS(zoned_fields_of(8210266876800, &fields), ZONED_INSTANT_OUT_OF_RANGE);
    IS(zoned_fields_of(-8334601228801, &fields), ZONED_INSTANT_OUT_OF_RANGE);
    IS(fields.year, -262143);
    /* And back: 2000-02-29 12:34:56; no 29 February 1900, no month 0, no hour 24; and a year out of range. */
    int64_t local = 77;
    fields = (zoned_fields){.year = 1900, .month = 2, .day = 29};
    IS(zoned_local_of(&fields, &local), ZONED_NO_DATE_TIME);
    fields = (zoned_fields){.year = 2000, .month = 0, .day = 1};
    IS(zoned_local_of(&fields, &local), ZONED_NO_DATE_TIME);
    fields = (zoned_fields){.year = 2000, .month = 2, .day = 29, .hour = 24};
    IS(zoned_local_of(&fields, &local), ZONED_NO_DATE_TIME);
    fields = (zoned_fields){.year = 262143, .month = 1, .day = 1};
    IS(zoned_local_of(&fields, &local), ZONED_INSTANT_OUT_OF_RANGE);
    IS(local, 77);
    fields = (zoned_fields){.year = 2000, .month = 2, .day = 29, .hour = 12, .minute = 34, .second = 56};
    IS(zoned_local_of(&fields, &local), ZONED_OK);
    IS(local, 951827696);
    zoned_close(&zone);
    zoned_close(&zone);
    IS(zone.zone != NULL, 0);
    IS(zoned_zone_fields(&zone, 0, &fields), ZONED_NOT_OPEN);
    IS(zoned_zone_span(&zone, 0, &span), ZONED_NOT_OPEN);
    IS(zoned_zone_standard_offset(&zone, 0, &saving), ZONED_NOT_OPEN);
    IS(zoned_zone_first_at_or_after(&zone, 0, taken), ZONED_NOT_OPEN);
    IS(zoned_zone_firsts_at_or_after(&zone, LOCALS, 4, taken, 4), ZONED_NOT_OPEN);
    count = 77;
    IS(zoned_zone_changes(&zone, 0, INT64_MAX, SIZE_MAX, changes, 3, &count), ZONED_NOT_OPEN);
    IS(count, 77);
    IS(changes[0].at, 1615705200);
    /* 2021-03-14 06:59:59.999 and 07:00:00 UTC, on both sides of the gap; no time; and a row whose sum doesn't fit. */
    const int64_t column[4] = {1615705199999, 1615705200000, ZONED_NO_TIME, INT64_MIN + 1};
    int64_t locals[4] = {77, 77, 77, 77};
    size_t row = 77;
    IS(zoned_column_locals(&zone, 1000, column, 3, locals, 3, &row), ZONED_NOT_OPEN);
    IS(zoned_open(ZONED_TEXT, NEW_YORK, LEN, &zone), ZONED_OK);
    IS(zoned_column_locals(&zone, 60, column, 3, locals, 3, &row), ZONED_UNKNOWN_UNIT);
    IS(locals[0], 77);
    IS(zoned_column_locals(&zone, 1000, column, 3, locals, 3, &row), ZONED_OK);
    SHOWS(locals, 1615687199999, 1615690800000, ZONED_NO_TIME, 77);
    IS(row, 77);
    IS(zoned_column_locals(&zone, 1000, column, 4, locals, 4, &row), ZONED_NO_LOCAL_TIME);
    IS(row, 3);
    IS(locals[3], 77);
    /* Of the gap and of the fold by half a second more; no time; and a row in a gap, under a policy that rejects it. */
    const int64_t shown[4] = {1615689000500, 1636248600500, ZONED_NO_TIME, 1615689000500};
    int64_t times[4] = {77, 77, 77, 77};
    row = 77;
    IS(zoned_column_instants(&zone, 5, ZONED_FOLD_REFUSE, 60, shown, 4, times, 4, &row), ZONED_UNKNOWN_CHOICE);
    IS(zoned_column_instants(&zone, ZONED_GAP_REFUSE, 4, 60, shown, 4, times, 4, &row), ZONED_UNKNOWN_CHOICE);
    IS(zoned_column_instants(&zone, ZONED_GAP_END, ZONED_FOLD_LATEST, 60, shown, 4, times, 4, &row), ZONED_UNKNOWN_UNIT);
    IS(zoned_column_instants(&zone, ZONED_GAP_END, ZONED_FOLD_LATEST, 1000, shown, 4, times, 3, &row), ZONED_OTHER_SIZE);
    IS(times[0], 77);
    IS(zoned_column_instants(&zone, ZONED_GAP_END, ZONED_FOLD_LATEST, 1000, shown, 3, times, 3, &row), ZONED_OK);
    SHOWS(times, 1615705200000, 1636266600500, ZONED_NO_TIME, 77);
    IS(row, 77);
    IS(zoned_column_instants(&zone, ZONED_GAP_SHIFT_FORWARD, ZONED_FOLD_EARLIEST, 1000, shown, 3, times, 3, &row), ZONED_OK);
    SHOWS(times, 1615707000500, 1636263000500, ZONED_NO_TIME, 77);
    IS(zoned_column_instants(&zone, ZONED_GAP_SHIFT_BACKWARD, ZONED_FOLD_LATEST, 1000, shown, 3, times, 3, &row), ZONED_OK);
    SHOWS(times, 1615703400500, 1636266600500, ZONED_NO_TIME, 77);
    IS(zoned_column_instants(&zone, ZONED_GAP_REFUSE, ZONED_FOLD_LATEST, 1000, shown + 1, 3, times + 1, 3, &row), ZONED_IN_GAP);
    IS(row, 2);
    IS(times[1], 1636266600500);
    IS(times[3], 77);
    row = 77;
    IS(zoned_column_instants(&zone, ZONED_GAP_NO_TIME, ZONED_FOLD_LATEST, 1000, shown, 4, times, 4, &row), ZONED_OK);
    SHOWS(times, ZONED_NO_TIME, 1636266600500, ZONED_NO_TIME, ZONED_NO_TIME);
    IS(row, 77);
    IS(zoned_column_instants(&zone, ZONED_GAP_REFUSE, ZONED_FOLD_NO_TIME, 1000, shown + 1, 3, times + 1, 3, &row), ZONED_IN_GAP);
    IS(times[1], ZONED_NO_TIME);
    IS(times[2], ZONED_NO_TIME);
    IS(row, 2);
    /* A wrong count is reported, and nothing is written. */
    int32_t guarded[4] = {77, 77, 77, 77};
    IS(zoned_zone_offsets(&zone, instants, 3, guarded + 1, 2), ZONED_OTHER_SIZE);
    SHOWS(guarded, 77, 77, 77, 77);
    /* Clocks have reached 01:59:59 on the second pass. */
    int64_t clock_at = 77;
    IS(zoned_zone_reached(&zone, 1636266600, &clock_at), ZONED_OK);
    IS(clock_at, 1636250399);
    /* So the day and the steps of that instant: the hour of 01:00 lasts from 05:00 to 07:00 UTC. 2021-11-07 is a Sunday. */
    zoned_day day = {77, 77, 77};
    const uint32_t steps[] = {ZONED_STEP_HOUR, ZONED_STEP_DAY, ZONED_STEP_WEEK, ZONED_STEP_WEEK + 1, ZONED_STEP_MONTH, ZONED_STEP_YEAR, 900};
    const int64_t floors[] = {1636261200, 1636257600, 1636257600, 1635739200, 1635739200, 1609477200, 1636263900};
    const int64_t ceils[] = {1636268400, 1636347600, 1636866000, 1636347600, 1638334800, 1641013200, 1636268400};
    IS(zoned_zone_day(&zone, 1636266600, &day), ZONED_OK);
    SHOWS(day, 1636243200, 1636257600, 1636347600);
    IS(zoned_zone_day(&zone, 8210266876800, &day), ZONED_INSTANT_OUT_OF_RANGE);
    IS(zoned_zone_floor(&zone, ZONED_STEP_HOUR, 8210266876800, &clock_at), ZONED_INSTANT_OUT_OF_RANGE);
    IS(day.end, 1636347600);
    IS(clock_at, 1636250399);
    for (size_t i = 0; i < sizeof steps / sizeof *steps; i++) {
        IS(zoned_zone_floor(&zone, steps[i], 1636266600, &clock_at), ZONED_OK);
        IS(clock_at, floors[i]);
        IS(zoned_zone_ceil(&zone, steps[i], 1636266600, &clock_at), ZONED_OK);
        IS(clock_at, ceils[i]);
        IS(zoned_zone_ceil(&zone, steps[i], ceils[i], &clock_at), ZONED_OK);
        IS(clock_at, ceils[i]);
    }
    const uint32_t no_steps[] = {0, 7, 86401, ZONED_STEP_WEEK + 7, ZONED_STEP_MONTH + 1, ZONED_STEP_YEAR + 1};
    for (size_t i = 0; i < sizeof no_steps / sizeof *no_steps; i++) IS(zoned_zone_floor(&zone, no_steps[i], 0, &clock_at), ZONED_UNKNOWN_STEP);
    /* Columns, in milliseconds: no time stays, and the third instant is out of range. */
    const int64_t asked[3] = {1636268400001, ZONED_NO_TIME, 8210266876800000};
    int64_t found[3] = {77, 77, 77};
    row = 77;
    IS(zoned_column_floors(&zone, 7, 60, asked, 2, found, 2, &row), ZONED_UNKNOWN_STEP);
    IS(zoned_column_floors(&zone, ZONED_STEP_HOUR, 60, asked, 2, found, 2, &row), ZONED_UNKNOWN_UNIT);
    IS(zoned_column_floors(&zone, ZONED_STEP_HOUR, 1000, asked, 2, found, 3, &row), ZONED_OTHER_SIZE);
    IS(found[0], 77);
    IS(zoned_column_floors(&zone, ZONED_STEP_HOUR, 1000, asked, 2, found, 2, &row), ZONED_OK);
    SHOWS(found, 1636268400000, ZONED_NO_TIME, 77);
    IS(zoned_column_ceils(&zone, ZONED_STEP_HOUR, 1000, asked, 2, found, 2, &row), ZONED_OK);
    IS(found[0], 1636272000000);
    IS(row, 77);
    IS(zoned_column_reached(&zone, 1000, asked, 3, found, 3, &row), ZONED_INSTANT_OUT_OF_RANGE);
    IS(found[0], 1636250400000);
    IS(found[2], 77);
    IS(row, 2);
    /* St. John's: on 2010-11-07 clocks went from 00:01 back to 23:01 of the day before, which lies in the later day. */
    static const char ST_JOHNS[] = "NST3:30NDT,M3.2.0/0:01,M11.1.0/0:01";
    IS(zoned_open(ZONED_TEXT, ST_JOHNS, sizeof ST_JOHNS - 1, &zone), ZONED_OK);
    IS(zoned_zone_day(&zone, 1289097120, &day), ZONED_OK);
    SHOWS(day, 1289088000, 1289097000, 1289187000);
    IS(zoned_zone_floor(&zone, ZONED_STEP_DAY, 1289097120, &clock_at), ZONED_OK);
    IS(clock_at, 1289097000);
    /* A fixed offset: Nepal's; one of a day, whose clocks are too far ahead for that; and one that no zone has. */
    IS(zoned_open_fixed(20700, &zone), ZONED_OK);
    IS(zoned_zone_type(&zone, 0, types), ZONED_OK);
    SHOWS(types[0], 20700, 0, "");
    IS(zoned_open_fixed(INT32_MIN, &zone), ZONED_LOCAL_TIME_TYPE);
    IS(zoned_open_fixed(86400, &zone), ZONED_OK);
    IS(zoned_zone_reached(&zone, 0, &clock_at), ZONED_WIDE_ZONE);
    IS(zoned_zone_day(&zone, 0, &day), ZONED_WIDE_ZONE);
    IS(zoned_zone_floor(&zone, ZONED_STEP_DAY, 0, &clock_at), ZONED_WIDE_ZONE);
    row = 77;
    IS(zoned_column_floors(&zone, ZONED_STEP_DAY, 1000, asked + 1, 2, found + 1, 2, &row), ZONED_WIDE_ZONE);
    IS(row, 1);
    zoned_close(&zone);
    IS(zoned_version(), ZONED_VERSION_NUMBER);
    char text[8] = "1234567";
    IS(zoned_error_text(17, text, 4), 13);
    IS(memcmp(text, "out\000567", 8), 0);

#ifdef OWN_HEAP
    IS(requests > 0, 1);
    IS(blocks, 0);
#endif
    return differences != 0;
}
