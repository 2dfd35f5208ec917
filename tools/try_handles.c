/* Tries the calls of zoned_ffi.h by handle, as a C program makes them. tools/try_handles.py builds and runs it.

     try_handles CALLS SEED FILE ..       of these TZif files, and of TZ strings
     try_handles stack                    how much stack calls use

   Random calls: handles are opened on zones, on parts of their bytes and on bytes with faults, by kinds that are and that
   aren't, shared, closed and asked, with counts that fit and that don't. What a handle answers is compared with what a
   handle answers that is opened on the same bytes for one question, and the changes of a stretch with what stepping through
   them comes to. Then eight threads ask one handle in a read-only page, and shares of it; a question is left by siglongjmp;
   the shares of a zone are closed in every order; and each request for memory of a call that opens is refused in turn. The stack
   of a thread is painted before each call, and what is no longer paint was used. It prints a line, and ends with 0 if nothing
   differs. Linked with --wrap=malloc and --wrap=realloc. */
#define _GNU_SOURCE
#include "../crates/zoned_ffi/include/zoned_ffi.h"

#include <inttypes.h>
#include <pthread.h>
#include <setjmp.h>
#include <signal.h>
#include <stdio.h>
#include <stdlib.h>
#include <string.h>
#include <sys/mman.h>
#include <time.h>
#include <unistd.h>

#define EXPECT(what)                                                                                                       \
    do {                                                                                                                   \
        if (!(what)) {                                                                                                     \
            fprintf(stderr, "try_handles.c:%d: not so: %s (call %" PRIu64 ")\n", __LINE__, #what, calls);                  \
            exit(1);                                                                                                       \
        }                                                                                                                  \
    } while (0)

enum { HANDLES = 12, MOST = 6, ROOM = 24, COLUMN = 48, LONG = 6000, THREADS = 8, NONE = -1, SIZE_OF_RANDOM_BYTES = 300 };

static uint64_t calls;

/* Requests for memory: how many are granted before one is refused, or all where it is negative. */
static long granted = -1;

void *__real_malloc(size_t size);
void *__real_realloc(void *block, size_t size);

static int is_refused(void) {
    if (granted < 0) return 0;
    if (granted == 0) return 1;
    granted--;
    return 0;
}

void *__wrap_malloc(size_t size) { return is_refused() ? NULL : __real_malloc(size); }

void *__wrap_realloc(void *block, size_t size) { return is_refused() ? NULL : __real_realloc(block, size); }

/* The bytes of a zone, and how they are read. */
struct bytes {
    uint32_t kind;
    uint8_t *at;
    size_t len;
};

static const char *const EXTENDED[] = {"<-02>2<-01>,M3.5.0/-1,M10.5.0/0", "EET-2EEST,M3.4.4/50,M10.4.4/50", "IST-2IDT,M3.4.4/26,M10.5.0"};

static const char *const TEXTS[] = {"UTC0", "EST5EDT,M3.2.0,M11.1.0", "AAA-1BBB-1,M3.2.0,M11.1.0", "<-03>3", "LHST-10:30LHDT-11,M10.1.0,M4.1.0", ""};

static struct bytes zones[64];
static size_t zone_count;

/* A handle, and the bytes that it was opened on: none where `of.at` is NULL. */
struct tried {
    struct zoned_zone zone;
    struct bytes of;
};

static struct tried tried[HANDLES];

static uint64_t state;

static uint64_t next(void) {
    state ^= state << 13;
    state ^= state >> 7;
    state ^= state << 17;
    return state;
}

static uint64_t below(uint64_t limit) { return next() % limit; }

static struct bytes copy(struct bytes bytes) {
    struct bytes copied = bytes;
    copied.at = malloc(bytes.len + 1);
    if (!copied.at) exit(2);
    if (bytes.len) memcpy(copied.at, bytes.at, bytes.len);
    return copied;
}

static void forget(struct tried *of) {
    free(of->of.at);
    of->of.at = NULL;
}

/* Local times in gaps and folds of New York, Dublin, Tehran, Apia and the texts. */
static const int64_t SKIPPED_OR_REPEATED[] = {1615689000, 1636248600, 1616895000, 1635643800,
                                              1616373000, 1632266100, 1325246400, 1633230000};

/* Seconds near these, of the years 1850 to 2150, of the whole of 64 bits, and of both ends of the range. */
static int64_t second(void) {
    switch (below(8)) {
    case 0: return (int64_t)next();
    case 1: return INT64_MAX - (int64_t)below(3);
    case 2: return INT64_MIN + (int64_t)below(3);
    case 3: return (below(2) ? 8210266876799 : -8334601228800) + (int64_t)below(200000) - 100000;
    case 4:
    case 5: return SKIPPED_OR_REPEATED[below(8)] + (int64_t)below(7200) - 3600;
    default: return (int64_t)below(9467280000) - 3786912000;
    }
}

/* A zone's bytes: whole, or cut short, or with a byte changed, or no zone at all; by a kind that may be another. */
static struct bytes some_bytes(void) {
    struct bytes bytes = copy(zones[below(zone_count)]);
    switch (below(8)) {
    case 0:
        bytes.len = below(bytes.len + 1);
        break;
    case 1:
        if (bytes.len) bytes.at[below(bytes.len)] = (uint8_t)next();
        break;
    case 2:
        free(bytes.at);
        bytes.len = below(SIZE_OF_RANDOM_BYTES);
        bytes.at = malloc(bytes.len + 1);
        if (!bytes.at) exit(2);
        for (size_t i = 0; i < bytes.len; i++) bytes.at[i] = (uint8_t)next();
        break;
    case 3:
        bytes.kind = (uint32_t)below(5);
        break;
    default:
        break;
    }
    return bytes;
}

/* The answers of a handle that is opened on the bytes for this question. */
static uint32_t fresh_offsets(struct bytes of, const int64_t *instants, size_t count, int32_t *offsets) {
    struct zoned_zone zone = {0};
    uint32_t number = zoned_open(of.kind, of.at, of.len, &zone);
    if (!number) number = zoned_zone_offsets(&zone, instants, count, offsets, count);
    zoned_close(&zone);
    return number;
}

static uint32_t fresh_clocks(struct bytes of, const int64_t *locals, size_t count, zoned_wall_clock *clocks) {
    struct zoned_zone zone = {0};
    uint32_t number = zoned_open(of.kind, of.at, of.len, &zone);
    if (!number) number = zoned_zone_wall_clocks(&zone, locals, count, clocks, count);
    zoned_close(&zone);
    return number;
}

static void try_open(struct tried *to) {
    struct bytes bytes = some_bytes();
    void *before = to->zone.zone;
    uint32_t number = zoned_open(bytes.kind, bytes.at, bytes.len, &to->zone);
    EXPECT(number == fresh_offsets(bytes, NULL, 0, NULL));
    EXPECT(number < 18 || (number >= ZONED_OTHER_TYPE_INDEX && number <= ZONED_OTHER_RULE) || number == ZONED_UNKNOWN_KIND);
    int is_fault = number && number != ZONED_OUT_OF_MEMORY && number != ZONED_UNKNOWN_KIND;
    size_t position = zoned_fault_position(bytes.kind, bytes.at, bytes.len);
    EXPECT(is_fault ? position <= bytes.len : position == SIZE_MAX);
    struct zoned_zone limited = {0};
    uint32_t within = zoned_open_limited(bytes.kind, bytes.at, bytes.len, SIZE_MAX, SIZE_MAX, &limited);
    EXPECT(within == number);
    zoned_close(&limited);
    if (number) {
        EXPECT(to->zone.zone == before);
        free(bytes.at);
        return;
    }
    EXPECT(to->zone.zone != NULL);
    forget(to);
    to->of = bytes;
}

static void try_share(struct tried *from, struct tried *to) {
    if (from == to) return;
    void *before = to->zone.zone;
    uint32_t number = zoned_share(&from->zone, &to->zone);
    EXPECT(number == (from->of.at ? ZONED_OK : ZONED_NOT_OPEN));
    if (number) {
        EXPECT(to->zone.zone == before);
        return;
    }
    EXPECT(to->zone.zone != NULL && to->zone.zone != from->zone.zone);
    forget(to);
    to->of = copy(from->of);
}

static void try_close(struct tried *of) {
    zoned_close(&of->zone);
    EXPECT(of->zone.zone == NULL);
    if (below(2)) zoned_close(&of->zone);
    EXPECT(of->zone.zone == NULL);
    forget(of);
}

/* What a call returns for `wanted` answers where there is room for so many. */
static uint32_t due(const struct tried *of, size_t wanted, size_t room) {
    return !of->of.at ? ZONED_NOT_OPEN : wanted != room ? ZONED_OTHER_SIZE : ZONED_OK;
}

/* Whether each byte is still 0x55. */
static int is_untouched(const void *at, size_t size) {
    const uint8_t *bytes = at;
    for (size_t i = 0; i < size; i++)
        if (bytes[i] != 0x55) return 0;
    return 1;
}

/* What a call returns. After an error its answer is as it was. */
static uint32_t kept(uint32_t number, const void *answer, size_t size) {
    EXPECT(!number || is_untouched(answer, size));
    return number;
}

#define ASK(answer, call) (memset(answer, 0x55, sizeof *(answer)), kept((call), answer, sizeof *(answer)))

static int is_same_clock(const zoned_wall_clock *a, const zoned_wall_clock *b) {
    return a->shown == b->shown && a->first_offset == b->first_offset && a->last_offset == b->last_offset && a->first == b->first && a->last == b->last;
}

/* The questions about one time: the call, the type of its answer, four bytes of it that have no meaning, or 0, and what the call takes
   before the time. */
#define QUESTIONS(Q)                                                                                                       \
    Q(offset, int32_t, 0) Q(type, zoned_local_type, 0) Q(span, zoned_span, 0) Q(next_change, zoned_change, 0)              \
    Q(previous_change, zoned_change, 0) Q(next_offset_change, zoned_change, 0) Q(previous_offset_change, zoned_change, 0)  \
    Q(wall_clock, zoned_wall_clock, 12) Q(first_at_or_after, zoned_resolved, 0) Q(reached, int64_t, 0)                     \
    Q(day, zoned_day, 0) Q(fields, zoned_fields, 0) Q(floor, int64_t, 0, ZONED_STEP_MONTH)                                 \
    Q(ceil, int64_t, 0, ZONED_STEP_YEAR) Q(instant, zoned_resolved, 0, ZONED_GAP_SHIFT_FORWARD, ZONED_FOLD_LATEST)         \
    Q(standard_offset, zoned_saving, 0) Q(local_change, zoned_change, 0) Q(local_info, zoned_local_info, 4)

#define ASKED(call, type, empty, ...)                                                                                      \
    static uint32_t ask_##call(const struct zoned_zone *zone, int64_t at, void *answer) {                                  \
        return zoned_zone_##call(zone, ##__VA_ARGS__, at, (type *)answer);                                                 \
    }
QUESTIONS(ASKED)

#define ROW(call, type, empty, ...) {ask_##call, sizeof(type), empty},
static const struct {
    uint32_t (*ask)(const struct zoned_zone *zone, int64_t at, void *answer);
    size_t size, empty;
} QUESTION[] = {QUESTIONS(ROW)};

enum { ALL = sizeof QUESTION / sizeof *QUESTION, ON_A_SMALL_STACK = ALL - 3 };

/* The answer to any of them. */
typedef union {
    zoned_local_info info;
    uint8_t bytes[sizeof(zoned_local_info)];
} any_answer;

/* A handle that isn't open answers nothing. */
static void try_closed(struct tried *of) {
    any_answer answer;
    for (size_t i = 0; i < ALL; i++) EXPECT(ASK(&answer, QUESTION[i].ask(&of->zone, second(), &answer)) == ZONED_NOT_OPEN);
}

static void try_instants(struct tried *of) {
    int64_t instants[MOST];
    int32_t offsets[MOST], expected[MOST] = {0};
    zoned_local_type types[MOST];
    size_t count = below(MOST + 1), room = below(4) ? count : below(MOST + 1);
    for (size_t i = 0; i < MOST; i++) instants[i] = second();
    if (of->of.at) EXPECT(fresh_offsets(of->of, instants, MOST, expected) == ZONED_OK);
    memset(offsets, 0x55, sizeof offsets);
    memset(types, 0x55, sizeof types);
    uint32_t number = zoned_zone_offsets(&of->zone, instants, count, offsets, room);
    EXPECT(number == due(of, count, room));
    EXPECT(number == zoned_zone_types(&of->zone, instants, count, types, room));
    size_t written = number ? 0 : count;
    EXPECT(is_untouched(offsets + written, (MOST - written) * sizeof *offsets));
    EXPECT(is_untouched(types + written, (MOST - written) * sizeof *types));
    for (size_t i = 0; i < written; i++) {
        size_t len = strlen(types[i].abbreviation);
        EXPECT(offsets[i] == expected[i] && types[i].offset == expected[i]);
        EXPECT((types[i].is_dst == 0 || types[i].is_dst == 1) && (len == 0 || (3 <= len && len <= 7)));
        for (size_t k = len; k < sizeof types[i].abbreviation; k++) EXPECT(types[i].abbreviation[k] == 0);
    }
    number = zoned_zone_offset(&of->zone, instants[0], &offsets[0]);
    EXPECT(number == due(of, 0, 0) && number == zoned_zone_type(&of->zone, instants[0], &types[0]));
    if (!number) EXPECT(offsets[0] == expected[0] && types[0].offset == expected[0]);
}

static int is_same_type(const zoned_local_type *one, const zoned_local_type *other) { return memcmp(one, other, sizeof *one) == 0; }

/* The next and the previous change of a second: the types around each differ and are those in force, and at no second that is
   asked between the two another type is. */
static void try_changes(struct tried *of) {
    int64_t from = second(), begin = INT64_MIN, end = INT64_MAX;
    zoned_change next, previous, again;
    zoned_local_type type, there;
    uint32_t after = ASK(&next, zoned_zone_next_change(&of->zone, from, &next));
    uint32_t before = ASK(&previous, zoned_zone_previous_change(&of->zone, from, &previous));
    EXPECT(after == ZONED_OK || after == ZONED_NO_CHANGE);
    EXPECT(before == ZONED_OK || before == ZONED_NO_CHANGE);
    if (!after) {
        EXPECT(from < next.at && !is_same_type(&next.before, &next.after));
        EXPECT(zoned_zone_type(&of->zone, next.at, &type) == ZONED_OK && is_same_type(&type, &next.after));
        EXPECT(zoned_zone_type(&of->zone, next.at - 1, &type) == ZONED_OK && is_same_type(&type, &next.before));
        EXPECT(zoned_zone_previous_change(&of->zone, next.at, &again) == ZONED_OK && again.at == next.at);
        end = next.at - 1;
    }
    if (!before) {
        EXPECT(previous.at <= from && !is_same_type(&previous.before, &previous.after));
        EXPECT(zoned_zone_type(&of->zone, previous.at, &type) == ZONED_OK && is_same_type(&type, &previous.after));
        EXPECT(zoned_zone_type(&of->zone, previous.at - 1, &type) == ZONED_OK && is_same_type(&type, &previous.before));
        EXPECT(zoned_zone_next_change(&of->zone, previous.at - 1, &again) == ZONED_OK && again.at == previous.at);
        begin = previous.at;
    }
    if (after || before) return;
    EXPECT(zoned_zone_type(&of->zone, from, &type) == ZONED_OK && is_same_type(&type, &next.before) && is_same_type(&type, &previous.after));
    int64_t between = begin + (int64_t)below((uint64_t)(end - begin) + 1);
    EXPECT(zoned_zone_type(&of->zone, between, &there) == ZONED_OK && is_same_type(&there, &type));
}

/* The next and the previous change of the offset: the first of the changes in between that has two offsets. */
static void try_offset_changes(struct tried *of) {
    for (int is_back = 0; is_back < 2; is_back++) {
        int64_t from = second();
        zoned_change found, step = {.at = from};
        uint32_t number = is_back ? ASK(&found, zoned_zone_previous_offset_change(&of->zone, from, &found))
                                  : ASK(&found, zoned_zone_next_offset_change(&of->zone, from, &found));
        EXPECT(number == ZONED_OK || number == ZONED_NO_CHANGE);
        uint32_t stepped = ZONED_OK;
        int steps = 0;
        for (; steps < 1000; steps++, step.at -= is_back) {
            stepped = (is_back ? zoned_zone_previous_change : zoned_zone_next_change)(&of->zone, step.at, &step);
            if (stepped || step.before.offset != step.after.offset) break;
        }
        if (steps < 1000) EXPECT(stepped == number && (number || memcmp(&step, &found, sizeof step) == 0));
    }
}

/* Whether the zone has no type at the second. */
static int has_no_type(struct tried *of, int64_t at) {
    zoned_local_type type = {0};
    return zoned_zone_type(&of->zone, at, &type) == ZONED_OK && type.offset == ZONED_NO_OFFSET;
}

/* The span of a second: it begins at the previous change, or when the zone begins to have a type, ends at the next one, or
   when the zone ceases to have one, and has the type that is in force. */
static void try_span(struct tried *of) {
    int64_t at = second();
    zoned_span span;
    zoned_change change;
    zoned_local_type type = {0};
    uint32_t number = ASK(&span, zoned_zone_span(&of->zone, at, &span));
    EXPECT(zoned_zone_type(&of->zone, at, &type) == ZONED_OK);
    EXPECT(number == (type.offset == ZONED_NO_OFFSET ? ZONED_NO_LOCAL_TIME : ZONED_OK));
    if (number) return;
    EXPECT(is_same_type(&span.local_type, &type));
    EXPECT(span.from <= at && (at < span.until || at == INT64_MAX));
    if (!zoned_zone_previous_change(&of->zone, at, &change)) EXPECT(span.from == change.at);
    else EXPECT(span.from == INT64_MIN || has_no_type(of, span.from - 1));
    if (!zoned_zone_next_change(&of->zone, at, &change)) EXPECT(span.until == change.at);
    else EXPECT(span.until == INT64_MAX || has_no_type(of, span.until));
}

/* The parts of the offset of a second: their sum is the offset, and daylight saving time adds nothing if and only if the DST flag
   is 0. All seconds of a span have the same. */
static void try_saving(struct tried *of) {
    int64_t at = second();
    zoned_span span;
    zoned_saving saving, first = {0};
    uint32_t number = ASK(&saving, zoned_zone_standard_offset(&of->zone, at, &saving));
    EXPECT(number == zoned_zone_span(&of->zone, at, &span));
    if (number) return;
    EXPECT(saving.standard_offset + saving.amount == span.local_type.offset);
    EXPECT((saving.amount != 0) == (span.local_type.is_dst == 1) && -86400 < saving.amount && saving.amount < 86400);
    EXPECT(zoned_zone_standard_offset(&of->zone, span.from, &first) == ZONED_OK && !memcmp(&first, &saving, sizeof first));
}

/* The first second from `from` on at which a clock shows the local time or a later one, by the changes before `until`. */
static int64_t first_by_changes(struct tried *of, int64_t local, int64_t from, int64_t until, int32_t *offset) {
    zoned_change change;
    zoned_local_type type;
    for (int64_t begin = from, end;; begin = end) {
        EXPECT(begin < until && zoned_zone_type(&of->zone, begin, &type) == ZONED_OK && type.offset != ZONED_NO_OFFSET);
        end = zoned_zone_next_change(&of->zone, begin, &change) ? until : change.at;
        int64_t reached = local - type.offset > begin ? local - type.offset : begin;
        *offset = type.offset;
        if (reached < end) return reached;
    }
}

static void try_first(struct tried *of) {
    int64_t local = second();
    zoned_resolved reached;
    EXPECT(zoned_zone_first_at_or_after(&of->zone, local, &reached) == ZONED_OK);
    int32_t offset = 0;
    int64_t at = 0;
    int is_known = local >= -8334601228800 && local <= 8210266876799;
    /* An offset is less than 2^31 seconds. */
    if (is_known) at = first_by_changes(of, local, local - (INT64_C(1) << 31), local + (INT64_C(1) << 31), &offset);
    if (at < -8334601228800 || at > 8210266876799) is_known = 0;
    EXPECT(reached.number == (is_known ? ZONED_OK : ZONED_INSTANT_OUT_OF_RANGE));
    EXPECT(reached.instant == (is_known ? at : 0) && reached.offset == (is_known ? offset : 0));
    int64_t locals[] = {local, second()};
    zoned_resolved each[2], next;
    EXPECT(ASK(&each, zoned_zone_firsts_at_or_after(&of->zone, locals, 2, each, 1)) == ZONED_OTHER_SIZE);
    EXPECT(zoned_zone_firsts_at_or_after(&of->zone, locals, 2, each, 2) == ZONED_OK);
    EXPECT(zoned_zone_first_at_or_after(&of->zone, locals[1], &next) == ZONED_OK);
    EXPECT(memcmp(&each[0], &reached, sizeof reached) == 0 && memcmp(&each[1], &next, sizeof next) == 0);
}

/* Whether the clock change is one of the zone's. */
static int is_listed(struct tried *of, const zoned_change *change) {
    zoned_change found;
    return zoned_zone_previous_change(&of->zone, change->at, &found) == ZONED_OK && found.at == change->at &&
           is_same_type(&found.before, &change->before) && is_same_type(&found.after, &change->after);
}

/* The clock change of a local time: in a gap the first after which clocks show more, and in a fold the last before which they show it or
   more, of those between the first and the last second that show it. */
static void try_local_change(struct tried *of) {
    int64_t local = second();
    zoned_change change, step;
    zoned_wall_clock clock = {0};
    zoned_resolved reached;
    EXPECT(zoned_zone_wall_clock(&of->zone, local, &clock) == ZONED_OK);
    uint32_t number = ASK(&change, zoned_zone_local_change(&of->zone, local, &change));
    if (clock.shown == ZONED_OUT_OF_RANGE) EXPECT(number == ZONED_INSTANT_OUT_OF_RANGE);
    else EXPECT(number == (clock.shown == ZONED_ONCE ? ZONED_NO_CHANGE : ZONED_OK));
    if (number) return;
    EXPECT(is_listed(of, &change));
    if (clock.shown == ZONED_NEVER) {
        EXPECT(change.at + change.before.offset <= local && local < change.at + change.after.offset);
        EXPECT(zoned_zone_first_at_or_after(&of->zone, local, &reached) == ZONED_OK && (reached.number || reached.instant == change.at));
        return;
    }
    EXPECT(change.after.offset < change.before.offset && clock.first < change.at && change.at <= clock.last);
    EXPECT(local < change.at + change.before.offset && change.at + change.after.offset <= local);
    for (step = change; !zoned_zone_next_change(&of->zone, step.at, &step) && step.at <= clock.last;)
        EXPECT(step.at + step.before.offset <= local);
}

/* The spans of the first and the last second that show a local time, or of those around its gap. */
static void try_local_info(struct tried *of) {
    int64_t local = second(), first, last;
    zoned_local_info info;
    zoned_wall_clock clock = {0};
    zoned_span span;
    zoned_change change;
    EXPECT(zoned_zone_wall_clock(&of->zone, local, &clock) == ZONED_OK);
    uint32_t number = ASK(&info, zoned_zone_local_info(&of->zone, local, &info));
    EXPECT(number == (clock.shown == ZONED_OUT_OF_RANGE ? ZONED_INSTANT_OUT_OF_RANGE : ZONED_OK));
    if (number) return;
    first = clock.first, last = clock.last;
    if (clock.shown == ZONED_NEVER) {
        EXPECT(zoned_zone_local_change(&of->zone, local, &change) == ZONED_OK);
        first = change.at - 1, last = change.at;
    }
    EXPECT(info.shown == clock.shown);
    EXPECT(zoned_zone_span(&of->zone, first, &span) == ZONED_OK && memcmp(&span, &info.first, sizeof span) == 0);
    EXPECT(zoned_zone_span(&of->zone, last, &span) == ZONED_OK && memcmp(&span, &info.last, sizeof span) == 0);
}

/* The string of the zone's rule, in rooms of every size: a zone of it has the same types in the last years of rules, and without a string the
   clocks change no more at the last seconds of 64 bits. */
static void try_rule_text(struct tried *of) {
    enum { ROOM_OF_RULE = 100 };
    char text[ROOM_OF_RULE], whole[ROOM_OF_RULE];
    size_t length = 77, again = 77, room = below(ROOM_OF_RULE), cut;
    int64_t at = 67767976000000000 - (int64_t)below(1577880000);
    zoned_change change;
    zoned_local_type here, there;
    struct zoned_zone ruled = {0};
    memset(text, 0x55, sizeof text);
    uint32_t number = zoned_zone_rule_text(&of->zone, text, room, &length);
    EXPECT(number == due(of, 0, 0));
    if (number) {
        EXPECT(length == 77 && is_untouched(text, sizeof text));
        return;
    }
    EXPECT(zoned_zone_rule_text(&of->zone, whole, sizeof whole, &again) == ZONED_OK);
    EXPECT(again == length && length < sizeof whole && strlen(whole) == length);
    cut = room == 0 ? 0 : length < room - 1 ? length : room - 1;
    EXPECT(memcmp(text, whole, cut) == 0 && (room == 0 || text[cut] == 0));
    EXPECT(is_untouched(text + cut + (room != 0), sizeof text - cut - (room != 0)));
    if (length == 0) {
        EXPECT(zoned_zone_next_change(&of->zone, INT64_MAX - 1 - (int64_t)below(1000), &change) == ZONED_NO_CHANGE);
        return;
    }
    EXPECT(zoned_open(ZONED_EXTENDED_STRING, whole, length, &ruled) == ZONED_OK);
    EXPECT(zoned_zone_type(&of->zone, at, &here) == ZONED_OK && zoned_zone_type(&ruled, at, &there) == ZONED_OK);
    EXPECT(is_same_type(&here, &there));
    zoned_close(&ruled);
}

/* What clocks have reached is the greatest local time up to a second, and rises. */
static void try_reached(struct tried *of) {
    int64_t at = second(), reached, later = 77, step = (int64_t)below(10000);
    int32_t offset;
    uint32_t number = ASK(&reached, zoned_zone_reached(&of->zone, at, &reached));
    EXPECT(number == ZONED_OK || number == ZONED_WIDE_ZONE || number == ZONED_INSTANT_OUT_OF_RANGE);
    if (number) return;
    EXPECT(zoned_zone_offset(&of->zone, at, &offset) == ZONED_OK && reached >= at + offset);
    if (zoned_zone_reached(&of->zone, at + step, &later) == ZONED_OK) EXPECT(reached <= later && later <= reached + 2 * 86400);
    zoned_resolved first;
    EXPECT(zoned_zone_first_at_or_after(&of->zone, reached, &first) == ZONED_OK && (first.number || first.instant <= at));
    EXPECT(zoned_zone_first_at_or_after(&of->zone, reached + 1, &first) == ZONED_OK && (first.number || first.instant > at));
}

/* The second, or that of the next change, or one beside it. */
static int64_t end_of_stretch(struct tried *of, int64_t at) {
    zoned_change next;
    if (below(2) || zoned_zone_next_change(&of->zone, at, &next) || next.at > INT64_MAX - 1) return at;
    return next.at + (int64_t)below(3) - 1;
}

/* Up to six years later, or some decades, or somewhere in 64 bits; and mostly no further off than is soon stepped through. */
static int64_t later(int64_t from) {
    uint64_t left = (uint64_t)INT64_MAX - (uint64_t)from, most = below(4) ? 190000000 : 2000000000;
    return below(8) ? from + (int64_t)below((left < most ? left : most) + 1) : from - (int64_t)below(from > 0 ? most : 1);
}

/* The changes of a stretch, in a room for less of them, for as many, and for more: those that stepping comes to. */
static void try_list(struct tried *of) {
    int64_t from = end_of_stretch(of, second()), until = end_of_stretch(of, later(from));
    size_t count = 77, found = 0;
    zoned_change written[ROOM], expected[ROOM], step;
    for (int64_t last = from == INT64_MIN ? from : from - 1;; last = step.at) {
        if (zoned_zone_next_change(&of->zone, last, &step) || step.at >= until) break;
        if (found < ROOM) expected[found] = step;
        found++;
    }
    size_t rooms[] = {0, found ? found - 1 : 0, found, found + 1, below(ROOM + 1)}, room = rooms[below(5)];
    if (room > ROOM) room = ROOM;
    memset(written, 0x55, sizeof written);
    uint32_t number = zoned_zone_changes(&of->zone, from, until, SIZE_MAX, written, room, &count);
    EXPECT(number == due(of, 0, 0) && count == (number ? 77 : found));
    size_t kept = found < room ? found : room;
    for (size_t i = 0; i < kept; i++) {
        EXPECT(written[i].at == expected[i].at);
        EXPECT(is_same_type(&written[i].before, &expected[i].before) && is_same_type(&written[i].after, &expected[i].after));
    }
    EXPECT(is_untouched(written + kept, (ROOM - kept) * sizeof *written));

    /* Up to a limit. */
    size_t most = below(8) ? below(found + 3) : SIZE_MAX - below(2), first = found < most ? found : most;
    count = 77;
    memset(written, 0x55, sizeof written);
    EXPECT(zoned_zone_changes(&of->zone, from, until, most, written, room, &count) == number && count == (number ? 77 : first));
    kept = number ? 0 : first < room ? first : room;
    for (size_t i = 0; i < kept; i++) EXPECT(written[i].at == expected[i].at && is_same_type(&written[i].after, &expected[i].after));
    EXPECT(is_untouched(written + kept, (ROOM - kept) * sizeof *written));
}

/* The clock's answer under a choice. In a gap that is shifted: the instant by the offset before it, or after it. */
static void expect_resolved(struct tried *of, const zoned_wall_clock *clock, uint32_t gap, uint32_t fold, int64_t local, const zoned_resolved *resolved) {
    int64_t instant = clock->first;
    int32_t offset = clock->first_offset;
    uint32_t number = clock->shown == ZONED_OUT_OF_RANGE ? ZONED_INSTANT_OUT_OF_RANGE : ZONED_OK;
    if (clock->shown == ZONED_SEVERAL_TIMES && fold == ZONED_FOLD_REFUSE) number = ZONED_IN_FOLD;
    if (clock->shown == ZONED_SEVERAL_TIMES && fold == ZONED_FOLD_LATEST) {
        instant = clock->last;
        offset = clock->last_offset;
    }
    if (clock->shown == ZONED_NEVER && gap == ZONED_GAP_REFUSE) number = ZONED_IN_GAP;
    zoned_change skips;
    if (clock->shown == ZONED_NEVER && gap == ZONED_GAP_END) {
        EXPECT(zoned_zone_local_change(&of->zone, local, &skips) == ZONED_OK);
        instant = skips.at;
        offset = skips.after.offset;
    }
    if (clock->shown == ZONED_NEVER && (gap == ZONED_GAP_SHIFT_FORWARD || gap == ZONED_GAP_SHIFT_BACKWARD) && !resolved->number) {
        EXPECT(zoned_zone_local_change(&of->zone, local, &skips) == ZONED_OK);
        instant = local - (gap == ZONED_GAP_SHIFT_FORWARD ? skips.before.offset : skips.after.offset);
        EXPECT(fresh_offsets(of->of, &instant, 1, &offset) == ZONED_OK);
    }
    if (!number && (instant < -8334601228800 || instant > 8210266876799)) number = ZONED_INSTANT_OUT_OF_RANGE;
    EXPECT(resolved->number == number);
    EXPECT(resolved->instant == (number ? 0 : instant) && resolved->offset == (number ? 0 : offset));
}

static void try_locals(struct tried *of) {
    int64_t locals[MOST];
    zoned_wall_clock clocks[MOST], expected[MOST] = {{0}};
    zoned_resolved resolved[MOST];
    size_t count = below(MOST + 1), room = below(4) ? count : below(MOST + 1);
    uint32_t gap = (uint32_t)below(below(8) ? 4 : 6), fold = (uint32_t)below(below(8) ? 3 : 5);
    int is_choice = gap <= ZONED_GAP_SHIFT_BACKWARD && fold <= ZONED_FOLD_LATEST;
    for (size_t i = 0; i < MOST; i++) locals[i] = second();
    if (of->of.at) EXPECT(fresh_clocks(of->of, locals, MOST, expected) == ZONED_OK);
    memset(clocks, 0x55, sizeof clocks);
    memset(resolved, 0x55, sizeof resolved);
    uint32_t number = zoned_zone_wall_clocks(&of->zone, locals, count, clocks, room);
    EXPECT(number == due(of, count, room));
    size_t written = number ? 0 : count;
    EXPECT(is_untouched(clocks + written, (MOST - written) * sizeof *clocks));
    for (size_t i = 0; i < written; i++) EXPECT(is_same_clock(&clocks[i], &expected[i]));

    number = zoned_zone_instants(&of->zone, gap, fold, locals, count, resolved, room);
    EXPECT(number == (is_choice ? due(of, count, room) : ZONED_UNKNOWN_CHOICE));
    written = number ? 0 : count;
    EXPECT(is_untouched(resolved + written, (MOST - written) * sizeof *resolved));
    for (size_t i = 0; i < written; i++) expect_resolved(of, &expected[i], gap, fold, locals[i], &resolved[i]);

    zoned_wall_clock clock;
    zoned_resolved one;
    number = zoned_zone_wall_clock(&of->zone, locals[0], &clock);
    EXPECT(number == due(of, 0, 0));
    if (!number) EXPECT(is_same_clock(&clock, &expected[0]));
    number = zoned_zone_instant(&of->zone, gap, fold, locals[0], &one);
    EXPECT(number == (is_choice ? due(of, 0, 0) : ZONED_UNKNOWN_CHOICE));
    if (!number) expect_resolved(of, &expected[0], gap, fold, locals[0], &one);
}

/* A time of a column: somewhere in 64 bits, or near the seconds that are tried, or no time. */
static int64_t time_of(int64_t per_second) {
    __int128 at = (__int128)second() * per_second + (__int128)below((uint64_t)per_second);
    if (below(8) == 0) return ZONED_NO_TIME + (int64_t)below(2);
    return below(8) == 0 || at < INT64_MIN || at > INT64_MAX ? (int64_t)next() : (int64_t)at;
}

static int64_t floor_to(int64_t number, int64_t size) { return number - (number % size + size) % size; }

/* The calls for columns, and what they take. */
enum rows { LOCALS, INSTANTS, FLOORS, CEILS, REACHED };

struct column {
    enum rows rows;
    uint32_t gap, fold, step;
    int64_t per_second;
};

static uint32_t answer_column(const struct zoned_zone *zone, const struct column *is, const int64_t *times, size_t count, int64_t *answers, size_t room, size_t *row) {
    switch (is->rows) {
    case LOCALS: return zoned_column_locals(zone, is->per_second, times, count, answers, room, row);
    case INSTANTS: return zoned_column_instants(zone, is->gap, is->fold, is->per_second, times, count, answers, room, row);
    case FLOORS: return zoned_column_floors(zone, is->step, is->per_second, times, count, answers, room, row);
    case CEILS: return zoned_column_ceils(zone, is->step, is->per_second, times, count, answers, room, row);
    default: return zoned_column_reached(zone, is->per_second, times, count, answers, room, row);
    }
}

/* A time in the column's unit, or the number for one that 64 bits don't hold. */
static uint32_t in_unit(__int128 time, uint32_t number, int64_t *answer) {
    *answer = (int64_t)time;
    return time > INT64_MIN && time <= INT64_MAX ? ZONED_OK : number;
}

/* The local time of an instant by the offset at its second, or none. */
static uint32_t has_local(struct tried *of, int64_t per_second, int64_t at, int64_t instant, int64_t *local) {
    int32_t offset;
    EXPECT(zoned_zone_offset(&of->zone, at, &offset) == ZONED_OK);
    uint32_t number = in_unit((__int128)instant + (__int128)offset * per_second, ZONED_NO_LOCAL_TIME, local);
    return offset == ZONED_NO_OFFSET ? ZONED_NO_LOCAL_TIME : number;
}

/* The instant of a local time by zoned_zone_instant of its second, or the number that says why it has none. In a gap or in a fold it may
   be no time. */
static uint32_t has_instant(struct tried *of, int64_t per_second, uint32_t gap, uint32_t fold, int64_t at, int64_t local, int64_t *instant) {
    int may_miss_gaps = gap == ZONED_GAP_NO_TIME, may_miss_folds = fold == ZONED_FOLD_NO_TIME;
    zoned_resolved resolved;
    zoned_wall_clock clock;
    *instant = ZONED_NO_TIME;
    if (may_miss_gaps) gap = ZONED_GAP_REFUSE;
    if (may_miss_folds) fold = ZONED_FOLD_REFUSE;
    EXPECT(zoned_zone_instant(&of->zone, gap, fold, at, &resolved) == ZONED_OK);
    EXPECT(zoned_zone_wall_clock(&of->zone, at, &clock) == ZONED_OK);
    if (resolved.number == ZONED_IN_GAP && may_miss_gaps) return ZONED_OK;
    if (resolved.number == ZONED_IN_FOLD && may_miss_folds) return ZONED_OK;
    if (resolved.number && resolved.number != ZONED_INSTANT_OUT_OF_RANGE) return resolved.number;
    if (clock.shown == ZONED_OUT_OF_RANGE) return ZONED_INSTANT_OUT_OF_RANGE;
    int64_t second = resolved.instant;
    if (resolved.number) { /* the second is in range, but not its instant */
        zoned_resolved inner;
        int64_t day = at < 0 ? at + 86400 : at - 86400;
        EXPECT(zoned_zone_instant(&of->zone, gap, fold, day, &inner) == ZONED_OK && inner.number == ZONED_OK);
        second = inner.instant + (at - day);
    }
    __int128 time = (__int128)second * per_second;
    if (clock.shown != ZONED_NEVER || gap != ZONED_GAP_END) time += (__int128)local - (__int128)at * per_second;
    return in_unit(time, ZONED_INSTANT_OUT_OF_RANGE, instant);
}

/* The local time at which the step of a local time begins, or the next one, by a calendar; no time if that is outside the calendar's
   range. */
static int64_t begin_of(uint32_t step, int64_t local, int next) {
    int64_t week = ((int64_t)step - ZONED_STEP_WEEK - 4) * 86400, begin = 77; /* 1970-01-01 was a Thursday, 4 */
    zoned_fields fields;
    if (step <= ZONED_STEP_DAY) return floor_to(local, step) + (next ? step : 0);
    if (step < ZONED_STEP_MONTH) return floor_to(local - week, 7 * 86400) + week + (next ? 7 * 86400 : 0);
    if (zoned_fields_of(local, &fields) != ZONED_OK) return ZONED_NO_TIME;
    zoned_fields first = {.year = fields.year, .month = step == ZONED_STEP_MONTH ? fields.month : 1, .day = 1};
    if (next && step == ZONED_STEP_MONTH && first.month < 12) first.month++;
    else if (next) first.year++, first.month = 1;
    return zoned_local_of(&first, &begin) == ZONED_OK ? begin : ZONED_NO_TIME;
}

/* The answers of zoned_zone_floor and zoned_zone_ceil follow from what clocks have reached, and when they reach a local time. */
static void try_step(struct tried *of, uint32_t step, int64_t at) {
    int64_t reached = 77, floor = 77, ceil = 77;
    zoned_resolved begin = {0}, next = {0};
    uint32_t number = zoned_zone_reached(&of->zone, at, &reached);
    uint32_t of_floor = zoned_zone_floor(&of->zone, step, at, &floor), of_ceil = zoned_zone_ceil(&of->zone, step, at, &ceil);
    if (of_floor) EXPECT(floor == 77);
    if (of_ceil) EXPECT(ceil == 77);
    if (number) {
        EXPECT(of_floor == number && of_ceil == number);
        return;
    }
    EXPECT(of_floor == ZONED_OK || of_floor == ZONED_INSTANT_OUT_OF_RANGE);
    EXPECT(of_ceil == ZONED_OK || of_ceil == ZONED_INSTANT_OUT_OF_RANGE);
    EXPECT(zoned_zone_first_at_or_after(&of->zone, begin_of(step, reached, 0), &begin) == ZONED_OK);
    EXPECT(zoned_zone_first_at_or_after(&of->zone, begin_of(step, reached, 1), &next) == ZONED_OK);
    if (!begin.number) EXPECT(!of_floor && floor == begin.instant);
    if (!of_floor && floor == at) EXPECT(!of_ceil && ceil == at);
    else if (!next.number) EXPECT(!of_ceil && ceil == next.instant);
    zoned_day day;
    number = ASK(&day, zoned_zone_day(&of->zone, at, &day));
    if (number) EXPECT(number == ZONED_INSTANT_OUT_OF_RANGE);
    else EXPECT(day.date == floor_to(reached, 86400) && day.begin <= at && at < day.end);
    if (!number && step == ZONED_STEP_DAY) EXPECT(day.begin == floor && (floor == at || day.end == ceil));
}

/* What a column of steps, or of what clocks have reached, has for an instant: the answer of the call for its second, or for the next one
   if it has more. */
static uint32_t has_step(struct tried *of, const struct column *is, int64_t at, int64_t instant, int64_t *answer) {
    int64_t found = 77;
    uint32_t number = zoned_zone_reached(&of->zone, at, &found);
    if (number) return number;
    if (is->rows == CEILS) number = zoned_zone_ceil(&of->zone, is->step, at + (at * (__int128)is->per_second < instant), &found);
    if (is->rows == FLOORS) number = zoned_zone_floor(&of->zone, is->step, at, &found);
    return number ? number : in_unit((__int128)found * is->per_second, ZONED_INSTANT_OUT_OF_RANGE, answer);
}

/* What the calls for one time say of a row. */
static uint32_t has_row(struct tried *of, const struct column *is, int64_t time, int64_t *answer) {
    int64_t per_second = is->per_second, at = time / per_second - (time % per_second < 0);
    *answer = time;
    if (time == ZONED_NO_TIME) return ZONED_OK;
    if (is->rows == LOCALS) return has_local(of, per_second, at, time, answer);
    return is->rows == INSTANTS ? has_instant(of, per_second, is->gap, is->fold, at, time, answer) : has_step(of, is, at, time, answer);
}

/* A column, in order or not: what the calls for one time say of each row, up to the first that has no answer. */
static void try_column(struct tried *of, enum rows rows) {
    static const int64_t UNITS[] = {1, 1000, 1000000, 1000000000, 0, -1, 60};
    static const uint32_t STEPS[] = {1, 60, 900, 3600, 10800, 43200, ZONED_STEP_DAY, ZONED_STEP_WEEK, ZONED_STEP_WEEK + 1, ZONED_STEP_WEEK + 6,
                                     ZONED_STEP_MONTH, ZONED_STEP_YEAR, 0, 7, 86401, ZONED_STEP_WEEK + 7, ZONED_STEP_MONTH + 1, UINT32_MAX};
    uint32_t place = (uint32_t)below(below(8) ? 12 : 18), why = ZONED_OK;
    struct column is = {rows, (uint32_t)below(below(8) ? 5 : 7), (uint32_t)below(below(8) ? 4 : 6), STEPS[place], UNITS[below(below(8) ? 4 : 7)]};
    int is_unit = is.per_second > 0 && is.per_second != 60, is_sorted = below(2) == 0;
    int64_t times[COLUMN] = {0}, answers[COLUMN], step = (int64_t)below(below(2) ? 20000 : 1000000) * (is_unit ? is.per_second : 1);
    size_t count = below(COLUMN + 1), room = below(8) ? count : below(COLUMN + 1), row = 77, first = 0;
    for (size_t i = 0; i < count; i++) {
        times[i] = time_of(is_unit ? is.per_second : 1);
        if (is_sorted && i > 0 && times[i - 1] < INT64_MAX - step) times[i] = times[i - 1] + step;
    }
    uint32_t refused = !is_unit ? ZONED_UNKNOWN_UNIT : due(of, count, room);
    if (rows == INSTANTS && (is.gap > ZONED_GAP_NO_TIME || is.fold > ZONED_FOLD_NO_TIME)) refused = ZONED_UNKNOWN_CHOICE;
    if ((rows == FLOORS || rows == CEILS) && place >= 12) refused = ZONED_UNKNOWN_STEP;
    memset(answers, 0x55, sizeof answers);
    uint32_t number = answer_column(&of->zone, &is, times, count, answers, room, &row);
    for (int64_t answer; !refused && first < count && !(why = has_row(of, &is, times[first], &answer)); first++) EXPECT(answers[first] == answer);
    EXPECT(number == (refused ? refused : why));
    EXPECT(row == (why ? first : 77));
    EXPECT(is_untouched(answers + first, (COLUMN - first) * sizeof *answers));
    if (rows == FLOORS && place < 12 && of->of.at) try_step(of, is.step, second());
}

static int by_time(const void *a, const void *b) {
    int64_t x = *(const int64_t *)a, y = *(const int64_t *)b;
    return (x > y) - (x < y);
}

/* A long column, for which a table of stretches is kept: instants from 1900 to 2100, many of them near a change, and the same
   numbers as local times, are answered as zoned_zone_offsets and zoned_zone_instants answer their seconds. */
static void try_long_column(const struct zoned_zone *zone, int64_t per_second, int is_sorted) {
    static int64_t times[LONG], answers[LONG], seconds[LONG];
    static int32_t offsets[LONG];
    static zoned_resolved resolved[LONG];
    uint32_t gap = 1 + (uint32_t)below(3), fold = 1 + (uint32_t)below(2);
    size_t row = 77;
    for (size_t i = 0; i < LONG; i++) {
        int64_t at = (int64_t)below(6311433600) - 2208988800;
        zoned_change change;
        if (below(8) == 0 && zoned_zone_next_change(zone, at, &change) == ZONED_OK) at = change.at + (int64_t)below(100000) - 50000;
        times[i] = at * per_second + (int64_t)below((uint64_t)per_second);
    }
    if (is_sorted) qsort(times, LONG, sizeof *times, by_time);
    for (size_t i = 0; i < LONG; i++) seconds[i] = times[i] / per_second - (times[i] % per_second < 0);
    EXPECT(zoned_column_locals(zone, per_second, times, LONG, answers, LONG, &row) == ZONED_OK);
    EXPECT(zoned_zone_offsets(zone, seconds, LONG, offsets, LONG) == ZONED_OK);
    for (size_t i = 0; i < LONG; i++) EXPECT(answers[i] == times[i] + offsets[i] * per_second);
    EXPECT(zoned_column_instants(zone, gap, fold, per_second, times, LONG, answers, LONG, &row) == ZONED_OK);
    EXPECT(zoned_zone_instants(zone, gap, fold, seconds, LONG, resolved, LONG) == ZONED_OK);
    for (size_t i = 0; i < LONG; i++) {
        int64_t rest = times[i] - seconds[i] * per_second;
        zoned_wall_clock clock;
        EXPECT(zoned_zone_wall_clock(zone, seconds[i], &clock) == ZONED_OK);
        if (gap == ZONED_GAP_END && clock.shown == ZONED_NEVER) rest = 0;
        EXPECT(answers[i] == resolved[i].instant * per_second + rest);
    }
    EXPECT(row == 77);
}

static void try_long_columns(void) {
    for (size_t i = 0; i < zone_count; i++) {
        struct zoned_zone zone = {0};
        if (zoned_open(zones[i].kind, zones[i].at, zones[i].len, &zone) != ZONED_OK) continue;
        for (int64_t per_second = 1; per_second <= 1000000000; per_second *= 1000)
            for (int is_sorted = 0; is_sorted < 2; is_sorted++) try_long_column(&zone, per_second, is_sorted);
        zoned_close(&zone);
    }
}

/* Any second of the calendar's years is that of the date and the time of day of its fields, and these are what C's gmtime_r
   says; other dates and times are refused. */
static void try_fields(struct tried *of) {
    int64_t local = below(8) ? (int64_t)below(16544868105600 + 2) - 8334601228801 : second(), back = 77;
    int is_in_range = local >= -8334601228800 && local <= 8210266876799;
    zoned_fields fields, other;
    EXPECT(ASK(&fields, zoned_fields_of(local, &fields)) == (is_in_range ? ZONED_OK : ZONED_INSTANT_OUT_OF_RANGE));
    if (is_in_range) {
        time_t at = (time_t)local;
        struct tm tm;
        EXPECT(gmtime_r(&at, &tm) != NULL);
        EXPECT(fields.year == tm.tm_year + 1900 && fields.month == (uint32_t)tm.tm_mon + 1 && fields.day == (uint32_t)tm.tm_mday);
        EXPECT(fields.hour == (uint32_t)tm.tm_hour && fields.minute == (uint32_t)tm.tm_min && fields.second == (uint32_t)tm.tm_sec);
        EXPECT(fields.weekday == (uint32_t)tm.tm_wday && fields.day_of_year == (uint32_t)tm.tm_yday + 1);
        fields.weekday = fields.day_of_year = 77;
        EXPECT(zoned_local_of(&fields, &back) == ZONED_OK && back == local);
        fields.day = fields.day == 1 ? 0 : fields.month == 2 ? 30 : 32;
        EXPECT(zoned_local_of(&fields, &back) == ZONED_NO_DATE_TIME && back == local);
    }
    /* Of an instant: those of its local time. */
    int32_t offset = ZONED_NO_OFFSET;
    EXPECT(zoned_zone_offset(&of->zone, local, &offset) == ZONED_OK);
    uint32_t number = ASK(&fields, zoned_zone_fields(&of->zone, local, &fields));
    if (offset == ZONED_NO_OFFSET) EXPECT(number == ZONED_NO_LOCAL_TIME);
    else if (local > INT64_MAX - 100000 || local < INT64_MIN + 100000) EXPECT(number == ZONED_INSTANT_OUT_OF_RANGE);
    else EXPECT(number == zoned_fields_of(local + offset, &other));
    if (!number) EXPECT(memcmp(&fields, &other, sizeof fields) == 0);
}

/* NULL with a count of 0 is an empty array. */
static void try_null(void) {
    struct zoned_zone zone = {0};
    size_t count = 77;
    EXPECT(zoned_open(ZONED_FILE, NULL, 0, &zone) == ZONED_UNEXPECTED_END);
    EXPECT(zoned_fault_position(ZONED_TEXT, "EST5EDT,M3.2.0,M13.1.0", 22) == 16 && zoned_fault_position(ZONED_TEXT, "  \xff", 3) == 2);
    EXPECT(zoned_open(ZONED_TEXT, NULL, 0, &zone) == ZONED_OK);
    EXPECT(zoned_zone_offsets(&zone, NULL, 0, NULL, 0) == ZONED_OK && zoned_zone_types(&zone, NULL, 0, NULL, 0) == ZONED_OK);
    EXPECT(zoned_zone_wall_clocks(&zone, NULL, 0, NULL, 0) == ZONED_OK);
    EXPECT(zoned_zone_instants(&zone, ZONED_GAP_REFUSE, ZONED_FOLD_REFUSE, NULL, 0, NULL, 0) == ZONED_OK);
    EXPECT(zoned_zone_changes(&zone, 0, INT64_MAX / 1000, SIZE_MAX, NULL, 0, &count) == ZONED_OK && count == 0);
    EXPECT(zoned_column_locals(&zone, 1, NULL, 0, NULL, 0, &count) == ZONED_OK);
    EXPECT(zoned_column_instants(&zone, ZONED_GAP_REFUSE, ZONED_FOLD_REFUSE, 1, NULL, 0, NULL, 0, &count) == ZONED_OK);
    EXPECT(zoned_column_reached(&zone, 1, NULL, 0, NULL, 0, &count) == ZONED_OK);
    EXPECT(zoned_column_floors(&zone, ZONED_STEP_DAY, 1, NULL, 0, NULL, 0, &count) == ZONED_OK);
    EXPECT(zoned_error_text(ZONED_OK, NULL, 0) > 0);
    zoned_close(&zone);
}

/* A fixed offset is in force at each second, without an abbreviation; no zone has the least one. */
static void try_fixed(void) {
    struct zoned_zone zone = {0};
    zoned_span span;
    for (int i = 0; i < 100; i++) {
        int32_t offset = i ? (int32_t)next() : INT32_MAX;
        if (offset == INT32_MIN) continue;
        EXPECT(zoned_open_fixed(offset, &zone) == ZONED_OK && zoned_zone_span(&zone, second(), &span) == ZONED_OK);
        EXPECT(span.local_type.offset == offset && span.local_type.is_dst == 0 && span.local_type.abbreviation[0] == 0);
        EXPECT(span.from == INT64_MIN && span.until == INT64_MAX);
    }
    EXPECT(zoned_open_fixed(INT32_MIN, &zone) == ZONED_LOCAL_TIME_TYPE && zone.zone != NULL);
    zoned_close(&zone);
}

static void try_texts(void) {
    for (uint32_t number = 0; number < 50; number++) {
        char text[160], whole[160];
        size_t len = zoned_error_text(number, whole, sizeof whole);
        EXPECT(0 < len && len < 128 && strlen(whole) == len);
        for (size_t room = 0; room < sizeof text; room++) {
            memset(text, 0x55, sizeof text);
            EXPECT(zoned_error_text(number, text, room) == len);
            size_t cut = room == 0 ? 0 : len < room - 1 ? len : room - 1;
            EXPECT(memcmp(text, whole, cut) == 0);
            if (room) EXPECT(text[cut] == 0);
            EXPECT(is_untouched(text + cut + (room != 0), sizeof text - cut - (room != 0)));
        }
    }
}

/* What is tried with an open handle, how many calls it makes at least, and how often it comes up. */
static const struct {
    void (*try)(struct tried *of);
    int calls;
} OPEN[] = {{try_changes, 6}, {try_offset_changes, 2}, {try_span, 2}, {try_saving, 2}, {try_reached, 4}, {try_rule_text, 2}, {try_list, 2},
            {try_first, 4}, {try_local_change, 2}, {try_local_info, 3}, {try_fields, 4}};

static void try_calls(uint64_t count) {
    for (calls = 0; calls < count;) {
        struct tried *one = &tried[below(HANDLES)];
        size_t place = below(16);
        if (place < 2) try_open(one), calls++;
        else if (place < 4) try_share(one, &tried[below(HANDLES)]), calls++;
        else if (place == 4) try_close(one), calls++;
        else if (place == 5 && !tried[0].of.at) { /* a handle that moves */
            tried[0] = *one;
            *one = one == &tried[0] ? *one : (struct tried){0};
        } else if (place < 8) try_instants(one), calls += 4;
        else if (place < 10) try_column(one, (enum rows)below(REACHED + 1)), calls++;
        else if (place < 12) try_locals(one), calls += 4;
        else if (!one->of.at) try_closed(one), calls += ALL;
        else {
            place = below(sizeof OPEN / sizeof *OPEN);
            OPEN[place].try(one);
            calls += (uint64_t)OPEN[place].calls;
        }
    }
    for (size_t i = 0; i < HANDLES; i++) try_close(&tried[i]);
}

/* What the threads share: a handle in a read-only page, and the sum of its answers that one thread found. */
static const struct zoned_zone *asked;
static uint64_t rounds, expected_sum;
static pthread_barrier_t asked_by_all, closed;

static uint64_t mix(uint64_t sum, const void *answer, size_t size) {
    const uint8_t *bytes = answer;
    for (size_t i = 0; i < size; i++) sum = (sum ^ bytes[i]) * 1099511628211u;
    return sum;
}

static uint64_t mix_clock(uint64_t sum, const zoned_wall_clock *clock) {
    int64_t numbers[] = {clock->shown, clock->first_offset, clock->last_offset, clock->first, clock->last};
    return mix(sum, numbers, sizeof numbers);
}

/* A sum of the answers to the questions about one time. */
static uint64_t ask_one(const struct zoned_zone *zone, int64_t at, uint64_t sum) {
    for (size_t i = 0; i < ALL; i++) {
        any_answer answer = {.bytes = {0}};
        uint32_t number = QUESTION[i].ask(zone, at, &answer);
        if (QUESTION[i].empty) memset(answer.bytes + QUESTION[i].empty, 0, 4);
        sum = mix(mix(sum, &number, sizeof number), &answer, QUESTION[i].size);
    }
    return sum;
}

/* The same of several, and of the changes of a stretch. */
static uint64_t ask_many(const struct zoned_zone *zone, const int64_t *at, uint64_t sum) {
    int32_t offsets[MOST];
    zoned_local_type types[MOST];
    zoned_wall_clock clocks[MOST];
    zoned_resolved resolved[MOST];
    zoned_change changes[MOST] = {{0}};
    int64_t locals[MOST], instants[MOST];
    size_t count, row;
    uint32_t numbers[] = {zoned_zone_offsets(zone, at, MOST, offsets, MOST),
                          zoned_zone_types(zone, at, MOST, types, MOST),
                          zoned_zone_wall_clocks(zone, at, MOST, clocks, MOST),
                          zoned_zone_instants(zone, ZONED_GAP_REFUSE, ZONED_FOLD_EARLIEST, at, MOST, resolved, MOST),
                          zoned_zone_changes(zone, at[0], at[0] + 100000000, SIZE_MAX, changes, MOST, &count),
                          zoned_zone_changes(zone, at[0], INT64_MAX, MOST, changes, MOST, &count),
                          zoned_column_locals(zone, 1, at, MOST, locals, MOST, &row),
                          zoned_column_instants(zone, ZONED_GAP_END, ZONED_FOLD_EARLIEST, 1, at, MOST, instants, MOST, &row)};
    sum = mix(mix(sum, numbers, sizeof numbers), offsets, sizeof offsets);
    for (int i = 0; i < MOST; i++) sum = mix_clock(sum, &clocks[i]);
    sum = mix(mix(mix(sum, types, sizeof types), resolved, sizeof resolved), locals, sizeof locals);
    sum = mix(sum, instants, sizeof instants);
    return mix(mix(sum, &count, sizeof count), changes, sizeof changes);
}

/* A sum of the answers of all questions by handle. */
static uint64_t ask(const struct zoned_zone *zone) {
    uint64_t sum = 14695981039346656037u, seed = 1;
    for (uint64_t i = 0; i < rounds; i++) {
        int64_t at[MOST];
        for (int k = 0; k < MOST; k++) {
            seed = seed * 6364136223846793005u + 1442695040888963407u;
            at[k] = (int64_t)(seed >> 31) - 2147483648;
        }
        sum = ask_many(zone, at, ask_one(zone, at[0], sum));
    }
    return sum;
}

/* ThreadSanitizer doesn't see the counter of shares, an atomic of the archive, so it takes the last close, which frees the zone, for
   a race with the questions of other shares: they end before it there. (helgrind and drd see the counter.) It also delays
   signals. */
#ifdef __SANITIZE_THREAD__
enum { SEES_NO_COUNTER = 1 };
#else
enum { SEES_NO_COUNTER = 0 };
#endif

/* Asks the handle of all, and shares of it, which come and go meanwhile; then a share that outlives it. */
static void *work(void *given) {
    struct zoned_zone last = {0};
    EXPECT(ask(asked) == expected_sum);
    for (int i = 0; i < 8; i++) {
        struct zoned_zone share = {0};
        int32_t offset;
        EXPECT(zoned_share(asked, &share) == ZONED_OK && zoned_zone_offset(&share, 0, &offset) == ZONED_OK);
        zoned_close(&share);
    }
    EXPECT(zoned_share(asked, &last) == ZONED_OK);
    pthread_barrier_wait(&asked_by_all);
    pthread_barrier_wait(&closed);
    EXPECT(ask(&last) == expected_sum);
    if (SEES_NO_COUNTER) pthread_barrier_wait(&asked_by_all);
    zoned_close(&last);
    return given;
}

static void try_threads(uint64_t count) {
    size_t page = (size_t)sysconf(_SC_PAGESIZE);
    struct zoned_zone *zone = mmap(NULL, page, PROT_READ | PROT_WRITE, MAP_PRIVATE | MAP_ANONYMOUS, -1, 0);
    EXPECT(zone != MAP_FAILED);
    rounds = count;
    for (size_t z = 0; z < zone_count; z += 3) {
        pthread_t threads[THREADS];
        EXPECT(zoned_open(zones[z].kind, zones[z].at, zones[z].len, zone) == ZONED_OK);
        EXPECT(mprotect(zone, page, PROT_READ) == 0);
        expected_sum = ask(zone);
        asked = zone;
        EXPECT(pthread_barrier_init(&asked_by_all, NULL, THREADS + 1) == 0);
        EXPECT(pthread_barrier_init(&closed, NULL, THREADS + 1) == 0);
        for (int i = 0; i < THREADS; i++) EXPECT(pthread_create(&threads[i], NULL, work, NULL) == 0);
        pthread_barrier_wait(&asked_by_all);
        EXPECT(mprotect(zone, page, PROT_READ | PROT_WRITE) == 0);
        zoned_close(zone);
        pthread_barrier_wait(&closed);
        if (SEES_NO_COUNTER) pthread_barrier_wait(&asked_by_all);
        for (int i = 0; i < THREADS; i++) EXPECT(pthread_join(threads[i], NULL) == 0);
        pthread_barrier_destroy(&asked_by_all);
        pthread_barrier_destroy(&closed);
    }
    munmap(zone, page);
}

static sigjmp_buf left;

static void leave(int signal) {
    (void)signal;
    siglongjmp(left, 1);
}

/* A question that is left by siglongjmp leaves the zone open. (To list all of 64 bits would take minutes.) */
static void try_leaving(void) {
    static struct zoned_zone zone;
    zoned_change change;
    size_t count;
    int32_t offset;
    EXPECT(zoned_open(ZONED_TEXT, TEXTS[1], strlen(TEXTS[1]), &zone) == ZONED_OK);
    const void *before = zone.zone;
    signal(SIGALRM, leave);
    if (sigsetjmp(left, 1) == 0) {
        ualarm(1000, 0);
        EXPECT(zoned_zone_changes(&zone, 0, INT64_MAX, SIZE_MAX, &change, 1, &count) != ZONED_OK);
    }
    signal(SIGALRM, SIG_DFL);
    EXPECT(zone.zone == before && zoned_zone_offset(&zone, 1615705200, &offset) == ZONED_OK && offset == -14400);
    zoned_close(&zone);
}

/* Four shares of a zone, closed in each of the 24 orders: those that are left still answer. */
static void try_orders(void) {
    for (int order = 0; order < 24; order++) {
        struct zoned_zone shares[4] = {{0}};
        int32_t offset = 1;
        EXPECT(zoned_open(zones[0].kind, zones[0].at, zones[0].len, &shares[0]) == ZONED_OK);
        for (int i = 1; i < 4; i++) EXPECT(zoned_share(&shares[(order + i) % i], &shares[i]) == ZONED_OK);
        int left[4] = {0, 1, 2, 3}, rest = order;
        for (int count = 4; count > 0; count--) {
            int k = rest % count;
            rest /= count;
            zoned_close(&shares[left[k]]);
            EXPECT(zoned_zone_offset(&shares[left[k]], 0, &offset) == ZONED_NOT_OPEN);
            left[k] = left[count - 1];
            for (int i = 0; i < count - 1; i++) EXPECT(zoned_zone_offset(&shares[left[i]], 0, &offset) == ZONED_OK);
        }
    }
}

/* Each request for memory of opening and of sharing is refused in turn: 17, and the handle is as it was. */
static void try_refusals(void) {
    for (size_t z = 0; z < zone_count; z++)
        for (int open = 0; open < 2; open++)
            for (int shared = 0; shared < 2; shared++)
                for (long request = 0;; request++) {
                    struct zoned_zone from = {0}, zone = {0};
                    struct bytes other = zones[(z + 1) % zone_count];
                    int32_t before = 1, after = 2;
                    if (open) EXPECT(zoned_open(other.kind, other.at, other.len, &zone) == ZONED_OK);
                    if (open) EXPECT(zoned_zone_offset(&zone, 0, &before) == ZONED_OK);
                    if (shared) EXPECT(zoned_open(zones[z].kind, zones[z].at, zones[z].len, &from) == ZONED_OK);
                    void *pointer = zone.zone;
                    granted = request;
                    uint32_t number = shared ? zoned_share(&from, &zone) : zoned_open(zones[z].kind, zones[z].at, zones[z].len, &zone);
                    granted = -1;
                    EXPECT(number == ZONED_OK || number == 17);
                    if (number) {
                        EXPECT(zone.zone == pointer);
                        EXPECT(zoned_zone_offset(&zone, 0, &after) == (open ? ZONED_OK : ZONED_NOT_OPEN));
                        if (open) EXPECT(after == before);
                    }
                    if (shared) EXPECT(zoned_zone_offset(&from, 0, &after) == ZONED_OK);
                    zoned_close(&from);
                    zoned_close(&zone);
                    if (!number) {
                        EXPECT(request > 0);
                        break;
                    }
                }
}

/* The stack that zoned(3) asks for, and what a question about one time may use of it. */
enum { STACK_KB = 28, OF_ONE_KB = 2, AREA = 1 << 18, PAINT = 0xA5, TRANSITIONS = 1000000 };

static uint8_t *area;
static uintptr_t caller;
static size_t most_used;

/* Paints the stack below the caller, but for the frames of the next calls of these two functions. */
static __attribute__((noinline)) void paint(void) {
    caller = (uintptr_t)__builtin_frame_address(0);
    for (volatile uint8_t *at = area; (uintptr_t)at + 256 < caller; at++) *at = PAINT;
}

static __attribute__((noinline)) size_t used(void) {
    const uint8_t *at = area;
    while (*at == PAINT) at++;
    return caller - (uintptr_t)at;
}

#define WITHIN(kilobytes, call)                                                                                            \
    do {                                                                                                                   \
        paint();                                                                                                           \
        EXPECT((call) == ZONED_OK);                                                                                        \
        size_t bytes_used = used();                                                                                        \
        if (bytes_used > most_used) most_used = bytes_used;                                                                \
        EXPECT(bytes_used <= (kilobytes) * 1024);                                                                          \
    } while (0)

static uint8_t *put(uint8_t *at, uint64_t number, int size) {
    for (int i = 0; i < size; i++) at[i] = (uint8_t)(number >> 8 * (size - 1 - i));
    return at + size;
}

static uint8_t *put_header(uint8_t *at, size_t transitions, size_t types, size_t characters) {
    memcpy(at, "TZif2", 5);
    memset(at + 5, 0, 27);
    return put(put(put(at + 32, transitions, 4), types, 4), characters, 4);
}

static uint8_t *put_type(uint8_t *at, int64_t offset, int is_dst, int place) {
    return put(put(put(at, (uint64_t)offset, 4), (uint64_t)is_dst, 1), (uint64_t)place, 1);
}

/* A file of many transitions, from one offset to another and back every 2,000 seconds: their gaps and folds overlap. */
static struct bytes overlapping_changes(void) {
    struct bytes file = {ZONED_FILE, malloc(200 + 9 * (size_t)TRANSITIONS), 0};
    EXPECT(file.at);
    uint8_t *at = put_type(put_header(file.at, 0, 1, 4), 0, 0, 0);
    memcpy(at, "UTC", 4);
    at = put_header(at + 4, TRANSITIONS, 2, 8);
    for (int64_t i = 0; i < TRANSITIONS; i++) at = put(at, (uint64_t)(2000 * i), 8);
    for (int i = 0; i < TRANSITIONS; i++) at = put(at, i % 2 == 0, 1);
    at = put_type(put_type(at, 0, 0, 0), 3600, 1, 4);
    memcpy(at, "STD\0DST\0\n\n", 10);
    file.len = (size_t)(at + 10 - file.at);
    return file;
}

static void ask_on_painted_stack(const struct zoned_zone *zone) {
    static int64_t times[LONG], answers[LONG];
    int64_t at = 1615705199;
    size_t row, count;
    zoned_change changes[MOST];
    any_answer answer;
    for (size_t i = 0; i < ON_A_SMALL_STACK; i++) WITHIN(OF_ONE_KB, QUESTION[i].ask(zone, at, &answer));
    WITHIN(OF_ONE_KB, zoned_zone_changes(zone, at, at + 100000000, MOST, changes, MOST, &count));
    for (int64_t i = 0; i < LONG; i++) times[i] = i * 7919 % LONG * 300000;
    WITHIN(STACK_KB, zoned_column_locals(zone, 1, times, LONG, answers, LONG, &row));
    WITHIN(STACK_KB, zoned_column_instants(zone, ZONED_GAP_END, ZONED_FOLD_EARLIEST, 1, times, LONG, answers, LONG, &row));
    WITHIN(STACK_KB, zoned_column_reached(zone, 1, times, LONG, answers, LONG, &row));
    WITHIN(STACK_KB, zoned_column_floors(zone, ZONED_STEP_DAY, 1, times, LONG, answers, LONG, &row));
    WITHIN(STACK_KB, zoned_column_ceils(zone, ZONED_STEP_HOUR, 1, times, LONG, answers, LONG, &row));
}

static void *on_painted_stack(void *given) {
    struct bytes file = overlapping_changes();
    struct zoned_zone rule = {0}, table = {0}, share = {0};
    char text[200];
    WITHIN(STACK_KB, zoned_open(ZONED_TEXT, TEXTS[1], strlen(TEXTS[1]), &rule));
    WITHIN(STACK_KB, zoned_open(ZONED_FILE, file.at, file.len, &table));
    WITHIN(STACK_KB, zoned_share(&table, &share));
    WITHIN(STACK_KB, zoned_fault_position(ZONED_TEXT, "EST5EDT,M3.2.0,M13.1.0", 22) != 16);
    WITHIN(STACK_KB, zoned_error_text(ZONED_TIME_ZONE, text, sizeof text) == 0);
    ask_on_painted_stack(&rule);
    ask_on_painted_stack(&table);
    WITHIN(STACK_KB, (zoned_close(&share), zoned_close(&table), ZONED_OK));
    zoned_close(&rule);
    free(file.at);
    return given;
}

static void try_stack(void) {
    pthread_attr_t attributes;
    pthread_t thread;
    area = mmap(NULL, AREA, PROT_READ | PROT_WRITE, MAP_PRIVATE | MAP_ANONYMOUS, -1, 0);
    EXPECT(area != MAP_FAILED && pthread_attr_init(&attributes) == 0 && pthread_attr_setstack(&attributes, area, AREA) == 0);
    EXPECT(pthread_create(&thread, &attributes, on_painted_stack, NULL) == 0 && pthread_join(thread, NULL) == 0);
    pthread_attr_destroy(&attributes);
    munmap(area, AREA);
    printf("at most %zu bytes of stack\n", most_used);
}

static struct bytes read_file(const char *path) {
    struct bytes bytes = {ZONED_FILE, malloc(1 << 20), 0};
    FILE *file = fopen(path, "rb");
    if (!file || !bytes.at) {
        fprintf(stderr, "no file %s\n", path);
        exit(2);
    }
    bytes.len = fread(bytes.at, 1, 1 << 20, file);
    fclose(file);
    return bytes;
}

int main(int count, char **words) {
    if (count == 2 && strcmp(words[1], "stack") == 0) {
        try_stack();
        return 0;
    }
    if (count < 4) {
        fprintf(stderr, "usage: %s CALLS SEED FILE .. | stack\n", words[0]);
        return 2;
    }
    uint64_t wanted = strtoull(words[1], NULL, 10);
    state = 2 * strtoull(words[2], NULL, 10) + 1;
    for (int i = 3; i < count && zone_count < 50; i++) zones[zone_count++] = read_file(words[i]);
    for (size_t i = 0; i < sizeof TEXTS / sizeof *TEXTS; i++)
        zones[zone_count++] = copy((struct bytes){ZONED_TEXT, (uint8_t *)TEXTS[i], strlen(TEXTS[i])});
    for (size_t i = 0; i < sizeof EXTENDED / sizeof *EXTENDED; i++)
        zones[zone_count++] = copy((struct bytes){ZONED_EXTENDED_STRING, (uint8_t *)EXTENDED[i], strlen(EXTENDED[i])});
    for (size_t i = 0; i < zone_count; i++) EXPECT(fresh_offsets(zones[i], NULL, 0, NULL) == ZONED_OK);
    EXPECT(zoned_version() == ZONED_VERSION_NUMBER);
    try_null();
    try_long_columns();
    try_texts();
    try_fixed();
    try_calls(wanted);
    try_orders();
    try_refusals();
    if (!SEES_NO_COUNTER) try_leaving();
    try_threads(wanted / 500);
    for (size_t i = 0; i < zone_count; i++) free(zones[i].at);
    printf("%" PRIu64 " random calls, %d threads, 24 orders, and each request refused\n", wanted, THREADS);
    return 0;
}
