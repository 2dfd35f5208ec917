/* Asks a zone the questions of zoned_ffi.h, each call by itself, for tools/try_shapes.py, which counts the instructions.

   The file that is named holds: the kind of the zone's bytes, and how many bytes, questions and columns (0 or 1) there are, as numbers
   of 64 bits; the bytes; the questions, each a second for the calls by instant and by local time; and the column, its length first.
   Callgrind counts what a call takes, and writes it under the call's name. The number of zoned_open is printed. */
#include "zoned_ffi.h"
#include <stdint.h>
#include <stdio.h>
#include <stdlib.h>
#include <valgrind/callgrind.h>

#define COUNTED(name, calls)           \
    do {                               \
        CALLGRIND_ZERO_STATS;          \
        CALLGRIND_TOGGLE_COLLECT;      \
        calls;                         \
        CALLGRIND_TOGGLE_COLLECT;      \
        CALLGRIND_DUMP_STATS_AT(name); \
    } while (0)

#define EACH(name, call)                                                           \
    COUNTED(name, for (const int64_t *second = first; second < end; second++) { \
        int64_t at = *second;                                                      \
        numbers_returned |= call;                                                  \
    })

static uint32_t numbers_returned;

static void *room(int64_t bytes) {
    void *found = malloc((size_t)bytes + 1);
    if (!found) exit(2);
    return found;
}

static void *taken(FILE *file, int64_t bytes) {
    void *read = room(bytes);
    if (fread(read, 1, (size_t)bytes, file) != (size_t)bytes) exit(2);
    return read;
}

static int64_t *numbers(FILE *file, int64_t count) {
    return taken(file, count * (int64_t)sizeof(int64_t));
}

static void ask_each(const zoned_zone *zone, const int64_t *first, const int64_t *end) {
    int32_t offset;
    int64_t found;
    zoned_local_type type;
    zoned_span span;
    zoned_change change;
    zoned_local_info info;
    zoned_wall_clock clock;
    zoned_resolved resolved;
    zoned_day day;
    zoned_fields fields;
    EACH("offset", zoned_zone_offset(zone, at, &offset));
    EACH("type", zoned_zone_type(zone, at, &type));
    EACH("span", zoned_zone_span(zone, at, &span));
    EACH("next change", zoned_zone_next_change(zone, at, &change));
    EACH("previous change", zoned_zone_previous_change(zone, at, &change));
    EACH("wall clock", zoned_zone_wall_clock(zone, at, &clock));
    EACH("instant", zoned_zone_instant(zone, ZONED_GAP_SHIFT_FORWARD, ZONED_FOLD_EARLIEST, at, &resolved));
    EACH("first at or after", zoned_zone_first_at_or_after(zone, at, &resolved));
    EACH("local change", zoned_zone_local_change(zone, at, &change));
    EACH("local info", zoned_zone_local_info(zone, at, &info));
    EACH("reached", zoned_zone_reached(zone, at, &found));
    EACH("day", zoned_zone_day(zone, at, &day));
    EACH("floor", zoned_zone_floor(zone, ZONED_STEP_HOUR, at, &found));
    EACH("fields", zoned_zone_fields(zone, at, &fields));
}

static void ask_column(const zoned_zone *zone, const int64_t *from, size_t len) {
    int64_t *to = room((int64_t)(len * sizeof *to));
    size_t row;
    COUNTED("locals", numbers_returned |= zoned_column_locals(zone, 1, from, len, to, len, &row));
    zoned_wall_clock *clocks = room((int64_t)(len * sizeof *clocks));
    zoned_resolved *resolved = room((int64_t)(len * sizeof *resolved));
    zoned_local_type *types = room((int64_t)(len * sizeof *types));
    int32_t *offsets = room((int64_t)(len * sizeof *offsets));
    COUNTED("offsets", numbers_returned |= zoned_zone_offsets(zone, from, len, offsets, len));
    COUNTED("types", numbers_returned |= zoned_zone_types(zone, from, len, types, len));
    COUNTED("wall clocks", numbers_returned |= zoned_zone_wall_clocks(zone, from, len, clocks, len));
    COUNTED("resolved", numbers_returned |= zoned_zone_instants(zone, ZONED_GAP_SHIFT_FORWARD, ZONED_FOLD_EARLIEST, from, len, resolved, len));
    COUNTED("instants", numbers_returned |= zoned_column_instants(zone, ZONED_GAP_SHIFT_FORWARD, ZONED_FOLD_EARLIEST, 1, from, len, to, len, &row));
}

int main(int words, char **word) {
    FILE *file = words == 2 ? fopen(word[1], "rb") : NULL;
    if (!file) return 2;
    const int64_t *head = numbers(file, 4);
    const char *bytes = taken(file, head[1]);
    const int64_t *seconds = numbers(file, head[2]);
    zoned_zone zone = {0};
    uint32_t opened;
    COUNTED("open", opened = zoned_open((uint32_t)head[0], bytes, (size_t)head[1], &zone));
    printf("%u\n", opened);
    if (opened == ZONED_OK && head[2]) ask_each(&zone, seconds, seconds + head[2]);
    if (opened == ZONED_OK && head[3]) {
        int64_t rows = *numbers(file, 1);
        ask_column(&zone, numbers(file, rows), (size_t)rows);
    }
    return 0;
}
