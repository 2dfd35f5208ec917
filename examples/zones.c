/* What the clocks of a zone show, and when: an example of zoned.h, with a handle. From the top of the repository, after
   `rt lib` in crates/zoned_ffi:

     gcc -O2 -Icrates/zoned_ffi/include -o ./zones_c examples/zones.c crates/zoned_ffi/out/libzoned_ffi.a "$(dirname "$(rt doc)")/c/liblibc_c.a"
     ./zones_c /usr/share/zoneinfo/America/New_York 1615705200 1615689000 1636248600

   Of each number it says what is in force at that Unix second, when a clock shows as many seconds since 1970-01-01 00:00:00,
   and which instant is taken for that local time: in a gap the one shifted forward, in a fold the earliest. */
#include <zoned.h>

#include <inttypes.h>
#include <stdio.h>
#include <stdlib.h>

/* The bytes of a file; NULL if it can't be read. */
static uint8_t *read_file(const char *path, size_t *len) {
    FILE *file = fopen(path, "rb");
    if (!file) return NULL;
    size_t room = 4096;
    uint8_t *bytes = malloc(room);
    *len = 0;
    while (bytes && (*len += fread(bytes + *len, 1, room - *len, file)) == room) bytes = realloc(bytes, room *= 2);
    fclose(file);
    return bytes;
}

static void print_type(int64_t second, const zoned_local_type *type) {
    if (type->offset == ZONED_NO_OFFSET)
        printf("instant %" PRId64 ": no offset\n", second);
    else
        printf("instant %" PRId64 ": %" PRId32 " %s%s\n", second, type->offset, type->abbreviation, type->is_dst ? " dst" : "");
}

static void print_clock(int64_t second, const zoned_wall_clock *clock) {
    printf("wall clock %" PRId64 ": ", second);
    switch (clock->shown) {
    case ZONED_NEVER:
        printf("never\n");
        break;
    case ZONED_ONCE:
        printf("once, at %" PRId64 " (%" PRId32 ")\n", clock->first, clock->first_offset);
        break;
    case ZONED_SEVERAL_TIMES:
        printf("several times, first at %" PRId64 " (%" PRId32 ") and last at %" PRId64 " (%" PRId32 ")\n", clock->first,
               clock->first_offset, clock->last, clock->last_offset);
        break;
    default:
        printf("out of range\n");
    }
}

/* Asks the zone about each second. Returns the error of a call, or ZONED_OK. */
static uint32_t answer(const struct zoned_zone *zone, int count, char **seconds) {
    for (int i = 0; i < count; i++) {
        int64_t second = strtoll(seconds[i], NULL, 10);
        zoned_local_type type;
        zoned_wall_clock clock;
        zoned_resolved taken;
        uint32_t refused = zoned_zone_type(zone, second, &type);
        if (!refused) refused = zoned_zone_wall_clock(zone, second, &clock);
        if (!refused) refused = zoned_zone_instant(zone, ZONED_GAP_SHIFT_FORWARD, ZONED_FOLD_EARLIEST, second, &taken);
        if (refused) return refused;
        print_type(second, &type);
        print_clock(second, &clock);
        if (taken.number == ZONED_OK) printf("taken %" PRId64 ": %" PRId64 " (%" PRId32 ")\n", second, taken.instant, taken.offset);
    }
    return ZONED_OK;
}

int main(int count, char **words) {
    if (count < 3) {
        fprintf(stderr, "usage: %s FILE NUMBER ..\n", words[0]);
        return 2;
    }
    size_t len;
    uint8_t *bytes = read_file(words[1], &len);
    if (!bytes) {
        fprintf(stderr, "no file %s, or no memory\n", words[1]);
        return 1;
    }
    struct zoned_zone zone = {0};
    uint32_t refused = zoned_open(ZONED_FILE, bytes, len, &zone);
    free(bytes); /* the zone is read */
    if (!refused) refused = answer(&zone, count - 2, words + 2);
    zoned_close(&zone);
    if (refused) {
        char text[128];
        zoned_error_text(refused, text, sizeof text);
        fprintf(stderr, "%s is rejected: %" PRIu32 ", %s\n", words[1], refused, text);
        return 1;
    }
    return 0;
}
