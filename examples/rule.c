/* What a TZ string says, and when: an example of zoned.h with arrays. From the top of the repository, after `rt lib` in
   crates/zoned_ffi:

     gcc -O2 -Icrates/zoned_ffi/include -o ./rule_c examples/rule.c crates/zoned_ffi/out/libzoned_ffi.a "$(dirname "$(rt doc)")/c/liblibc_c.a"
     ./rule_c EST5EDT,M3.2.0,M11.1.0 1615705200 1615689000 1636248600

   For each number it prints the offset at that Unix second, and at which offsets a clock shows as many seconds since
   1970-01-01 00:00:00. */
#include <zoned.h>

#include <inttypes.h>
#include <stdio.h>
#include <stdlib.h>
#include <string.h>

static void print_answers(int64_t second, int32_t offset, const zoned_wall_clock *clock) {
    if (offset == ZONED_NO_OFFSET)
        printf("instant %" PRId64 ": no offset\n", second);
    else
        printf("instant %" PRId64 ": %" PRId32 "\n", second, offset);
    printf("wall clock %" PRId64 ": ", second);
    switch (clock->shown) {
    case ZONED_NEVER:
        printf("never\n");
        break;
    case ZONED_ONCE:
        printf("once, by %" PRId32 "\n", clock->first_offset);
        break;
    case ZONED_SEVERAL_TIMES:
        printf("several times, first by %" PRId32 " and last by %" PRId32 "\n", clock->first_offset, clock->last_offset);
        break;
    default:
        printf("out of range\n");
    }
}

int main(int count, char **words) {
    if (count < 3) {
        fprintf(stderr, "usage: %s TEXT NUMBER ..\n", words[0]);
        return 2;
    }
    size_t asked = (size_t)count - 2;
    struct zoned_zone zone = {0};
    uint32_t refused = zoned_open(ZONED_TEXT, words[1], strlen(words[1]), &zone);
    if (refused) {
        fprintf(stderr, "%s is rejected: %" PRIu32 "\n", words[1], refused);
        return 1;
    }
    int64_t *seconds = malloc(asked * sizeof *seconds);
    int32_t *offsets = malloc(asked * sizeof *offsets);
    zoned_wall_clock *clocks = malloc(asked * sizeof *clocks);
    if (!seconds || !offsets || !clocks) {
        fprintf(stderr, "no memory\n");
        return 1;
    }
    for (size_t i = 0; i < asked; i++) seconds[i] = strtoll(words[i + 2], NULL, 10);

    refused = zoned_zone_offsets(&zone, seconds, asked, offsets, asked);
    if (!refused) refused = zoned_zone_wall_clocks(&zone, seconds, asked, clocks, asked);
    for (size_t i = 0; i < asked && !refused; i++) print_answers(seconds[i], offsets[i], &clocks[i]);
    zoned_close(&zone);
    free(seconds);
    free(offsets);
    free(clocks);
    return refused != ZONED_OK;
}
