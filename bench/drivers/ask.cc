// Asks an open zone a question many times over, for bench/count_misses.py, which counts what that costs.
//
// usage: ask FILE QUESTIONS QUESTION COUNT: the first COUNT seconds of the file QUESTIONS. QUESTION is
//   at, wall                 one call for each, and each answer is added up
//   at_each, wall_each       one call for each, and each answer is kept
//   at_array, wall_array     one call for all
#include "../../crates/zoned_ffi/include/zoned_ffi.h"
#include "common.h"

static void add_up(struct zoned_zone *zone, bool is_instant, const int64_t *asked, size_t count) {
    int32_t offset = 0;
    zoned_wall_clock clock = {};
    for (size_t i = 0; i < count; i++) {
        uint32_t refused = is_instant ? zoned_zone_offset(zone, asked[i], &offset) : zoned_zone_wall_clock(zone, asked[i], &clock);
        if (refused) exit(1);
        sink = sink + offset + clock.first_offset;
    }
}

static void ask_each(struct zoned_zone *zone, bool is_instant, const int64_t *asked, size_t count, int32_t *offsets, zoned_wall_clock *clocks) {
    if (is_instant) {
        for (size_t i = 0; i < count; i++)
            if (zoned_zone_offset(zone, asked[i], &offsets[i])) exit(1);
    } else {
        for (size_t i = 0; i < count; i++)
            if (zoned_zone_wall_clock(zone, asked[i], &clocks[i])) exit(1);
    }
}

static void ask_all(struct zoned_zone *zone, bool is_instant, const int64_t *asked, size_t count, int32_t *offsets, zoned_wall_clock *clocks) {
    uint32_t refused = is_instant ? zoned_zone_offsets(zone, asked, count, offsets, count)
                                  : zoned_zone_wall_clocks(zone, asked, count, clocks, count);
    if (refused) exit(1);
}

int main(int count, char **words) {
    if (count != 5) return 2;
    std::string bytes = read_file(words[1]), seconds = read_file(words[2]), question = words[3];
    size_t asked = std::stoul(words[4]);
    const int64_t *drawn = (const int64_t *)seconds.data();
    struct zoned_zone zone = {nullptr};
    if (zoned_open(ZONED_FILE, (const uint8_t *)bytes.data(), bytes.size(), &zone)) return 1;
    bool is_instant = question.compare(0, 2, "at") == 0;
    if (question == "at" || question == "wall") {
        add_up(&zone, is_instant, drawn, asked);
    } else {
        static int32_t offsets[1 << 17];
        static zoned_wall_clock clocks[1 << 17];
        if (asked > 1 << 17) return 2;
        bool is_array = question == "at_array" || question == "wall_array";
        (is_array ? ask_all : ask_each)(&zone, is_instant, drawn, asked, offsets, clocks);
    }
    zoned_close(&zone);
}
