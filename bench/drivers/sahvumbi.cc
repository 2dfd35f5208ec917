// This library, by the calls of zoned_ffi.h with a handle: one call for each question, as other libraries are asked. What arrays
// take is measured by calls.cc.
#include "common.h"
#include "../../crates/zoned_ffi/include/zoned_ffi.h"

struct Zone {
    uint32_t kind;
    std::string bytes;

    const uint8_t *data() const { return (const uint8_t *)bytes.data(); }
    uint32_t read() const {
        struct zoned_zone zone = {};
        const auto number = zoned_open(kind, data(), bytes.size(), &zone);
        zoned_close(&zone);
        return number;
    }
};

static void expect_ok(uint32_t number) {
    if (!number) return;
    fprintf(stderr, "error %u\n", number);
    exit(1);
}

static void time_lookups(const Run &run, const std::string &name, const struct zoned_zone *zone, const std::string &years) {
    const std::vector<int64_t> instants = run.seconds("at", years), locals = run.seconds("wall", years);
    ask(run, name, "at", years, instants.size(), [&](size_t i) {
        int32_t offset;
        expect_ok(zoned_zone_offset(zone, instants[i], &offset));
        return offset;
    });
    zoned_wall_clock clock;
    auto ask_local = [&](size_t i) { expect_ok(zoned_zone_wall_clock(zone, locals[i], &clock)); };
    size_t used;
    double took = least_time(locals.size(), &used, ask_local);
    run.figure(name, "wall", years, took, used);
    std::vector<int32_t> told;
    for (size_t i = 0; i < CHECKED; i++) {
        ask_local(i);
        tell_wall(told, clock.shown, clock.first_offset, clock.last_offset);
    }
    run.answers(name, "wall", years, told);
}

static void time_changes(const Run &run, const std::string &name, const struct zoned_zone *zone) {
    const std::vector<int64_t> instants = run.seconds("at", "near"), gaps = run.seconds("gap", "near");
    ask(run, name, "next", "near", instants.size(), [&](size_t i) -> int64_t {
        zoned_change change;
        uint32_t number = zoned_zone_next_change(zone, instants[i], &change);
        if (number == ZONED_NO_CHANGE) return 0;
        expect_ok(number);
        return change.at;
    });
    ask(run, name, "gap", "near", gaps.size(), [&](size_t i) {
        zoned_resolved resolved;
        expect_ok(zoned_zone_instant(zone, ZONED_GAP_SHIFT_FORWARD, ZONED_FOLD_EARLIEST, gaps[i], &resolved));
        return resolved.instant;
    });
}

static void time_spans(const Run &run, const std::string &name, const struct zoned_zone *zone) {
    const std::vector<int64_t> instants = run.seconds("at", "near");
    ask_span(run, name, instants.size(), [&](size_t i) -> Ends {
        zoned_span span;
        expect_ok(zoned_zone_span(zone, instants[i], &span));
        return {span.from, end_or_none(span.until)};
    });
}

int main(int count, char **words) {
    Run run("sahvumbi", count, words);
    for (const std::string &name : run.words("names")) {
        bool is_text = name == "Text";
        Zone zone{is_text ? (uint32_t)ZONED_TEXT : (uint32_t)ZONED_FILE,
                  read_file(is_text ? run.inputs + "/text" : run.inputs + "/zones/" + name)};
        expect_ok(zone.read());
        size_t used;
        double took = least_time(100000, &used, [&](size_t) { sink = sink + zone.read(); });
        run.figure(name, "read", "-", took, used);
        struct zoned_zone open = {nullptr};
        expect_ok(zoned_open(zone.kind, zone.data(), zone.bytes.size(), &open));
        for (const std::string &years : run.words("years")) time_lookups(run, name, &open, years);
        if (has_spans(name)) time_spans(run, name, &open);
        if (is_new_york(name)) time_changes(run, name, &open);
        zoned_close(&open);
    }
}
