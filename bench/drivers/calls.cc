// Times a question by one call each and in an array, both by a handle, and prints a table.
//
// usage: calls INPUTS, the folder of make_inputs.py
//
// The two are asked in turn, slices of the same questions, so that what other processes take falls on both. Of each slice the
// least of some passes counts. Each goes first in every other pass, since the one that goes first finds less in the caches.
#include "../../crates/zoned_ffi/include/zoned_ffi.h"
#include "common.h"

static const size_t SLICE = 4096, SLICES = 50;
static const int TURNS = 16;

static void expect_ok(uint32_t number) {
    if (number) exit(1);
}

static void each_at(struct zoned_zone *zone, const int64_t *asked, int32_t *offsets) {
    for (size_t i = 0; i < SLICE; i++) expect_ok(zoned_zone_offset(zone, asked[i], &offsets[i]));
}

static void each_wall(struct zoned_zone *zone, const int64_t *asked, zoned_wall_clock *clocks) {
    for (size_t i = 0; i < SLICE; i++) expect_ok(zoned_zone_wall_clock(zone, asked[i], &clocks[i]));
}

// The time of each of two ways to ask a slice, for one question.
template <class One, class Other> static std::pair<double, double> in_turn(const std::vector<int64_t> &asked, One one, Other other) {
    double sums[2] = {0, 0};
    for (size_t slice = 0; slice < SLICES; slice++) {
        const int64_t *from = &asked[slice * SLICE];
        double least[2] = {1e300, 1e300};
        for (int turn = 0; turn < 2 * TURNS; turn++) {
            bool is_one = (turn + turn / 2) % 2 == 0;
            double start = now();
            if (is_one)
                one(from);
            else
                other(from);
            double took = since(start), &kept = least[is_one ? 0 : 1];
            if (took < kept) kept = took;
        }
        sums[0] += least[0];
        sums[1] += least[1];
    }
    return {sums[0] / (SLICES * SLICE), sums[1] / (SLICES * SLICE)};
}

static void print_cells(std::pair<double, double> took) {
    printf(" %.1f ns | %.1f ns | %.2f |", took.first, took.second, took.first / took.second);
}

int main(int count, char **words) {
    if (count != 2) return 2;
    char *folders[] = {words[0], words[1], words[1]};
    Run run("calls", 3, folders);
    std::vector<int32_t> offsets(SLICE);
    std::vector<zoned_wall_clock> clocks(SLICE);
    printf("\n### A question, by one call each and in an array\n\n");
    printf("| zone | years | an instant by one call | in an array | ratio | a wall clock by one call | in an array | ratio |\n");
    printf("|---|---|--:|--:|--:|--:|--:|--:|\n");
    for (const std::string &name : run.words("names")) {
        std::string bytes = read_file(run.inputs + "/zones/" + name);
        struct zoned_zone zone = {nullptr};
        expect_ok(zoned_open(ZONED_FILE, (const uint8_t *)bytes.data(), bytes.size(), &zone));
        for (const std::string &years : run.words("years")) {
            printf("| %s | %s |", name.c_str(), years == "wide" ? "1900 to 2099" : "2020 to 2029");
            print_cells(in_turn(
                run.seconds("at", years),
                [&](const int64_t *asked) { each_at(&zone, asked, offsets.data()); },
                [&](const int64_t *asked) { expect_ok(zoned_zone_offsets(&zone, asked, SLICE, offsets.data(), SLICE)); }));
            print_cells(in_turn(
                run.seconds("wall", years),
                [&](const int64_t *asked) { each_wall(&zone, asked, clocks.data()); },
                [&](const int64_t *asked) { expect_ok(zoned_zone_wall_clocks(&zone, asked, SLICE, clocks.data(), SLICE)); }));
            printf("\n");
            fflush(stdout);
        }
        zoned_close(&zone);
    }
}
