// Abseil's cctz: absl::TimeZone::At of an absl::Time and of an absl::CivilSecond.
#include "common.h"
#include <absl/time/civil_time.h>
#include <absl/time/time.h>

// LoadTimeZone keeps each zone under its name, so each load takes another spelling of the path.
static std::string spelling(const Run &run, const std::string &name, unsigned number) {
    std::string path = "file:" + run.inputs + "/";
    for (int bit = 0; bit < 12; bit++) path += (number >> bit) & 1 ? "./" : "/";
    return path + "zones/" + name;
}

static double least_load(const Run &run, const std::string &name, unsigned loads) {
    double least = 1e300;
    for (unsigned number = 1; number <= loads; number++) {
        std::string path = spelling(run, name, number);
        double start = now();
        absl::TimeZone again;
        absl::LoadTimeZone(path, &again);
        double took = since(start);
        if (took < least) least = took;
    }
    return least;
}

static void time_lookups(const Run &run, const std::string &name, const absl::TimeZone &zone, const std::string &years) {
    const std::vector<int64_t> instants = run.seconds("at", years), locals = run.seconds("wall", years);
    ask(run, name, "at", years, instants.size(), [&](size_t i) { return zone.At(absl::FromUnixSeconds(instants[i])).offset; });

    std::vector<absl::CivilSecond> readings(locals.size());
    for (size_t i = 0; i < locals.size(); i++) readings[i] = absl::CivilSecond() + locals[i];
    std::vector<int32_t> told;
    for (size_t i = 0; i < CHECKED; i++) {
        auto info = zone.At(readings[i]);
        bool unique = info.kind == absl::TimeZone::TimeInfo::UNIQUE, skipped = info.kind == absl::TimeZone::TimeInfo::SKIPPED;
        tell_wall(told, unique ? 1 : skipped ? 0 : 2, locals[i] - absl::ToUnixSeconds(info.pre),
                  locals[i] - absl::ToUnixSeconds(info.post));
    }
    run.answers(name, "wall", years, told);
    size_t used;
    double took = least_time(locals.size(), &used, [&](size_t i) { sink = sink + absl::ToUnixSeconds(zone.At(readings[i]).pre); });
    run.figure(name, "wall", years, took, used);
}

// A change comes as its two local times; its second takes another call, as the header says.
static int64_t second_of(const absl::TimeZone &zone, const absl::TimeZone::CivilTransition &change) {
    return absl::ToUnixSeconds(zone.At(change.to).trans);
}

// A span has a change at each end, if there is one.
static void time_spans(const Run &run, const std::string &name, const absl::TimeZone &zone) {
    const std::vector<int64_t> instants = run.seconds("at", "near");
    ask_span(run, name, instants.size(), [&](size_t i) -> Ends {
        absl::TimeZone::CivilTransition begin, end;
        return {zone.PrevTransition(absl::FromUnixSeconds(instants[i] + 1), &begin) ? second_of(zone, begin) : 0,
                zone.NextTransition(absl::FromUnixSeconds(instants[i]), &end) ? second_of(zone, end) : 0};
    });
}

static void time_changes(const Run &run, const std::string &name, const absl::TimeZone &zone) {
    const std::vector<int64_t> instants = run.seconds("at", "near"), gaps = run.seconds("gap", "near");
    ask(run, name, "next", "near", instants.size(), [&](size_t i) -> int64_t {
        absl::TimeZone::CivilTransition change;
        return zone.NextTransition(absl::FromUnixSeconds(instants[i]), &change) ? second_of(zone, change) : 0;
    });
    std::vector<absl::CivilSecond> readings(gaps.size());
    for (size_t i = 0; i < gaps.size(); i++) readings[i] = absl::CivilSecond() + gaps[i];
    ask(run, name, "gap", "near", gaps.size(), [&](size_t i) { return absl::ToUnixSeconds(zone.At(readings[i]).pre); });
}

int main(int count, char **words) {
    Run run("cctz", count, words);
    for (const std::string &name : run.words("names")) {
        absl::TimeZone zone;
        if (!absl::LoadTimeZone(spelling(run, name, 0), &zone)) {
            run.figure(name, "read", "-", -1, 0);
            continue;
        }
        unsigned loads = read_file(run.inputs + "/zones/" + name).size() > 100000 ? 3 : 300;
        run.figure(name, "read", "-", least_load(run, name, loads), loads);
        for (const std::string &years : run.words("years")) time_lookups(run, name, zone, years);
        if (has_spans(name)) time_spans(run, name, zone);
        if (is_new_york(name)) time_changes(run, name, zone);
    }
}
