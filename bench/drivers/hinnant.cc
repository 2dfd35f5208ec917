// Howard Hinnant's date as Debian builds it, which reads the system's zones by name alone, and its ptz.h for the TZ string; with
// -DSTANDARD_ZONES the zones of C++20, which have the same calls.
#include "common.h"
#ifdef STANDARD_ZONES
#include <chrono>
namespace date = std::chrono;
static const char PEER[] = "standard";
#else
#include <date/ptz.h>
#include <date/tz.h>
static const char PEER[] = "hinnant";
#endif
#include <utility>

static date::sys_seconds at(int64_t second) { return date::sys_seconds{std::chrono::seconds{second}}; }

static date::local_seconds local(int64_t second) { return date::local_seconds{std::chrono::seconds{second}}; }

template <class Zone> void time_lookups(const Run &run, const std::string &name, const Zone &zone, const std::string &years) {
    const std::vector<int64_t> instants = run.seconds("at", years), locals = run.seconds("wall", years);
    ask(run, name, "at", years, instants.size(), [&](size_t i) { return zone.get_info(at(instants[i])).offset.count(); });
    std::vector<int32_t> told;
    for (size_t i = 0; i < CHECKED; i++) {
        auto info = zone.get_info(local(locals[i]));
        bool unique = info.result == date::local_info::unique, none = info.result == date::local_info::nonexistent;
        tell_wall(told, unique ? 1 : none ? 0 : 2, info.first.offset.count(),
                  unique ? info.first.offset.count() : info.second.offset.count());
    }
    run.answers(name, "wall", years, told);
    size_t used;
    double took = least_time(locals.size(), &used,
                             [&](size_t i) { sink = sink + zone.get_info(local(locals[i])).first.offset.count(); });
    run.figure(name, "wall", years, took, used);
}

template <class Zone> void time_spans(const Run &run, const std::string &name, const Zone &zone) {
    const std::vector<int64_t> instants = run.seconds("at", "near");
    ask_span(run, name, instants.size(), [&](size_t i) -> Ends {
        const auto info = zone.get_info(at(instants[i]));
        return {info.begin.time_since_epoch().count(), end_or_none(info.end.time_since_epoch().count())};
    });
}

template <class Zone> void time_changes(const Run &run, const std::string &name, const Zone &zone) {
    const std::vector<int64_t> instants = run.seconds("at", "near"), gaps = run.seconds("gap", "near");
    ask(run, name, "next", "near", instants.size(),
        [&](size_t i) -> int64_t { return zone.get_info(at(instants[i])).end.time_since_epoch().count(); });
    ask(run, name, "gap", "near", gaps.size(),
        [&](size_t i) -> int64_t { return gaps[i] - zone.get_info(local(gaps[i])).first.offset.count(); });
}

#ifndef STANDARD_ZONES
static void time_text(const Run &run) {
    std::string text = read_file(run.inputs + "/text");
    size_t used;
    double took = least_time(100000, &used, [&](size_t) {
        Posix::time_zone zone{text};
        sink = sink + (int64_t)zone.name().size();
    });
    run.figure("Text", "read", "-", took, used);
    const Posix::time_zone zone{text};
    for (const std::string &years : run.words("years")) time_lookups(run, "Text", zone, years);
    time_spans(run, "Text", zone);
    time_changes(run, "Text", zone);
}
#endif

int main(int count, char **words) {
    Run run(PEER, count, words);
    const std::pair<const char *, const char *> zones[] = {{"New_York", "America/New_York"},
                                                           {"London", "Europe/London"},
                                                           {"Tehran", "Asia/Tehran"},
                                                           {"Casablanca", "Africa/Casablanca"},
                                                           {"Sao_Paulo", "America/Sao_Paulo"}};
    for (auto &[name, full_name] : zones) {
        for (const std::string &years : run.words("years")) time_lookups(run, name, *date::locate_zone(full_name), years);
        time_spans(run, name, *date::locate_zone(full_name));
    }
    time_changes(run, "New_York", *date::locate_zone("America/New_York"));
#ifndef STANDARD_ZONES
    time_text(run);
#endif
}
