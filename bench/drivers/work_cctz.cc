// Abseil's time, which has cctz below it. An absl::Time has no zone, so each question about its clock asks the zone.
#include "work.h"
#include <absl/time/civil_time.h>
#include <absl/time/time.h>

static absl::TimeZone zone_of(const Run &run, const std::string &name) {
    absl::TimeZone zone;
    if (!absl::LoadTimeZone("file:" + run.inputs + "/zones/" + name, &zone)) exit(1);
    return zone;
}

static int64_t digits_of(const absl::CivilSecond &at) {
    return digits(at.year(), at.month(), at.day(), at.hour(), at.minute(), at.second());
}

static absl::CivilSecond on_day(const absl::CivilDay &day, const absl::CivilSecond &clock) {
    return absl::CivilSecond(day.year(), day.month(), day.day(), clock.hour(), clock.minute(), clock.second());
}

static absl::CivilSecond month_later(const absl::CivilSecond &at) {
    absl::CivilMonth month = absl::CivilMonth(at) + 1;
    absl::CivilDay last = absl::CivilDay(month + 1) - 1;
    return on_day(std::min(absl::CivilDay(month) + (at.day() - 1), last), at);
}

int main(int count, char **words) {
    Run run("cctz", count, words);
    Work work(run);
    const absl::TimeZone zone = zone_of(run, "New_York"), other = zone_of(run, "London");
    const std::vector<int64_t> seconds = run.seconds("at", "near"), locals = run.seconds("wall", "near"),
                               gaps = run.seconds("gap", "near");
    std::vector<absl::Time> instants, others;
    std::vector<absl::CivilSecond> readings, skipped;
    std::vector<Typed> typed;
    for (size_t i = 0; i < seconds.size(); i++) {
        instants.push_back(absl::FromUnixSeconds(seconds[i]));
        others.push_back(absl::FromUnixSeconds(locals[i]));
        absl::CivilSecond at = absl::CivilSecond() + locals[i];
        readings.push_back(at);
        skipped.push_back(absl::CivilSecond() + gaps[i]);
        typed.push_back({(int)at.year(), at.month(), at.day(), at.hour(), at.minute(), at.second()});
    }
    auto shown = [&](size_t i) { return zone.At(instants[i]).cs; };
    // The first instant that shows it, and in a gap that by the offset before it. (FromCivil takes the gap's own second.)
    auto second = [&](const absl::CivilSecond &at) { return absl::ToUnixSeconds(zone.At(at).pre); };

    work.question("fields_at", [&](size_t i) { return digits_of(zone.At(absl::FromUnixSeconds(seconds[i])).cs); });
    work.question("fields", [&](size_t i) { return digits_of(shown(i)); });
    work.question("from_fields", [&](size_t i) {
        const Typed &at = typed[i];
        return second(absl::CivilSecond(at.year, at.month, at.day, at.hour, at.minute, at.second));
    });
    work.question("month_later", [&](size_t i) { return second(month_later(shown(i))); });
    work.question("day_later", [&](size_t i) {
        absl::CivilSecond at = shown(i);
        return second(on_day(absl::CivilDay(at) + 1, at));
    });
    work.question("at_nine", [&](size_t i) {
        absl::CivilSecond at = shown(i);
        return second(absl::CivilSecond(at.year(), at.month(), at.day(), 9, at.minute(), at.second()));
    });
    work.question("five_minutes", [&](size_t i) {
        absl::CivilSecond at = shown(i);
        return absl::ToUnixSeconds(instants[i] - absl::Seconds(at.minute() % 5 * 60 + at.second()));
    });
    work.question("whole_day", [&](size_t i) {
        absl::CivilSecond at = shown(i);
        return absl::ToUnixSeconds(instants[i] - absl::Seconds(at.hour() * 3600 + at.minute() * 60 + at.second()));
    });
    work.question("difference", [&](size_t i) { return absl::ToInt64Seconds(instants[i] - others[i]); });
    work.question("order", [&](size_t i) { return (int64_t)(instants[i] < others[i]); });
    auto text = [&](size_t i) { return absl::FormatTime("%Y-%m-%d %H:%M:%S %Ez", instants[i], zone); };
    work.question("print", [&](size_t i) { return (int64_t)text(i).size(); });
    for (size_t i = 0; i < CHECKED; i++) work.tell("text", text(i));
    work.question("elsewhere", [&](size_t i) { return other.At(instants[i]).cs - absl::CivilSecond(); });
    work.question("resolve", [&](size_t i) { return second(readings[i]); });
    work.question("in_gap", [&](size_t i) { return second(skipped[i]); });
    work.question("daily", [&](size_t i) {
        absl::CivilDay first(readings[i]);
        int64_t sum = 0;
        for (int day = 0; day < DAYS; day++) {
            absl::CivilDay on = first + day;
            sum += second(absl::CivilSecond(on.year(), on.month(), on.day(), 2, 30, 0));
        }
        return sum;
    });
    work.sort(instants, std::less<>(), [](absl::Time each) { return absl::ToUnixSeconds(each); });
}
