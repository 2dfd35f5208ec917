// Howard Hinnant's date. A zoned_time has its zone and its instant, so each question about its clock asks the zone.
#include "work.h"
#include <date/tz.h>

using namespace date;
using std::chrono::hours;
using std::chrono::minutes;
using std::chrono::seconds;
using five_minutes = std::chrono::duration<int64_t, std::ratio<300>>;

static int64_t digits_of(local_seconds local) {
    auto day = floor<days>(local);
    year_month_day date{day};
    hh_mm_ss<seconds> time{local - day};
    return digits((int)date.year(), (unsigned)date.month(), (unsigned)date.day(), time.hours().count(), time.minutes().count(),
                  time.seconds().count());
}

static local_days month_later(local_days day) {
    year_month_day date = year_month_day{day} + months{1};
    return date.ok() ? local_days{date} : local_days{date.year() / date.month() / last};
}

int main(int count, char **words) {
    Run run("hinnant", count, words);
    Work work(run);
    const time_zone *zone = locate_zone("America/New_York"), *other = locate_zone("Europe/London");
    const std::vector<int64_t> at = run.seconds("at", "near"), locals = run.seconds("wall", "near"),
                               gaps = run.seconds("gap", "near");
    std::vector<zoned_seconds> instants, others;
    std::vector<local_seconds> readings, skipped;
    std::vector<Typed> typed;
    for (size_t i = 0; i < at.size(); i++) {
        instants.emplace_back(zone, sys_seconds{seconds{at[i]}});
        others.emplace_back(zone, sys_seconds{seconds{locals[i]}});
        readings.emplace_back(seconds{locals[i]});
        skipped.emplace_back(seconds{gaps[i]});
        auto day = floor<days>(readings[i]);
        year_month_day date{day};
        hh_mm_ss<seconds> time{readings[i] - day};
        typed.push_back({(int)date.year(), (int)(unsigned)date.month(), (int)(unsigned)date.day(), (int)time.hours().count(),
                         (int)time.minutes().count(), (int)time.seconds().count()});
    }
    // The first instant that shows it, and in a gap that by the offset before it.
    auto second = [&](local_seconds local) -> int64_t {
        return (local.time_since_epoch() - zone->get_info(local).first.offset).count();
    };
    auto cut = [&](size_t i, seconds by) -> int64_t { return (instants[i].get_sys_time().time_since_epoch() - by).count(); };

    work.question("fields_at", [&](size_t i) { return digits_of(zone->to_local(sys_seconds{seconds{at[i]}})); });
    work.question("fields", [&](size_t i) { return digits_of(instants[i].get_local_time()); });
    work.question("from_fields", [&](size_t i) {
        const Typed &each = typed[i];
        auto day = local_days{year{each.year} / each.month / each.day};
        return second(day + hours{each.hour} + minutes{each.minute} + seconds{each.second});
    });
    work.question("month_later", [&](size_t i) {
        auto local = instants[i].get_local_time();
        auto day = floor<days>(local);
        return second(month_later(day) + (local - day));
    });
    work.question("day_later", [&](size_t i) { return second(instants[i].get_local_time() + days{1}); });
    work.question("at_nine", [&](size_t i) {
        auto local = instants[i].get_local_time();
        return second(floor<days>(local) + hours{9} + (local - floor<hours>(local)));
    });
    work.question("five_minutes", [&](size_t i) {
        auto local = instants[i].get_local_time();
        return cut(i, local - floor<five_minutes>(local));
    });
    work.question("whole_day", [&](size_t i) {
        auto local = instants[i].get_local_time();
        return cut(i, local - floor<days>(local));
    });
    work.question("difference", [&](size_t i) -> int64_t {
        return (instants[i].get_sys_time() - others[i].get_sys_time()).count();
    });
    work.question("order", [&](size_t i) -> int64_t { return instants[i].get_sys_time() < others[i].get_sys_time(); });
    auto text = [&](size_t i) { return format("%F %T %Ez", instants[i]); };
    work.question("print", [&](size_t i) { return (int64_t)text(i).size(); });
    for (size_t i = 0; i < CHECKED; i++) work.tell("text", text(i));
    work.question("elsewhere", [&](size_t i) -> int64_t {
        return zoned_seconds{other, instants[i]}.get_local_time().time_since_epoch().count();
    });
    work.question("resolve", [&](size_t i) { return second(readings[i]); });
    work.question("in_gap", [&](size_t i) { return second(skipped[i]); });
    work.question("daily", [&](size_t i) {
        auto first = floor<days>(readings[i]);
        int64_t sum = 0;
        for (int day = 0; day < DAYS; day++) sum += second(first + days{day} + hours{2} + minutes{30});
        return sum;
    });
    work.sort(
        instants, [](const auto &one, const auto &each) { return one.get_sys_time() < each.get_sys_time(); },
        [](const auto &each) { return (int64_t)each.get_sys_time().time_since_epoch().count(); });
}
