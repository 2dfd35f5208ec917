// Compares zoned.hpp with the definition of its answers, one time at a time and in columns, in each unit and with each policy:
// around New York's clock changes of 2021, and at the ends of 64 bits. From C++20 on std::chrono's calendar, time zones and format
// are tried over its zones. tools/try_install.py builds and runs it.
#include <zoned.hpp>

#include <array>
#include <cstdio>
#include <vector>
#if ZONED_STD_CHRONO >= 2
#include <format>
#endif

using std::chrono::seconds;
using zoned::fold, zoned::gap, zoned::policy, zoned::time_zone;

// A clock change as zdump prints it: its second, and the offsets before and after it.
struct change {
    int64_t at, before, after;
};
const change spring{1615705200, -18000, -14400}, autumn{1636264800, -14400, -18000};

// The number of the error, or the count.
struct answer {
    uint32_t number;
    int64_t count;
};

static int tried = 0, wrong = 0;

static void same(const char *what, int64_t unit, int64_t given, answer due, answer got) {
    tried++;
    if (due.number == got.number && due.count == got.count) return;
    wrong++;
    std::printf("%s of %lld, %lld a second: due %u %lld, is %u %lld\n", what, (long long)given, (long long)unit, due.number,
                (long long)due.count, got.number, (long long)got.count);
}

template <class Call> answer answer_of(Call call) {
    try {
        return {ZONED_OK, int64_t(call().time_since_epoch().count())};
    } catch (const zoned::error &error) {
        return {error.number, 0};
#if ZONED_STD_CHRONO >= 2
    } catch (const std::chrono::nonexistent_local_time &) {
        return {ZONED_IN_GAP, 0};
    } catch (const std::chrono::ambiguous_local_time &) {
        return {ZONED_IN_FOLD, 0};
#endif
    }
}

template <class Unit> answer one_instant(const time_zone &zone, Unit local, policy choice) {
    return answer_of([&] { return zone.to_sys(zoned::local_time<Unit>(local), choice); });
}

template <class Unit> answer one_local(const time_zone &zone, Unit instant) {
    return answer_of([&] { return zone.to_local(zoned::sys_time<Unit>(instant)); });
}

template <class Unit> answer row_of_instants(const time_zone &zone, Unit local, policy choice) {
    const std::array<zoned::local_time<Unit>, 1> from{zoned::local_time<Unit>(local)};
    std::array<zoned::sys_time<Unit>, 1> to;
    return answer_of([&] { return zone.to_sys_column(from, to, choice), to[0]; });
}

template <class Unit> answer row_of_locals(const time_zone &zone, Unit instant) {
    const std::array<zoned::sys_time<Unit>, 1> from{zoned::sys_time<Unit>(instant)};
    std::array<zoned::local_time<Unit>, 1> to;
    return answer_of([&] { return zone.to_local_column(from, to), to[0]; });
}

// The instant of a local time of 2021 in New York. The policies decide for its second; the rest of it is kept, but for the end of
// a gap.
static answer due_instant(int64_t second, int64_t rest, int64_t unit, policy choice) {
    auto at_offset = [&](int64_t offset) { return answer{ZONED_OK, (second - offset) * unit + rest}; };
    if (second < spring.at + spring.before) return at_offset(spring.before);
    if (second < spring.at + spring.after) {
        if (choice.gap == gap::refuse) return {ZONED_IN_GAP, 0};
        if (choice.gap == gap::end) return {ZONED_OK, spring.at * unit};
        return at_offset(choice.gap == gap::shift_forward ? spring.before : spring.after);
    }
    if (second < autumn.at + autumn.after) return at_offset(autumn.before);
    if (second >= autumn.at + autumn.before) return at_offset(autumn.after);
    if (choice.fold == fold::refuse) return {ZONED_IN_FOLD, 0};
    return at_offset(choice.fold == fold::earliest ? autumn.before : autumn.after);
}

static answer due_local(int64_t second, int64_t rest, int64_t unit) {
    const auto offset = second < spring.at ? spring.before : second < autumn.at ? spring.after : autumn.after;
    return {ZONED_OK, (second + offset) * unit + rest};
}

template <class Call> void each_policy(Call call) {
    for (auto skipped : {gap::refuse, gap::shift_forward, gap::end, gap::shift_backward})
        for (auto repeated : {fold::refuse, fold::earliest, fold::latest}) call(policy{skipped, repeated});
}

template <class Unit> void try_unit(const time_zone &new_york) {
    constexpr int64_t unit = Unit::period::den;
    for (const auto &each : {spring, autumn})
        for (int64_t offset : {int64_t(0), each.before, each.after, (each.before + each.after) / 2})
            for (int64_t second : {each.at + offset - 1, each.at + offset})
                for (int64_t rest : {int64_t(0), unit / 2, unit - 1}) {
                    const auto count = second * unit + rest;
                    const auto local = due_local(second, rest, unit);
                    same("to_local", unit, count, local, one_local(new_york, Unit(count)));
                    same("to_local_column", unit, count, local, row_of_locals(new_york, Unit(count)));
                    each_policy([&](policy choice) {
                        const auto instant = due_instant(second, rest, unit, choice);
                        same("to_sys", unit, count, instant, one_instant(new_york, Unit(count), choice));
                        same("to_sys_column", unit, count, instant, row_of_instants(new_york, Unit(count), choice));
                    });
                    // Columns have policies of their own: what the others reject is no time.
                    auto due = due_instant(second, rest, unit, {});
                    if (due.number) due = {ZONED_OK, ZONED_NO_TIME};
                    same("to_sys_column", unit, count, due, row_of_instants(new_york, Unit(count), {gap::no_time, fold::no_time}));
                }
}

// At the ends a single time is what a column of it is. If an offset leads out of 64 bits, or to the least number, that is an error.
template <class Unit> void try_ends() {
    constexpr auto least = Unit::min().count(), most = Unit::max().count();
    constexpr int64_t unit = Unit::period::den;
    const auto east = time_zone::from_string("JST-9"), west = time_zone::from_string("<-12>12");
    // The last two have a gap at the first and at the last nanosecond, 1677-09-21 00:12:43 and 2262-04-11 23:47:16.
    const auto first = time_zone::from_string("STD0DST,J264/0,J300/0"), last = time_zone::from_string("STD1DST,J101/23:30,J300/0");
    for (const auto &zone : {east, west, first, last})
        for (int64_t count : {least, least + 1, least + unit, least + 32400 * unit, least + 43200 * unit, most - 43200 * unit,
                              most - 32400 * unit, most - unit, most - 1, most}) {
            same("to_local", unit, count, row_of_locals(zone, Unit(count)), one_local(zone, Unit(count)));
            each_policy([&](policy choice) {
                same("to_sys", unit, count, row_of_instants(zone, Unit(count), choice), one_instant(zone, Unit(count), choice));
            });
        }
    same("to_local", unit, most, {ZONED_NO_LOCAL_TIME, 0}, one_local(east, Unit(most)));
    same("to_local", unit, least + 1, {ZONED_NO_LOCAL_TIME, 0}, one_local(west, Unit(least + 1)));
    same("to_sys", unit, least + 1, {ZONED_INSTANT_OUT_OF_RANGE, 0}, one_instant(east, Unit(least + 1), {}));
    same("to_sys", unit, most, {ZONED_INSTANT_OUT_OF_RANGE, 0}, one_instant(west, Unit(most), {}));
    same("to_local", unit, least, {ZONED_OK, least}, one_local(west, Unit(least)));
    same("to_sys", unit, least, {ZONED_OK, least}, one_instant(east, Unit(least), {}));
}

// Units that no column has.
static void try_other_units(const time_zone &new_york) {
    using minutes = std::chrono::duration<int32_t, std::ratio<60>>;
    using ticks = std::chrono::duration<int64_t, std::ratio<1, 10000000>>;
    using part_hours = std::chrono::duration<double, std::ratio<3600>>;
    const auto middle = spring.at + (spring.before + spring.after) / 2;
    each_policy([&](policy choice) {
        const auto whole = due_instant(middle, 0, 1, choice), half = due_instant(middle, 5000000, 10000000, choice);
        same("to_sys of minutes", 1, middle / 60, whole, one_instant(new_york, minutes(middle / 60), choice));
        same("to_sys of ticks", 10000000, middle, half, one_instant(new_york, ticks(middle * 10000000 + 5000000), choice));
        same("to_sys of hours", 1, middle, whole, one_instant(new_york, part_hours(double(middle) / 3600), choice));
    });
    same("to_local of minutes", 1, 0, {ZONED_OK, -18000}, one_local(new_york, minutes(0)));
    same("to_local of ticks", 10000000, 1, {ZONED_OK, -179999999999}, one_local(new_york, ticks(1)));
    same("to_local of hours", 1, 1800, {ZONED_OK, -16200}, one_local(new_york, part_hours(0.5)));
}

static void is_so(const char *what, bool so) {
    tried++;
    if (so) return;
    wrong++;
    std::printf("not so: %s\n", what);
}

static void try_names(const time_zone &new_york) {
    const char bytes[] = "UTC0";
    const auto again = time_zone::from_string(new_york.name()), extended = time_zone::from_extended_string(new_york.name());
    auto copy = new_york, moved = std::move(copy);
    is_so("a TZ string is a zone's name", new_york.name() == "EST5EDT,M3.2.0,M11.1.0");
    is_so("a copy is the same zone", moved == new_york && !(moved != new_york));
    is_so("zones of one TZ string are equal", again == new_york);
    is_so("zones of two TZ strings differ", time_zone::from_string("UTC0") != new_york);
    is_so("a TZ string of another kind is another", extended != new_york);
    is_so("a moved zone leaves no name", copy.name().empty() && copy != new_york);
    moved = extended;
    is_so("assignment takes the name along", moved == extended);
    try {
        time_zone::from_bytes(bytes, 4, "Nowhere");
        is_so("four letters are no file", false);
    } catch (const zoned::error &error) {
        is_so("four letters are no file", error.number == ZONED_INVALID_TZ_FILE);
    }
}

// A name that there isn't, and one that leads out of a folder; and a zone by its name, if there is a tz database.
static void try_located() {
    using namespace std::string_view_literals;
    for (auto name : {"Nowhere/Land"sv, "../zoneinfo/UTC"sv, "/usr/share/zoneinfo/UTC"sv, "UTC\0"sv, ""sv}) {
        try {
            time_zone::locate(name);
            is_so("a name of no zone", false);
        } catch (const zoned::error &error) {
            is_so("a name of no zone", error.number == ZONED_NO_SUCH_ZONE && std::string_view(error.what()).find(name.data()) != name.npos);
        }
    }
    try {
        const auto tokyo = time_zone::locate("Asia/Tokyo"), again = time_zone::locate("Asia/Tokyo");
        is_so("a located zone has its name", tokyo.name() == "Asia/Tokyo" && tokyo == again);
        is_so("and its offset", tokyo.get_offset(zoned::sys_seconds(seconds(0))) == seconds(32400));
        is_so("in a folder too", time_zone::locate("Asia/Tokyo", "/nowhere:/usr/share/zoneinfo").get_offset(zoned::sys_seconds()) == seconds(32400));
        is_so("in no folder", (zoned::tz_version("/nowhere").empty()));
    } catch (const zoned::error &) {
        std::printf("no Asia/Tokyo in the tz database\n");
    }
}

// Steps of the local clock, around the second pass of 2021-11-07 01:30:00: the hour of 01:00 has 120 minutes.
static void try_steps(const time_zone &new_york) {
    using std::chrono::hours, std::chrono::milliseconds, zoned::step;
    const auto at = [](int64_t second) { return zoned::sys_seconds(seconds(second)); };
    const auto second_pass = at(1636266600);
    const auto day = new_york.get_day(second_pass);
    is_so("the day of an instant", day.date.time_since_epoch() == seconds(1636243200) && day.begin == at(1636257600) && day.end == at(1636347600));
    is_so("floor to an hour", new_york.floor(second_pass, hours(1)) == at(1636261200));
    is_so("ceil to an hour", new_york.ceil(second_pass, hours(1)) == at(1636268400));
    is_so("ceil of a beginning", new_york.ceil(at(1636268400), hours(1)) == at(1636268400));
    is_so("ceil after it", new_york.ceil(at(1636268400) + milliseconds(1), hours(1)) == at(1636272000));
    is_so("floor to a day", new_york.floor(second_pass, hours(24)) == day.begin);
    is_so("floor to a week", new_york.floor(second_pass, step::week()) == at(1635739200) && new_york.floor(second_pass, step::week(0)) == day.begin);
    is_so("floor to a month", new_york.floor(second_pass, step::month()) == at(1635739200));
    is_so("ceil to a year", new_york.ceil(second_pass, step::year()) == at(1641013200));
    std::vector<zoned::sys_time<milliseconds>> instants{second_pass + milliseconds(1)}, begins(1);
    std::vector<zoned::local_time<milliseconds>> locals(1);
    new_york.reached_column(instants, locals);
    is_so("a column of reached times", locals[0].time_since_epoch() == seconds(1636250399));
    new_york.floor_column(instants, hours(1), begins);
    is_so("a column of floors", begins[0] == at(1636261200));
    new_york.ceil_column(instants, hours(1), begins);
    is_so("a column of ceils", begins[0] == at(1636268400));
    for (step none : {step(seconds(7)), step(hours(48)), step(seconds(0)), step::week(7)}) {
        try {
            new_york.floor(second_pass, none);
            is_so("a length that is no step", false);
        } catch (const zoned::error &error) {
            is_so("a length that is no step", error.number == ZONED_UNKNOWN_STEP);
        }
    }
}

// What clocks have reached, of New York in 2021; and fixed offsets.
static void try_reached(const time_zone &new_york) {
    const auto at = [](int64_t second) { return zoned::sys_seconds(seconds(second)); };
    is_so("clocks have reached", new_york.reached(at(1636266600)).time_since_epoch() == seconds(1636250399));
    try_steps(new_york);
    const auto nepal = time_zone::fixed(seconds(20700)), west = time_zone::fixed(seconds(-12345));
    is_so("a fixed offset has a name", nepal.name() == "+05:45" && west.name() == "-03:25:45" && time_zone::fixed(seconds(0)).name() == "+00:00");
    is_so("and its offset", nepal.get_offset(at(0)) == seconds(20700) && west.get_offset(at(0)) == seconds(-12345));
    is_so("two of one offset are equal", nepal == time_zone::fixed(seconds(20700)) && nepal != west);
}

// What daylight saving time adds: an hour in New York, and an hour less in Dublin's winter. std's minutes are counted away from zero.
static void try_save(const time_zone &new_york) {
    const zoned::sys_seconds summer{seconds{1625097600}}, winter{seconds{1609459200}};
    const auto dublin = time_zone::from_string("IST-1GMT0,M10.5.0,M3.5.0/1");
    is_so("New York saves an hour", new_york.get_info(summer).save == seconds{3600} && new_york.get_info(winter).save == seconds{0});
    is_so("Dublin an hour less", dublin.get_info(winter).save == seconds{-3600} && dublin.get_info(summer).save == seconds{0});
    const auto skipped = new_york.get_info(zoned::local_seconds{seconds{1615689000}});
    is_so("a gap has both amounts", skipped.first.save == seconds{0} && skipped.second.save == seconds{3600});
#if ZONED_STD_CHRONO >= 2
    const auto ahead = time_zone::from_string("AAA0BBB-0:00:20,M3.2.0,M11.1.0"), behind = time_zone::from_string("AAA0BBB0:01:20,M3.2.0,M11.1.0");
    is_so("20 seconds are a minute", std::chrono::sys_info(ahead.get_info(summer)).save == std::chrono::minutes{1});
    is_so("80 seconds less are two less", std::chrono::sys_info(behind.get_info(summer)).save == std::chrono::minutes{-2});
#endif
}

// std::chrono's choose: the earliest or the latest instant, and the end of a gap.
static void try_choose(const time_zone &new_york) {
    const seconds in_gap{1615689000}, in_fold{1636248600};
    for (auto which : {zoned::choose::earliest, zoned::choose::latest}) {
        same("to_sys with choose", 1, in_gap.count(), {ZONED_OK, spring.at}, one_instant(new_york, in_gap, which));
        const auto offset = which == zoned::choose::earliest ? autumn.before : autumn.after;
        same("to_sys with choose", 1, in_fold.count(), {ZONED_OK, in_fold.count() - offset}, one_instant(new_york, in_fold, which));
    }
    same("to_sys with a fold", 1, in_fold.count(), {ZONED_OK, 1636266600}, one_instant(new_york, in_fold, fold::latest));
    same("to_sys with a fold", 1, in_gap.count(), {ZONED_IN_GAP, 0}, one_instant(new_york, in_gap, fold::latest));
    same("to_sys with a gap", 1, in_gap.count(), {ZONED_OK, 1615707000}, one_instant(new_york, in_gap, gap::shift_forward));
    same("to_sys with a gap", 1, in_gap.count(), {ZONED_OK, 1615703400}, one_instant(new_york, in_gap, gap::shift_backward));
}

#if ZONED_STD_CHRONO >= 1
static void try_calendar(const time_zone &new_york) {
    using std::chrono::floor, std::chrono::hours, std::chrono::local_days, std::chrono::sys_days, std::chrono::year;
    const auto noon = local_days{year{2021} / 3 / 14} + hours{12};
    same("to_sys of a day of the calendar", 1, 0, {ZONED_OK, 1615737600}, answer_of([&] { return new_york.to_sys(noon); }));
    const auto late = new_york.to_local(sys_days{year{2021} / 3 / 14} + hours{4});
    is_so("a local time has a date", std::chrono::year_month_day{floor<std::chrono::days>(late)} == year{2021} / 3 / 13);
    is_so("and a weekday", std::chrono::weekday{floor<std::chrono::days>(late)} == std::chrono::Saturday);
}
#endif

#if ZONED_STD_CHRONO >= 2
static void try_zoned_time(const time_zone &new_york) {
    using std::chrono::hours, std::chrono::local_info, std::chrono::milliseconds, std::chrono::minutes, std::chrono::year;
    using in_seconds = std::chrono::zoned_time<seconds, const time_zone *>;
    using in_millis = std::chrono::zoned_time<milliseconds, const time_zone *>;
    const auto change = std::chrono::sys_days{year{2021} / 3 / 14} + hours{7};
    const std::chrono::local_seconds in_gap{seconds{1615689000}}, in_fold{seconds{1636248600}};
    const in_seconds meeting{&new_york, change};
    is_so("zoned_time prints", std::format("{:%F %T %Z}", meeting) == "2021-03-14 03:00:00 EDT");
    is_so("and in milliseconds", std::format("{:%T %z}", in_millis{&new_york, change - milliseconds{1}}) == "01:59:59.999 -0500");
    is_so("a local time prints", std::format("{:%F %T}", new_york.to_local(change)) == "2021-03-14 03:00:00");
    is_so("zoned_time takes local times", in_seconds{&new_york, std::chrono::local_days{year{2021} / 3 / 14} + hours{3}} == meeting);
    is_so("and a choice", in_seconds(&new_york, in_gap, std::chrono::choose::latest) == meeting);
    const std::chrono::sys_info info = meeting.get_info();
    is_so("its info", info.begin == change && info.offset == hours{-4} && info.save == minutes{60} && info.abbrev == "EDT");
    const local_info skipped = new_york.get_info(in_gap), repeated = new_york.get_info(in_fold);
    is_so("a gap", skipped.result == local_info::nonexistent && skipped.first.save == minutes{0} && skipped.second.begin == change);
    is_so("a fold", repeated.result == local_info::ambiguous && repeated.first.abbrev == "EDT" && repeated.second.abbrev == "EST");
    try {
        in_seconds{&new_york, in_gap};
        is_so("no instant in a gap", false);
    } catch (const std::chrono::nonexistent_local_time &refused) {
        is_so("what is thrown names both types", std::string_view(refused.what()).find("EST") != std::string_view::npos);
    }
    try {
        new_york.to_sys(in_fold);
        is_so("two instants in a fold", false);
    } catch (const std::chrono::ambiguous_local_time &) {
        tried++;
    }
}
#endif

int main() {
    const auto new_york = time_zone::from_string("EST5EDT,M3.2.0,M11.1.0");
    try_unit<std::chrono::seconds>(new_york), try_ends<std::chrono::seconds>();
    try_unit<std::chrono::milliseconds>(new_york), try_ends<std::chrono::milliseconds>();
    try_unit<std::chrono::microseconds>(new_york), try_ends<std::chrono::microseconds>();
    try_unit<std::chrono::nanoseconds>(new_york), try_ends<std::chrono::nanoseconds>();
    try_other_units(new_york);
    try_names(new_york), try_located(), try_choose(new_york), try_reached(new_york), try_save(new_york);
#if ZONED_STD_CHRONO >= 1
    try_calendar(new_york);
#endif
#if ZONED_STD_CHRONO >= 2
    try_zoned_time(new_york);
#endif
    std::printf("%d answers of zoned.hpp, %d wrong\n", tried, wrong);
    return tried == 0 || wrong != 0;
}
