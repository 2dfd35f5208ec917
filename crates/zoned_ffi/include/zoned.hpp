// zoned.hpp: time zones for C++17 and later, over zoned.h. Names and meanings follow the time zones of C++20's std::chrono.
//
//   const auto paris = zoned::time_zone::locate("Europe/Paris");
//   auto local = paris.to_local(zoned::sys_seconds(std::chrono::seconds(1615705200)));
//   auto instant = paris.to_sys(local, {zoned::gap::shift_forward, zoned::fold::earliest});
//
// A zone may be asked by any number of threads at once, by its const members. A copy shares what was read.
// Errors are thrown: zoned::error has the number of zoned.h, and std::bad_alloc is thrown if memory runs out.
//
// One kind of error changes with the compiler. If std::chrono has time zones (see below), to_sys throws its nonexistent_local_time
// for a gap and its ambiguous_local_time for a fold, and no zoned::error. So a `catch` of zoned::error may stop matching with a newer
// compiler or standard: catch std::runtime_error, which all three are, or give to_sys a policy for gaps and folds.
//
// From C++20 on local times are those of std::chrono, so its calendar takes them. If std::chrono has time zones too (libstdc++
// 14, or libc++ 19 with -fexperimental-library), a pointer to a zone is the zone of a std::chrono::zoned_time, which std::format
// prints, and sys_info and local_info become std's:
//
//   std::chrono::zoned_time<seconds, const zoned::time_zone *> meeting{&paris, std::chrono::local_days{2021y / 10 / 31} + 12h};
#pragma once

#include "zoned.h"

#include <chrono>
#include <cstdio>
#include <memory>
#include <new>
#include <stdexcept>
#include <string>
#include <string_view>
#include <type_traits>
#include <utility>

namespace zoned {

// What <chrono> has: 1, C++20's local times; 2, its time zones too.
#if __cplusplus < 202002L || (!defined(_LIBCPP_VERSION) && _GLIBCXX_RELEASE < 11)
#define ZONED_STD_CHRONO 0
#elif defined(_LIBCPP_HAS_EXPERIMENTAL_TZDB)
#define ZONED_STD_CHRONO (1 + _LIBCPP_HAS_EXPERIMENTAL_TZDB)
#elif defined(_LIBCPP_VERSION) ? _LIBCPP_VERSION >= 190000 && !defined(_LIBCPP_HAS_NO_EXPERIMENTAL_TZDB) : __cpp_lib_chrono >= 201907L
#define ZONED_STD_CHRONO 2
#else
#define ZONED_STD_CHRONO 1
#endif

using std::chrono::seconds;

#if ZONED_STD_CHRONO >= 1
using std::chrono::local_t;
#else
struct local_t {};
#endif
template <class Duration> using sys_time = std::chrono::time_point<std::chrono::system_clock, Duration>;
template <class Duration> using local_time = std::chrono::time_point<local_t, Duration>;
using sys_seconds = sys_time<seconds>;
using local_seconds = local_time<seconds>;

// What to do with a local time that the clocks skipped, and with one that they show several times.
enum class gap : uint32_t {
    refuse = ZONED_GAP_REFUSE,
    shift_forward = ZONED_GAP_SHIFT_FORWARD,
    end = ZONED_GAP_END,
    shift_backward = ZONED_GAP_SHIFT_BACKWARD,
    no_time = ZONED_GAP_NO_TIME // of columns only
};
enum class fold : uint32_t {
    refuse = ZONED_FOLD_REFUSE,
    earliest = ZONED_FOLD_EARLIEST,
    latest = ZONED_FOLD_LATEST,
    no_time = ZONED_FOLD_NO_TIME // of columns only
};

// The policies of std::chrono: the earliest or the latest instant that shows a local time, and the end of a gap.
#if ZONED_STD_CHRONO >= 2
using std::chrono::choose;
#else
enum class choose { earliest, latest };
#endif

struct policy {
    enum gap gap = gap::refuse;
    enum fold fold = fold::refuse;

    constexpr policy() = default;
    constexpr policy(enum gap skipped, enum fold repeated = fold::refuse) : gap(skipped), fold(repeated) {}
    constexpr policy(enum fold repeated) : fold(repeated) {}
    constexpr policy(choose which) : policy(gap::end, which == choose::earliest ? fold::earliest : fold::latest) {}
};

// A step of the local clock: a length of which a day has a whole number, counted from midnight, as std::chrono::minutes(15); or a
// week, from the weekday `first`, 0 for Sunday to 6; a month; or a year.
struct step {
    uint32_t number; // that of zoned_step; 0, which no step has, for another length
    template <class Length, class = std::enable_if_t<std::is_convertible_v<Length, seconds>>>
    constexpr step(Length length) : step(of(length)) {}
    static constexpr step week(uint32_t first = 1) { return step(first < 7 ? ZONED_STEP_WEEK + first : 0); }
    static constexpr step month() { return step(uint32_t(ZONED_STEP_MONTH)); }
    static constexpr step year() { return step(uint32_t(ZONED_STEP_YEAR)); }

private:
    constexpr explicit step(uint32_t code) : number(code) {}
    static constexpr uint32_t of(seconds length) { return length.count() > 0 && length.count() <= ZONED_STEP_DAY ? uint32_t(length.count()) : 0; }
};

// The day that an instant lies in: its date, as the local time of its midnight, and where it and the next day begin.
struct day_info {
    local_seconds date;
    sys_seconds begin, end;
};

// An error of the library, with its number. `row` is the first row of a column that has it. It is 0 also if no row has it.
class error : public std::runtime_error {
public:
    const uint32_t number;
    const size_t row;
    explicit error(uint32_t code, size_t at = 0) : std::runtime_error(text(code)), number(code), row(at) {}
    error(uint32_t code, const std::string &what) : std::runtime_error(what), number(code), row(0) {}

private:
    static std::string text(uint32_t code) {
        char words[128];
        zoned_error_text(code, words, sizeof words);
        return words;
    }
};

inline void check(uint32_t number, size_t row = 0) {
    if (number == ZONED_OUT_OF_MEMORY) throw std::bad_alloc();
    if (number != ZONED_OK) throw error(number, row);
}

// What is in force from `begin` on and before `end`. Without a clock change on that side it is the least or the greatest
// second. `save` is what daylight saving time adds to the standard offset, as zoned_zone_standard_offset infers it.
struct sys_info {
    sys_seconds begin, end;
    seconds offset, save;
    bool is_dst;
    std::string abbrev;
#if ZONED_STD_CHRONO >= 2
    // std's `save` has whole minutes: a part of one is counted as a whole one, so that only standard time has none.
    operator std::chrono::sys_info() const {
        using std::chrono::minutes;
        return {begin, end, offset, save < save.zero() ? std::chrono::floor<minutes>(save) : std::chrono::ceil<minutes>(save), abbrev};
    }
#endif
};

// How a zone shows a local time. `first` is what is in force at the only or the first instant that shows it, and `second` at
// the last; in a gap they are what is in force before it and after it.
struct local_info {
    enum { unique, nonexistent, ambiguous } result;
    sys_info first, second;
#if ZONED_STD_CHRONO >= 2
    operator std::chrono::local_info() const { return {int(result), first, second}; }
    static_assert(int(unique) == std::chrono::local_info::unique && int(nonexistent) == std::chrono::local_info::nonexistent &&
                  int(ambiguous) == std::chrono::local_info::ambiguous);
#endif
};

class time_zone {
public:
    // The zone of a TZif file, given its bytes, under a name of yours.
    static time_zone from_bytes(const void *bytes, size_t count, std::string_view name = {}) {
        return open(ZONED_FILE, bytes, count, {std::string(name), {}});
    }

    // The zone of a TZ string, such as EST5EDT,M3.2.0,M11.1.0, which is its name.
    static time_zone from_string(std::string_view text) { return of_text(ZONED_TEXT, text); }

    // The zone of a TZ string that may have the extensions of RFC 8536: hours of a time of day from -167 to 167.
    static time_zone from_extended_string(std::string_view text) { return of_text(ZONED_EXTENDED_STRING, text); }

    // The zone of that name, such as Europe/Paris, in the first of the folders that has it: paths with : between them, or those of
    // zoned_open_name. Throws error with ZONED_NO_SUCH_ZONE if no folder has it. It needs the installed library: the archive of
    // `rt lib` has no zoned_open_name.
    static time_zone locate(std::string_view name, const std::string &folders = {}) {
        const std::string path(name);
        time_zone opened({path, folders + ':' + path});
        auto number = uint32_t(ZONED_NO_SUCH_ZONE);
        if (path.find('\0') == path.npos)
            number = zoned_open_name(path.c_str(), folders.empty() ? nullptr : folders.c_str(), &opened.zone);
        if (number == ZONED_OUT_OF_MEMORY) throw std::bad_alloc();
        if (number != ZONED_OK) throw error(number, zoned_error_words(number) + (": " + path));
        return opened;
    }

    // The zone whose clocks are always as far ahead of UTC. Its name is such as +05:30.
    static time_zone fixed(seconds offset) {
        const auto count = offset.count();
        if (count <= INT32_MIN || count > INT32_MAX) throw error(ZONED_LOCAL_TIME_TYPE);
        const auto length = count < 0 ? -count : count;
        char name[32];
        auto written = std::snprintf(name, sizeof name, "%c%02d:%02d", count < 0 ? '-' : '+', int(length / 3600), int(length / 60 % 60));
        if (length % 60 != 0) std::snprintf(name + written, sizeof name - size_t(written), ":%02d", int(length % 60));
        time_zone opened({name, name});
        check(zoned_open_fixed(int32_t(count), &opened.zone));
        return opened;
    }

    time_zone(time_zone &&other) noexcept : zone(std::exchange(other.zone, {})), origin(std::move(other.origin)) {}
    time_zone(const time_zone &other) : origin(other.origin) { check(zoned_share(&other.zone, &zone)); }
    time_zone &operator=(time_zone other) noexcept {
        std::swap(zone, other.zone);
        std::swap(origin, other.origin);
        return *this;
    }
    ~time_zone() { zoned_close(&zone); }

    // The name by which the zone was located, its TZ string, its fixed offset, or the name given with its bytes.
    std::string_view name() const { return origin ? std::string_view(origin->name) : std::string_view(); }

    // Whether one zone is a copy of the other, or both have one name in the same folders, or are of one TZ string or one fixed offset.
    friend bool operator==(const time_zone &one, const time_zone &other) {
        if (one.origin == other.origin) return true;
        return one.origin && other.origin && !one.origin->place.empty() && one.origin->place == other.origin->place;
    }
    friend bool operator!=(const time_zone &one, const time_zone &other) { return !(one == other); }

    // The offset in force at an instant, east of UTC.
    template <class Duration> seconds get_offset(sys_time<Duration> at) const {
        int32_t offset;
        check(zoned_zone_offset(&zone, second(at), &offset));
        return seconds(known(offset));
    }

    template <class Duration> sys_info get_info(sys_time<Duration> at) const {
        zoned_span span;
        check(zoned_zone_span(&zone, second(at), &span));
        return info_of(span);
    }

    // The date and the time of day that clocks show at an instant, with the weekday and the day of the year.
    template <class Duration> zoned_fields get_fields(sys_time<Duration> at) const {
        zoned_fields fields;
        check(zoned_zone_fields(&zone, second(at), &fields));
        return fields;
    }

    // The last local time, in whole seconds, that clocks have shown up to an instant. Throws error with ZONED_WIDE_ZONE or
    // ZONED_INSTANT_OUT_OF_RANGE.
    template <class Duration> local_seconds reached(sys_time<Duration> at) const {
        int64_t local;
        check(zoned_zone_reached(&zone, second(at), &local));
        return local_seconds(seconds(local));
    }

    // The day that an instant lies in. Throws error as `reached` does.
    template <class Duration> day_info get_day(sys_time<Duration> at) const {
        zoned_day day;
        check(zoned_zone_day(&zone, second(at), &day));
        return {local_seconds(seconds(day.date)), sys(day.begin), sys(day.end)};
    }

    // The instant at which the step of the local clock that an instant lies in begins. Throws error as `reached` does, or with
    // ZONED_UNKNOWN_STEP.
    template <class Duration> sys_seconds floor(sys_time<Duration> at, step length) const {
        int64_t floor;
        check(zoned_zone_floor(&zone, length.number, second(at), &floor));
        return sys(floor);
    }

    // The first instant from an instant on at which such a step begins.
    template <class Duration> sys_seconds ceil(sys_time<Duration> at, step length) const {
        int64_t ceil;
        check(zoned_zone_ceil(&zone, length.number, second(std::chrono::ceil<seconds>(at)), &ceil));
        return sys(ceil);
    }

    // A single time is converted as a row of a column is, in the unit of its Duration, or in seconds if that unit is longer. So the
    // least number, which is no time, stays.

    // The local time of an instant. Throws error with ZONED_NO_LOCAL_TIME if the zone has no offset there, or if the local time
    // doesn't fit.
    template <class Duration> auto to_local(sys_time<Duration> at) const {
        using Unit = std::common_type_t<Duration, seconds>;
        const Unit instant = at.time_since_epoch();
        if (is_no_time(instant)) return local_time<Unit>(instant);
        const Unit offset = get_offset(at);
        return local_time<Unit>(sum(instant, offset, ZONED_NO_LOCAL_TIME));
    }

    // The instant of a local time. Throws error with ZONED_IN_GAP, ZONED_IN_FOLD or ZONED_INSTANT_OUT_OF_RANGE; if std::chrono has
    // time zones, std::chrono::nonexistent_local_time and ambiguous_local_time in place of the first two.
    template <class Duration> auto to_sys(local_time<Duration> at, policy choice = {}) const {
        using Unit = std::common_type_t<Duration, seconds>;
        const Unit local = at.time_since_epoch();
        if (is_no_time(local)) return sys_time<Unit>(local);
        const int64_t shown = second(at);
        zoned_resolved resolved;
        check(zoned_zone_instant(&zone, uint32_t(choice.gap), uint32_t(choice.fold), shown, &resolved));
        must_be_taken(resolved.number, shown);
        Unit step = seconds(resolved.instant - shown);
        // In a gap clocks show another local time at that instant. The end of a gap is a whole second.
        if (choice.gap == gap::end && resolved.instant + resolved.offset != shown) step -= part_of_second(local);
        return sys_time<Unit>(sum(local, step, ZONED_INSTANT_OUT_OF_RANGE));
    }

    // The first instant at which clocks show a local time or a later one: in a gap the instant at which it ends.
    sys_seconds first_at_or_after(local_seconds local) const {
        zoned_resolved reached;
        check(zoned_zone_first_at_or_after(&zone, second(local), &reached));
        check(reached.number);
        return sys(reached.instant);
    }

    template <class Duration> local_info get_info(local_time<Duration> local) const {
        zoned_local_info info;
        check(zoned_zone_local_info(&zone, second(local), &info));
        if (info.shown == ZONED_ONCE) return {local_info::unique, info_of(info.first), {}};
        const auto result = info.shown == ZONED_NEVER ? local_info::nonexistent : local_info::ambiguous;
        return {result, info_of(info.first), info_of(info.last)};
    }

    // Columns: vectors, std::span or whatever else has data() and size(). The second is as long as the first. Throws error with
    // the first row that has no answer.

    // Instants as local times, in seconds, milliseconds, microseconds or nanoseconds of 64 bits. The least number is no time,
    // as NaT of numpy, and stays.
    template <class Instants, class Locals> void to_local_column(const Instants &instants, Locals &&locals) const {
        auto from = numbers<std::chrono::system_clock>(instants.data());
        auto to = numbers<local_t>(locals.data());
        size_t row = 0;
        auto unit = per_second(instants.data(), locals.data());
        auto number = zoned_column_locals(&zone, unit, from, instants.size(), to, locals.size(), &row);
        check(number, row);
    }

    // Local times as instants, in these units. No time stays, and by gap::no_time and fold::no_time local times become it.
    template <class Locals, class Instants>
    void to_sys_column(const Locals &locals, Instants &&instants, policy choice = {}) const {
        auto from = numbers<local_t>(locals.data());
        auto to = numbers<std::chrono::system_clock>(instants.data());
        size_t row = 0;
        auto unit = per_second(locals.data(), instants.data());
        auto number = zoned_column_instants(&zone, uint32_t(choice.gap), uint32_t(choice.fold), unit, from, locals.size(), to,
                                            instants.size(), &row);
        check(number, row);
    }

    // The last local times, in whole seconds, that clocks have shown up to instants, in these units. No time stays.
    template <class Instants, class Locals> void reached_column(const Instants &instants, Locals &&locals) const {
        auto from = numbers<std::chrono::system_clock>(instants.data());
        auto to = numbers<local_t>(locals.data());
        size_t row = 0;
        auto unit = per_second(instants.data(), locals.data());
        auto number = zoned_column_reached(&zone, unit, from, instants.size(), to, locals.size(), &row);
        check(number, row);
    }

    // Where the steps that instants lie in begin, in these units. No time stays.
    template <class Instants, class Floors> void floor_column(const Instants &instants, step length, Floors &&floors) const {
        step_column(zoned_column_floors, instants, length, floors);
    }

    // The first instants from instants on at which steps begin, in these units. No time stays.
    template <class Instants, class Ceils> void ceil_column(const Instants &instants, step length, Ceils &&ceils) const {
        step_column(zoned_column_ceils, instants, length, ceils);
    }

    // The handle, for calls of zoned.h. It stays this zone's.
    const zoned_zone *handle() const { return &zone; }

private:
    // A zone's name, and what it was made from: nothing if that is bytes.
    struct source {
        std::string name, place;
    };

    zoned_zone zone{};
    std::shared_ptr<const source> origin;

    explicit time_zone(source from) : origin(std::make_shared<const source>(std::move(from))) {}

    static time_zone open(uint32_t kind, const void *bytes, size_t count, source from) {
        time_zone opened(std::move(from));
        check(zoned_open(kind, bytes, count, &opened.zone));
        return opened;
    }

    // The place of a TZ string differs from each path and offset: it has a zero byte.
    static time_zone of_text(uint32_t kind, std::string_view text) {
        return open(kind, text.data(), text.size(), {std::string(text), char(kind) + std::string(1, '\0').append(text)});
    }

    template <class Call, class Instants, class Begins>
    void step_column(Call call, const Instants &instants, step length, Begins &begins) const {
        auto from = numbers<std::chrono::system_clock>(instants.data());
        auto to = numbers<std::chrono::system_clock>(begins.data());
        size_t row = 0;
        auto unit = per_second(instants.data(), begins.data());
        check(call(&zone, length.number, unit, from, instants.size(), to, begins.size(), &row), row);
    }

    // The number of the second that a time lies in.
    template <class Clock, class Duration> static int64_t second(std::chrono::time_point<Clock, Duration> at) {
        return std::chrono::floor<seconds>(at).time_since_epoch().count();
    }

    // Throws what a local time has in place of an instant.
    void must_be_taken(uint32_t number, [[maybe_unused]] int64_t shown) const {
#if ZONED_STD_CHRONO >= 2
        const local_seconds at{seconds(shown)};
        if (number == ZONED_IN_GAP) throw std::chrono::nonexistent_local_time(at, get_info(at));
        if (number == ZONED_IN_FOLD) throw std::chrono::ambiguous_local_time(at, get_info(at));
#endif
        check(number);
    }

    static sys_seconds sys(int64_t at) { return sys_seconds(seconds(at)); }

    sys_info info_of(const zoned_span &span) const {
        const auto &type = span.local_type;
        zoned_saving saving{};
        if (type.is_dst != 0) check(zoned_zone_standard_offset(&zone, span.from, &saving));
        return {sys(span.from), sys(span.until), seconds(type.offset), seconds(saving.amount), type.is_dst != 0, type.abbreviation};
    }

    // Whether a time is a whole number that may be negative, as in a column.
    template <class Unit, class Number = typename Unit::rep>
    static constexpr bool is_counted = std::is_integral_v<Number> && std::is_signed_v<Number>;

    template <class Unit> static bool is_no_time(Unit time) { return is_counted<Unit> && time == Unit::min(); }

    // The sum, or the error if it doesn't fit, or would be no time.
    template <class Unit> static Unit sum(Unit time, Unit step, uint32_t number) {
        if (is_counted<Unit> && (step < Unit::zero() ? time <= Unit::min() - step : time > Unit::max() - step)) throw error(number);
        return time + step;
    }

    // What a time has beyond the second that it lies in.
    template <class Unit> static Unit part_of_second(Unit time) {
        const Unit part = time - std::chrono::duration_cast<seconds>(time);
        return part < Unit::zero() ? part + seconds(1) : part;
    }

    static int32_t known(int32_t offset) {
        if (offset == ZONED_NO_OFFSET) throw error(ZONED_NO_LOCAL_TIME);
        return offset;
    }

    // How many of the unit of both columns make a second.
    template <class From, class To> static constexpr int64_t per_second(const From *, const To *) {
        static_assert(From::period::num == 1, "a unit of which no whole number makes a second");
        static_assert(std::is_same_v<typename From::period, typename To::period>, "two units");
        return From::period::den;
    }

    // A time point of 64 bits is the number of its units, and nothing else.
    template <class Clock, class Time> static auto numbers(Time *column) {
        static_assert(std::is_same_v<typename Time::clock, Clock> && is_counted<typename Time::duration>);
        static_assert(sizeof(Time) == sizeof(int64_t) && std::is_standard_layout_v<Time>);
        return reinterpret_cast<std::conditional_t<std::is_const_v<Time>, const int64_t, int64_t> *>(column);
    }
};

// The version of the tz database in the first of the folders that states it, such as 2026a: empty if none does.
inline std::string tz_version(const std::string &folders = {}) {
    char text[64];
    return std::string(text, zoned_tz_version(folders.empty() ? nullptr : folders.c_str(), text, sizeof text));
}

} // namespace zoned
