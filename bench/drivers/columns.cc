// Times a column of instants that becomes one of local times, by this library and by loops over what other libraries answer; with
// -DSTANDARD_ZONES only by those over the zones of C++20.
//
// usage: columns [FOLDER]
//
// The columns have 200,000 instants of the years 1970 to 2036 in nanoseconds: at random, in order, of one day (2021-07-01), and all
// equal. It prints a line for each figure, its fields parted by tabs:  PEER  ZONE  ROWS  NANOSECONDS  ASKED  DIFFER
//   PEER         a library; with `+kept`, by the loop that keeps the span of a row, and asks again only for a row outside it (of this
//                library too, whose other figure is that of zoned_column_locals)
//   NANOSECONDS  the processor's time of a row; a twentieth of the passes of 0.3 seconds took less
//   ASKED        how many rows it was asked. Of the zones of C++20 each 1,000th, or as many of the first as take a second
//   DIFFER       how many of its answers are not this library's
// Into FOLDER it writes the columns, ROWS.i64, and this library's answers, ZONE.ROWS.i64, as numbers of 64 bits; rows and zones have
// the names. go/columns.go and columns_pandas.py read them.
#include "common.h"
#include "../../crates/zoned_ffi/include/zoned_ffi.h"

#include <algorithm>
#include <chrono>
#include <cstring>
#include <functional>
#include <random>
#ifdef STANDARD_ZONES
namespace date = std::chrono;
#else
#include "absl/time/time.h"
#include <date/tz.h>
#endif

static const int64_t NANOS = 1000000000, BEGIN = 0, END = 2114380800, DAY = 1625097600;
static const size_t ROWS = 200000, STEP = 1000;
typedef std::vector<int64_t> Column;
// The local times of some rows of a column, from the first on, each so many rows after the one before.
typedef std::function<void(const Column &instants, size_t step, Column &locals)> Answer;

static int64_t second_of(int64_t instant) { return instant / NANOS - (instant % NANOS < 0); }

// The time of all rows that are asked: that which a twentieth of the passes fall below, so that no pass counts in which the clock of
// a busy virtual machine stood still.
static double least(const Answer &answer, const Column &instants, size_t step, Column &locals) {
    std::vector<double> times;
    for (double spent = 0; spent < PASS_NANOSECONDS; spent += times.back()) {
        double start = now();
        answer(instants, step, locals);
        times.push_back(since(start));
    }
    std::sort(times.begin(), times.end());
    return times[times.size() / 20];
}

// The local times by the peer's offset at a second, of each row that is asked.
template <class Offset> Answer row_by_row(Offset offset) {
    return [=](const Column &instants, size_t step, Column &locals) {
        for (size_t i = 0; i < locals.size(); i++) locals[i] = instants[i * step] + offset(second_of(instants[i * step])) * NANOS;
    };
}

// A span of seconds with one offset.
struct Span {
    int64_t begin, end, offset;
};

// A second in nanoseconds; the least or greatest number if it has too many.
static int64_t in_nanoseconds(int64_t second) {
    return second > INT64_MAX / NANOS ? INT64_MAX : second < INT64_MIN / NANOS ? INT64_MIN : second * NANOS;
}

// The same of the first rows, by the span of a row, which is kept for the rows after it. span(second) is asked only for one outside.
template <class OfSecond> Answer kept_span(OfSecond span) {
    return [=](const Column &instants, size_t, Column &locals) {
        Span kept = {INT64_MAX, INT64_MIN, 0};
        for (size_t i = 0; i < locals.size(); i++) {
            int64_t instant = instants[i];
            if (instant < kept.begin || instant >= kept.end) {
                Span found = span(second_of(instant));
                kept = {in_nanoseconds(found.begin), in_nanoseconds(found.end), found.offset * NANOS};
            }
            locals[i] = instant + kept.offset;
        }
    };
}

struct Peer {
    std::string name;
    Answer answer;
    // Whether each answer takes so long that only some rows are asked.
    bool is_slow, is_kept;
};

// The two loops over get_info.
static std::vector<Peer> by_date(const std::string &peer, const char *name, bool is_slow) {
    const date::time_zone *zone = date::locate_zone(name);
    auto info = [=](int64_t second) { return zone->get_info(date::sys_seconds{std::chrono::seconds{second}}); };
    auto offset = [=](int64_t second) -> int64_t { return info(second).offset.count(); };
    auto span = [=](int64_t second) -> Span {
        const auto found = info(second);
        return {found.begin.time_since_epoch().count(), found.end.time_since_epoch().count(), found.offset.count()};
    };
    return {{peer, row_by_row(offset), is_slow, false}, {peer + "+kept", kept_span(span), is_slow, true}};
}

#ifdef STANDARD_ZONES
static std::vector<Peer> peers(const char *name, const zoned_zone *) { return by_date("standard", name, true); }
#else
// The second of a change, or the other one if there is no change.
static int64_t second_or(const absl::TimeZone &zone, bool found, const absl::TimeZone::CivilTransition &change, int64_t other) {
    return found ? absl::ToUnixSeconds(zone.At(change.to).trans) : other;
}

static std::vector<Peer> peers(const char *name, const zoned_zone *ours) {
    absl::TimeZone zone;
    if (!absl::LoadTimeZone(name, &zone)) exit(2);
    setenv("TZ", (std::string(":") + name).c_str(), 1);
    tzset();
    auto offset = [=](int64_t second) -> int64_t { return zone.At(absl::FromUnixSeconds(second)).offset; };
    std::vector<Peer> found = by_date("hinnant", name, false);
    found.push_back({"cctz", row_by_row(offset), false, false});
    found.push_back({"cctz+kept", kept_span([=](int64_t second) -> Span {
                         absl::TimeZone::CivilTransition begin, end;
                         bool begins = zone.PrevTransition(absl::FromUnixSeconds(second + 1), &begin);
                         bool ends = zone.NextTransition(absl::FromUnixSeconds(second), &end);
                         return {second_or(zone, begins, begin, INT64_MIN), second_or(zone, ends, end, INT64_MAX), offset(second)};
                     }),
                     false, true});
    found.push_back({"glibc", row_by_row([=](int64_t second) -> int64_t {
                         time_t asked = second;
                         struct tm fields;
                         localtime_r(&asked, &fields);
                         return fields.tm_gmtoff;
                     }),
                     false, false});
    found.push_back({"sahvumbi+kept", kept_span([=](int64_t second) -> Span {
                         zoned_span span;
                         if (zoned_zone_span(ours, second, &span) != ZONED_OK) exit(2);
                         return {span.from, span.until, span.local_type.offset};
                     }),
                     false, true});
    return found;
}
#endif

// How many of the first rows a slow library answers in a second.
static size_t fitting(const Answer &answer, const Column &instants) {
    for (size_t rows = 200;; rows *= 10) {
        Column locals(rows);
        double start = now();
        answer(instants, 1, locals);
        if (rows * 10 > ROWS || since(start) * 10 > 1e9) return rows;
    }
}

static void write_column(const std::string &path, const Column &column) {
    std::ofstream out(path, std::ios::binary);
    out.write((const char *)column.data(), (std::streamsize)(column.size() * 8));
}

int main(int count, char **words) {
    const std::string folder = count > 1 ? std::string(words[1]) + "/" : "";
    const char *names[] = {"America/New_York", "Australia/Lord_Howe", "Africa/Casablanca", "Europe/Dublin", "Asia/Kolkata", "Pacific/Apia"};
    std::mt19937_64 numbers(20261126);
    auto drawn = [&](int64_t from, int64_t until) {
        Column column(ROWS);
        for (int64_t &instant : column) instant = (int64_t)(numbers() % (uint64_t)(until - from)) * NANOS + from * NANOS;
        return column;
    };
    Column random = drawn(BEGIN, END), sorted = random, day = drawn(DAY, DAY + 86400), equal(ROWS, DAY * NANOS);
    std::sort(sorted.begin(), sorted.end());
    std::sort(day.begin(), day.end());
    const std::pair<const char *, const Column *> columns[] = {{"at random", &random}, {"in order", &sorted}, {"of a day", &day}, {"equal", &equal}};
    if (count > 1) {
        std::ofstream rows(folder + "rows"), zones(folder + "zones");
        for (const auto &column : columns) rows << column.first << '\n';
        for (const char *name : names) zones << name << '\n';
        for (const auto &column : columns) write_column(folder + column.first + ".i64", *column.second);
    }
    for (const char *name : names) {
        const char *zone_name = strrchr(name, '/') + 1;
        std::string bytes = read_file(std::string("/usr/share/zoneinfo/") + name);
        struct zoned_zone zone = {0};
        if (zoned_open(ZONED_FILE, bytes.data(), bytes.size(), &zone) != ZONED_OK) return 2;
        const Answer one_call = [&](const Column &instants, size_t, Column &locals) {
            size_t row;
            if (zoned_column_locals(&zone, NANOS, instants.data(), ROWS, locals.data(), ROWS, &row) != ZONED_OK) exit(2);
        };
        const std::vector<Peer> others = peers(name, &zone);
        for (const auto &[rows, column] : columns) {
            Column ours(ROWS);
            auto print = [&](const std::string &peer, double took, size_t asked, size_t differ) {
                printf("%s\t%s\t%s\t%.2f\t%zu\t%zu\n", peer.c_str(), zone_name, rows, took / (double)asked, asked, differ);
            };
            print("sahvumbi", least(one_call, *column, 1, ours), ROWS, 0);
            if (count > 1) write_column(folder + zone_name + "." + rows + ".i64", ours);
            for (const Peer &peer : others) {
                const size_t step = peer.is_slow && !peer.is_kept ? STEP : 1;
                Column theirs(peer.is_slow && peer.is_kept ? fitting(peer.answer, *column) : ROWS / step);
                double took = least(peer.answer, *column, step, theirs);
                size_t differ = 0;
                for (size_t i = 0; i < theirs.size(); i++) differ += ours[i * step] != theirs[i];
                print(peer.name, took, theirs.size(), differ);
            }
        }
        zoned_close(&zone);
    }
}
