/* cctz's zones, with the answers of this library. It takes the place of src/time_zone_if.cc in cctz's source, so that a program keeps
   cctz's calls. Once this library is installed, cctz's own tests of lookups run over it, unmodified, at the top of cctz 2.5:

     g++ -std=c++17 -O2 -Iinclude -Isrc -o ./lookups $(ls src/time_zone_*.cc src/civil_time_detail.cc src/zone_info_source.cc | grep -v -e _test -e _if) \
         src/time_zone_lookup_test.cc /path/to/examples/cctz_zones.cc $(pkg-config --cflags --libs zoned) -lgmock -lgtest -lgtest_main -lpthread
     ./lookups

   cctz has years that the calendar of this library doesn't. A later one is asked 400 years earlier, once or many times, since the
   changes of a rule repeat; long before the first transition one type is in force. cctz lists a rule's changes for 400 years, so later
   ones aren't listed here either. */
#include "time_zone_fixed.h"
#include "time_zone_if.h"
#include "time_zone_libc.h"

#include <zoned.h>

#include <algorithm>
#include <cstdint>
#include <limits>
#include <set>
#include <string>

namespace cctz {
namespace {

using std::int64_t;
const int64_t kCycle = 146097 * int64_t{86400};             // the seconds of 400 years
const int64_t kFirst = -1000 * kCycle, kLast = 10 * kCycle; // between them zones are asked as they are
const int64_t kLastChange = kCycle + kCycle / 4;            // in the year 2470

// A Unix second that may leave 64 bits, or the nearest one that does not.
time_point<seconds> held(__int128 second) {
    const __int128 low = std::numeric_limits<int64_t>::min(), high = std::numeric_limits<int64_t>::max();
    return FromUnixSeconds(static_cast<int64_t>(std::min(std::max(second, low), high)));
}

time_zone::civil_lookup lookup(time_zone::civil_lookup::civil_kind kind, __int128 pre, __int128 trans, __int128 post) {
    time_zone::civil_lookup found;
    found.kind = kind;
    found.pre = held(pre);
    found.trans = held(trans);
    found.post = held(post);
    return found;
}

class Zone final : public TimeZoneIf {
  public:
    // A zone with fixed offset has cctz's abbreviation.
    static std::unique_ptr<TimeZoneIf> fixed(seconds offset) {
        std::unique_ptr<Zone> made(new Zone);
        if (zoned_open_fixed(static_cast<int32_t>(offset.count()), &made->zone_) != ZONED_OK) return nullptr;
        made->abbreviation_ = FixedOffsetToAbbr(offset);
        return made;
    }

    static std::unique_ptr<TimeZoneIf> named(const std::string &name) {
        std::unique_ptr<Zone> made(new Zone);
        if (zoned_open_name(name.c_str(), nullptr, &made->zone_) != ZONED_OK) return nullptr;
        return made;
    }

    ~Zone() override { zoned_close(&zone_); }

    time_zone::absolute_lookup BreakTime(const time_point<seconds> &tp) const override {
        const int64_t second = ToUnixSeconds(tp);
        const int64_t cycles = second > kLast ? (second - kLast) / kCycle + 1 : 0;
        zoned_local_type type;
        if (zoned_zone_type(&zone_, std::max(second - cycles * kCycle, kFirst), &type) != ZONED_OK) return {};
        civil_second local = civil_second() + (second - cycles * kCycle) + type.offset;
        if (cycles) local = civil_second(local.year() + 400 * cycles, local.month(), local.day(), local.hour(), local.minute(), local.second());
        return {local, type.offset, type.is_dst != 0, kept(type.abbreviation)};
    }

    time_zone::civil_lookup MakeTime(const civil_second &cs) const override {
        const auto unique = time_zone::civil_lookup::UNIQUE;
        const int64_t latest = std::numeric_limits<int64_t>::max(), most_years = 300000000000;
        if (cs.year() > most_years) return lookup(unique, latest, latest, latest);
        if (cs.year() < -most_years) return lookup(unique, -latest - 1, -latest - 1, -latest - 1);
        const int64_t cycles = cs.year() > 6000 ? (cs.year() - 6000) / 400 + 1 : 0;
        const civil_second near(cs.year() - 400 * cycles, cs.month(), cs.day(), cs.hour(), cs.minute(), cs.second());
        const __int128 later = __int128{kCycle} * cycles;
        if (cs.year() < -200000) {
            zoned_local_type type;
            if (zoned_zone_type(&zone_, kFirst, &type) != ZONED_OK) return {};
            const __int128 years = cs.year() / 400 * 400;
            const civil_second rest(cs.year() - static_cast<int64_t>(years), cs.month(), cs.day(), cs.hour(), cs.minute(), cs.second());
            const __int128 second = (rest - civil_second()) + years / 400 * kCycle - type.offset;
            return lookup(unique, second, second, second);
        }
        const int64_t local = near - civil_second();
        zoned_wall_clock clock;
        if (zoned_zone_wall_clock(&zone_, local, &clock) != ZONED_OK) return {};
        if (clock.shown == ZONED_ONCE) return lookup(unique, clock.first + later, clock.first + later, clock.first + later);
        zoned_change change;
        if (zoned_zone_local_change(&zone_, local, &change) != ZONED_OK) return {};
        if (clock.shown == ZONED_NEVER) {
            return lookup(time_zone::civil_lookup::SKIPPED, local - change.before.offset + later, change.at + later,
                          local - change.after.offset + later);
        }
        return lookup(time_zone::civil_lookup::REPEATED, clock.first + later, change.at + later, clock.last + later);
    }

    bool NextTransition(const time_point<seconds> &tp, time_zone::civil_transition *trans) const override {
        zoned_change change;
        return zoned_zone_next_change(&zone_, ToUnixSeconds(tp), &change) == ZONED_OK && change.at <= kLastChange && listed(change, trans);
    }

    bool PrevTransition(const time_point<seconds> &tp, time_zone::civil_transition *trans) const override {
        const int64_t second = ToUnixSeconds(tp);
        if (second == std::numeric_limits<int64_t>::min()) return false;
        zoned_change change;
        return zoned_zone_previous_change(&zone_, std::min(second - 1, kLastChange), &change) == ZONED_OK && listed(change, trans);
    }

    std::string Version() const override { return std::string(); }
    std::string Description() const override { return "zoned"; }

  private:
    static bool listed(const zoned_change &change, time_zone::civil_transition *trans) {
        trans->from = civil_second() + change.at + change.before.offset;
        trans->to = civil_second() + change.at + change.after.offset;
        return true;
    }

    // cctz hands out abbreviations without an end of their lives.
    const char *kept(const char *abbreviation) const {
        if (!abbreviation_.empty()) return abbreviation_.c_str();
        static thread_local std::set<std::string> *all = new std::set<std::string>;
        return all->emplace(abbreviation).first->c_str();
    }

    zoned_zone zone_ = {};
    std::string abbreviation_;
};

} // namespace

std::unique_ptr<TimeZoneIf> TimeZoneIf::UTC() { return Zone::fixed(seconds::zero()); }

std::unique_ptr<TimeZoneIf> TimeZoneIf::Make(const std::string &name) {
    if (name.compare(0, 5, "libc:") == 0) return TimeZoneLibC::Make(name.substr(5));
    auto offset = seconds::zero();
    return FixedOffsetFromName(name, &offset) ? Zone::fixed(offset) : Zone::named(name);
}

TimeZoneIf::~TimeZoneIf() {}

} // namespace cctz
