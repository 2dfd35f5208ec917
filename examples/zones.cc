/* What the clocks of a zone show, and when: an example of zoned.hpp. From the top of the repository, after `rt lib` in
   crates/zoned_ffi:

     g++ -std=c++17 -O2 -Icrates/zoned_ffi/include -o ./zones_cc examples/zones.cc crates/zoned_ffi/out/libzoned_ffi.a "$(dirname "$(rt doc)")/c/liblibc_c.a"
     ./zones_cc /usr/share/zoneinfo/America/New_York 1615705200 1615689000 1636248600

   It prints what zones.c prints. With the installed library zoned::time_zone::locate opens a zone by its name: the archive of
   `rt lib`, which is linked here, has no zoned_open_name. */
#include <zoned.hpp>

#include <cstdlib>
#include <fstream>
#include <iostream>
#include <iterator>

using zoned::local_seconds;
using zoned::sys_seconds;
using std::chrono::seconds;

static void print_instant(const zoned::time_zone &zone, int64_t second) {
    auto info = zone.get_info(sys_seconds(seconds(second)));
    std::cout << "instant " << second << ": " << info.offset.count() << ' ' << info.abbrev << (info.is_dst ? " dst\n" : "\n");
}

static void print_clock(const zoned::time_zone &zone, int64_t second) {
    auto info = zone.get_info(local_seconds(seconds(second)));
    auto first = info.first.offset.count(), last = info.second.offset.count();
    std::cout << "wall clock " << second << ": ";
    if (info.result == zoned::local_info::nonexistent) std::cout << "never\n";
    if (info.result == zoned::local_info::unique) std::cout << "once, at " << second - first << " (" << first << ")\n";
    if (info.result == zoned::local_info::ambiguous)
        std::cout << "several times, first at " << second - first << " (" << first << ") and last at " << second - last << " ("
                  << last << ")\n";
}

static void print_taken(const zoned::time_zone &zone, int64_t second) {
    auto instant = zone.to_sys(local_seconds(seconds(second)), {zoned::gap::shift_forward, zoned::fold::earliest});
    std::cout << "taken " << second << ": " << instant.time_since_epoch().count() << " (" << zone.get_offset(instant).count() << ")\n";
}

int main(int count, char **words) {
    if (count < 2) {
        std::cerr << "usage: zones_cc FILE NUMBER ..\n";
        return 2;
    }
    try {
        std::ifstream file(words[1], std::ios::binary);
        const std::string bytes(std::istreambuf_iterator<char>(file), {});
        const auto zone = zoned::time_zone::from_bytes(bytes.data(), bytes.size());
        for (int i = 2; i < count; i++) {
            auto second = std::strtoll(words[i], nullptr, 10);
            print_instant(zone, second);
            print_clock(zone, second);
            print_taken(zone, second);
        }
    } catch (const zoned::error &error) {
        std::cerr << words[1] << " is rejected: " << error.number << ", " << error.what() << '\n';
        return 1;
    }
}
