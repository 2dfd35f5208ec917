// glibc: localtime_r, and mktime, which answers one instant and does not say how many there are. The zone is the process's.
#include "common.h"
#include <ctime>

static void set_zone(const std::string &zone) {
    setenv("TZ", zone.c_str(), 1);
    tzset();
}

static void time_lookups(const Run &run, const std::string &name, const std::string &years) {
    const std::vector<int64_t> instants = run.seconds("at", years), locals = run.seconds("wall", years);
    ask(run, name, "at", years, instants.size(), [&](size_t i) {
        time_t second = instants[i];
        struct tm fields;
        localtime_r(&second, &fields);
        return fields.tm_gmtoff;
    });

    std::vector<struct tm> readings(locals.size());
    for (size_t i = 0; i < locals.size(); i++) {
        time_t second = locals[i];
        gmtime_r(&second, &readings[i]);
        readings[i].tm_isdst = -1;
    }
    size_t used;
    double took = least_time(locals.size(), &used, [&](size_t i) {
        struct tm fields = readings[i];
        sink = sink + mktime(&fields);
    });
    run.figure(name, "wall", years, took, used);
}

int main(int count, char **words) {
    Run run("glibc", count, words);
    for (const std::string &name : run.words("names")) {
        std::string zone = name == "Text" ? read_file(run.inputs + "/text") : ":" + run.inputs + "/zones/" + name;
        // A file is read again only after TZ named something else, so each call sets UTC0 between.
        size_t used;
        double took = least_time(100000, &used, [&](size_t) {
            set_zone("UTC0");
            set_zone(zone);
        });
        run.figure(name, "read", "-", took, used);
        set_zone(zone);
        for (const std::string &years : run.words("years")) time_lookups(run, name, years);
    }
}
