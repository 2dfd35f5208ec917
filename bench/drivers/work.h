// What the drivers in C++ of the questions of crates/bench_instants share.
//
// usage of each: DRIVER INPUTS OUTPUTS, the folder of make_inputs.py and one for the answers. They ask about New York, and
// London where two zones are needed, and about the first values of at_near, wall_near and gap_near.
//
// It prints a line for each question, as common.h says, with the question's name and `near`. And it writes OUTPUTS/PEER.answers:
// for each question and each value a line of the question's name and the answer, parted by a tab. The answer is
//   fields_at, fields   the digits of 20200102030405
//   difference          seconds
//   order               1 where the first of two instants is the earlier one, else 0
//   print               the length of the text; `text` has the text itself
//   elsewhere           the second that London's clocks show, as if it were of UTC
//   daily               the sum of four weeks' instants, as Unix times
//   date_fields, local_fields                     the digits of 20200102, and of 20200102030405
//   date_weekday, date_ordinal, date_iso_week     the day of the week from Monday, which is 0; of the year; the digits of 202001
//   other dates         days, where 0001-01-01 is day 1; local_month_later: the local time, as a Unix time
//   others              an instant, as a Unix time; `sort` has the instants in order
// The questions about dates and local date-times, of wall_near, are those of chrono's driver.
#pragma once
#include "common.h"
#include <algorithm>

static const size_t WORK_SLICE = 1000, MANY = 1000000;
static const int WORK_PASSES = 10, SORTS = 5, DAYS = 28;

struct Typed {
    int year, month, day, hour, minute, second;
};

inline int64_t digits(int64_t year, int64_t month, int64_t day, int64_t hour, int64_t minute, int64_t second) {
    return ((((year * 100 + month) * 100 + day) * 100 + hour) * 100 + minute) * 100 + second;
}

struct Work {
    const Run &run;
    std::ofstream answers;

    explicit Work(const Run &run) : run(run), answers(run.outputs + "/" + run.peer + ".answers") {}

    // Slices of WORK_SLICE calls, and of each the least time of some passes.
    template <class Call> void question(const char *name, Call call) {
        double sum = 0;
        for (size_t from = 0; from < CHECKED; from += WORK_SLICE) {
            double least = 1e300;
            for (int pass = 0; pass < WORK_PASSES; pass++) {
                int64_t told = 0;
                double start = now();
                for (size_t i = from; i < from + WORK_SLICE; i++) told += call(i);
                double took = since(start);
                sink = sink + told;
                if (took < least) least = took;
            }
            sum += least;
        }
        run.figure("New_York", name, "near", sum / (double)CHECKED, CHECKED);
        for (size_t i = 0; i < CHECKED; i++) tell(name, call(i));
    }

    // The instants sorted by order(one, other), a million of them; told are the first CHECKED of them in order.
    template <class Instant, class Order, class Second>
    void sort(const std::vector<Instant> &instants, Order order, Second second) {
        double least = 1e300;
        for (int pass = 0; pass < SORTS; pass++) {
            std::vector<Instant> copy = instants;
            double start = now();
            std::sort(copy.begin(), copy.end(), order);
            double took = since(start);
            sink = sink + second(copy[0]);
            if (took < least) least = took;
        }
        run.figure("New_York", "sort", "near", least / (double)instants.size(), instants.size());
        std::vector<Instant> few(instants.begin(), instants.begin() + CHECKED);
        std::sort(few.begin(), few.end(), order);
        for (const Instant &each : few) tell("sort", second(each));
    }

    template <class Answer> void tell(const char *name, const Answer &answer) { answers << name << '\t' << answer << '\n'; }
};
