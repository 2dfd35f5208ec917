// What the drivers in C++ share: the inputs, the clock, and the lines and files that a driver writes.
//
// usage of each driver: DRIVER INPUTS OUTPUTS, the folder of make_inputs.py and one for the answers.
//
// It prints a line for each figure, its fields parted by tabs:  PEER  ZONE  QUESTION  YEARS  NANOSECONDS  COUNT
//   QUESTION     at (an instant), wall (a local time), read (the zone) or span (of an instant); of New York's zones also next
//                (the clock change after an instant) and gap (the instant of a local time in a gap)
//   YEARS        wide (1900 to 2099) or near (2020 to 2029); - of read
//   NANOSECONDS  the processor's time of one call; -1 if the peer rejects the zone
//   COUNT        how many calls were timed
// And it writes its answers to the first CHECKED questions, as numbers of 32 bits (of larger ones the low 32 bits), low byte
// first, into OUTPUTS/PEER.ZONE.QUESTION.YEARS: of an instant the offset; of a local time how often it is shown (2: several
// times), and the offsets at the first and the last second; the second of the next change; the first second of the span, and the
// first one after it; the Unix time that the offset before the gap gives. What is missing is 0.
#pragma once
#include <cstdint>
#include <cstdio>
#include <cstdlib>
#include <fstream>
#include <iterator>
#include <string>
#include <time.h>
#include <vector>

// The zones of C++20 take up to milliseconds for an answer.
#ifdef STANDARD_ZONES
static const size_t CHECKED = 200;
#else
static const size_t CHECKED = 100000;
#endif
static const int PASSES = 5;
static const double PASS_NANOSECONDS = 0.3e9, SLICE_NANOSECONDS = 1e6;

// What is computed and not used otherwise, so that no compiler leaves it out.
static volatile int64_t sink;

// The processor's time of this thread, in nanoseconds: what other processes take doesn't count.
inline double now() {
    struct timespec time;
    clock_gettime(CLOCK_THREAD_CPUTIME_ID, &time);
    return (double)time.tv_sec * 1e9 + (double)time.tv_nsec;
}

// What reading the clock itself takes.
inline double clock_cost() {
    double least = 1e300;
    for (int i = 0; i < 1000; i++) {
        double start = now(), took = now() - start;
        if (took < least) least = took;
    }
    return least;
}

// The time since then, without that of reading the clock.
inline double since(double start) {
    static const double cost = clock_cost();
    double took = now() - start - cost;
    return took > 0 ? took : 0;
}

inline std::string read_file(const std::string &path) {
    std::ifstream in(path, std::ios::binary);
    if (!in) {
        fprintf(stderr, "no file %s\n", path.c_str());
        exit(2);
    }
    return std::string(std::istreambuf_iterator<char>(in), {});
}

struct Run {
    const char *peer;
    std::string inputs, outputs;

    Run(const char *peer, int count, char **words) : peer(peer) {
        if (count != 3) {
            fprintf(stderr, "usage: %s INPUTS OUTPUTS\n", words[0]);
            exit(2);
        }
        inputs = words[1];
        outputs = words[2];
    }

    // The words of a file of the inputs, one a line: names or years.
    std::vector<std::string> words(const char *file) const {
        std::ifstream in(inputs + "/" + file);
        std::vector<std::string> read;
        for (std::string word; std::getline(in, word);)
            if (!word.empty()) read.push_back(word);
        return read;
    }

    std::vector<int64_t> seconds(const std::string &question, const std::string &years) const {
        std::string text = read_file(inputs + "/" + question + "_" + years + ".i64");
        std::vector<int64_t> read(text.size() / 8);
        __builtin_memcpy(read.data(), text.data(), read.size() * 8);
        return read;
    }

    void figure(const std::string &zone, const char *question, const std::string &years, double nanoseconds, size_t count) const {
        printf("%s\t%s\t%s\t%s\t%.2f\t%zu\n", peer, zone.c_str(), question, years.c_str(), nanoseconds, count);
        fflush(stdout);
    }

    void answers(const std::string &zone, const char *question, const std::string &years, const std::vector<int32_t> &told) const {
        std::ofstream out(outputs + "/" + peer + "." + zone + "." + question + "." + years, std::ios::binary);
        out.write((const char *)told.data(), (std::streamsize)(told.size() * 4));
    }
};

// Three numbers for a local time.
inline void tell_wall(std::vector<int32_t> &told, int shown, int64_t first, int64_t last) {
    told.push_back(shown);
    told.push_back(shown ? (int32_t)first : 0);
    told.push_back(shown ? (int32_t)last : 0);
}

// Whether it is one of New York's zones, which are asked for changes and gaps too.
inline bool is_new_york(const std::string &name) { return name == "Text" || name.compare(0, 8, "New_York") == 0; }

// Whether it is asked for spans: not one of the zones that grow, whose names are numbers.
inline bool has_spans(const std::string &name) { return name[0] < '0' || name[0] > '9'; }

// The time of call(i), i from 0 on: slices of a millisecond, PASSES times over, and of each slice the least time, so that
// what another process took in one pass does not show. Where a call is slow, fewer calls.
template <class Call> double least_time(size_t count, size_t *used, Call call) {
    size_t probe = count < 64 ? count : 64;
    double start, each = 1e300;
    for (int pass = 0; pass < PASSES; pass++) {
        start = now();
        for (size_t i = 0; i < probe; i++) call(i);
        double took = since(start) / (double)probe;
        if (took < each) each = took;
    }
    size_t fit = (size_t)(PASS_NANOSECONDS / (each < 0.1 ? 0.1 : each));
    if (fit < probe) fit = probe;
    *used = fit < count ? fit : count;
    size_t slice = (size_t)(SLICE_NANOSECONDS / each) + 1, slices = (*used + slice - 1) / slice;
    std::vector<double> least(slices, 1e300);
    for (int pass = 0; pass < PASSES; pass++)
        for (size_t k = 0; k < slices; k++) {
            size_t end = (k + 1) * slice < *used ? (k + 1) * slice : *used;
            start = now();
            for (size_t i = k * slice; i < end; i++) call(i);
            double took = since(start);
            if (took < least[k]) least[k] = took;
        }
    double sum = 0;
    for (double time : least) sum += time;
    return sum / (double)*used;
}

// Times answer(i), and writes the first answers.
template <class Answer>
void ask(const Run &run, const std::string &zone, const char *question, const std::string &years, size_t count, Answer answer) {
    std::vector<int32_t> told;
    for (size_t i = 0; i < CHECKED; i++) told.push_back((int32_t)answer(i));
    run.answers(zone, question, years, told);
    size_t used;
    double took = least_time(count, &used, [&](size_t i) { sink = sink + answer(i); });
    run.figure(zone, question, years, took, used);
}

// Both ends of a span: its first second, and the first one after it.
struct Ends {
    int64_t begin, end;
};

// The end of a span, or 0 if it is one of a library whose last span ends in the last of its years.
inline int64_t end_or_none(int64_t end) { return end < 900000000000 ? end : 0; }

// Times span(i) at an instant of 2020 to 2029, and writes the first answers.
template <class Span> void ask_span(const Run &run, const std::string &zone, size_t count, Span span) {
    std::vector<int32_t> told;
    for (size_t i = 0; i < CHECKED; i++) {
        Ends ends = span(i);
        told.push_back((int32_t)ends.begin);
        told.push_back((int32_t)ends.end);
    }
    run.answers(zone, "span", "near", told);
    size_t used;
    double took = least_time(count, &used, [&](size_t i) {
        Ends ends = span(i);
        sink = sink + ends.begin + ends.end;
    });
    run.figure(zone, "span", "near", took, used);
}
