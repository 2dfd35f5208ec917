//! chrono at the questions of crates/bench_instants, with `Local` in New York and with chrono-tz; and its dates and local date-times,
//! which need no time zone. work.h says what a driver gets and prints; an answer that there is none is NO_INSTANT.
#[allow(dead_code)]
mod timed;

use chrono::{DateTime, Datelike, Days, Duration, DurationRound, LocalResult, Months, NaiveDate, NaiveDateTime, Offset, TimeZone, Timelike};
use std::fmt::Display;
use std::fs::File;
use std::hint::black_box;
use std::io::{BufWriter, Write};
use std::ops::Range;
use timed::{clock_cost, figure, seconds, took, CHECKED};

const NO_INSTANT: i64 = i64::MIN;
const SLICE: usize = 1000;
const PASSES: usize = 10;
const SORTS: usize = 5;
const DAYS: i64 = 28;

struct Work {
    peer: &'static str,
    answers: BufWriter<File>,
    cost: f64,
}

impl Work {
    /// The sum of what is asked.
    fn question(&mut self, name: &str, call: impl Fn(usize) -> i64) {
        self.ask(name, |asked| asked.fold(0_i64, |sum, i| sum.wrapping_add(call(i))));
    }

    /// The latest of the dates, as a number.
    fn dates(&mut self, name: &str, call: impl Fn(usize) -> Option<NaiveDate>) {
        self.ask(name, |asked| match asked.filter_map(|i| call(i)).max() {
            Some(latest) => latest.num_days_from_ce() as i64,
            None => NO_INSTANT,
        });
    }

    /// Slices of SLICE values, and of each the least time of some passes.
    fn ask(&mut self, name: &str, call: impl Fn(Range<usize>) -> i64) {
        let mut sum = 0.0;
        for from in (0..CHECKED).step_by(SLICE) {
            let mut least = f64::INFINITY;
            for _ in 0..PASSES {
                least = least.min(took(self.cost, || _ = black_box(call(black_box(from)..from + SLICE))));
            }
            sum += least;
        }
        figure(self.peer, "New_York", name, "near", (sum / CHECKED as f64, CHECKED));
        for i in 0..CHECKED {
            self.tell(name, call(i..i + 1));
        }
    }

    fn tell(&mut self, name: &str, answer: impl Display) {
        writeln!(self.answers, "{name}\t{answer}").expect("room for the answers");
    }

    fn sort<Tz: TimeZone>(&mut self, instants: &[DateTime<Tz>]) {
        let mut least = f64::INFINITY;
        for _ in 0..SORTS {
            let mut copy = instants.to_vec();
            least = least.min(took(self.cost, || copy.sort_unstable()));
            black_box(copy);
        }
        figure(self.peer, "New_York", "sort", "near", (least / instants.len() as f64, instants.len()));
        let mut few = instants[..CHECKED].to_vec();
        few.sort_unstable();
        for each in &few {
            self.tell("sort", each.timestamp());
        }
    }
}

fn digits(at: &(impl Datelike + Timelike)) -> i64 {
    let date = (at.year() as i64 * 100 + at.month() as i64) * 100 + at.day() as i64;
    ((date * 100 + at.hour() as i64) * 100 + at.minute() as i64) * 100 + at.second() as i64
}

fn second_of<Tz: TimeZone>(instant: Option<DateTime<Tz>>) -> i64 {
    instant.map_or(NO_INSTANT, |at| at.timestamp())
}

fn date_time(second: i64) -> NaiveDateTime {
    NaiveDateTime::from_timestamp_opt(second, 0).unwrap()
}

/// The first instant that shows the local time; in a gap that by the offset before it, which chrono gives for some hours before.
fn resolved<Tz: TimeZone>(zone: &Tz, local: &NaiveDateTime) -> i64 {
    match zone.from_local_datetime(local) {
        LocalResult::Single(only) => only.timestamp(),
        LocalResult::Ambiguous(one, other) => one.timestamp().min(other.timestamp()),
        LocalResult::None => match zone.offset_from_local_datetime(&(*local - Duration::hours(3))) {
            LocalResult::Single(before) | LocalResult::Ambiguous(before, _) => {
                local.timestamp() - before.fix().local_minus_utc() as i64
            }
            LocalResult::None => NO_INSTANT,
        },
    }
}

fn daily<Tz: TimeZone>(zone: &Tz, first: NaiveDate) -> i64 {
    (0..DAYS).map(|day| resolved(zone, &(first + Duration::days(day)).and_hms_opt(2, 30, 0).unwrap())).sum()
}

fn time_work<Tz: TimeZone>(work: &mut Work, inputs: &str, zone: Tz, other: Option<Tz>)
where
    Tz::Offset: Display,
{
    let at = seconds(inputs, "at", "near");
    let instants: Vec<DateTime<Tz>> = at.iter().map(|second| zone.timestamp_opt(*second, 0).unwrap()).collect();
    let locals: Vec<i64> = seconds(inputs, "wall", "near").into_iter().take(CHECKED).collect();
    let others: Vec<DateTime<Tz>> = locals.iter().map(|second| zone.timestamp_opt(*second, 0).unwrap()).collect();
    let readings: Vec<NaiveDateTime> = locals.iter().map(|second| date_time(*second)).collect();
    let skipped: Vec<NaiveDateTime> = seconds(inputs, "gap", "near").into_iter().take(CHECKED).map(date_time).collect();
    let typed: Vec<_> =
        readings.iter().map(|at| (at.year(), at.month(), at.day(), at.hour(), at.minute(), at.second())).collect();

    work.question("fields_at", |i| digits(&zone.timestamp_opt(at[i], 0).unwrap()));
    work.question("fields", |i| digits(&instants[i]));
    work.question("from_fields", |i| {
        let (year, month, day, hour, minute, second) = typed[i];
        resolved(&zone, &NaiveDate::from_ymd_opt(year, month, day).unwrap().and_hms_opt(hour, minute, second).unwrap())
    });
    work.question("month_later", |i| second_of(instants[i].clone().checked_add_months(Months::new(1))));
    work.question("day_later", |i| second_of(instants[i].clone().checked_add_days(Days::new(1))));
    work.question("at_nine", |i| second_of(instants[i].with_hour(9)));
    work.question("five_minutes", |i| second_of(instants[i].clone().duration_trunc(Duration::minutes(5)).ok()));
    work.question("whole_day", |i| second_of(instants[i].clone().duration_trunc(Duration::days(1)).ok()));
    work.question("difference", |i| instants[i].clone().signed_duration_since(others[i].clone()).num_seconds());
    work.question("order", |i| (instants[i] < others[i]) as i64);
    work.question("print", |i| instants[i].to_string().len() as i64);
    for each in &instants[..CHECKED] {
        work.tell("text", each);
    }
    if let Some(other) = other {
        work.question("elsewhere", |i| instants[i].with_timezone(&other).naive_local().timestamp());
    }
    work.question("resolve", |i| resolved(&zone, &readings[i]));
    work.question("in_gap", |i| resolved(&zone, &skipped[i]));
    work.question("daily", |i| daily(&zone, readings[i].date()));
    work.sort(&instants);
}

/// The local times of `wall_near`, as dates and date-times.
fn time_dates(work: &mut Work, inputs: &str) {
    let readings: Vec<NaiveDateTime> = seconds(inputs, "wall", "near").into_iter().take(CHECKED).map(date_time).collect();
    let dates: Vec<NaiveDate> = readings.iter().map(|at| at.date()).collect();
    let typed: Vec<_> = dates.iter().map(|on| (on.year(), on.month(), on.day())).collect();
    let ordinals: Vec<_> = dates.iter().map(|on| (on.year(), on.ordinal())).collect();
    let weeks: Vec<_> = dates.iter().map(|on| (on.iso_week(), on.weekday())).map(|(of, day)| (of.year(), of.week(), day)).collect();
    let date_digits = |on: &NaiveDate| (on.year() as i64 * 100 + on.month() as i64) * 100 + on.day() as i64;

    work.question("date_fields", |i| date_digits(&dates[i]));
    work.question("date_weekday", |i| dates[i].weekday().num_days_from_monday() as i64);
    work.question("date_ordinal", |i| dates[i].ordinal() as i64);
    work.question("date_iso_week", |i| {
        let week = dates[i].iso_week();
        week.year() as i64 * 100 + week.week() as i64
    });
    work.dates("date_month_later", |i| dates[i].checked_add_months(Months::new(1)));
    work.dates("date_in_june", |i| dates[i].with_month(6));
    work.dates("date_of_month", |i| NaiveDate::from_ymd_opt(typed[i].0, typed[i].1, typed[i].2));
    work.dates("date_of_year", |i| NaiveDate::from_yo_opt(ordinals[i].0, ordinals[i].1));
    work.dates("date_of_week", |i| NaiveDate::from_isoywd_opt(weeks[i].0, weeks[i].1, weeks[i].2));
    work.question("local_fields", |i| digits(&readings[i]));
    work.ask("local_month_later", |asked| {
        let latest = asked.filter_map(|i| readings[i].checked_add_months(Months::new(1))).max();
        latest.map_or(NO_INSTANT, |at| at.timestamp())
    });
}

fn main() {
    let words: Vec<String> = std::env::args().collect();
    let [_, inputs, outputs] = &words[..] else { panic!("usage: work_chrono INPUTS OUTPUTS") };
    let of = |peer| {
        let path = format!("{outputs}/{peer}.answers");
        Work { peer, answers: BufWriter::new(File::create(path).expect("room for the answers")), cost: clock_cost() }
    };
    time_work(&mut of("chrono_tz"), inputs, chrono_tz::America::New_York, Some(chrono_tz::Europe::London));
    let file = std::fs::canonicalize(format!("{inputs}/zones/New_York")).expect("the zone");
    std::env::set_var("TZ", format!(":{}", file.display()));
    let mut chrono = of("chrono");
    time_work(&mut chrono, inputs, chrono::Local, None);
    time_dates(&mut chrono, inputs);
}
