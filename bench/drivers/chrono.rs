//! chrono's `Local`, whose zone is the process's, as TZ names it; and chrono-tz, which has the zones of the tz database as tables.
mod timed;

use chrono::{Local, LocalResult, NaiveDateTime, Offset, TimeZone};
use chrono_tz::Tz;
use std::fs;
use std::panic;
use timed::{figure, least_time, seconds, words, CHECKED};

// `Local` looks through all transitions for a local time: of a zone of a million that takes a day.
const LARGE: u64 = 1_000_000;
const OF_CHRONO_TZ: [(&str, Tz); 5] = [
    ("New_York", Tz::America__New_York),
    ("London", Tz::Europe__London),
    ("Tehran", Tz::Asia__Tehran),
    ("Casablanca", Tz::Africa__Casablanca),
    ("Sao_Paulo", Tz::America__Sao_Paulo),
];

/// What is asked, and where the answers go.
struct Run<'a> {
    peer: &'static str,
    inputs: &'a str,
    outputs: &'a str,
}

fn date_times(inputs: &str, question: &str, years: &str) -> Vec<NaiveDateTime> {
    let asked = seconds(inputs, question, years);
    asked.into_iter().map(|second| NaiveDateTime::from_timestamp_opt(second, 0).unwrap()).collect()
}

fn offset_at(zone: &impl TimeZone, utc: &NaiveDateTime) -> i32 {
    zone.offset_from_utc_datetime(utc).fix().local_minus_utc()
}

/// How often the local time is shown, and the offsets at the first and the last second: the greater one is in force first.
fn wall(zone: &impl TimeZone, local: &NaiveDateTime) -> [i32; 3] {
    match zone.offset_from_local_datetime(local) {
        LocalResult::None => [0, 0, 0],
        LocalResult::Single(only) => [1, only.fix().local_minus_utc(), only.fix().local_minus_utc()],
        LocalResult::Ambiguous(one, other) => {
            let (one, other) = (one.fix().local_minus_utc(), other.fix().local_minus_utc());
            [2, one.max(other), one.min(other)]
        }
    }
}

impl Run<'_> {
    fn tell(&self, name: &str, question: &str, years: &str, took: (f64, usize), answers: Vec<i32>) {
        figure(self.peer, name, question, years, took);
        let bytes: Vec<u8> = answers.iter().flat_map(|number| number.to_le_bytes()).collect();
        fs::write(format!("{}/{}.{name}.{question}.{years}", self.outputs, self.peer), bytes).expect("room for the answers");
    }

    fn time_lookups(&self, zone: &impl TimeZone, name: &str, years: &str, is_large: bool) {
        let asked = date_times(self.inputs, "at", years);
        let answers = asked[..CHECKED].iter().map(|utc| offset_at(zone, utc)).collect();
        self.tell(name, "at", years, least_time(asked.len(), |i| offset_at(zone, &asked[i])), answers);
        if is_large {
            return;
        }
        let asked = date_times(self.inputs, "wall", years);
        let answers = asked[..CHECKED].iter().flat_map(|local| wall(zone, local)).collect();
        self.tell(name, "wall", years, least_time(asked.len(), |i| wall(zone, &asked[i])), answers);
    }
}

fn main() {
    let words_given: Vec<String> = std::env::args().collect();
    let [_, inputs, outputs] = &words_given[..] else { panic!("usage: chrono INPUTS OUTPUTS") };
    let all_years = words(format!("{inputs}/years"));
    let names = words(format!("{inputs}/names"));
    for (name, zone) in OF_CHRONO_TZ.into_iter().filter(|(name, _)| names.iter().any(|each| each == name)) {
        let run = Run { peer: "chrono_tz", inputs, outputs };
        all_years.iter().for_each(|years| run.time_lookups(&zone, name, years, false));
    }
    panic::set_hook(Box::new(|_| {}));
    for name in names {
        // A path that begins otherwise is looked for among the system's zones.
        let file = fs::canonicalize(format!("{inputs}/zones/{name}")).expect("the zone").display().to_string();
        let is_large = fs::metadata(&file).map(|of| of.len() > LARGE).unwrap_or(false);
        let zone = if name == "Text" { fs::read_to_string(format!("{inputs}/text")).expect("the text") } else { format!(":{file}") };
        std::env::set_var("TZ", zone.trim());
        for years in all_years.clone() {
            let (inputs, outputs, name) = (inputs.clone(), outputs.clone(), name.clone());
            // Each thread reads the zone. It panics if the zone has no answer: then there is no figure.
            let asked = move || {
                let run = Run { peer: "chrono", inputs: &inputs, outputs: &outputs };
                run.time_lookups(&Local, &name, &years, is_large)
            };
            let _ = std::thread::spawn(asked).join();
        }
    }
}
