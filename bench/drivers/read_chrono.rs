//! chrono's own reader of TZif files and TZ strings. chrono keeps it for itself (src/offset/local/tz_info), so bench/run.sh copies
//! these files from Debian's source next to this one, and adds read_chrono_text.rs to them. common.h says what a driver prints.
#[allow(dead_code)]
mod timed;
#[allow(warnings)]
mod tz_info;

// chrono's files name it as one of the crate.
use chrono::LocalResult;
use std::fs;
use timed::{figure, least_time, words};
use tz_info::TimeZone;

const CALLS: usize = 100_000;
const PEER: &str = "chrono";

fn main() {
    let words_given: Vec<String> = std::env::args().collect();
    let [_, inputs, _] = &words_given[..] else { panic!("usage: read_chrono INPUTS OUTPUTS") };
    for name in words(format!("{inputs}/names")) {
        let timed = if name == "Text" {
            let text = fs::read_to_string(format!("{inputs}/text")).expect("the text");
            tz_info::text::rule_of(text.trim()).ok().map(|_| least_time(CALLS, |_| tz_info::text::rule_of(text.trim())))
        } else {
            let bytes = fs::read(format!("{inputs}/zones/{name}")).expect("the zone");
            TimeZone::from_tz_data(&bytes).ok().map(|_| least_time(CALLS, |_| TimeZone::from_tz_data(&bytes)))
        };
        figure(PEER, &name, "read", "-", timed.unwrap_or((-1.0, 0)));
    }
}
