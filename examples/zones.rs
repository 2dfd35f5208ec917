//! What the clocks of a zone show, and when: `zones.c` in Rust, with a safe wrapper of the handle. From the top of the
//! repository, after `rt lib` in crates/zoned_ffi:
//!
//!     rustc -O -o ./zones_rs examples/zones.rs -C link-args="crates/zoned_ffi/out/libzoned_ffi.a $(dirname "$(rt doc)")/c/liblibc_c.a"
//!     ./zones_rs /usr/share/zoneinfo/America/New_York 1615705200 1615689000 1636248600

use std::ffi::c_void;
use std::process::ExitCode;
use std::ptr::null_mut;
use std::thread;

/// What zoned_ffi.h says of its struct zoned_zone.
#[repr(C)]
struct RawZone {
    zone: *mut c_void,
}

/// What it says of its struct zoned_local_type.
#[repr(C)]
#[derive(Clone, Copy, Default)]
struct LocalType {
    offset: i32,
    is_dst: i32,
    abbreviation: [u8; 8],
}

/// What it says of its struct zoned_wall_clock.
#[repr(C)]
#[derive(Clone, Copy, Default)]
struct WallClock {
    shown: i32,
    first_offset: i32,
    last_offset: i32,
    first: i64,
    last: i64,
}

/// What it says of its struct zoned_resolved.
#[repr(C)]
#[derive(Clone, Copy, Default)]
struct Resolved {
    number: u32,
    offset: i32,
    instant: i64,
}

const FILE: u32 = 0;
const SHIFT_FORWARD: u32 = 1;
const EARLIEST: u32 = 1;
const NO_OFFSET: i32 = i32::MIN;

extern "C" {
    fn zoned_open(kind: u32, zone: *const u8, zone_len: usize, out: *mut RawZone) -> u32;
    fn zoned_close(zone: *mut RawZone);
    fn zoned_zone_type(zone: *const RawZone, instant: i64, local_type: *mut LocalType) -> u32;
    fn zoned_zone_wall_clock(zone: *const RawZone, local: i64, clock: *mut WallClock) -> u32;
    fn zoned_zone_instant(zone: *const RawZone, gap: u32, fold: u32, local: i64, resolved: *mut Resolved) -> u32;
    fn zoned_error_text(number: u32, text: *mut u8, text_len: usize) -> usize;
}

/// The number of an error; docs/PROGRAMS.md says what it means.
#[derive(Debug)]
struct Refused(u32);

impl std::fmt::Display for Refused {
    fn fmt(&self, f: &mut std::fmt::Formatter<'_>) -> std::fmt::Result {
        let mut text = [0; 128];
        // SAFETY: the pointer and the count are those of an array.
        let len = unsafe { zoned_error_text(self.0, text.as_mut_ptr(), text.len()) };
        let text = &text[..len.min(text.len() - 1)];
        write!(f, "{}, {}", self.0, String::from_utf8_lossy(text))
    }
}

fn status(number: u32) -> Result<(), Refused> {
    if number == 0 {
        Ok(())
    } else {
        Err(Refused(number))
    }
}

/// A zone that is open.
struct Zone(RawZone);

// SAFETY: the header lets a handle go to another thread, ordered as a move orders it.
unsafe impl Send for Zone {}

// SAFETY: the header lets any number of threads ask one handle. Only `open` and `drop` write to it, and they have it to themselves.
unsafe impl Sync for Zone {}

impl Zone {
    /// The zone of a TZif file.
    fn open(bytes: &[u8]) -> Result<Zone, Refused> {
        let mut zone = Zone(RawZone { zone: null_mut() });
        // SAFETY: the pointer and the count are those of a slice, and the handle is closed.
        status(unsafe { zoned_open(FILE, bytes.as_ptr(), bytes.len(), &mut zone.0) })?;
        Ok(zone)
    }

    /// What is in force at an instant.
    fn local_type(&self, instant: i64) -> Result<LocalType, Refused> {
        let mut local_type = LocalType::default();
        // SAFETY: the answer overlaps nothing. So it is below.
        status(unsafe { zoned_zone_type(&self.0, instant, &mut local_type) })?;
        Ok(local_type)
    }

    /// When clocks show a local time.
    fn wall_clock(&self, local: i64) -> Result<WallClock, Refused> {
        let mut clock = WallClock::default();
        status(unsafe { zoned_zone_wall_clock(&self.0, local, &mut clock) })?;
        Ok(clock)
    }

    /// The instant of a local time: shifted forward in a gap, the earliest in a fold.
    fn instant(&self, local: i64) -> Result<Option<Resolved>, Refused> {
        let mut resolved = Resolved::default();
        status(unsafe { zoned_zone_instant(&self.0, SHIFT_FORWARD, EARLIEST, local, &mut resolved) })?;
        Ok((resolved.number == 0).then_some(resolved))
    }
}

impl Drop for Zone {
    fn drop(&mut self) {
        // SAFETY: nobody else has the handle.
        unsafe { zoned_close(&mut self.0) }
    }
}

fn told_of_instant(zone: &Zone, second: i64) -> Result<String, Refused> {
    let LocalType { offset, is_dst, abbreviation } = zone.local_type(second)?;
    if offset == NO_OFFSET {
        return Ok(format!("instant {second}: no offset"));
    }
    let name = String::from_utf8_lossy(&abbreviation);
    let name = name.trim_end_matches('\0');
    Ok(format!("instant {second}: {offset} {name}{}", if is_dst == 1 { " dst" } else { "" }))
}

fn told_of_clock(zone: &Zone, second: i64) -> Result<String, Refused> {
    let WallClock { shown, first_offset, last_offset, first, last } = zone.wall_clock(second)?;
    Ok(match shown {
        0 => format!("wall clock {second}: never"),
        1 => format!("wall clock {second}: once, at {first} ({first_offset})"),
        2 => format!(
            "wall clock {second}: several times, first at {first} ({first_offset}) and last at {last} ({last_offset})"
        ),
        _ => format!("wall clock {second}: out of range"),
    })
}

/// Another thread asks the same zone for what is in force at each instant.
fn print_answers(zone: &Zone, seconds: &[i64]) -> Result<(), Refused> {
    let instants: Result<Vec<String>, Refused> = thread::scope(|scope| {
        let asked = scope.spawn(|| seconds.iter().map(|second| told_of_instant(zone, *second)).collect());
        asked.join().expect("the thread ends")
    });
    for (second, instant) in seconds.iter().zip(instants?) {
        println!("{instant}");
        println!("{}", told_of_clock(zone, *second)?);
        if let Some(Resolved { instant, offset, .. }) = zone.instant(*second)? {
            println!("taken {second}: {instant} ({offset})");
        }
    }
    Ok(())
}

fn main() -> ExitCode {
    let words: Vec<String> = std::env::args().skip(1).collect();
    match answer(&words) {
        Ok(()) => ExitCode::SUCCESS,
        Err(message) => {
            eprintln!("{message}");
            ExitCode::FAILURE
        }
    }
}

fn answer(words: &[String]) -> Result<(), String> {
    let (path, numbers) = words
        .split_first()
        .ok_or("usage: zones_rs FILE NUMBER ..")?;
    let bytes = std::fs::read(path).map_err(|error| format!("{path}: {error}"))?;
    let seconds = numbers
        .iter()
        .map(|number| number.parse().map_err(|error| format!("{number}: {error}")))
        .collect::<Result<Vec<i64>, String>>()?;
    Zone::open(&bytes)
        .and_then(|zone| print_answers(&zone, &seconds))
        .map_err(|refused| format!("{path} is rejected: {refused}"))
}
