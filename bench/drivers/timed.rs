//! What the drivers of chrono share: the inputs, the clock and the lines that they print. common.h says what a driver gets.
use std::fs;
use std::hint::black_box;

pub const CHECKED: usize = 100_000;
const PASSES: usize = 5;
const PASS_NANOSECONDS: f64 = 0.3e9;
const SLICE_NANOSECONDS: f64 = 1e6;
const THREAD_CPUTIME: i32 = 3;

extern "C" {
    fn clock_gettime(clock: i32, time: *mut [i64; 2]) -> i32;
}

/// The processor's time of this thread, in nanoseconds.
pub fn now() -> f64 {
    let mut time = [0; 2];
    unsafe { clock_gettime(THREAD_CPUTIME, &mut time) };
    (time[0] * 1_000_000_000 + time[1]) as f64
}

/// What reading the clock itself takes.
pub fn clock_cost() -> f64 {
    (0..1000).map(|_| -now() + now()).fold(f64::INFINITY, f64::min)
}

/// The processor's time of some work, without that of reading the clock.
pub fn took(cost: f64, work: impl FnOnce()) -> f64 {
    let start = now();
    work();
    (now() - start - cost).max(0.0)
}

pub fn words(path: String) -> Vec<String> {
    let text = fs::read_to_string(&path).unwrap_or_else(|_| panic!("no file {path}"));
    text.lines().filter(|line| !line.is_empty()).map(String::from).collect()
}

pub fn seconds(inputs: &str, question: &str, years: &str) -> Vec<i64> {
    let bytes = fs::read(format!("{inputs}/{question}_{years}.i64")).expect("the questions");
    bytes.chunks_exact(8).map(|eight| i64::from_le_bytes(eight.try_into().unwrap())).collect()
}

/// As `least_time` of common.h.
pub fn least_time<T>(count: usize, mut call: impl FnMut(usize) -> T) -> (f64, usize) {
    let (cost, probe) = (clock_cost(), count.min(64));
    let each = (took(cost, || (0..probe).for_each(|i| drop(black_box(call(i))))) / probe as f64).max(0.1);
    let used = ((PASS_NANOSECONDS / each) as usize).max(probe).min(count);
    let slice = (SLICE_NANOSECONDS / each) as usize + 1;
    let mut least = vec![f64::INFINITY; used.div_ceil(slice)];
    for _ in 0..PASSES {
        for (k, least) in least.iter_mut().enumerate() {
            let asked = k * slice..((k + 1) * slice).min(used);
            *least = least.min(took(cost, || asked.for_each(|i| drop(black_box(call(i))))));
        }
    }
    (least.iter().sum::<f64>() / used as f64, used)
}

pub fn figure(peer: &str, zone: &str, question: &str, years: &str, (each, used): (f64, usize)) {
    println!("{peer}\t{zone}\t{question}\t{years}\t{each:.2}\t{used}");
}
