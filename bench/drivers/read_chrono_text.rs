// The rule of a TZ string, by chrono's reader: bench/run.sh makes this a module next to chrono's files, which read_chrono.rs times.
use super::rule::TransitionRule;
use super::Error;

pub(crate) fn rule_of(text: &str) -> Result<impl Sized, Error> {
    TransitionRule::from_tz_string(text.as_bytes(), false)
}
