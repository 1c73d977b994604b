//! What a long run says on standard error while it works.

use std::time::{Duration, Instant};

/// How long a run goes on: a number of cases, or until this many seconds have passed.
#[derive(Clone, Copy)]
pub enum Until {
    Number(u64),
    Seconds(u64),
    Stopped,
}

pub struct Progress {
    what: &'static str,
    until: Until,
    start: Instant,
    last: Instant,
}

impl Progress {
    pub fn new(what: &'static str, until: Until) -> Progress {
        let start = Instant::now();
        Progress { what, until, start, last: start }
    }

    /// Whether the run goes on after this many; a line of progress every two seconds.
    pub fn goes_on(&mut self, number: u64) -> bool {
        if self.last.elapsed() >= Duration::from_secs(2) {
            self.last = Instant::now();
            self.say(number);
        }
        match self.until {
            Until::Number(last) => number < last,
            Until::Seconds(seconds) => self.start.elapsed() < Duration::from_secs(seconds),
            Until::Stopped => true,
        }
    }

    fn say(&self, number: u64) {
        let rate = number as f64 / self.start.elapsed().as_secs_f64();
        let of = match self.until {
            Until::Number(last) => format!(" of {last}"),
            Until::Seconds(seconds) => format!(", {} of {seconds} seconds", self.start.elapsed().as_secs()),
            Until::Stopped => String::new(),
        };
        eprintln!("  {number} {}{of}, {rate:.0} a second", self.what);
    }
}
