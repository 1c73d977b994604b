//! How often what happened on the bad line, and what had to happen for the run to say anything.

use std::collections::BTreeMap;

/// What a run has to have seen.
const REQUIRED: [&str; 26] = [
    "keys confirmed",
    "key message accepted",
    "key message accepted after a gap in the counts",
    "notarized: key message accepted",
    "notarized: key message refused with M",
    "notarized: key message refused with P",
    "notarized: keys confirmed",
    "key message refused with M",
    "key message refused with P",
    "receipt refused with M",
    "waiting exchange broken by an ESM",
    "waiting exchange broken by an ESM after a resend",
    "send count raised by an ESM",
    "damaged message not read",
    "damaged ESM taken",
    "message for another card",
    "answer while nothing waits",
    "key message built",
    "key message not built: one waits",
    "key message not built: count spent",
    "exchange given up",
    "confirmed keys replaced by a new build",
    "service wanted",
    "key message sent again",
    "message lost",
    "history of three cards",
];

pub struct Happenings(BTreeMap<String, u64>);

impl Happenings {
    pub fn new() -> Happenings {
        Happenings(REQUIRED.map(|what| (what.to_string(), 0)).into())
    }

    pub fn count(&mut self, what: &str) {
        *self.0.entry(what.to_string()).or_default() += 1;
    }

    pub fn missing(&self) -> Vec<String> {
        let never = self.0.iter().filter(|(_, times)| **times == 0);
        never.map(|(what, _)| what.to_string()).collect()
    }

    pub fn show(&self) {
        for (what, times) in &self.0 {
            println!("{what:<52} {times:>8}");
        }
    }
}
