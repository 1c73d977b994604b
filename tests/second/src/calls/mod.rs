//! What every call does, by document 01's "Answers".

mod build;
mod custody;
mod receive;
mod steps;

pub use build::REQUEST;
pub use steps::{Paper, Steps};

use crate::case::{Call, Case, Outcome, Product, REPORT};
use crate::image;
use crate::keys::Top;
use crate::report::Report;
use crate::table::Table;

/// A refusal's number, and which of its conditions held.
pub struct Refusal(pub u32, pub &'static str);

const NO_PARTNER: Refusal = Refusal(3, "partner not in the table");

/// An answer 0 or 4: what it is in words, the table after it, what is written to the room, and the report.
pub struct Done {
    pub answer: u32,
    pub what: String,
    pub table: Option<Table>,
    pub written: Vec<u8>,
    pub report: Report,
}

impl Done {
    /// Answer 0 with these bytes for the room.
    pub fn wrote(what: &str, written: Vec<u8>) -> Done {
        let report = Report { length: written.len(), ..Report::default() };
        Done { answer: 0, what: what.to_string(), table: None, written, report }
    }
}

/// The outcome of a call, and in words which kind of its answer it is.
pub fn judge(steps: &dyn Steps, case: &Case) -> (Outcome, String) {
    let mut slices = case.slices.clone();
    let last = slices.len() - 1;
    match call(steps, case) {
        Err(Refusal(answer, what)) => {
            slices[last] = vec![0; REPORT];
            (Outcome { answer, slices }, what.to_string())
        }
        Ok(done) => {
            if let Some(table) = &done.table {
                slices[0] = image::write(table);
            }
            if let Some(room) = case.room() {
                slices[room][..done.written.len()].copy_from_slice(&done.written);
            }
            slices[last] = done.report.bytes();
            (Outcome { answer: done.answer, slices }, done.what)
        }
    }
}

fn call(steps: &dyn Steps, case: &Case) -> Result<Done, Refusal> {
    match case.call {
        Call::Receive => receive::receive(steps, case),
        Call::BuildKsm => build::build_ksm(steps, case),
        Call::BuildRsi => build::build_rsi(case),
        Call::Ask => custody::ask(case),
        Call::Start => custody::start(case),
        Call::Load => custody::load(case),
        Call::Remove => custody::remove(case),
        Call::GiveUp => custody::give_up(case),
    }
}

/// The lent image's table, or 13.
fn lent_table(case: &Case) -> Result<Table, Refusal> {
    image::read(case.slice("image")).map_err(|rule| Refusal(13, rule))
}

/// 6 where a message might not fit.
fn reply_room(case: &Case) -> Result<(), Refusal> {
    refuse(case.slice("reply").len() < 256, 6, "reply room under 256")
}

fn refuse(condition: bool, answer: u32, what: &'static str) -> Result<(), Refusal> {
    match condition {
        true => Err(Refusal(answer, what)),
        false => Ok(()),
    }
}

/// How the keys of a key message are sealed, in words: not notarized, or so under a single key or a pair.
pub const NOTARY_WORDS: [&str; 3] = ["", ", NOS by a single key", ", NOS by a pair"];

fn notary_words(notarized: bool, top: Top) -> &'static str {
    match (notarized, top) {
        (false, _) => NOTARY_WORDS[0],
        (true, Top::Single(_)) => NOTARY_WORDS[1],
        (true, Top::Pair(..)) => NOTARY_WORDS[2],
    }
}

/// A card that takes these steps, played in this process.
pub struct Played<S: Steps>(pub S);

impl<S: Steps> Product for Played<S> {
    fn perform(&mut self, case: &Case) -> Result<Outcome, String> {
        Ok(judge(&self.0, case).0)
    }
}
