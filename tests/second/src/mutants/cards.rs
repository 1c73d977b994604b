//! Mutants that are wrong as whole cards: stubs, and cards that spoil what a call has done.

use crate::calls::{judge, Paper};
use crate::case::{Call, Case, Outcome, Product, REPORT};
use crate::image;
use crate::letters;
use crate::reader::{self, Body};
use crate::table::Name;
use crate::writer;
use std::collections::BTreeSet;

/// What the card of document 01 does.
pub fn done(case: &Case) -> Outcome {
    judge(&Paper, case).0
}

/// What it does where another slice is lent at a place; the slice that was lent stays.
pub fn done_with(case: &Case, place: usize, slice: Vec<u8>) -> Outcome {
    let mut changed = case.clone();
    changed.slices[place] = slice;
    let mut outcome = done(&changed);
    outcome.slices[place] = case.slices[place].clone();
    outcome
}

/// Whether the case is a received key message, and whose.
fn key_message_from(case: &Case) -> Option<Name> {
    match reader::read(case.slice("text"))? {
        reader::Message { originator, body: Body::Ksm(_), .. } => Some(originator.to_vec()),
        _ => None,
    }
}

pub fn refusal(case: &Case, answer: u32) -> Outcome {
    let mut slices = case.slices.clone();
    let last = slices.len() - 1;
    slices[last] = vec![0; REPORT];
    Outcome { answer, slices }
}

/// Does not refresh the expected count of a partner that it once sent an error answer; a card started anew forgets.
#[derive(Default)]
pub struct LastRelease {
    answered: BTreeSet<(Name, Name)>,
}

impl Product for LastRelease {
    fn perform(&mut self, case: &Case) -> Result<Outcome, String> {
        let mut outcome = done(case);
        if case.call == Call::Start {
            self.answered.retain(|(own, _)| own != case.slice("own"));
        }
        let (Some(from), Ok(before)) = (key_message_from(case), image::read(case.slice("image"))) else {
            return Ok(outcome);
        };
        let pair = (before.own.clone(), from.clone());
        if outcome.answer == 4 {
            self.answered.insert(pair);
        } else if outcome.answer == 0 && self.answered.contains(&pair) {
            let mut table = image::read(&outcome.slices[0])?;
            let former = before.entry(&from).map_or(1, |entry| entry.expected);
            table.entry_mut(&from).into_iter().for_each(|entry| entry.expected = former.max(2));
            outcome.slices[0] = image::write(&table);
        }
        Ok(outcome)
    }
}

#[derive(Default)]
pub struct RefusesAll;

impl Product for RefusesAll {
    fn perform(&mut self, case: &Case) -> Result<Outcome, String> {
        let answer = match case.call {
            Call::Receive => 1,
            Call::Start | Call::Load => return Ok(done(case)),
            _ => 3,
        };
        Ok(refusal(case, answer))
    }
}

/// Replies with the same MAC in every RSM.
#[derive(Default)]
pub struct FixedRsm;

impl Product for FixedRsm {
    fn perform(&mut self, case: &Case) -> Result<Outcome, String> {
        let mut outcome = done(case);
        if outcome.answer == 0 && key_message_from(case).is_some() {
            let end = outcome.length();
            outcome.slices[2][end - 11..end].copy_from_slice(b"0123 4567 )");
        }
        Ok(outcome)
    }
}

#[derive(Default)]
pub struct TableLeftAsItIs;

impl Product for TableLeftAsItIs {
    fn perform(&mut self, case: &Case) -> Result<Outcome, String> {
        let mut outcome = done(case);
        outcome.slices[0] = case.slices[0].clone();
        Ok(outcome)
    }
}

/// Installs a partner's first key message and only sends RSMs for later ones.
#[derive(Default)]
pub struct OnlyTheFirstKsmInstalled;

impl Product for OnlyTheFirstKsmInstalled {
    fn perform(&mut self, case: &Case) -> Result<Outcome, String> {
        let mut outcome = done(case);
        if let (Some(from), Ok(before)) = (key_message_from(case), image::read(case.slice("image"))) {
            if before.entry(&from).is_some_and(|entry| entry.expected > 1) {
                outcome.slices[0] = case.slices[0].clone();
            }
        }
        Ok(outcome)
    }
}

#[derive(Default)]
pub struct RefusalWritesAReplyByte;

impl Product for RefusalWritesAReplyByte {
    fn perform(&mut self, case: &Case) -> Result<Outcome, String> {
        let mut outcome = done(case);
        let refused = ![0, 4].contains(&outcome.answer);
        let byte = case.place("reply").and_then(|room| outcome.slices[room].first_mut());
        if let Some(byte) = byte.filter(|_| refused) {
            *byte = !*byte;
        }
        Ok(outcome)
    }
}

#[derive(Default)]
pub struct EsmAnsweredByAnEsm;

impl Product for EsmAnsweredByAnEsm {
    fn perform(&mut self, case: &Case) -> Result<Outcome, String> {
        let mut outcome = done(case);
        let message = reader::read(case.slice("text"));
        if let Some(reader::Message { receiver, originator, body: Body::Esm { .. }, .. }) = message {
            if outcome.answer == 0 {
                let reply = writer::esm(originator, receiver, None, letters::O);
                outcome.slices[2][..reply.len()].copy_from_slice(&reply);
                outcome.slices[3][3] = reply.len() as u8;
            }
        }
        Ok(outcome)
    }
}

#[derive(Default)]
pub struct RefusalLeavesTheReport;

impl Product for RefusalLeavesTheReport {
    fn perform(&mut self, case: &Case) -> Result<Outcome, String> {
        let mut outcome = done(case);
        if ![0, 4].contains(&outcome.answer) {
            let last = case.slices.len() - 1;
            outcome.slices[last] = case.slices[last].clone();
        }
        Ok(outcome)
    }
}

#[derive(Default)]
pub struct OutClearedPastTheImage;

impl Product for OutClearedPastTheImage {
    fn perform(&mut self, case: &Case) -> Result<Outcome, String> {
        let mut outcome = done(case);
        if let Some(out) = case.place("out").filter(|_| outcome.answer == 0) {
            let length = outcome.length();
            outcome.slices[out][length..].fill(0);
        }
        Ok(outcome)
    }
}

#[derive(Default)]
pub struct GivingUpWipesIncomingKeys;

impl Product for GivingUpWipesIncomingKeys {
    fn perform(&mut self, case: &Case) -> Result<Outcome, String> {
        let mut outcome = done(case);
        if case.call == Call::GiveUp && outcome.answer == 0 {
            let mut table = image::read(&outcome.slices[0])?;
            table.entry_mut(case.slice("partner")).into_iter().for_each(|entry| entry.incoming.clear());
            outcome.slices[0] = image::write(&table);
        }
        Ok(outcome)
    }
}
