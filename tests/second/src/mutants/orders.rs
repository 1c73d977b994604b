//! Mutants that judge in another order, so that of several refusals they tell the wrong one.

use super::cards::{done, refusal};
use crate::case::{Call, Case, Outcome, Product};
use crate::image;

/// A card and the refusal that it tells in place of the right one, if any.
pub struct Reordered(pub fn(&Case, &Outcome) -> Option<u32>);

impl Product for Reordered {
    fn perform(&mut self, case: &Case) -> Result<Outcome, String> {
        let outcome = done(case);
        Ok(self.0(case, &outcome).map_or(outcome, |answer| refusal(case, answer)))
    }
}

/// The answer to the case with one slice changed, if that is a refusal.
fn refused_with(case: &Case, place: usize, slice: Vec<u8>) -> Option<u32> {
    let mut changed = case.clone();
    changed.slices[place] = slice;
    Some(done(&changed).answer).filter(|answer| ![0, 4].contains(answer))
}

pub fn room_last(case: &Case, outcome: &Outcome) -> Option<u32> {
    let room = case.room().filter(|_| outcome.answer == 6)?;
    refused_with(case, room, vec![0; image::LARGEST])
}

pub fn parity_last(case: &Case, outcome: &Outcome) -> Option<u32> {
    let place = case.place("request").filter(|_| outcome.answer == 11)?;
    let mut request = case.slices[place].clone();
    request[9] &= !1;
    request[34] &= !1;
    refused_with(case, place, request)
}

pub fn spent_first(case: &Case, outcome: &Outcome) -> Option<u32> {
    let table = image::read(case.slice("image")).ok().filter(|_| outcome.answer == 7)?;
    table.entry(case.slice("partner")).filter(|entry| entry.next_send == 99_999_999).map(|_| 8)
}

pub fn full_first(case: &Case, outcome: &Outcome) -> Option<u32> {
    let table = image::read(case.slice("image")).ok().filter(|_| case.call == Call::Load)?;
    ([10, 11, 12].contains(&outcome.answer) && table.entries().count() == 64).then_some(9)
}

pub fn name_first(case: &Case, outcome: &Outcome) -> Option<u32> {
    let place = case.place("partner").filter(|_| case.call == Call::Load && outcome.answer == 10)?;
    refused_with(case, place, b"NOBODYHASTHISID1".to_vec()).filter(|answer| *answer == 12)
}
