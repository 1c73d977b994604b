//! Mutants that build by another request than the one that they are lent.

use super::cards::{done, done_with};
use crate::calls::REQUEST;
use crate::case::{Case, Outcome, Product};

/// A card that reads another request in place of the one that it is lent.
pub struct Misread(pub fn(&[u8]) -> Vec<u8>);

impl Product for Misread {
    fn perform(&mut self, case: &Case) -> Result<Outcome, String> {
        let Some(place) = case.place("request") else {
            return Ok(done(case));
        };
        Ok(done_with(case, place, self.0(&case.slices[place])))
    }
}

/// The request with its last byte made another, where it has one.
fn flagged(request: &[u8], flag: fn(u8) -> u8) -> Vec<u8> {
    let mut request = request.to_vec();
    if request.len() == REQUEST {
        request[REQUEST - 1] = flag(request[REQUEST - 1]);
    }
    request
}

pub fn never_notarized(request: &[u8]) -> Vec<u8> {
    flagged(request, |_| 0)
}

pub fn any_flag_notarizes(request: &[u8]) -> Vec<u8> {
    flagged(request, |flag| flag.min(1))
}

pub fn a_byte_short(request: &[u8]) -> Vec<u8> {
    let mut request = request.to_vec();
    if request.len() == REQUEST - 1 {
        request.push(0);
    }
    request
}
