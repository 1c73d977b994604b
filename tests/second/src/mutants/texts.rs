//! Mutants that read texts which are no messages, as if they were the messages that they resemble.

use super::cards::{done, done_with};
use crate::case::{Case, Outcome, Product};
use crate::reader;

/// A card that reads another text in place of one that is no message.
pub struct Loose(pub fn(&[u8]) -> Vec<u8>);

impl Product for Loose {
    fn perform(&mut self, case: &Case) -> Result<Outcome, String> {
        let Some(place) = case.place("text").filter(|place| reader::read(&case.slices[*place]).is_none()) else {
            return Ok(done(case));
        };
        Ok(done_with(case, place, self.0(&case.slices[place])))
    }
}

pub fn small_letters(text: &[u8]) -> Vec<u8> {
    text.to_ascii_uppercase()
}

pub fn newline(text: &[u8]) -> Vec<u8> {
    text.strip_suffix(b"\n").unwrap_or(text).to_vec()
}

/// The text with every `from` replaced.
fn replaced(text: &[u8], from: &str, to: &str) -> Vec<u8> {
    String::from_utf8_lossy(text).replace(from, to).into_bytes()
}

pub fn leading_zero(text: &[u8]) -> Vec<u8> {
    replaced(text, "CTP/0", "CTP/")
}

pub fn last_dot(text: &[u8]) -> Vec<u8> {
    replaced(text, ". ", " ")
}

pub fn too_long(text: &[u8]) -> Vec<u8> {
    let mut text = text.to_vec();
    if text.len() == 513 {
        text.remove(508);
    }
    text
}

/// The text without an EDC, well-formed or not.
pub fn check_code(text: &[u8]) -> Vec<u8> {
    match String::from_utf8_lossy(text).split_once("EDC/") {
        Some((before, _)) => format!("{before})").into_bytes(),
        None => text.to_vec(),
    }
}

pub fn letters_in_any_order(text: &[u8]) -> Vec<u8> {
    let text = String::from_utf8_lossy(text).into_owned();
    let Some((before, (letters, after))) =
        text.split_once("ERF/").and_then(|(before, rest)| Some((before, rest.split_once(' ')?)))
    else {
        return text.into_bytes();
    };
    let mut letters = letters.as_bytes().to_vec();
    letters.sort_unstable();
    [before.as_bytes(), b"ERF/", &letters, b" ", after.as_bytes()].concat()
}

/// The text without the counts that stand between ORG and ERF.
pub fn counts_without_p(text: &[u8]) -> Vec<u8> {
    let text = String::from_utf8_lossy(text).into_owned();
    match (text.split_once("CTP/"), text.split_once("ERF/")) {
        (Some((before, _)), Some((_, after))) => format!("{before}ERF/{after}").into_bytes(),
        _ => text.into_bytes(),
    }
}

pub fn nos_option(text: &[u8]) -> Vec<u8> {
    replaced(text, "NOS/", "IDC/")
}

pub fn nos_twice(text: &[u8]) -> Vec<u8> {
    replaced(text, "NOS/ NOS/ ", "NOS/ ")
}

/// The text without what stands between NOS's slash and its blank.
pub fn nos_contents(text: &[u8]) -> Vec<u8> {
    let text = String::from_utf8_lossy(text).into_owned();
    match text.split_once("NOS/").and_then(|(before, rest)| Some((before, rest.split_once(' ')?.1))) {
        Some((before, after)) => format!("{before}NOS/ {after}").into_bytes(),
        None => text.into_bytes(),
    }
}
