//! Cards that are wrong in one way each, played in this process; every one has to be caught.

mod cards;
mod orders;
mod requests;
mod steps;
mod texts;

pub use cards::LastRelease;

use crate::calls::{Paper, Played};
use crate::case::Product;
use crate::compare;
use crate::line::{self, Happenings};
use crate::progress::Until;
use crate::tally::Tally;

/// What has to catch a mutant.
#[derive(Clone, Copy, PartialEq)]
pub enum By {
    Comparison,
    Line,
    Both,
}

pub struct Mutant {
    pub name: &'static str,
    pub by: By,
    pub make: fn() -> Box<dyn Product>,
}

/// A mutant that takes one of document 01's steps otherwise.
macro_rules! step {
    ($name:literal, $by:ident, $steps:ident) => {
        Mutant { name: $name, by: By::$by, make: || Box::new(Played(steps::$steps)) }
    };
}

/// A mutant that is wrong as a whole card.
macro_rules! card {
    ($name:literal, $by:ident, $card:ident) => {
        Mutant { name: $name, by: By::$by, make: || Box::new(cards::$card::default()) }
    };
}

/// A mutant that builds by another request.
macro_rules! misread {
    ($name:literal, $by:ident, $request:ident) => {
        Mutant { name: $name, by: By::$by, make: || Box::new(requests::Misread(requests::$request)) }
    };
}

/// A mutant that tells another of several refusals.
macro_rules! later {
    ($name:literal, $order:ident) => {
        Mutant { name: $name, by: By::Comparison, make: || Box::new(orders::Reordered(orders::$order)) }
    };
}

/// A mutant that reads some texts which are no messages.
macro_rules! loose {
    ($name:literal, $text:ident) => {
        Mutant { name: $name, by: By::Comparison, make: || Box::new(texts::Loose(texts::$text)) }
    };
}

pub const MUTANTS: &[Mutant] = &[
    step!("mac-by-the-first-key-only", Comparison, MacByTheFirstKey),
    step!("iv-by-the-first-key", Comparison, IvByTheFirstKey),
    step!("expected-raised-before-the-mac", Both, ExpectedRaisedBeforeTheMac),
    step!("send-count-lowered-by-an-esm", Comparison, SendCountLoweredByAnEsm),
    step!("rsm-taken-when-nothing-waits", Both, RsmTakenWhenNothingWaits),
    step!("offset-of-the-left-half-only", Comparison, OffsetOfTheLeftHalf),
    card!("last-release", Line, LastRelease),
    step!("send-count-not-raised-by-an-esm", Both, SendCountNotRaisedByAnEsm),
    card!("refuses-all", Both, RefusesAll),
    card!("a-fixed-rsm", Both, FixedRsm),
    card!("the-table-left-as-it-is", Both, TableLeftAsItIs),
    card!("only-the-first-ksm-installed", Both, OnlyTheFirstKsmInstalled),
    step!("a-made-up-ctp", Comparison, MadeUpCtp),
    step!("a-made-up-ctr", Comparison, MadeUpCtr),
    step!("a-made-up-send-count", Both, MadeUpSendCount),
    card!("a-refusal-writes-a-reply-byte", Both, RefusalWritesAReplyByte),
    card!("an-esm-answered-by-an-esm", Both, EsmAnsweredByAnEsm),
    step!("last-accepted-count-taken-again", Both, LastCountTakenAgain),
    step!("last-count-of-all-accepted", Comparison, LastCountOfAllAccepted),
    step!("keys-kept-after-an-esm", Both, KeysKeptAfterAnEsm),
    step!("confirmed-by-an-esm", Both, ConfirmedByAnEsm),
    step!("keys-under-the-expected-count", Comparison, KeysUnderTheExpectedCount),
    step!("leap-day-in-year-00", Comparison, LeapDayInYear00),
    step!("nos-read-and-not-used", Comparison, NosNotUsed),
    step!("fm-and-to-exchanged", Comparison, FromAndToExchanged),
    step!("notarized-keys-received-as-if-sent", Both, ReceivedAsIfSent),
    step!("characters-not-shifted", Comparison, CharactersNotShifted),
    step!("halves-of-a-pair-exchanged", Comparison, HalvesOfAPairExchanged),
    step!("parts-of-the-seal-exchanged", Comparison, SealPartsExchanged),
    step!("notarized-without-the-count", Comparison, NotarizedWithoutTheCount),
    step!("one-part-of-the-seal-for-a-single-key", Comparison, OneSealPartForASingleKey),
    card!("a-refusal-leaves-the-report", Both, RefusalLeavesTheReport),
    card!("out-cleared-past-the-image", Both, OutClearedPastTheImage),
    card!("giving-up-wipes-incoming-keys", Both, GivingUpWipesIncomingKeys),
    misread!("never-notarized", Both, never_notarized),
    misread!("any-flag-notarizes", Comparison, any_flag_notarizes),
    misread!("a-request-of-73-bytes-taken", Comparison, a_byte_short),
    later!("room-judged-last", room_last),
    later!("parity-of-a-key-judged-last", parity_last),
    later!("spent-count-before-a-waiting-message", spent_first),
    later!("full-table-judged-first", full_first),
    later!("key-name-before-the-identity", name_first),
    loose!("small-letters-read", small_letters),
    loose!("a-newline-after-the-message", newline),
    loose!("a-zero-before-a-count", leading_zero),
    loose!("a-dot-at-the-end-of-a-key", last_dot),
    loose!("a-text-of-513-bytes", too_long),
    loose!("a-check-code-that-is-none", check_code),
    loose!("letters-in-any-order", letters_in_any_order),
    loose!("esm-counts-without-p", counts_without_p),
    loose!("nos-still-an-option", nos_option),
    loose!("nos-twice", nos_twice),
    loose!("nos-with-contents", nos_contents),
];

/// How much is tried before a mutant counts as not caught.
const CASES: u64 = 20_000;
const MOVES: u64 = 20_000;

/// Where the comparison catches this card, and with what words.
fn by_comparison(product: &mut dyn Product, seed: u64) -> Option<(u64, String)> {
    let found = compare::run(product, seed, Until::Number(CASES), &mut Tally::new()).err()?;
    Some((found.number + 1, found.what))
}

/// Where the bad line catches this card: by a breach, or because what has to happen never does.
fn by_line(product: &mut dyn Product, seed: u64) -> Option<(u64, String)> {
    let mut happenings = Happenings::new();
    match line::run(product, seed, Until::Number(MOVES), &mut happenings) {
        Err(breach) => Some((breach.number, breach.what)),
        Ok(moves) => happenings.missing().first().map(|what| (moves, format!("never: {what}"))),
    }
}

/// What caught a card, by the comparison and by the bad line.
struct Caught {
    comparison: Option<(u64, String)>,
    line: Option<(u64, String)>,
}

impl Caught {
    fn new(make: impl Fn() -> Box<dyn Product>, seed: u64) -> Caught {
        Caught { comparison: by_comparison(&mut *make(), seed), line: by_line(&mut *make(), seed) }
    }

    fn show(&self, name: &str) {
        let shown = |found: &Option<(u64, String)>, unit: &str| match found {
            Some((number, what)) => format!("{unit} {number}: {what}"),
            None => format!("no {unit}"),
        };
        println!("{name:<37} {}", shown(&self.comparison, "case"));
        println!("{:<37} {}", "", shown(&self.line, "move"));
    }

    fn suffices(&self, by: By) -> bool {
        match by {
            By::Comparison => self.comparison.is_some(),
            By::Line => self.line.is_some(),
            By::Both => self.comparison.is_some() && self.line.is_some(),
        }
    }
}

/// Tries every mutant and shows what caught it; an error names those that got away, or the paper's card if caught.
pub fn run(seed: u64) -> Result<(), String> {
    println!("{:<37} caught by the comparison, by the bad line", "mutant");
    let paper = Caught::new(|| Box::new(Played(Paper)), seed);
    paper.show("(none: the card of the paper)");
    let mut escaped = Vec::new();
    for mutant in MUTANTS {
        eprintln!("  trying {}", mutant.name);
        let caught = Caught::new(mutant.make, seed);
        caught.show(mutant.name);
        if !caught.suffices(mutant.by) {
            escaped.push(mutant.name);
        }
    }
    println!();
    if paper.comparison.is_some() || paper.line.is_some() {
        return Err("the card of the paper was caught".to_string());
    }
    match escaped.is_empty() {
        true => Ok(()),
        false => Err(format!("not caught as they have to be: {}", escaped.join(", "))),
    }
}

/// The mutant of this name, or the card of document 01 for `paper`.
pub fn named(name: &str) -> Option<Box<dyn Product>> {
    match name {
        "paper" => Some(Box::new(Played(Paper))),
        _ => MUTANTS.iter().find(|mutant| mutant.name == name).map(|mutant| (mutant.make)()),
    }
}
