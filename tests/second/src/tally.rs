//! Which answer of which call was reached how often, and which had to be.

use crate::calls::NOTARY_WORDS;
use crate::case::{Call, Case, CALLS};
use crate::image::{self, RULES};
use crate::reader::{KSM_OPTIONS, OPTION_CLASSES, RSI_OPTIONS, SERVICES};
use crate::table::SLOTS;
use std::collections::BTreeMap;

/// Each call's answers, all that it can give.
const ANSWERS: [(Call, &[u32]); 8] = [
    (Call::Receive, &[0, 1, 2, 3, 4, 5, 6, 13]),
    (Call::BuildKsm, &[0, 3, 6, 7, 8, 11, 12, 13]),
    (Call::BuildRsi, &[0, 3, 6, 12, 13]),
    (Call::Ask, &[0, 3, 6, 13]),
    (Call::Start, &[0, 6, 10]),
    (Call::Load, &[0, 6, 9, 10, 11, 12, 13]),
    (Call::Remove, &[0, 3, 6, 13]),
    (Call::GiveUp, &[0, 3, 5, 13]),
];

pub struct Tally {
    cells: BTreeMap<(Call, u32, String), u64>,
    partners: Vec<u64>,
}

impl Tally {
    /// A tally in which every cell that has to be reached stands with no count yet.
    pub fn new() -> Tally {
        let cells = required().into_iter().map(|cell| (cell, 0)).collect();
        Tally { cells, partners: vec![0; SLOTS + 1] }
    }

    pub fn count(&mut self, case: &Case, answer: u32, what: &str) {
        *self.cells.entry((case.call, answer, what.to_string())).or_default() += 1;
        if case.place("image").is_some() && answer != 13 {
            self.partners[image::partners(case.slice("image"))] += 1;
        }
    }

    /// How often the call gave the answer.
    fn times(&self, call: Call, answer: u32) -> u64 {
        let wanted = |cell: &(Call, u32, String)| cell.0 == call && cell.1 == answer;
        self.cells.iter().filter(|(cell, _)| wanted(cell)).map(|(_, times)| times).sum()
    }

    /// In words every cell that had to be reached and was not.
    pub fn missing(&self) -> Vec<String> {
        let cells = self.cells.iter().filter(|(_, times)| **times == 0);
        let mut missing: Vec<String> =
            cells.map(|((call, answer, what), _)| format!("{} {answer} {what}", call.name())).collect();
        let pairs = ANSWERS.iter().flat_map(|(call, answers)| answers.iter().map(|answer| (*call, *answer)));
        let never = pairs.filter(|(call, answer)| self.times(*call, *answer) == 0);
        missing.extend(never.map(|(call, answer)| format!("{} {answer}", call.name())));
        let unseen = (0..=SLOTS).filter(|number| self.partners[*number] == 0);
        missing.extend(unseen.map(|number| format!("a table of {number} partners")));
        missing
    }

    /// The table of calls and answers.
    pub fn show_answers(&self) {
        println!("answer     {}", (0..14).map(|answer| format!("{answer:>8}")).collect::<String>());
        for (call, name, _) in CALLS {
            let possible = ANSWERS[call as usize].1;
            let shown = |answer: u32| match self.times(call, answer) {
                0 if !possible.contains(&answer) => format!("{:>8}", "-"),
                times => format!("{times:>8}"),
            };
            println!("{name:<11}{}", (0..14).map(shown).collect::<String>());
        }
    }

    /// Every kind of every answer by itself.
    pub fn show_cells(&self) {
        for ((call, answer, what), times) in &self.cells {
            println!("{:<10} {answer:>2}  {what:<63} {times:>8}", call.name());
        }
    }
}

/// Every cell that a run has to reach.
fn required() -> Vec<(Call, u32, String)> {
    let mut cells: Vec<(Call, u32, String)> = Vec::new();
    let mut add = |call: Call, answer: u32, whats: Vec<String>| {
        cells.extend(whats.into_iter().map(|what| (call, answer, what)));
    };
    add(Call::Receive, 0, SERVICES.map(|service| format!("RSI SVR/{service}")).to_vec());
    add(Call::Receive, 0, carried().iter().map(|carried| format!("KSM of {carried}")).collect());
    for class in ["KSM", "KSM with NOS"] {
        let sets = ["I", "K", "F", "M", "P", "FM", "FP", "MP", "FMP"];
        add(Call::Receive, 4, sets.map(|set| format!("{class}: {set}")).to_vec());
    }
    add(Call::Receive, 4, OPTION_CLASSES.map(|class| format!("{class}: O")).to_vec());
    add(Call::Receive, 4, KSM_OPTIONS.map(|tag| format!("KSM with {tag}: O")).to_vec());
    add(Call::Receive, 4, RSI_OPTIONS.map(|tag| format!("RSI with {tag}: O")).to_vec());
    let phases = |phases: &[u8]| phases.iter().map(|phase| format!("in phase {phase}")).collect::<Vec<_>>();
    let built = |phase: u8| carried().into_iter().map(move |carried| format!("{carried} from phase {phase}"));
    add(Call::BuildKsm, 0, [0, 2, 3].into_iter().flat_map(built).collect());
    add(Call::BuildRsi, 0, SERVICES.map(|service| format!("SVR/{service}")).to_vec());
    add(Call::Ask, 0, phases(&[0, 1, 2, 3]));
    add(Call::Remove, 0, phases(&[0, 1, 2, 3]));
    for (call, _) in ANSWERS.iter().filter(|(_, answers)| answers.contains(&13)) {
        add(*call, 13, RULES.map(str::to_string).to_vec());
    }
    cells.extend(SINGLE.iter().map(|(call, answer, what)| (*call, *answer, what.to_string())));
    cells
}

/// What a key message can carry: one or two keys, an IV or none, a date or none, notarized or not.
fn carried() -> Vec<String> {
    let parts: [&[&str]; 4] =
        [&["one key", "two keys"], &["", ", IV plain", ", IV enciphered"], &["", ", EDK"], &NOTARY_WORDS];
    parts.iter().fold(vec![String::new()], |fronts, part| {
        fronts.iter().flat_map(|front| part.iter().map(move |words| format!("{front}{words}"))).collect()
    })
}

/// The cells that are not one of a series.
const SINGLE: &[(Call, u32, &str)] = &[
    (Call::Receive, 0, "RSM"),
    (Call::Receive, 0, "ESM"),
    (Call::Receive, 0, "ESM that raises the send count"),
    (Call::Receive, 1, "no message"),
    (Call::Receive, 2, "RCV is not us"),
    (Call::Receive, 3, "partner not in the table"),
    (Call::Receive, 4, "RSM: M"),
    (Call::Receive, 5, "RSM while nothing is waiting"),
    (Call::Receive, 5, "ESM while nothing is waiting"),
    (Call::Receive, 6, "reply room under 256"),
    (Call::BuildKsm, 3, "partner not in the table"),
    (Call::BuildKsm, 6, "reply room under 256"),
    (Call::BuildKsm, 7, "already waiting"),
    (Call::BuildKsm, 8, "count spent"),
    (Call::BuildKsm, 11, "key to be marked P"),
    (Call::BuildKsm, 12, "no key"),
    (Call::BuildKsm, 12, "more than two keys"),
    (Call::BuildKsm, 12, "two equal keys"),
    (Call::BuildKsm, 12, "flag of a key"),
    (Call::BuildKsm, 12, "name of a key"),
    (Call::BuildKsm, 12, "kind of IV"),
    (Call::BuildKsm, 12, "flag of the date"),
    (Call::BuildKsm, 12, "date"),
    (Call::BuildKsm, 12, "flag of NOS"),
    (Call::BuildKsm, 12, "request not of 74 bytes"),
    (Call::BuildRsi, 3, "partner not in the table"),
    (Call::BuildRsi, 6, "reply room under 256"),
    (Call::BuildRsi, 12, "no legal SVR"),
    (Call::Ask, 3, "partner not in the table"),
    (Call::Ask, 6, "reply room under 256"),
    (Call::Start, 0, "started"),
    (Call::Start, 6, "room under 10,065"),
    (Call::Start, 10, "identity malformed"),
    (Call::Load, 0, "single key"),
    (Call::Load, 0, "pair"),
    (Call::Load, 6, "room under 10,065"),
    (Call::Load, 9, "64 entries in use"),
    (Call::Load, 10, "identity malformed"),
    (Call::Load, 10, "identity our own"),
    (Call::Load, 10, "identity taken"),
    (Call::Load, 11, "top key"),
    (Call::Load, 12, "key name"),
    (Call::Load, 12, "key not of 8 or 16 bytes"),
    (Call::Remove, 3, "partner not in the table"),
    (Call::Remove, 6, "room under 10,065"),
    (Call::GiveUp, 3, "partner not in the table"),
    (Call::GiveUp, 5, "nothing is waiting"),
    (Call::GiveUp, 0, "given up"),
];
