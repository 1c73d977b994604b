//! Failing inputs as files: a call with its slices, or a history of the bad line, in lines of words.

use crate::case::{Case, CALLS};
use crate::line::{Move, Setting};
use std::path::Path;

pub enum Input {
    Call(Case),
    History(Setting, Vec<Move>),
}

fn hexadecimal(bytes: &[u8]) -> String {
    bytes.iter().map(|byte| format!("{byte:02X}")).collect()
}

/// The bytes that pairs of hex digits show.
pub fn bytes(digits: &str) -> Result<Vec<u8>, String> {
    let pairs = (0..digits.len()).step_by(2).map(|place| digits.get(place..place + 2).unwrap_or("?"));
    pairs.map(|pair| u8::from_str_radix(pair, 16).map_err(|_| format!("not hex digits: {pair}"))).collect()
}

/// Writes the call, with what went wrong as its first line.
pub fn write_call(path: &Path, case: &Case, what: &str) -> Result<(), String> {
    let slices = case.call.lent().iter().zip(&case.slices);
    let lines: String = slices.map(|(name, slice)| format!("{name} {}\n", hexadecimal(slice))).collect();
    store(path, format!("# {what}\ncall {}\n{lines}", case.call.name()))
}

/// Writes the history, with what went wrong as its first line.
pub fn write_history(path: &Path, setting: &Setting, moves: &[Move], what: &str) -> Result<(), String> {
    let lines: String = moves.iter().map(|step| format!("{}\n", step.shown(hexadecimal))).collect();
    store(path, format!("# {what}\nhistory {}\n{lines}", setting.seed))
}

fn store(path: &Path, text: String) -> Result<(), String> {
    std::fs::write(path, text).map_err(|error| format!("cannot write {}: {error}", path.display()))
}

/// The input of a file that one of the two above wrote.
pub fn read(path: &Path) -> Result<Input, String> {
    let text = std::fs::read_to_string(path).map_err(|error| format!("cannot read {}: {error}", path.display()))?;
    let lines: Vec<Vec<&str>> = text.lines().map(|line| line.split(' ').collect()).collect();
    let mut lines = lines.iter().filter(|words| !["#", ""].contains(&words[0]));
    match lines.next().map(Vec::as_slice) {
        Some(["call", name]) => read_call(name, lines.map(Vec::as_slice)),
        Some(["history", seed]) => {
            let seed = seed.parse().map_err(|_| format!("no seed: {seed}"))?;
            let moves = lines.map(|words| Move::read(words, bytes)).collect::<Result<_, _>>()?;
            Ok(Input::History(Setting::new(seed), moves))
        }
        _ => Err(format!("{} holds no call and no history", path.display())),
    }
}

fn read_call<'a>(name: &str, mut lines: impl Iterator<Item = &'a [&'a str]>) -> Result<Input, String> {
    let (call, _, lent) = CALLS.into_iter().find(|known| known.1 == name).ok_or(format!("no such call: {name}"))?;
    let slice = |lent: &&str| match lines.next() {
        Some([name, digits]) if name == lent => bytes(digits),
        _ => Err(format!("no line for {lent}")),
    };
    let slices = lent.iter().map(slice).collect::<Result<_, _>>()?;
    Ok(Input::Call(Case { call, slices }))
}
