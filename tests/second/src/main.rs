//! The second program: plays the card by document 01 alone and holds the product to it.

#![forbid(unsafe_code)]

mod arguments;
mod calls;
mod case;
mod chart;
mod compare;
mod date;
mod des;
mod drive;
mod generator;
mod image;
mod keys;
mod letters;
mod line;
mod mac;
mod mutants;
mod notary;
mod progress;
mod random;
mod reader;
mod replay;
mod report;
mod runs;
mod scenario;
mod selftest;
mod shrink;
mod table;
mod tally;
mod writer;

use arguments::{Arguments, HELP};
use std::process::ExitCode;

fn main() -> ExitCode {
    let words: Vec<String> = std::env::args().skip(1).collect();
    if words.iter().any(|word| word == "--help") {
        println!("{HELP}");
        return ExitCode::SUCCESS;
    }
    let arguments = match Arguments::read(&words) {
        Ok(arguments) => arguments,
        Err(what) => {
            eprintln!("second: {what}; see second --help");
            return ExitCode::from(2);
        }
    };
    match runs::run(&arguments) {
        Ok(()) => ExitCode::SUCCESS,
        Err(runs::Failed::Usage(what)) => {
            eprintln!("second: {what}; see second --help");
            ExitCode::from(2)
        }
        Err(runs::Failed::Test(what)) => {
            println!("FAILED: {what}");
            ExitCode::FAILURE
        }
    }
}
