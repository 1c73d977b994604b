//! The runs that the command line names.

use crate::arguments::Arguments;
use crate::case::Product;
use crate::chart::Chart;
use crate::compare::{self, Difference};
use crate::drive::Driver;
use crate::line::{self, Breach, Happenings};
use crate::mutants;
use crate::progress::Until;
use crate::replay::{self, Input};
use crate::scenario;
use crate::selftest;
use crate::shrink::smaller_case;
use crate::tally::Tally;
use std::time::{SystemTime, UNIX_EPOCH};

/// Why a run ends badly: it was asked wrongly, or something that was tested does not hold.
pub enum Failed {
    Usage(String),
    Test(String),
}

impl From<String> for Failed {
    fn from(what: String) -> Failed {
        Failed::Test(what)
    }
}

const GATE_CASES: u64 = 300_000;
const GATE_MOVES: u64 = 200_000;

/// What a run that goes on until stopped does before it shows its table and takes a fresh seed.
const ROUND: u64 = 1_000_000;

pub fn run(arguments: &Arguments) -> Result<(), Failed> {
    if let Some(path) = &arguments.replay {
        let input = replay::read(path).map_err(Failed::Usage)?;
        return again(&mut *card(arguments)?, input);
    }
    let fixed = arguments.seed.unwrap_or(1);
    let cases = arguments.cases.or(arguments.seconds.is_none().then_some(GATE_CASES));
    match arguments.word.as_str() {
        "selftest" => selftest(),
        "mutants" => Ok(mutants::run(fixed)?),
        "scenario" => Ok(scenario::run(&mut *card(arguments)?)?),
        "compare" => compare(&mut *card(arguments)?, arguments, fixed, arguments.until(cases)),
        "badline" => badline(&mut *card(arguments)?, arguments),
        "fuzz" => fuzz(&mut *card(arguments)?, arguments),
        _ => gate(&mut *card(arguments)?, arguments, fixed),
    }
}

/// What plays the card.
fn card(arguments: &Arguments) -> Result<Box<dyn Product>, Failed> {
    let driver = arguments.driver.clone().or_else(|| std::env::var("SECOND_DRIVER").ok());
    match (&arguments.play, driver) {
        (Some(name), _) => mutants::named(name).ok_or(Failed::Usage(format!("no such card: {name}"))),
        (None, Some(command)) => Ok(Box::new(Driver::new(&command).map_err(Failed::Usage)?)),
        (None, None) => Err(Failed::Usage("neither --driver nor --play says which card".to_string())),
    }
}

/// A seed that no earlier run had.
fn clock() -> u64 {
    SystemTime::now().duration_since(UNIX_EPOCH).map_or(1, |time| time.as_nanos() as u64)
}

fn gate(product: &mut dyn Product, arguments: &Arguments, seed: u64) -> Result<(), Failed> {
    selftest()?;
    mutants::run(seed)?;
    scenario::run(product)?;
    let moves = arguments.moves.unwrap_or(GATE_MOVES);
    bad_round(product, arguments, seed, Until::Number(moves))?;
    let cases = arguments.cases.unwrap_or(GATE_CASES);
    compare(product, arguments, seed, Until::Number(cases))
}

fn selftest() -> Result<(), Failed> {
    println!("selftest: {} published answers and numbers hold\n", selftest::run()?);
    Ok(())
}

/// Generated calls; every answer has to be reached.
fn compare(product: &mut dyn Product, arguments: &Arguments, seed: u64, until: Until) -> Result<(), Failed> {
    let tally = compared(product, arguments, seed, until)?;
    tally.show_cells();
    reached(&tally.missing())?;
    println!("\nno difference, and every answer was reached\n");
    Ok(())
}

/// Generated calls, round after round, each with a fresh seed.
fn fuzz(product: &mut dyn Product, arguments: &Arguments) -> Result<(), Failed> {
    let seed = arguments.seed.unwrap_or_else(clock);
    if arguments.cases.is_some() || arguments.seconds.is_some() {
        return compared(product, arguments, seed, arguments.until(arguments.cases)).map(drop);
    }
    for round in 0.. {
        compared(product, arguments, seed.wrapping_add(round), Until::Number(ROUND))?;
    }
    Ok(())
}

/// What a run of generated calls reached, unless there is a difference.
fn compared(product: &mut dyn Product, arguments: &Arguments, seed: u64, until: Until) -> Result<Tally, Failed> {
    eprintln!("comparing generated calls, seed {seed}");
    let mut tally = Tally::new();
    match compare::run(product, seed, until, &mut tally) {
        Ok(cases) => println!("{cases} calls compared, seed {seed}\n"),
        Err(difference) => return Err(differs(product, arguments, seed, *difference)),
    }
    tally.show_answers();
    println!();
    Ok(tally)
}

/// An error where something that had to be reached was not.
fn reached(missing: &[String]) -> Result<(), Failed> {
    match missing.is_empty() {
        true => Ok(()),
        false => Err(Failed::Test(format!("not reached: {}", missing.join("; ")))),
    }
}

/// The difference made small and written to a file.
fn differs(product: &mut dyn Product, arguments: &Arguments, seed: u64, found: Difference) -> Failed {
    eprintln!("case {}: {}; making it small", found.number, found.what);
    let mut tally = Tally::new();
    let case = smaller_case(&found.case, &mut |case| compare::one(product, case, &mut tally).is_err());
    let what = compare::one(product, &case, &mut tally).err().unwrap_or(found.what);
    let path = arguments.folder.join(format!("difference-{seed}-{}.txt", found.number));
    let written = replay::write_call(&path, &case, &what);
    let file = written.map_or_else(|error| error, |()| format!("written to {}", path.display()));
    Failed::Test(format!("{what} (seed {seed}, case {}); {file}", found.number))
}

/// The bad line, round after round where no length is given; all that makes a run worth its name has to happen.
fn badline(product: &mut dyn Product, arguments: &Arguments) -> Result<(), Failed> {
    let seed = arguments.seed.unwrap_or_else(clock);
    if arguments.moves.is_some() || arguments.seconds.is_some() {
        return bad_round(product, arguments, seed, arguments.until(arguments.moves));
    }
    for round in 0.. {
        bad_round(product, arguments, seed.wrapping_add(round), Until::Number(ROUND))?;
    }
    Ok(())
}

fn bad_round(product: &mut dyn Product, arguments: &Arguments, seed: u64, until: Until) -> Result<(), Failed> {
    eprintln!("the bad line, seed {seed}");
    let mut happenings = Happenings::new();
    let moves = match line::run(product, seed, until, &mut happenings) {
        Ok(moves) => moves,
        Err(breach) => return Err(breached(product, arguments, seed, *breach)),
    };
    happenings.show();
    reached(&happenings.missing())?;
    println!("\n{moves} moves on the bad line, seed {seed}: both conclusions held after each\n");
    Ok(())
}

/// The breach made small, shown as charts and written to a file.
fn breached(product: &mut dyn Product, arguments: &Arguments, seed: u64, found: Breach) -> Failed {
    eprintln!("move {}: {}; making it small", found.number, found.what);
    let breach = found.smaller(product);
    show_history(product, &breach.setting, &breach.moves);
    let path = arguments.folder.join(format!("breach-{seed}-{}.txt", breach.number));
    let written = replay::write_history(&path, &breach.setting, &breach.moves, &breach.what);
    let file = written.map_or_else(|error| error, |()| format!("written to {}", path.display()));
    Failed::Test(format!("{} (seed {seed}, move {}); {file}", breach.what, breach.number))
}

/// The history as a chart for each pair of cards and direction in which something changed.
fn show_history(product: &mut dyn Product, setting: &line::Setting, moves: &[line::Move]) {
    let cards = setting.identities.len();
    let pairs = (0..cards * cards).map(|number| [number / cards, number % cards]);
    for pair in pairs.filter(|[sender, receiver]| sender != receiver) {
        let chart = Chart::draw(product, setting, moves, pair);
        if chart.moved() {
            chart.show();
            println!();
        }
    }
}

/// A failing input once more.
fn again(product: &mut dyn Product, input: Input) -> Result<(), Failed> {
    match input {
        Input::Call(case) => compare::one(product, &case, &mut Tally::new())?,
        Input::History(setting, moves) => {
            show_history(product, &setting, &moves);
            if let Some((_, what)) = line::replay(product, &mut Happenings::new(), &setting, &moves) {
                return Err(Failed::Test(what));
            }
        }
    }
    println!("the input of the file holds");
    Ok(())
}
