//! What the command line asks for.

use crate::progress::Until;
use std::path::PathBuf;

pub const HELP: &str = "\
second: plays the card by document 01 and holds the product to it

  second selftest             this program against published answers and document 01's numbers
  second mutants              wrong cards, played in this process, each of which has to be caught
  second scenario CARD        the history of the last release as a chart, on a faulty card and on CARD
  second compare CARD         generated calls, answers and every lent byte compared; the table of answers
  second badline CARD         two and three cards on a bad line; until stopped where no length is given
  second fuzz CARD            as compare with a fresh seed, until stopped
  second gate CARD            all of the above with fixed seeds
  second --replay FILE CARD   a failing input that one of the above wrote

CARD is one of
  --driver COMMAND            the product behind its driver, started by this command (words by blanks);
                              where it is left out, the environment variable SECOND_DRIVER
  --play NAME                 the card that this program plays: paper, or the name of a mutant

  --seed NUMBER               the seed (gate, compare, mutants: 1; fuzz, badline: from the clock)
  --cases NUMBER              how many calls are compared (gate, compare: 300000)
  --moves NUMBER              how many moves the bad line takes (gate: 200000)
  --seconds NUMBER            fuzz and badline end after this time
  --folder PATH               where failing inputs are written (the current folder)

Progress goes to standard error. Exit status: 0 all held; 1 something did not; 2 bad arguments.";

#[derive(Default)]
pub struct Arguments {
    pub word: String,
    pub driver: Option<String>,
    pub play: Option<String>,
    pub seed: Option<u64>,
    pub cases: Option<u64>,
    pub moves: Option<u64>,
    pub seconds: Option<u64>,
    pub folder: PathBuf,
    pub replay: Option<PathBuf>,
}

const WORDS: [&str; 7] = ["selftest", "mutants", "scenario", "compare", "badline", "fuzz", "gate"];

impl Arguments {
    pub fn read(words: &[String]) -> Result<Arguments, String> {
        let mut arguments = Arguments { folder: PathBuf::from("."), ..Arguments::default() };
        let mut words = words.iter();
        while let Some(word) = words.next() {
            if !word.starts_with("--") {
                arguments.set_word(word)?;
                continue;
            }
            let value = words.next().ok_or(format!("{word} wants a value"))?;
            arguments.set(word, value)?;
        }
        if arguments.word.is_empty() && arguments.replay.is_none() {
            return Err("nothing to do".to_string());
        }
        Ok(arguments)
    }

    fn set_word(&mut self, word: &str) -> Result<(), String> {
        if !WORDS.contains(&word) {
            return Err(format!("no such word: {word}"));
        }
        if !self.word.is_empty() {
            return Err(format!("{} or {word}, not both", self.word));
        }
        self.word = word.to_string();
        Ok(())
    }

    fn set(&mut self, option: &str, value: &str) -> Result<(), String> {
        let number = || value.parse().map(Some).map_err(|_| format!("{option} wants a number, not {value}"));
        match option {
            "--driver" => self.driver = Some(value.to_string()),
            "--play" => self.play = Some(value.to_string()),
            "--seed" => self.seed = number()?,
            "--cases" => self.cases = number()?,
            "--moves" => self.moves = number()?,
            "--seconds" => self.seconds = number()?,
            "--folder" => self.folder = PathBuf::from(value),
            "--replay" => self.replay = Some(PathBuf::from(value)),
            _ => return Err(format!("no such option: {option}")),
        }
        Ok(())
    }

    /// How long a run goes on that has no length of its own.
    pub fn until(&self, number: Option<u64>) -> Until {
        match (number, self.seconds) {
            (Some(number), _) => Until::Number(number),
            (_, Some(seconds)) => Until::Seconds(seconds),
            _ => Until::Stopped,
        }
    }
}
