//! The product beside this program on generated input, answer, report, room and image byte for byte.

use crate::calls::{judge, Paper};
use crate::case::{Case, Outcome, Product};
use crate::generator;
use crate::progress::{Progress, Until};
use crate::random::Random;
use crate::tally::Tally;

/// A call on which the product and this program differ.
pub struct Difference {
    pub number: u64,
    pub case: Case,
    pub what: String,
}

/// Tries the cases that follow from the seed; ends at the first difference.
pub fn run(product: &mut dyn Product, seed: u64, until: Until, tally: &mut Tally) -> Result<u64, Box<Difference>> {
    let mut progress = Progress::new("cases", until);
    let mut number = 0;
    while progress.goes_on(number) {
        let case = generator::case(Random::seed_of(seed, number));
        if let Err(what) = one(product, &case, tally) {
            return Err(Box::new(Difference { number, case, what }));
        }
        number += 1;
    }
    Ok(number)
}

/// One call of both, counted where they agree.
pub fn one(product: &mut dyn Product, case: &Case, tally: &mut Tally) -> Result<(), String> {
    let (wanted, what) = judge(&Paper, case);
    tally.count(case, wanted.answer, &what);
    difference(case, &wanted, &product.perform(case)?).map_or(Ok(()), Err)
}

/// In words where the two outcomes differ first.
fn difference(case: &Case, wanted: &Outcome, given: &Outcome) -> Option<String> {
    if wanted.answer != given.answer {
        return Some(format!("{} answers {}, by the paper {}", case.call.name(), given.answer, wanted.answer));
    }
    let slices = case.call.lent().iter().zip(wanted.slices.iter().zip(&given.slices));
    let differing = |(name, (wanted, given)): (&&str, (&Vec<u8>, &Vec<u8>))| {
        let place = (0..wanted.len().max(given.len())).find(|&place| wanted.get(place) != given.get(place))?;
        let shown = |bytes: &[u8]| bytes.get(place).map_or("none".to_string(), |byte| format!("{byte:02X}"));
        Some(format!("byte {place} of {name} is {}, by the paper {}", shown(given), shown(wanted)))
    };
    let found = slices.filter_map(differing).next()?;
    Some(format!("{} answers {} and {found}", case.call.name(), given.answer))
}
