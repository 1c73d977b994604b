//! The history of the last release: a key message is sent again while an old error answer is on its way.

use crate::calls::REQUEST;
use crate::case::Product;
use crate::chart::Chart;
use crate::image::filled;
use crate::line::{Move, Setting};
use crate::mutants::LastRelease;
use crate::table::CONFIRMED;

const HARBOR: usize = 0;
const MILL: usize = 1;

/// Where the first digit of the enciphered key stands in a KSM from HARBOR to MILL.
const KEY_DIGIT: usize = "CSM(MCL/KSM RCV/MILL ORG/HARBOR KD/".len();

/// A request for one key with this name.
fn request(key: u64, name: &str) -> Vec<u8> {
    let mut request = vec![1];
    request.extend(key.to_be_bytes());
    request.push(2);
    request.extend(filled(name.as_bytes()));
    request.resize(REQUEST, 0);
    request
}

fn build(key: u64, name: &str) -> Move {
    Move::Build { card: HARBOR, partner: 0, request: request(key, name) }
}

/// The moves of that history.
fn history() -> Vec<Move> {
    vec![
        build(0x1111_1111_1111_1111, "FIRST"),
        Move::Deliver { place: 0 },
        Move::Deliver { place: 0 },
        build(0x2222_2222_2222_2222, "SECOND"),
        Move::Damage { place: 0, at: KEY_DIGIT, byte: b'7' },
        Move::Deliver { place: 0 },
        // the old error answer is on its way at place 0
        Move::Resend { card: HARBOR, partner: 0 },
        Move::Repeat { place: 1 },
        Move::Lose { place: 2 },
        Move::Deliver { place: 0 },
        build(0x3333_3333_3333_3333, "THIRD"),
        Move::Deliver { place: 1 },
        Move::Deliver { place: 1 },
        // what was sent again arrives a second time
        Move::Deliver { place: 0 },
        Move::Deliver { place: 0 },
    ]
}

/// The chart of that history on this card.
fn chart(product: &mut dyn Product) -> Chart {
    Chart::draw(product, &Setting::named(["HARBOR", "MILL"]), &history(), [HARBOR, MILL])
}

/// Shows the history on the faulty card and on the product; an error unless the one fails and the other holds.
pub fn run(product: &mut dyn Product) -> Result<(), String> {
    println!("the last release, which did not refresh the expected count after an error answer:\n");
    let faulty = chart(&mut LastRelease::default());
    faulty.show();
    println!("\nthe card:\n");
    let card = chart(product);
    card.show();
    println!();
    if !faulty.breaches().any(|breach| breach.contains("does not hold")) {
        return Err("the fault of the last release was not seen".to_string());
    }
    if let Some(breach) = card.breaches().next() {
        return Err(format!("the history of the last release: {breach}"));
    }
    let broken = card.rows.iter().any(|row| row.told.contains("HARBOR gets ESM M: taken"));
    let refused = card.rows.iter().any(|row| row.told.contains("MILL gets KSM 2: error P"));
    let agreed = card.rows.last().and_then(|row| row.state.as_ref()).is_some_and(|state| {
        let names = state.incoming.iter().filter_map(|key| key.name.as_deref());
        state.phase == CONFIRMED && state.expected == 4 && names.eq([&b"THIRD"[..]])
    });
    match broken && refused && agreed {
        true => Ok(()),
        false => Err("the history of the last release did not take its course".to_string()),
    }
}
