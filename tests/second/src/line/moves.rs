//! What can happen on the line, each as numbers that mean something in every state.

use crate::generator::{requests, tables};
use crate::random::Random;

/// Cards and places are taken modulo how many there are, so that any part of a history is a history.
#[derive(Clone)]
pub enum Move {
    /// A host asks its card for a key message to a partner.
    Build {
        card: usize,
        partner: usize,
        request: Vec<u8>,
    },
    /// A host asks its card for a service request.
    Wish {
        card: usize,
        partner: usize,
        service: usize,
    },
    GiveUp {
        card: usize,
        partner: usize,
    },
    /// A host sends the bytes of its last key message again.
    Resend {
        card: usize,
        partner: usize,
    },
    Deliver {
        place: usize,
    },
    /// A message is handed over and stays on the line all the same.
    Repeat {
        place: usize,
    },
    Lose {
        place: usize,
    },
    Damage {
        place: usize,
        at: usize,
        byte: u8,
    },
    /// Damage that an ESM cannot show, having no MAC: its letters become P and its CTP is raised.
    Raise {
        place: usize,
        by: usize,
    },
    /// A message reaches another card than the one it was sent to.
    Stray {
        place: usize,
        card: usize,
    },
}

impl Move {
    /// A move as hosts and line make them; messages that arrive are the commonest.
    pub fn random(random: &mut Random) -> Move {
        let (card, partner) = (random.below(3), random.below(2));
        let (place, at) = (random.below(64), random.below(256));
        match random.below(100) {
            0..=13 => Move::Build { card, partner, request: request(random) },
            14..=15 => Move::Wish { card, partner, service: random.below(13) },
            16..=19 => Move::GiveUp { card, partner },
            20..=29 => Move::Resend { card, partner },
            30..=69 => Move::Deliver { place },
            70..=80 => Move::Repeat { place },
            81..=86 => Move::Lose { place },
            87..=95 => Move::Damage { place, at, byte: random.pick(b"ABFIKMOPU0123456789 ./()") },
            96..=97 => Move::Raise { place, by: random.below(6) },
            _ => Move::Stray { place, card },
        }
    }

    /// The move as words of a line.
    pub fn shown(&self, hexadecimal: fn(&[u8]) -> String) -> String {
        match self {
            Move::Build { card, partner, request } => format!("build {card} {partner} {}", hexadecimal(request)),
            Move::Wish { card, partner, service } => format!("wish {card} {partner} {service}"),
            Move::GiveUp { card, partner } => format!("give_up {card} {partner}"),
            Move::Resend { card, partner } => format!("resend {card} {partner}"),
            Move::Deliver { place } => format!("deliver {place}"),
            Move::Repeat { place } => format!("repeat {place}"),
            Move::Lose { place } => format!("lose {place}"),
            Move::Damage { place, at, byte } => format!("damage {place} {at} {byte}"),
            Move::Raise { place, by } => format!("raise {place} {by}"),
            Move::Stray { place, card } => format!("stray {place} {card}"),
        }
    }

    /// The move that such words show.
    pub fn read(words: &[&str], bytes: fn(&str) -> Result<Vec<u8>, String>) -> Result<Move, String> {
        let number = |word: &str| word.parse::<usize>().map_err(|_| format!("no number: {word}"));
        match *words {
            ["build", card, partner, request] => {
                Ok(Move::Build { card: number(card)?, partner: number(partner)?, request: bytes(request)? })
            }
            ["wish", card, partner, service] => {
                Ok(Move::Wish { card: number(card)?, partner: number(partner)?, service: number(service)? })
            }
            ["give_up", card, partner] => Ok(Move::GiveUp { card: number(card)?, partner: number(partner)? }),
            ["resend", card, partner] => Ok(Move::Resend { card: number(card)?, partner: number(partner)? }),
            ["deliver", place] => Ok(Move::Deliver { place: number(place)? }),
            ["repeat", place] => Ok(Move::Repeat { place: number(place)? }),
            ["lose", place] => Ok(Move::Lose { place: number(place)? }),
            ["damage", place, at, byte] => {
                Ok(Move::Damage { place: number(place)?, at: number(at)?, byte: number(byte)? as u8 })
            }
            ["raise", place, by] => Ok(Move::Raise { place: number(place)?, by: number(by)? }),
            ["stray", place, card] => Ok(Move::Stray { place: number(place)?, card: number(card)? }),
            _ => Err(format!("no such move: {}", words.join(" "))),
        }
    }
}

/// Mostly a good request, else any; its keys are always fresh, since answers under equal keys have equal MACs.
fn request(random: &mut Random) -> Vec<u8> {
    let mut bytes = match random.below(10) {
        0 => requests::request(random),
        _ => requests::good(random),
    };
    for place in [1, 26] {
        if let Some(key) = bytes.get_mut(place..place + 8) {
            key.copy_from_slice(&tables::odd_key(random).to_be_bytes());
        }
    }
    bytes
}
