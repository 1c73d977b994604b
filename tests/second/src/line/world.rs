//! The cards, the messages on the line, and what each move does to them.

use super::checks;
use super::happenings::Happenings;
use super::moves::Move;
use super::setting::{worn, Setting};
use crate::case::{Call, Case, Outcome, Product, REPORT};
use crate::image;
use crate::table::{DataKey, Entry, Name, Table};
use std::collections::BTreeMap;

/// A message on its way to a card.
#[derive(Clone)]
pub struct Flight {
    pub to: usize,
    pub text: Vec<u8>,
    pub damaged: bool,
}

pub struct Card {
    pub identity: Name,
    pub image: Vec<u8>,
    pub table: Table,
}

/// What a directed pair of cards holds for the keys from the one to the other.
#[derive(PartialEq)]
pub struct State {
    pub phase: u8,
    pub next_send: u32,
    pub outgoing: Vec<DataKey>,
    pub expected: u32,
    pub incoming: Vec<DataKey>,
}

pub struct World<'a> {
    product: &'a mut dyn Product,
    pub happenings: &'a mut Happenings,
    pub cards: Vec<Card>,
    pub line: Vec<Flight>,
    /// The last key message of each card to each other, and whether it was sent again.
    pub sent: BTreeMap<(usize, usize), (Vec<u8>, bool)>,
    /// The count that each card last accepted from each other.
    pub accepted: BTreeMap<(usize, usize), u32>,
    /// What contradicts document 01, in words.
    pub breaches: Vec<String>,
    /// What the last move did, in words.
    pub told: String,
}

/// As many messages as the line holds; the oldest gives way.
const LONGEST_LINE: usize = 16;

impl<'a> World<'a> {
    pub fn new(product: &'a mut dyn Product, happenings: &'a mut Happenings, setting: &Setting) -> World<'a> {
        let mut world = World {
            product,
            happenings,
            cards: Vec::new(),
            line: Vec::new(),
            sent: BTreeMap::new(),
            accepted: BTreeMap::new(),
            breaches: Vec::new(),
            told: String::new(),
        };
        for card in 0..setting.identities.len() {
            world.load(setting, card);
        }
        if world.cards.len() == 3 {
            world.happenings.count("history of three cards");
        }
        world
    }

    /// Starts a card and loads it for its partners, by the product's own calls.
    fn load(&mut self, setting: &Setting, card: usize) {
        let own = &setting.identities[card];
        let mut image = self.made(Call::Start, &[own]);
        for shared in setting.shared.iter().filter(|shared| shared.cards.contains(&card)) {
            let partner = &setting.identities[shared.cards[0] + shared.cards[1] - card];
            let key = image::body(&Entry::loaded(partner, &shared.name, shared.top));
            let key = &key[33..if key[32] == 1 { 41 } else { 49 }];
            image = self.made(Call::Load, &[&image, partner, &shared.name, key]);
        }
        let mut table = self.table_of(&image).unwrap_or_else(|| Table::empty(own));
        if setting.count > 1 {
            table.slots.iter_mut().flatten().for_each(|entry| *entry = worn(entry, setting.count));
            image = image::write(&table);
        }
        self.cards.push(Card { identity: own.clone(), image, table });
    }

    /// The image that start or load makes.
    fn made(&mut self, call: Call, lent: &[&[u8]]) -> Vec<u8> {
        let outcome = self.call(call, lent, image::LARGEST);
        let Some(outcome) = outcome.filter(|outcome| outcome.answer == 0) else {
            self.breaches.push(format!("{} of a new card failed", call.name()));
            return Vec::new();
        };
        outcome.slices[lent.len()][..outcome.length().min(image::LARGEST)].to_vec()
    }

    fn table_of(&mut self, image: &[u8]) -> Option<Table> {
        match image::read(image) {
            Ok(table) => Some(table),
            Err(rule) => {
                self.breaches.push(format!("an image is not legal: {rule}"));
                None
            }
        }
    }

    /// One call, checked for what holds of every call.
    fn call(&mut self, call: Call, lent: &[&[u8]], room: usize) -> Option<Outcome> {
        let mut slices: Vec<Vec<u8>> = lent.iter().map(|slice| slice.to_vec()).collect();
        if room > 0 {
            slices.push((0..room).map(|place| place as u8 ^ 0xA5).collect());
        }
        slices.push(vec![0x5A; REPORT]);
        let case = Case { call, slices };
        match self.product.perform(&case) {
            Ok(outcome) => {
                self.breaches.extend(checks::call(&case, &outcome));
                Some(outcome)
            }
            Err(what) => {
                self.breaches.push(what);
                None
            }
        }
    }

    /// A call of a card on its own image, which is kept; what it wrote to the reply.
    pub(super) fn card_call(&mut self, card: usize, call: Call, lent: &[&[u8]], room: usize) -> (u32, Vec<u8>, u16) {
        let before = self.cards[card].image.clone();
        let Some(outcome) = self.call(call, &[&[&before[..]], lent].concat(), room) else {
            return (u32::MAX, Vec::new(), 0);
        };
        if let Some(table) = self.table_of(&outcome.slices[0]) {
            self.cards[card].table = table;
        }
        self.cards[card].image = outcome.slices[0].clone();
        let reply = if room > 0 { &outcome.slices[lent.len() + 1][..outcome.length().min(room)] } else { &[] };
        (outcome.answer, reply.to_vec(), outcome.letters())
    }

    /// Takes the move and then looks for breaches at every pair of cards.
    pub fn take(&mut self, step: &Move) {
        let cards = self.cards.len();
        self.told = String::new();
        match step {
            Move::Build { card, partner, request } => self.build(card % cards, *partner, request),
            Move::Wish { card, partner, service } => self.wish(card % cards, *partner, *service),
            Move::GiveUp { card, partner } => self.give_up(card % cards, *partner),
            Move::Resend { card, partner } => self.resend(card % cards, *partner),
            Move::Deliver { place } => self.hand_over(*place, false, None),
            Move::Repeat { place } => self.hand_over(*place, true, None),
            Move::Stray { place, card } => self.hand_over(*place, true, Some(card % cards)),
            Move::Lose { place } => self.lose(*place),
            Move::Raise { place, by } => self.raise(*place, *by as u32),
            Move::Damage { place, at, byte } => self.damage(*place, *at, *byte),
        }
        if self.line.len() > LONGEST_LINE {
            self.line.remove(0);
        }
        let breaches = checks::conclusions(&self.cards);
        self.breaches.extend(breaches);
    }

    /// The card's partner with this number, modulo how many it has.
    pub(super) fn other(&self, card: usize, partner: usize) -> usize {
        (card + 1 + partner % (self.cards.len() - 1)) % self.cards.len()
    }

    /// Puts a message on the line; an empty one is a breach already.
    pub(super) fn send(&mut self, to: usize, text: Vec<u8>) {
        if !text.is_empty() {
            self.line.push(Flight { to, text, damaged: false });
        }
    }

    pub(super) fn shown(&self, card: usize) -> String {
        String::from_utf8_lossy(&self.cards[card].identity).into_owned()
    }

    /// What the sender holds for the receiver, and the receiver from the sender.
    pub fn state(&self, sender: usize, receiver: usize) -> Option<State> {
        let held = |card: usize, other: usize| self.cards[card].table.entry(&self.cards[other].identity).cloned();
        let Entry { phase, next_send, outgoing, .. } = held(sender, receiver)?;
        let Entry { expected, incoming, .. } = held(receiver, sender)?;
        Some(State { phase, next_send, outgoing, expected, incoming })
    }
}
