//! What the line does to messages, and what the cards that get them do.

use super::label::{label, outcome_words};
use super::world::{Flight, World};
use crate::case::Call;
use crate::letters;
use crate::reader::{self, Body, LARGEST_COUNT};
use crate::table::{Entry, WAITING};
use crate::writer;

impl World<'_> {
    pub(super) fn lose(&mut self, place: usize) {
        if !self.line.is_empty() {
            let flight = self.line.remove(place % self.line.len());
            self.happenings.count("message lost");
            self.told = format!("the line loses {}", label(&flight.text));
        }
    }

    pub(super) fn damage(&mut self, place: usize, at: usize, byte: u8) {
        let number = self.line.len().max(1);
        if let Some(flight) = self.line.get_mut(place % number) {
            let former = label(&flight.text);
            let at = at % flight.text.len();
            flight.damaged |= flight.text[at] != byte;
            flight.text[at] = byte;
            self.told = format!("the line damages {former}");
        }
    }

    pub(super) fn raise(&mut self, place: usize, by: u32) {
        let number = self.line.len().max(1);
        let Some(flight) = self.line.get_mut(place % number) else {
            return;
        };
        let Some(reader::Message { receiver, originator, body: Body::Esm { counts, .. }, .. }) =
            reader::read(&flight.text)
        else {
            return;
        };
        let told = (counts.map_or(1, |(told, _)| told) + by).min(LARGEST_COUNT);
        self.told = format!("the line raises the count of {}", label(&flight.text));
        flight.text = writer::esm(receiver, originator, Some((told, 1)), letters::P);
        flight.damaged = true;
    }

    /// Hands a message to its card, or astray to another; its answer goes on the line.
    pub(super) fn hand_over(&mut self, place: usize, stays: bool, astray: Option<usize>) {
        if self.line.is_empty() {
            return;
        }
        let place = place % self.line.len();
        let flight = if stays { self.line[place].clone() } else { self.line.remove(place) };
        let card = astray.unwrap_or(flight.to);
        let originator = self.originator(&flight.text);
        let before = originator.and_then(|from| self.cards[card].table.entry(&self.cards[from].identity).cloned());
        let (answer, reply, letters) = self.card_call(card, Call::Receive, &[&flight.text], 256);
        self.told = format!("{} gets {}", self.shown(card), label(&flight.text));
        self.told += &outcome_words(answer, letters);
        self.notice(card, &flight, answer, letters, before);
        if answer != 0 && answer != 4 || reply.is_empty() {
            return;
        }
        self.told += &format!(", sends {}", label(&reply));
        match originator {
            Some(from) => self.send(from, reply),
            None => self.breaches.push("a reply to a message that names no card".to_string()),
        }
    }

    /// The card that the text names as its originator.
    fn originator(&self, text: &[u8]) -> Option<usize> {
        let message = reader::read(text)?;
        self.cards.iter().position(|card| card.identity == message.originator)
    }

    /// Counts what a received message did, and checks that accepted counts rise.
    fn notice(&mut self, card: usize, flight: &Flight, answer: u32, letters: u16, before: Option<Entry>) {
        let message = reader::read(&flight.text);
        let from = self.originator(&flight.text);
        let (Some(message), Some(from)) = (message, from) else {
            if flight.damaged && answer == 1 {
                self.happenings.count("damaged message not read");
            }
            return;
        };
        let happening = match (&message.body, answer) {
            (_, 2) => "message for another card",
            (_, 5) => "answer while nothing waits",
            (Body::Rsi { .. }, 0) => "service wanted",
            (Body::Ksm(_), 4) if letters & letters::M != 0 => "key message refused with M",
            (Body::Ksm(_), 4) if letters == letters::P => "key message refused with P",
            (Body::Rsm { .. }, 0) => "keys confirmed",
            (Body::Rsm { .. }, 4) => "receipt refused with M",
            (Body::Esm { .. }, 0) => "waiting exchange broken by an ESM",
            (Body::Ksm(_), 0) => "key message accepted",
            _ => "other outcome",
        };
        self.happenings.count(happening);
        if self.notarized(card, from, &message) {
            self.happenings.count(&format!("notarized: {happening}"));
        }
        match (&message.body, answer, before) {
            (Body::Ksm(keys), 0, Some(before)) => {
                if keys.count > before.expected {
                    self.happenings.count("key message accepted after a gap in the counts");
                }
                self.rise(from, card, keys.count);
            }
            (Body::Esm { .. }, 0, Some(before)) => self.notice_esm(card, from, flight.damaged, before),
            _ => {}
        }
    }

    /// Whether the keys that the message is about are notarized: its own, or those that it confirms.
    fn notarized(&self, card: usize, from: usize, message: &reader::Message) -> bool {
        let sent = self.sent.get(&(card, from)).and_then(|(text, _)| reader::read(text));
        match (&message.body, sent.map(|message| message.body)) {
            (Body::Ksm(keys), _) => keys.notarized,
            (Body::Rsm { .. }, Some(Body::Ksm(keys))) => keys.notarized,
            _ => false,
        }
    }

    fn notice_esm(&mut self, card: usize, from: usize, damaged: bool, before: Entry) {
        let raised = self.cards[card].table.entry(&before.identity).map(|entry| entry.next_send > before.next_send);
        if raised == Some(true) {
            self.happenings.count("send count raised by an ESM");
        }
        if damaged {
            self.happenings.count("damaged ESM taken");
        }
        if before.phase == WAITING && self.sent.get(&(card, from)).is_some_and(|(_, again)| *again) {
            self.happenings.count("waiting exchange broken by an ESM after a resend");
        }
    }

    /// The counts that a card accepts from another strictly rise.
    fn rise(&mut self, from: usize, card: usize, count: u32) {
        if let Some(former) = self.accepted.insert((from, card), count).filter(|former| *former >= count) {
            self.breaches.push(format!("count {count} was accepted after count {former}"));
        }
    }
}
