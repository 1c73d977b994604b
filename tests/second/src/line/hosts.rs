//! What the hosts ask of their cards and put on the line.

use super::label::label;
use super::world::World;
use crate::case::Call;
use crate::reader::SERVICES;
use crate::table::CONFIRMED;

impl World<'_> {
    pub(super) fn build(&mut self, card: usize, partner: usize, request: &[u8]) {
        let other = self.other(card, partner);
        let identity = self.cards[other].identity.clone();
        let former = self.cards[card].table.entry(&identity).map(|entry| entry.phase);
        let (answer, text, _) = self.card_call(card, Call::BuildKsm, &[&identity, request], 256);
        match answer {
            0 => {
                self.happenings.count("key message built");
                if former == Some(CONFIRMED) {
                    self.happenings.count("confirmed keys replaced by a new build");
                }
                self.told = format!("{} builds {}", self.shown(card), label(&text));
                self.sent.insert((card, other), (text.clone(), false));
                self.send(other, text);
            }
            7 => self.happenings.count("key message not built: one waits"),
            8 => self.happenings.count("key message not built: count spent"),
            _ => {}
        }
    }

    pub(super) fn wish(&mut self, card: usize, partner: usize, service: usize) {
        let other = self.other(card, partner);
        let identity = self.cards[other].identity.clone();
        let contents = SERVICES.get(service).unwrap_or(&"IV.KD").as_bytes();
        let (answer, text, _) = self.card_call(card, Call::BuildRsi, &[&identity, contents], 256);
        if answer == 0 {
            self.told = format!("{} builds {}", self.shown(card), label(&text));
            self.send(other, text);
        }
    }

    pub(super) fn give_up(&mut self, card: usize, partner: usize) {
        let other = self.other(card, partner);
        let identity = self.cards[other].identity.clone();
        if self.card_call(card, Call::GiveUp, &[&identity], 0).0 == 0 {
            self.happenings.count("exchange given up");
            self.told = format!("{} gives up", self.shown(card));
        }
    }

    pub(super) fn resend(&mut self, card: usize, partner: usize) {
        let other = self.other(card, partner);
        let Some((text, again)) = self.sent.get_mut(&(card, other)) else {
            return;
        };
        *again = true;
        let text = text.clone();
        self.happenings.count("key message sent again");
        self.told = format!("{} sends {} again", self.shown(card), label(&text));
        self.send(other, text);
    }
}
