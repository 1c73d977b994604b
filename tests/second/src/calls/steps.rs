//! The steps at which a card can go wrong, each as document 01 has it; a mutant takes one of them otherwise.

use crate::date;
use crate::keys::Top;
use crate::notary::{self, Ends};
use crate::reader::LARGEST_COUNT;
use crate::table::{Entry, BROKEN, WAITING};

pub trait Steps {
    /// The key of a MAC: the one data key, or the exclusive-or of the two.
    fn mac_key(&self, keys: &[u64]) -> u64 {
        keys.iter().fold(0, |joined, key| joined ^ key)
    }

    /// The key of an enciphered IV: the second data key if there are two.
    fn iv_key(&self, keys: &[u64]) -> u64 {
        keys[keys.len() - 1]
    }

    /// The key that data keys go under in the message with this count, notarized for these ends or not.
    fn working(&self, top: Top, notarized: Option<Ends>, count: u32) -> Top {
        match notarized {
            Some(ends) => self.notarizing(top, ends, count),
            None => self.offset(top, count),
        }
    }

    fn offset(&self, top: Top, count: u32) -> Top {
        top.offset(count)
    }

    fn notarizing(&self, top: Top, ends: Ends, count: u32) -> Top {
        notary::notarizing(top, ends, count)
    }

    /// The ends for which the keys of a received message are notarized.
    fn received_ends<'a>(&self, originator: &'a [u8], receiver: &'a [u8]) -> Ends<'a> {
        Ends { originator, receiver }
    }

    /// The count whose offset deciphers the data keys of a received message.
    fn offset_count(&self, _expected: u32, received: u32) -> u32 {
        received
    }

    fn is_date(&self, digits: &[u8]) -> bool {
        date::is_date(digits)
    }

    /// Whether a received count gets P.
    fn count_refused(&self, expected: u32, received: u32) -> bool {
        received < expected || received == LARGEST_COUNT
    }

    /// What a key message that is answered by an ESM does to the entry.
    fn after_error(&self, _entry: &mut Entry, _received: u32) {}

    /// CTP and CTR of the ESM for P.
    fn told_counts(&self, expected: u32, received: u32) -> (u32, u32) {
        (expected, received)
    }

    /// The next expected count after a key message that is accepted.
    fn expected_after(&self, received: u32) -> u32 {
        received + 1
    }

    /// Whether an RSM is looked at in this phase.
    fn takes_rsm(&self, phase: u8) -> bool {
        phase == WAITING
    }

    /// Whether an ESM is looked at in this phase.
    fn takes_esm(&self, phase: u8) -> bool {
        phase == WAITING
    }

    /// The next send count after an ESM that shows this CTP, if any.
    fn send_after_esm(&self, next_send: u32, told: Option<u32>) -> u32 {
        next_send.max(told.unwrap_or(0))
    }

    /// What an ESM does to phase and keys of the entry that waited.
    fn broken_by_esm(&self, entry: &mut Entry) {
        entry.phase = BROKEN;
        entry.outgoing.clear();
    }

    /// The count that a key message built now carries.
    fn sent_count(&self, next_send: u32) -> u32 {
        next_send
    }
}

/// The card of document 01.
pub struct Paper;

impl Steps for Paper {}
