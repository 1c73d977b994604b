//! Mutants that take one step otherwise than document 01.

use crate::calls::Steps;
use crate::date;
use crate::keys::Top;
use crate::notary::{self, Ends};
use crate::table::{Entry, BROKEN, CONFIRMED};

pub struct MacByTheFirstKey;
impl Steps for MacByTheFirstKey {
    fn mac_key(&self, keys: &[u64]) -> u64 {
        keys.first().copied().unwrap_or(0)
    }
}

pub struct IvByTheFirstKey;
impl Steps for IvByTheFirstKey {
    fn iv_key(&self, keys: &[u64]) -> u64 {
        keys[0]
    }
}

pub struct ExpectedRaisedBeforeTheMac;
impl Steps for ExpectedRaisedBeforeTheMac {
    fn after_error(&self, entry: &mut Entry, received: u32) {
        entry.expected = entry.expected.max((received + 1).min(99_999_999));
    }
}

pub struct SendCountLoweredByAnEsm;
impl Steps for SendCountLoweredByAnEsm {
    fn send_after_esm(&self, next_send: u32, told: Option<u32>) -> u32 {
        told.unwrap_or(next_send)
    }
}

pub struct SendCountNotRaisedByAnEsm;
impl Steps for SendCountNotRaisedByAnEsm {
    fn send_after_esm(&self, next_send: u32, _told: Option<u32>) -> u32 {
        next_send
    }
}

pub struct RsmTakenWhenNothingWaits;
impl Steps for RsmTakenWhenNothingWaits {
    fn takes_rsm(&self, _phase: u8) -> bool {
        true
    }
}

pub struct OffsetOfTheLeftHalf;
impl Steps for OffsetOfTheLeftHalf {
    fn offset(&self, top: Top, count: u32) -> Top {
        match top {
            Top::Single(_) => top.offset(count),
            Top::Pair(left, right) => Top::Pair(left ^ u64::from(count), right),
        }
    }
}

pub struct MadeUpCtp;
impl Steps for MadeUpCtp {
    fn told_counts(&self, expected: u32, received: u32) -> (u32, u32) {
        ((expected + 1).min(99_999_999), received)
    }
}

pub struct MadeUpCtr;
impl Steps for MadeUpCtr {
    fn told_counts(&self, expected: u32, _received: u32) -> (u32, u32) {
        (expected, expected)
    }
}

pub struct MadeUpSendCount;
impl Steps for MadeUpSendCount {
    fn sent_count(&self, next_send: u32) -> u32 {
        next_send + 1
    }
}

pub struct LastCountTakenAgain;
impl Steps for LastCountTakenAgain {
    fn count_refused(&self, expected: u32, received: u32) -> bool {
        received + 1 < expected || received == 99_999_999
    }
}

pub struct LastCountOfAllAccepted;
impl Steps for LastCountOfAllAccepted {
    fn count_refused(&self, expected: u32, received: u32) -> bool {
        received < expected
    }
}

pub struct KeysKeptAfterAnEsm;
impl Steps for KeysKeptAfterAnEsm {
    fn broken_by_esm(&self, entry: &mut Entry) {
        entry.phase = BROKEN;
    }
}

pub struct ConfirmedByAnEsm;
impl Steps for ConfirmedByAnEsm {
    fn broken_by_esm(&self, entry: &mut Entry) {
        entry.phase = CONFIRMED;
    }
}

pub struct KeysUnderTheExpectedCount;
impl Steps for KeysUnderTheExpectedCount {
    fn offset_count(&self, expected: u32, _received: u32) -> u32 {
        expected
    }
}

pub struct LeapDayInYear00;
impl Steps for LeapDayInYear00 {
    fn is_date(&self, digits: &[u8]) -> bool {
        date::is_date(digits) || digits.starts_with(b"000229") && date::is_date(&[b"840229", &digits[6..]].concat())
    }
}

pub struct NosNotUsed;
impl Steps for NosNotUsed {
    fn notarizing(&self, top: Top, _ends: Ends, count: u32) -> Top {
        top.offset(count)
    }
}

/// The ends exchanged.
fn turned(ends: Ends) -> Ends {
    Ends { originator: ends.receiver, receiver: ends.originator }
}

pub struct FromAndToExchanged;
impl Steps for FromAndToExchanged {
    fn notarizing(&self, top: Top, ends: Ends, count: u32) -> Top {
        notary::notarizing(top, turned(ends), count)
    }
}

pub struct ReceivedAsIfSent;
impl Steps for ReceivedAsIfSent {
    fn received_ends<'a>(&self, originator: &'a [u8], receiver: &'a [u8]) -> Ends<'a> {
        turned(Ends { originator, receiver })
    }
}

pub struct CharactersNotShifted;
impl Steps for CharactersNotShifted {
    fn notarizing(&self, top: Top, ends: Ends, count: u32) -> Top {
        let unshifted = |key: u64, characters: [u8; 8]| key ^ u64::from_be_bytes(characters);
        notary::sealed(top, notary::seal(top, ends, unshifted)).offset(count)
    }
}

pub struct HalvesOfAPairExchanged;
impl Steps for HalvesOfAPairExchanged {
    fn notarizing(&self, top: Top, ends: Ends, count: u32) -> Top {
        let exchanged = match top {
            Top::Single(_) => top,
            Top::Pair(left, right) => Top::Pair(right, left),
        };
        notary::sealed(top, notary::seal(exchanged, ends, notary::plus)).offset(count)
    }
}

pub struct SealPartsExchanged;
impl Steps for SealPartsExchanged {
    fn notarizing(&self, top: Top, ends: Ends, count: u32) -> Top {
        let [left, right] = notary::seal(top, ends, notary::plus);
        notary::sealed(top, [right, left]).offset(count)
    }
}

pub struct NotarizedWithoutTheCount;
impl Steps for NotarizedWithoutTheCount {
    fn notarizing(&self, top: Top, ends: Ends, _count: u32) -> Top {
        notary::notarizing(top, ends, 0)
    }
}

pub struct OneSealPartForASingleKey;
impl Steps for OneSealPartForASingleKey {
    fn notarizing(&self, top: Top, ends: Ends, count: u32) -> Top {
        let [left, right] = notary::seal(top, ends, notary::plus);
        let parts = if matches!(top, Top::Single(_)) { [left, left] } else { [left, right] };
        notary::sealed(top, parts).offset(count)
    }
}
