//! Texts of messages, field by field.

use crate::letters;
use crate::mac;

/// A message up to and with its ORG.
pub fn head(class: &str, receiver: &[u8], originator: &[u8]) -> Vec<u8> {
    let mut text = b"CSM(".to_vec();
    field(&mut text, "MCL", class.as_bytes());
    field(&mut text, "RCV", receiver);
    field(&mut text, "ORG", originator);
    text
}

pub fn field(text: &mut Vec<u8>, tag: &str, contents: &[u8]) {
    text.extend_from_slice(tag.as_bytes());
    text.push(b'/');
    text.extend_from_slice(contents);
    text.push(b' ');
}

/// A KSM up to its first KD, with NOS where its keys are notarized.
pub fn key_message_head(receiver: &[u8], originator: &[u8], notarized: bool) -> Vec<u8> {
    let mut text = head("KSM", receiver, originator);
    if notarized {
        field(&mut text, "NOS", b"");
    }
    text
}

pub fn end(mut text: Vec<u8>) -> Vec<u8> {
    text.push(b')');
    text
}

/// The message that so far has all fields but its MAC.
pub fn authenticated(mut text: Vec<u8>, key: u64) -> Vec<u8> {
    let mac = mac::mac(key, &text[4..]);
    field(&mut text, "MAC", &mac::shown(mac));
    end(text)
}

/// The contents of a KD.
pub fn key_contents(sealed: u64, marked: bool, own_name: Option<&[u8]>, upper_name: Option<&[u8]>) -> Vec<u8> {
    let subfields = [marked.then_some(&b"P"[..]), own_name, upper_name];
    let used = subfields.iter().rposition(Option::is_some).map_or(0, |last| last + 1);
    subfields[..used].iter().fold(format!("{sealed:016X}").into_bytes(), |mut contents, subfield| {
        contents.push(b'.');
        contents.extend_from_slice(subfield.unwrap_or(b""));
        contents
    })
}

pub fn rsi(receiver: &[u8], originator: &[u8], service: &[u8]) -> Vec<u8> {
    let mut text = head("RSI", receiver, originator);
    field(&mut text, "SVR", service);
    end(text)
}

pub fn rsm(receiver: &[u8], originator: &[u8], key: u64) -> Vec<u8> {
    authenticated(head("RSM", receiver, originator), key)
}

/// An ESM; the counts, CTP first, stand in it exactly when there are any.
pub fn esm(receiver: &[u8], originator: &[u8], counts: Option<(u32, u32)>, letters: u16) -> Vec<u8> {
    let mut text = head("ESM", receiver, originator);
    if let Some((expected, received)) = counts {
        field(&mut text, "CTP", expected.to_string().as_bytes());
        field(&mut text, "CTR", received.to_string().as_bytes());
    }
    field(&mut text, "ERF", letters::shown(letters).as_bytes());
    end(text)
}
