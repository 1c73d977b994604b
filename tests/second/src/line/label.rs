//! Messages and outcomes in a few words, for charts.

use crate::letters;
use crate::reader::{self, Body, SERVICES};

/// What became of a received message.
pub fn outcome_words(answer: u32, letters: u16) -> String {
    match answer {
        0 => ": taken".to_string(),
        4 => format!(": error {}", letters::shown(letters)),
        _ => format!(": refused with {answer}"),
    }
}

/// A message in a few words: its class and what tells it from others.
pub fn label(text: &[u8]) -> String {
    match reader::read(text).map(|message| message.body) {
        None => "a text that is no message".to_string(),
        Some(Body::Rsi { service }) => format!("RSI {}", SERVICES[service]),
        Some(Body::Ksm(keys)) if keys.notarized => format!("KSM {} with NOS", keys.count),
        Some(Body::Ksm(keys)) => format!("KSM {}", keys.count),
        Some(Body::Rsm { mac }) => format!("RSM {:04X}", mac >> 16),
        Some(Body::Esm { counts: Some((told, _)), letters }) => {
            format!("ESM {} (expects {told})", letters::shown(letters))
        }
        Some(Body::Esm { letters, .. }) => format!("ESM {}", letters::shown(letters)),
        Some(Body::Unimplemented { option }) => option,
    }
}
