//! The partner table: 64 slots and the card's own identity.

use crate::keys::Top;

pub const SLOTS: usize = 64;

pub const IDLE: u8 = 0;
pub const WAITING: u8 = 1;
pub const CONFIRMED: u8 = 2;
pub const BROKEN: u8 = 3;

pub type Name = Vec<u8>;

#[derive(Clone, PartialEq, Eq, Debug)]
pub struct DataKey {
    pub key: u64,
    pub name: Option<Name>,
}

#[derive(Clone, PartialEq, Eq, Debug)]
pub struct Entry {
    pub identity: Name,
    pub name: Name,
    pub top: Top,
    pub next_send: u32,
    pub expected: u32,
    pub phase: u8,
    pub outgoing: Vec<DataKey>,
    pub incoming: Vec<DataKey>,
}

#[derive(Clone, PartialEq, Eq, Debug)]
pub struct Table {
    pub own: Name,
    pub slots: Vec<Option<Entry>>,
}

impl Entry {
    /// What loading makes: both counts 1, idle, no data keys.
    pub fn loaded(identity: &[u8], name: &[u8], top: Top) -> Entry {
        Entry {
            identity: identity.to_vec(),
            name: name.to_vec(),
            top,
            next_send: 1,
            expected: 1,
            phase: IDLE,
            outgoing: Vec::new(),
            incoming: Vec::new(),
        }
    }
}

impl Table {
    pub fn empty(own: &[u8]) -> Table {
        Table { own: own.to_vec(), slots: vec![None; SLOTS] }
    }

    pub fn entries(&self) -> impl Iterator<Item = &Entry> {
        self.slots.iter().flatten()
    }

    /// The partner's entry.
    pub fn entry(&self, identity: &[u8]) -> Option<&Entry> {
        self.entries().find(|entry| entry.identity == identity)
    }

    /// The partner's entry, to be changed.
    pub fn entry_mut(&mut self, identity: &[u8]) -> Option<&mut Entry> {
        self.slots.iter_mut().flatten().find(|entry| entry.identity == identity)
    }
}

/// The bare keys of a key set.
pub fn bare(keys: &[DataKey]) -> Vec<u64> {
    keys.iter().map(|key| key.key).collect()
}
