//! The stored image: a table as bytes and back, and every rule by which an image is legal.

use crate::keys::Top;
use crate::reader::{is_name, LARGEST_COUNT};
use crate::table::{DataKey, Entry, Name, Table, BROKEN, CONFIRMED, IDLE, SLOTS, WAITING};

pub const BODY: usize = 156;
pub const LARGEST: usize = 10_065;

/// Every rule that an image can break; the first broken one of an image is what `read` gives.
pub const RULES: [&str; 20] = [
    "cut short",
    "a byte too many",
    "first kind not 1",
    "own identity malformed",
    "kind unknown",
    "identity malformed",
    "key name malformed",
    "key form not 1 or 2",
    "single key with a second half",
    "top key not of odd parity",
    "count out of range",
    "phase unknown",
    "phase 0 against next send",
    "outgoing keys against phase",
    "incoming keys against expected",
    "more than two keys",
    "data key's name malformed",
    "unused key place not zero",
    "identity twice",
    "identity our own",
];

/// The bytes of an image that are still to be read.
struct Bytes<'a>(&'a [u8]);

impl<'a> Bytes<'a> {
    fn take(&mut self, length: usize) -> Result<&'a [u8], &'static str> {
        let taken = self.0.get(..length).ok_or("cut short")?;
        self.0 = &self.0[length..];
        Ok(taken)
    }

    fn byte(&mut self) -> Result<u8, &'static str> {
        Ok(self.take(1)?[0])
    }

    /// A number, its high byte first.
    fn number(&mut self, length: usize) -> Result<u64, &'static str> {
        Ok(self.take(length)?.iter().fold(0, |number, &byte| number << 8 | u64::from(byte)))
    }

    /// A name of 16 bytes with its filling blanks taken off.
    fn name(&mut self, rule: &'static str) -> Result<Name, &'static str> {
        unfilled(self.take(16)?).ok_or(rule)
    }
}

/// A well-formed name out of 16 bytes, blanks only after its characters.
pub fn unfilled(bytes: &[u8]) -> Option<Name> {
    let length = bytes.iter().position(|&byte| byte == b' ').unwrap_or(bytes.len());
    let (name, filling) = bytes.split_at(length);
    (is_name(name) && filling.iter().all(|&byte| byte == b' ')).then(|| name.to_vec())
}

/// A name as 16 bytes, blanks at its end.
pub fn filled(name: &[u8]) -> Vec<u8> {
    let mut bytes = name.to_vec();
    bytes.resize(16, b' ');
    bytes
}

fn hold(condition: bool, rule: &'static str) -> Result<(), &'static str> {
    condition.then_some(()).ok_or(rule)
}

/// The table of a legal image, or the first rule that it breaks.
pub fn read(image: &[u8]) -> Result<Table, &'static str> {
    let mut bytes = Bytes(image);
    hold(bytes.byte()? == 1, "first kind not 1")?;
    let own = bytes.name("own identity malformed")?;
    let slots = (0..SLOTS).map(|_| slot(&mut bytes)).collect::<Result<_, _>>()?;
    hold(bytes.0.is_empty(), "a byte too many")?;
    let table = Table { own, slots };
    hold(table.entries().all(|entry| entry.identity != table.own), "identity our own")?;
    let alone = |entry: &Entry| table.entries().filter(|other| other.identity == entry.identity).count() == 1;
    hold(table.entries().all(alone), "identity twice")?;
    Ok(table)
}

fn slot(bytes: &mut Bytes) -> Result<Option<Entry>, &'static str> {
    match bytes.byte()? {
        0 => Ok(None),
        2 => entry(&mut Bytes(bytes.take(BODY)?)).map(Some),
        _ => Err("kind unknown"),
    }
}

fn entry(bytes: &mut Bytes) -> Result<Entry, &'static str> {
    let identity = bytes.name("identity malformed")?;
    let name = bytes.name("key name malformed")?;
    let form = bytes.byte()?;
    let (left, right) = (bytes.number(8)?, bytes.number(8)?);
    let top = match form {
        1 if right != 0 => return Err("single key with a second half"),
        1 => Top::Single(left),
        2 => Top::Pair(left, right),
        _ => return Err("key form not 1 or 2"),
    };
    hold(top.odd(), "top key not of odd parity")?;
    let (next_send, expected) = (bytes.number(4)? as u32, bytes.number(4)? as u32);
    let legal = 1..=LARGEST_COUNT;
    hold(legal.contains(&next_send) && legal.contains(&expected), "count out of range")?;
    let phase = bytes.byte()?;
    hold(phase <= BROKEN, "phase unknown")?;
    hold((phase == IDLE) == (next_send == 1), "phase 0 against next send")?;
    let (outgoing, incoming) = (key_set(bytes)?, key_set(bytes)?);
    hold(outgoing.is_empty() != [WAITING, CONFIRMED].contains(&phase), "outgoing keys against phase")?;
    hold(incoming.is_empty() == (expected == 1), "incoming keys against expected")?;
    Ok(Entry { identity, name, top, next_send, expected, phase, outgoing, incoming })
}

fn key_set(bytes: &mut Bytes) -> Result<Vec<DataKey>, &'static str> {
    let number = bytes.byte()?;
    hold(number <= 2, "more than two keys")?;
    let places = [bytes.take(24)?, bytes.take(24)?];
    let (used, unused) = places.split_at(usize::from(number));
    hold(unused.concat().iter().all(|&byte| byte == 0), "unused key place not zero")?;
    used.iter().map(|place| data_key(&mut Bytes(place))).collect()
}

fn data_key(bytes: &mut Bytes) -> Result<DataKey, &'static str> {
    let key = bytes.number(8)?;
    let name = match bytes.0 {
        blanks if blanks.iter().all(|&byte| byte == b' ') => None,
        _ => Some(bytes.name("data key's name malformed")?),
    };
    Ok(DataKey { key, name })
}

/// The image of a table.
pub fn write(table: &Table) -> Vec<u8> {
    let mut image = vec![1];
    image.extend(filled(&table.own));
    for slot in &table.slots {
        match slot {
            None => image.push(0),
            Some(entry) => {
                image.push(2);
                image.extend(body(entry));
            }
        }
    }
    image
}

/// How many partners a legal image of this length has.
pub fn partners(image: &[u8]) -> usize {
    (image.len() - (1 + 16 + SLOTS)) / BODY
}

/// The 156 bytes of an entry's record without its kind.
pub fn body(entry: &Entry) -> Vec<u8> {
    let (form, left, right) = match entry.top {
        Top::Single(key) => (1, key, 0),
        Top::Pair(left, right) => (2, left, right),
    };
    let mut bytes = [filled(&entry.identity), filled(&entry.name), vec![form]].concat();
    bytes.extend(left.to_be_bytes());
    bytes.extend(right.to_be_bytes());
    bytes.extend(entry.next_send.to_be_bytes());
    bytes.extend(entry.expected.to_be_bytes());
    bytes.push(entry.phase);
    bytes.extend(set_bytes(&entry.outgoing));
    bytes.extend(set_bytes(&entry.incoming));
    bytes
}

fn set_bytes(keys: &[DataKey]) -> Vec<u8> {
    let mut bytes = vec![keys.len() as u8];
    for key in keys {
        bytes.extend(key.key.to_be_bytes());
        bytes.extend(filled(key.name.as_deref().unwrap_or(b"")));
    }
    bytes.resize(49, 0);
    bytes
}
