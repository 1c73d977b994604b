//! A history as a chart: what happens in the middle, the sender's end at the left, the receiver's at the right.

use crate::case::Product;
use crate::line::{Happenings, Move, Setting, State, World};
use crate::table::DataKey;

pub struct Row {
    pub told: String,
    pub state: Option<State>,
    pub breaches: Vec<String>,
}

/// A history with every row that did something, seen from a sender and a receiver.
pub struct Chart {
    pub ends: [String; 2],
    pub start: Option<State>,
    pub rows: Vec<Row>,
}

impl Chart {
    /// Takes the moves, through breaches as well, and keeps what the two cards hold after each.
    pub fn draw(product: &mut dyn Product, setting: &Setting, moves: &[Move], ends: [usize; 2]) -> Chart {
        let mut happenings = Happenings::new();
        let mut world = World::new(product, &mut happenings, setting);
        let start = world.state(ends[0], ends[1]);
        let mut rows = Vec::new();
        for step in moves {
            world.take(step);
            let breaches = std::mem::take(&mut world.breaches);
            let told = world.told.clone();
            rows.push(Row { told, state: world.state(ends[0], ends[1]), breaches });
        }
        let names = ends.map(|card| String::from_utf8_lossy(&setting.identities[card]).into_owned());
        Chart { ends: names, start, rows }
    }

    /// Whether anything changed at the two ends.
    pub fn moved(&self) -> bool {
        self.rows.iter().any(|row| row.state != self.start)
    }

    pub fn breaches(&self) -> impl Iterator<Item = &String> {
        self.rows.iter().flat_map(|row| &row.breaches)
    }

    pub fn show(&self) {
        let [sender, receiver] = &self.ends;
        println!("      {:<38}{:<52}{receiver}, from {sender}", format!("{sender}, to {receiver}"), "");
        println!("step  {:<10}{:>9} {:<18}{:<52}{:>9} keys", "phase", "send", "keys", "what happens", "expects");
        for (place, row) in self.rows.iter().enumerate().filter(|(_, row)| !row.told.is_empty()) {
            let Some(State { phase, next_send, outgoing, expected, incoming }) = &row.state else {
                println!("{:>4}  {}", place + 1, row.told);
                continue;
            };
            let phase = ["idle", "waiting", "confirmed", "broken"][usize::from(*phase)];
            let ours = format!("{phase:<10}{next_send:>9} {:<18}", named(outgoing));
            println!("{:>4}  {ours}{:<52}{expected:>9} {}", place + 1, row.told, named(incoming));
            row.breaches.iter().for_each(|breach| println!("      !! {breach}"));
        }
    }
}

/// The names of keys, or the first digits of those without one.
fn named(keys: &[DataKey]) -> String {
    let name = |key: &DataKey| match &key.name {
        Some(name) => String::from_utf8_lossy(name).into_owned(),
        None => format!("{:04X}..", key.key >> 48),
    };
    match keys.is_empty() {
        true => "-".to_string(),
        false => keys.iter().map(name).collect::<Vec<_>>().join("+"),
    }
}
