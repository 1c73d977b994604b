//! The bad line: two or three cards, a line that loses, delays, repeats, reorders and damages, and restless hosts.

mod checks;
mod happenings;
mod hosts;
mod label;
mod moves;
mod run;
mod setting;
mod transit;
mod world;

pub use happenings::Happenings;
pub use moves::Move;
pub use run::{replay, run, Breach};
pub use setting::Setting;
pub use world::{State, World};
