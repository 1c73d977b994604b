//! Many histories of the bad line, each from its own seed; the first breach is made small.

use super::happenings::Happenings;
use super::moves::Move;
use super::setting::Setting;
use super::world::World;
use crate::case::Product;
use crate::progress::{Progress, Until};
use crate::random::Random;
use crate::shrink::smaller_list;

/// How many moves a history has before other cards take its place.
const LENGTH: usize = 400;

/// A history that ends in something that must not be.
pub struct Breach {
    pub number: u64,
    pub setting: Setting,
    pub moves: Vec<Move>,
    pub what: String,
}

/// Takes moves that follow from the seed; ends at the first breach.
pub fn run(
    product: &mut dyn Product,
    seed: u64,
    until: Until,
    happenings: &mut Happenings,
) -> Result<u64, Box<Breach>> {
    let mut progress = Progress::new("moves", until);
    let mut number = 0;
    while progress.goes_on(number) {
        let setting = Setting::new(Random::seed_of(seed, number));
        let mut random = Random::new(Random::seed_of(!seed, number));
        let moves: Vec<Move> = (0..LENGTH).map(|_| Move::random(&mut random)).collect();
        if let Some((taken, what)) = replay(product, happenings, &setting, &moves) {
            let moves = moves[..taken].to_vec();
            return Err(Box::new(Breach { number: number + taken as u64, setting, moves, what }));
        }
        number += LENGTH as u64;
    }
    Ok(number)
}

/// After how many of these moves something is wrong, and what.
pub fn replay(
    product: &mut dyn Product,
    happenings: &mut Happenings,
    setting: &Setting,
    moves: &[Move],
) -> Option<(usize, String)> {
    let mut world = World::new(product, happenings, setting);
    let mut taken = 0;
    while world.breaches.is_empty() && taken < moves.len() {
        world.take(&moves[taken]);
        taken += 1;
    }
    world.breaches.first().map(|what| (taken, what.clone()))
}

impl Breach {
    /// The breach with every move left out that it does not need.
    pub fn smaller(self, product: &mut dyn Product) -> Breach {
        let setting = self.setting;
        let mut fails = |moves: &[Move]| replay(product, &mut Happenings::new(), &setting, moves).is_some();
        let moves = smaller_list(&self.moves, &mut fails);
        let found = replay(product, &mut Happenings::new(), &setting, &moves);
        let what = found.map_or(self.what, |(_, what)| what);
        Breach { setting, moves, what, ..self }
    }
}
