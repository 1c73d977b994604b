//! A failing input made small: parts are left out as long as it still fails.

use crate::case::Case;
use crate::image;

/// The most that is tried before a small input is small enough.
const TRIES: usize = 20_000;

/// The list with runs of elements left out, ever shorter ones, as long as `fails` holds of what is left.
pub fn smaller_list<T: Clone>(list: &[T], fails: &mut dyn FnMut(&[T]) -> bool) -> Vec<T> {
    let mut kept = list.to_vec();
    let (mut run, mut place, mut tries) = (kept.len().div_ceil(2), 0, 0);
    while run > 0 && tries < TRIES {
        if place >= kept.len() {
            (run, place) = (run / 2, 0);
            continue;
        }
        let end = (place + run).min(kept.len());
        let candidate = [&kept[..place], &kept[end..]].concat();
        tries += 1;
        match fails(&candidate) {
            true => kept = candidate,
            false => place = end,
        }
    }
    kept
}

/// The case with partners, parts of slices and the fill of its rooms left out as long as it still fails.
pub fn smaller_case(case: &Case, fails: &mut dyn FnMut(&Case) -> bool) -> Case {
    let mut kept = with_fewer_partners(case, fails);
    for place in 0..kept.slices.len() {
        if kept.call.lent()[place] == "report" || image::read(&kept.slices[place]).is_ok() {
            continue;
        }
        let shorter = smaller_list(&kept.slices[place].clone(), &mut |slice| fails(&with(&kept, place, slice)));
        kept = with(&kept, place, &shorter);
    }
    if let Some(room) = kept.room() {
        let plain = with(&kept, room, &vec![0xEE; kept.slices[room].len()]);
        if fails(&plain) {
            return plain;
        }
    }
    kept
}

fn with(case: &Case, place: usize, slice: &[u8]) -> Case {
    let mut changed = case.clone();
    changed.slices[place] = slice.to_vec();
    changed
}

/// The case with every partner taken out of its legal image that the failure does not need.
fn with_fewer_partners(case: &Case, fails: &mut dyn FnMut(&Case) -> bool) -> Case {
    let Ok(mut table) = image::read(case.slice("image")) else {
        return case.clone();
    };
    let mut kept = case.clone();
    for slot in 0..table.slots.len() {
        let former = table.slots[slot].take();
        let candidate = with(&kept, 0, &image::write(&table));
        match former.is_none() || fails(&candidate) {
            true => kept = candidate,
            false => table.slots[slot] = former,
        }
    }
    kept
}
