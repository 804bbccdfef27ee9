//! Site files, good and damaged.

use super::maker::some_items;
use crate::rng::Rng;
use crate::sitefile::{self, fnv, Readings, ENTRY, TRAILER};
use crate::stamp::{stamp, LARGEST_T};
use crate::table::{ITEMS, LARGEST_VALUE};

/// What is wrong with a site file, if anything.
pub const FILE_KINDS: [&str; 17] = [
    "good",
    "good and empty",
    "good and full",
    "wrong check",
    "wrong site",
    "wrong count",
    "wrong distance",
    "items not rising",
    "item above 23",
    "stamp with t 0",
    "stamp with t too large",
    "stamp with digit 0",
    "value out of range",
    "cut",
    "too long",
    "25 entries or more",
    "any bytes",
];

/// A site file of that kind (an index of `FILE_KINDS`) and seed.
pub fn site_file(kind: usize, seed: u64) -> Vec<u8> {
    let mut rng = Rng::new(seed.wrapping_mul(32).wrapping_add(kind as u64));
    let least = if (7..13).contains(&kind) { 2 } else { 0 };
    let count = match FILE_KINDS[kind] {
        "good and empty" => 0,
        "good and full" => ITEMS,
        _ => least + rng.below(ITEMS + 1 - least),
    };
    let readings = some_readings(&mut rng, count);
    let mut file = sitefile::to_bytes(&readings).unwrap_or_default();
    spoil_file(&mut rng, FILE_KINDS[kind], &mut file);
    file
}

/// Readings of so many items, all of them allowed.
pub fn some_readings(rng: &mut Rng, count: usize) -> Readings {
    let mut readings = Readings { site: 1 + rng.below(7) as u8, ..Readings::default() };
    for item in some_items(rng, count) {
        let t = match rng.below(4) {
            0 => 1,
            1 => LARGEST_T,
            _ => 1 + rng.below(LARGEST_T as usize) as u64,
        };
        readings.stamps[item] = stamp(t, 1 + rng.below(7) as u8);
        readings.values[item] = match rng.below(5) {
            0 => 0,
            1 => LARGEST_VALUE,
            2 => -LARGEST_VALUE,
            _ => rng.below(2 * LARGEST_VALUE as usize + 1) as i32 - LARGEST_VALUE,
        };
    }
    readings
}

fn spoil_file(rng: &mut Rng, kind: &str, file: &mut Vec<u8>) {
    let trailer = file.len() - TRAILER;
    let entry = ENTRY * rng.below(trailer / ENTRY);
    match kind {
        "wrong check" => {
            let place = rng.below(file.len());
            file[place] ^= 1 << rng.below(8);
            return;
        }
        "wrong site" => file[trailer] = rng.pick(&[0, 8, 17, 255]),
        "wrong count" => file[trailer + 1] = file[trailer + 1].wrapping_add(rng.pick(&[1, 255, 24, 128])),
        "wrong distance" => file[trailer + 2 + rng.below(2)] ^= 1 << rng.below(8),
        "items not rising" => {
            // The last entry's item comes to be not above the one before it.
            let item = file[trailer - 2 * ENTRY];
            file[trailer - ENTRY] = item - rng.below(usize::from(item) + 1) as u8;
        }
        "item above 23" => file[trailer - ENTRY] = rng.pick(&[24, 25, 255]),
        "stamp with t 0" => file[entry + 1..entry + 6].copy_from_slice(&[1 + rng.below(7) as u8, 0, 0, 0, 0]),
        "stamp with t too large" => file[entry + 5] |= 8 << rng.below(5),
        "stamp with digit 0" => file[entry + 1] &= 248,
        "value out of range" => {
            let value = rng.pick(&[LARGEST_VALUE + 1, -LARGEST_VALUE - 1, i32::MAX, i32::MIN]);
            file[entry + 6..entry + 10].copy_from_slice(&value.to_le_bytes());
        }
        "cut" => {
            let kept = rng.below(file.len());
            file.truncate(kept);
            return;
        }
        "too long" => {
            let more = 1 + rng.below(12);
            let bytes: Vec<u8> = (0..more).map(|_| rng.byte()).collect();
            let place = rng.pick(&[0, file.len()]);
            file.splice(place..place, bytes);
            return;
        }
        "25 entries or more" => *file = many_entries(25 + rng.below(20)),
        "any bytes" => *file = (0..rng.below(260)).map(|_| rng.byte()).collect(),
        _ => return,
    }
    seal(file);
}

/// More entries than there are items, and everything else in order.
fn many_entries(count: usize) -> Vec<u8> {
    let mut file: Vec<u8> = (0..count as u8).flat_map(|item| [item, 9, 0, 0, 0, 0, 0, 0, 0, 0]).collect();
    let distance = file.len() as u16;
    file.extend([1, count as u8]);
    file.extend(distance.to_le_bytes());
    file.extend([0; 4]);
    file
}

/// Makes the check right, so that another reason decides.
fn seal(file: &mut [u8]) {
    if file.len() < TRAILER {
        return;
    }
    let end = file.len() - 4;
    let check = fnv(&file[..end]);
    file[end..].copy_from_slice(&check.to_le_bytes());
}
