//! Makes streams of records from a seed and a kind, and site files, good and damaged.
//! A model table (the twin's own) goes along, so that stamps, tells and deliveries hit.

mod damage;
mod files;
mod kinds;
mod maker;

use crate::rng::Rng;
use crate::table::{members, Begin, Step};

pub use files::{site_file, some_readings, FILE_KINDS};

/// Records in a stream where nothing else is asked for.
pub const USUAL_RECORDS: usize = 300;

#[derive(Clone, Copy, Debug, PartialEq, Eq)]
pub enum Kind {
    Meaningful,
    Dense,
    Refusals,
    Damaged,
    Limits,
    Full,
    Tiny,
}

impl Kind {
    pub const ALL: [Kind; 7] =
        [Kind::Meaningful, Kind::Dense, Kind::Refusals, Kind::Damaged, Kind::Limits, Kind::Full, Kind::Tiny];

    pub fn name(self) -> &'static str {
        match self {
            Kind::Meaningful => "meaningful",
            Kind::Dense => "dense",
            Kind::Refusals => "refusals",
            Kind::Damaged => "damaged",
            Kind::Limits => "limits",
            Kind::Full => "full",
            Kind::Tiny => "tiny",
        }
    }

    pub fn named(name: &str) -> Option<Kind> {
        Kind::ALL.into_iter().find(|kind| kind.name() == name)
    }
}

/// The stream of that kind and seed, of about so many records.
pub fn make(kind: Kind, seed: u64, records: usize) -> Vec<u8> {
    let mut rng = Rng::new(seed.wrapping_mul(8).wrapping_add(kind as u64));
    rng.draw();
    match kind {
        Kind::Meaningful => kinds::meaningful(rng, records).bytes,
        Kind::Dense => kinds::dense(rng, records),
        Kind::Refusals => kinds::refusals(rng, records),
        Kind::Damaged => damage::damaged(rng, records),
        Kind::Limits => kinds::limits(rng, records),
        Kind::Full => kinds::full(rng, records),
        Kind::Tiny => kinds::tiny(rng),
    }
}

/// One record: code, length, body.
pub fn put_record(bytes: &mut Vec<u8>, code: u8, body: &[u8]) {
    bytes.push(code);
    bytes.extend((body.len() as u16).to_le_bytes());
    bytes.extend(body);
}

/// The record of a step. Numbers for items outside the sets are not written.
pub fn put_step(bytes: &mut Vec<u8>, step: &Step) {
    let start = bytes.len();
    bytes.extend([step.code(), 0, 0]);
    match *step {
        Step::Begin(ref given) => put_begin(bytes, given),
        Step::Tell { from, stamp, to } => {
            bytes.push(from);
            put_stamp(bytes, stamp);
            bytes.push(to);
        }
        Step::Deliver { place } | Step::Drop { place } => bytes.push(place),
        Step::Down { site } | Step::Up { site } => bytes.push(site),
        Step::Retire { stamp } => put_stamp(bytes, stamp),
        Step::Read { site, item } => bytes.extend([site, item]),
    }
    let length = (bytes.len() - start - 3) as u16;
    bytes[start + 1..start + 3].copy_from_slice(&length.to_le_bytes());
}

fn put_begin(bytes: &mut Vec<u8>, given: &Begin) {
    bytes.push(given.site);
    bytes.extend(given.clock.to_le_bytes());
    bytes.extend(&given.base.to_le_bytes()[..3]);
    bytes.extend(&given.update.to_le_bytes()[..3]);
    for item in members(given.base) {
        put_stamp(bytes, given.stamps[item]);
    }
    for item in members(given.update) {
        bytes.extend(given.values[item].to_le_bytes());
    }
}

fn put_stamp(bytes: &mut Vec<u8>, stamp: u64) {
    bytes.extend(&stamp.to_le_bytes()[..5]);
}
