//! Streams whose bytes came to harm.

use super::kinds::{meaningful, some_code};
use super::maker::Maker;
use super::put_record;
use crate::rng::Rng;

/// A meaningful stream whose bytes came to harm.
pub(super) fn damaged(rng: Rng, records: usize) -> Vec<u8> {
    let maker = meaningful(rng, records);
    let mut rng = maker.rng.clone();
    let mut parts = records_of(&maker);
    for _ in 0..1 + rng.below(12) {
        damage_record(&mut rng, &mut parts);
    }
    if rng.chance(10) {
        insert_longest(&mut rng, &mut parts);
    }
    let mut bytes = vec![maker.bytes[0]];
    bytes.extend(parts.concat());
    damage_bytes(&mut rng, &mut bytes);
    bytes
}

fn records_of(maker: &Maker) -> Vec<Vec<u8>> {
    let ends = maker.starts.iter().skip(1).copied().chain([maker.bytes.len()]);
    maker.starts.iter().zip(ends).map(|(&start, end)| maker.bytes[start..end].to_vec()).collect()
}

/// Damage that leaves the records behind it in step.
fn damage_record(rng: &mut Rng, parts: &mut Vec<Vec<u8>>) {
    let place = rng.below(parts.len());
    match rng.below(7) {
        0 => parts[place][0] = some_code(rng),
        1 => change_body(rng, &mut parts[place]),
        2 => change_length(rng, &mut parts[place]),
        3 if parts.len() > 1 => {
            parts.remove(place);
        }
        4 => {
            let again = parts[place].clone();
            parts.insert(place, again);
        }
        5 => {
            let other = rng.below(parts.len());
            parts.swap(place, other);
        }
        _ => {
            let mut record = Vec::new();
            let code = some_code(rng);
            let body: Vec<u8> = (0..rng.below(300)).map(|_| rng.byte()).collect();
            put_record(&mut record, code, &body);
            parts.insert(place, record);
        }
    }
}

/// One bit of the body turned over.
fn change_body(rng: &mut Rng, record: &mut [u8]) {
    let body = &mut record[3..];
    if body.is_empty() {
        return;
    }
    let byte = rng.below(body.len());
    body[byte] ^= 1 << rng.below(8);
}

/// A body longer or shorter than its code asks for, with the length to match.
fn change_length(rng: &mut Rng, record: &mut Vec<u8>) {
    if rng.chance(50) && record.len() > 4 {
        record.pop();
    } else {
        record.push(rng.byte());
    }
    let length = (record.len() - 3) as u16;
    record[1..3].copy_from_slice(&length.to_le_bytes());
}

/// A record with a body of 65,535 bytes, of known code or not.
fn insert_longest(rng: &mut Rng, parts: &mut Vec<Vec<u8>>) {
    let code = rng.pick(&[0, 1, 2, 3, 8, 9, 255]);
    let mut record = Vec::new();
    put_record(&mut record, code, &vec![rng.byte(); 65_535]);
    if rng.chance(20) {
        record.pop();
    }
    parts.insert(rng.below(parts.len() + 1), record);
}

/// Damage that may bring all behind it out of step, or cuts the end.
fn damage_bytes(rng: &mut Rng, bytes: &mut Vec<u8>) {
    match rng.below(10) {
        0 | 1 => bytes.truncate(1 + rng.below(bytes.len())),
        2 => {
            let kept = bytes.len().saturating_sub(1 + rng.below(12)).max(1);
            bytes.truncate(kept);
        }
        3 => {
            let place = rng.below(bytes.len());
            bytes[place] = rng.byte();
        }
        4 => {
            bytes.remove(rng.below(bytes.len()));
        }
        5 => bytes.insert(1 + rng.below(bytes.len()), rng.byte()),
        6 => {
            // A header that asks for more than is left.
            bytes.extend([some_code(rng), 255, 255, 1, 2, 3]);
        }
        _ => {}
    }
}
