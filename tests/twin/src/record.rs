//! The record reader. "A record is code, body length in 2 bytes, body."
//! It knows only 2 and 17: "a cut record is 17, else an unknown code is 2, else a wrong length is 17".

use crate::numbers::{Number, NO_STEP, WRONG_RECORD};
use crate::table::{members, Begin, Step, ITEMS};

/// Code and length, before the body.
pub const HEADER: usize = 3;

/// The longest record there can be.
pub const LONGEST: usize = HEADER + 65_535;

/// What stands at the front of some bytes.
#[derive(Clone, Copy, Debug, PartialEq, Eq)]
pub enum Frame<'a> {
    /// No byte is left.
    End,
    /// "fewer than three header bytes, or fewer body bytes than its length says, are left"
    Cut,
    Whole {
        code: u8,
        body: &'a [u8],
    },
}

/// The length of the record at the front as its header says it, if the header is there.
pub fn said_length(bytes: &[u8]) -> Option<usize> {
    let header = bytes.get(..HEADER)?;
    Some(HEADER + usize::from(u16::from_le_bytes([header[1], header[2]])))
}

pub fn frame(bytes: &[u8]) -> Frame<'_> {
    if bytes.is_empty() {
        return Frame::End;
    }
    let record = said_length(bytes).and_then(|length| bytes.get(..length));
    match record {
        Some(record) => Frame::Whole { code: record[0], body: &record[HEADER..] },
        None => Frame::Cut,
    }
}

/// The record at the front of some bytes: its step, or the reader's number.
pub fn read_record(bytes: &[u8]) -> Result<Step, Number> {
    match frame(bytes) {
        Frame::Whole { code, body } => read_body(code, body),
        Frame::Cut | Frame::End => Err(WRONG_RECORD),
    }
}

/// "The body is handed on as it stands to the reader for that code."
#[inline]
pub fn read_body(code: u8, body: &[u8]) -> Result<Step, Number> {
    match code {
        1 => begin(body),
        2 => tell(body),
        3 => exactly(body).map(|&[place]| Step::Deliver { place }),
        4 => exactly(body).map(|&[place]| Step::Drop { place }),
        5 => exactly(body).map(|&[site]| Step::Down { site }),
        6 => exactly(body).map(|&[site]| Step::Up { site }),
        7 => exactly::<5>(body).map(|bytes| Step::Retire { stamp: stamp(bytes) }),
        8 => exactly(body).map(|&[site, item]| Step::Read { site, item }),
        // "Any code from 9 to 255, and 0, is no step."
        0 | 9..=255 => Err(NO_STEP),
    }
}

/// A body of just this length.
#[inline]
fn exactly<const LENGTH: usize>(body: &[u8]) -> Result<&[u8; LENGTH], Number> {
    body.try_into().map_err(|_| WRONG_RECORD)
}

/// "Begin: site, clock, base set, update set, stamps by rising item, values by rising item:
/// 11 + 5 × base items + 4 × update items."
#[inline]
fn begin(body: &[u8]) -> Result<Step, Number> {
    let (front, numbers) = body.split_first_chunk::<11>().ok_or(WRONG_RECORD)?;
    let base = set(&front[5..8]);
    let update = set(&front[8..11]);
    let stamp_bytes = 5 * base.count_ones() as usize;
    let value_bytes = 4 * update.count_ones() as usize;
    if numbers.len() != stamp_bytes + value_bytes {
        return Err(WRONG_RECORD);
    }
    let (stamp_bytes, value_bytes) = numbers.split_at(stamp_bytes);

    let clock = u32::from_le_bytes([front[1], front[2], front[3], front[4]]);
    let mut given = Begin { site: front[0], clock, base, update, stamps: [0; ITEMS], values: [0; ITEMS] };
    for (item, bytes) in members(base).zip(stamp_bytes.chunks_exact(5)) {
        given.stamps[item] = stamp(bytes);
    }
    for (item, bytes) in members(update).zip(value_bytes.chunks_exact(4)) {
        given.values[item] = i32::from_le_bytes([bytes[0], bytes[1], bytes[2], bytes[3]]);
    }
    Ok(Step::Begin(given))
}

/// Tell: from, stamp, to.
#[inline]
fn tell(body: &[u8]) -> Result<Step, Number> {
    let &[from, .., to] = exactly::<7>(body)?;
    Ok(Step::Tell { from, stamp: stamp(&body[1..6]), to })
}

/// "stamps 5 bytes", little-endian.
pub fn stamp(bytes: &[u8]) -> u64 {
    u64::from_le_bytes([bytes[0], bytes[1], bytes[2], bytes[3], bytes[4], 0, 0, 0])
}

/// "sets 3", little-endian.
fn set(bytes: &[u8]) -> u32 {
    u32::from_le_bytes([bytes[0], bytes[1], bytes[2], 0])
}

#[cfg(test)]
mod tests {
    use super::*;

    #[test]
    fn frames() {
        assert_eq!(frame(&[]), Frame::End);
        assert_eq!(frame(&[3]), Frame::Cut);
        assert_eq!(frame(&[3, 1]), Frame::Cut);
        assert_eq!(frame(&[3, 1, 0]), Frame::Cut);
        assert_eq!(frame(&[3, 1, 0, 9]), Frame::Whole { code: 3, body: &[9] });
        assert_eq!(frame(&[3, 1, 0, 9, 7]), Frame::Whole { code: 3, body: &[9] });
        assert_eq!(frame(&[0, 0, 0]), Frame::Whole { code: 0, body: &[] });
        assert_eq!(frame(&[0, 0, 1]), Frame::Cut);
    }

    #[test]
    fn cut_comes_before_unknown_and_unknown_before_length() {
        assert_eq!(read_record(&[]), Err(17));
        assert_eq!(read_record(&[9, 2, 0, 1]), Err(17));
        assert_eq!(read_record(&[9, 2, 0, 1, 1]), Err(2));
        assert_eq!(read_record(&[0, 0, 0]), Err(2));
        assert_eq!(read_record(&[255, 0, 0]), Err(2));
        assert_eq!(read_record(&[3, 0, 0]), Err(17));
        assert_eq!(read_record(&[3, 2, 0, 1, 1]), Err(17));
        assert_eq!(read_record(&[3, 1, 0, 63]), Ok(Step::Deliver { place: 63 }));
    }

    #[test]
    fn each_code_has_its_length() {
        let lengths = [(2, 7), (3, 1), (4, 1), (5, 1), (6, 1), (7, 5), (8, 2)];
        for (code, right) in lengths {
            for length in 0..20 {
                let read = read_body(code, &vec![1; length]);
                assert_eq!(read.is_ok(), length == right, "code {code}, length {length}");
                assert!(read.is_ok() || read == Err(WRONG_RECORD));
            }
        }
    }

    #[test]
    fn begin_length_is_judged_on_the_sets_as_they_stand() {
        // Base {0}, update {1, 23}: outside the base, but of the right length.
        let mut body = vec![1, 232, 3, 0, 0, 1, 0, 0, 2, 0, 128];
        assert_eq!(read_body(1, &body), Err(WRONG_RECORD));
        body.extend([65, 31, 0, 0, 0, 1, 0, 0, 0, 254, 255, 255, 255]);
        let Ok(Step::Begin(given)) = read_body(1, &body) else {
            panic!("not read");
        };
        assert_eq!((given.site, given.clock, given.base, given.update), (1, 1000, 1, 1 << 23 | 2));
        assert_eq!((given.stamps[0], given.values[1], given.values[23]), (8001, 1, -2));
        body.push(0);
        assert_eq!(read_body(1, &body), Err(WRONG_RECORD));
        assert_eq!(read_body(1, &body[..10]), Err(WRONG_RECORD));
    }
}
