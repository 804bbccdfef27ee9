//! The kinds of streams, but for the damaged ones.

use super::maker::{some_count, Habit, Maker};
use crate::record::read_body;
use crate::rng::Rng;
use crate::stamp::{stamp, LARGEST_T};
use crate::table::{Begin, Step, ITEMS, LARGEST_VALUE, MESSAGES, REQUESTS};

/// A night at the benches: most steps are done, and lead somewhere.
pub(super) fn meaningful(mut rng: Rng, records: usize) -> Maker {
    let count = some_count(&mut rng);
    let habit = Habit::usual(&mut rng);
    let mut maker = Maker::new(rng, count, habit);
    while maker.records() < records {
        maker.act();
    }
    maker
}

/// Conflicts on few items: both kinds of deferral, and walks that start again.
pub(super) fn dense(mut rng: Rng, records: usize) -> Vec<u8> {
    let count = some_count(&mut rng);
    let habit = Habit::dense(&mut rng);
    let mut maker = Maker::new(rng, count, habit);
    while maker.records() < records {
        maker.act();
    }
    maker.bytes
}

/// 16 requests and 64 messages held, retired and used again.
pub(super) fn full(mut rng: Rng, records: usize) -> Vec<u8> {
    let count = some_count(&mut rng);
    let habit = Habit::full(&mut rng);
    let mut maker = Maker::new(rng, count, habit);
    fill_requests(&mut maker);
    fill_messages(&mut maker);
    while maker.records() < records {
        maker.act();
        if maker.rng.chance(1) {
            fill_requests(&mut maker);
            fill_messages(&mut maker);
        }
    }
    maker.bytes
}

/// Begins until 16 are held, and one more.
fn fill_requests(maker: &mut Maker) {
    for _ in 0..2 * REQUESTS {
        let is_full = maker.table.used == u16::MAX;
        let step = Step::Begin(maker.begin());
        maker.put(&step);
        if is_full {
            return;
        }
    }
}

/// Tells until 64 are held, and one more.
fn fill_messages(maker: &mut Maker) {
    for _ in 0..2 * MESSAGES {
        let is_full = maker.table.held == u64::MAX;
        let Some(step) = any_tell(maker) else {
            return;
        };
        maker.put(&step);
        if is_full {
            return;
        }
    }
}

/// A tell that is done while a place is free.
fn any_tell(maker: &mut Maker) -> Option<Step> {
    let place = maker.pick_member(maker.table.used)?;
    let tellers: Vec<u8> = maker.tellers(place).collect();
    let from = maker.rng.pick_some(&tellers)?;
    let to = maker.digit();
    Some(Step::Tell { from, stamp: maker.table.requests[place].stamp, to })
}

/// Clocks, stamps and values at their limits and one beyond.
pub(super) fn limits(mut rng: Rng, records: usize) -> Vec<u8> {
    let count = some_count(&mut rng);
    let habit = Habit::usual(&mut rng);
    let mut maker = Maker::new(rng, count, habit);
    maker.clock = maker.rng.pick(&[0, 1, u32::MAX - 400, u32::MAX - 60, u32::MAX - 3, u32::MAX]);
    while maker.records() < records {
        if maker.rng.chance(60) {
            maker.act();
            continue;
        }
        let mut given = maker.begin();
        to_the_limit(&mut maker, &mut given);
        maker.put(&Step::Begin(given));
    }
    maker.bytes
}

fn to_the_limit(maker: &mut Maker, given: &mut Begin) {
    let rng = &mut maker.rng;
    if rng.chance(40) {
        given.clock = rng.pick(&[0, 0, 0, 0, 1, 1, 2, 2, u32::MAX - 1, u32::MAX]);
    }
    if rng.chance(60) {
        let item = given.update.trailing_zeros() as usize;
        let beyond = LARGEST_VALUE + 1;
        let edges = [
            LARGEST_VALUE,
            -LARGEST_VALUE,
            LARGEST_VALUE,
            -LARGEST_VALUE,
            beyond,
            -beyond,
            i32::MIN,
            i32::MAX,
        ];
        given.values[item] = rng.pick(&edges);
    }
    if rng.chance(20) {
        let item = given.base.trailing_zeros() as usize;
        let t = rng.pick(&[1, LARGEST_T - 1, LARGEST_T - 1, LARGEST_T, LARGEST_T + 1, (1 << 37) - 1]);
        given.stamps[item] = stamp(t, 1 + rng.below(7) as u8);
    }
}

/// Every number that a stream can bring, and several reasons at once.
pub(super) fn refusals(mut rng: Rng, records: usize) -> Vec<u8> {
    let count = some_count(&mut rng);
    let habit = Habit::full(&mut rng);
    let mut maker = Maker::new(rng, count, habit);
    if maker.rng.chance(70) {
        fill_requests(&mut maker);
    }
    if maker.rng.chance(60) {
        fill_messages(&mut maker);
    }
    while maker.records() < records {
        match maker.rng.below(10) {
            0..=3 => maker.act(),
            4..=6 => bad_begin(&mut maker),
            7 | 8 => bad_tell(&mut maker),
            _ => bad_other(&mut maker),
        }
    }
    maker.bytes
}

/// A begin with each thing wrong in about one case of three.
fn bad_begin(maker: &mut Maker) {
    let mut given = maker.begin();
    if maker.rng.chance(25) {
        given.site = bad_digit(maker);
    } else if maker.rng.chance(30) {
        given.site = down_digit(maker);
    }
    if maker.rng.chance(30) {
        spoil_sets(maker, &mut given);
    }
    if maker.rng.chance(25) {
        spoil_stamp(maker, &mut given);
    }
    if maker.rng.chance(20) {
        let t_at_limit = stamp(LARGEST_T, maker.digit());
        if let Some(item) = maker.pick_member(given.base) {
            given.stamps[item] = t_at_limit;
        }
    }
    if let (true, Some(item)) = (maker.rng.chance(30), maker.pick_member(given.update)) {
        given.values[item] = maker.rng.pick(&[LARGEST_VALUE + 1, -LARGEST_VALUE - 1, i32::MAX, i32::MIN]);
    }
    maker.put(&Step::Begin(given));
}

/// A number that is no site of this table.
fn bad_digit(maker: &mut Maker) -> u8 {
    let above = maker.table.count + 1;
    maker.rng.pick(&[0, above, above, 8, 255])
}

/// A site that is down; if none is, one is sent down.
fn down_digit(maker: &mut Maker) -> u8 {
    if let Some(digit) = maker.digit_down() {
        return digit;
    }
    let digit = maker.digit();
    maker.put(&Step::Down { site: digit });
    digit
}

fn spoil_sets(maker: &mut Maker, given: &mut Begin) {
    let other = 1 << maker.rng.below(ITEMS);
    match maker.rng.below(4) {
        0 => given.update = 0,
        1 => (given.base, given.update) = (0, 0),
        2 => given.base = 0,
        _ => {
            given.update |= other;
            given.base &= !other;
        }
    }
}

/// A base stamp that is not well formed: t 0, digit 0, a digit above the count, or t above its limit.
fn spoil_stamp(maker: &mut Maker, given: &mut Begin) {
    let Some(item) = maker.pick_member(given.base) else {
        return;
    };
    let digit = maker.digit();
    let above = maker.table.count + 1;
    given.stamps[item] = match maker.rng.below(5) {
        0 => stamp(0, digit),
        1 => stamp(1000, 0),
        2 if above < 8 => stamp(1000, above),
        3 => stamp(LARGEST_T, 0),
        _ => stamp(LARGEST_T + 1, digit),
    };
}

fn bad_tell(maker: &mut Maker) {
    let place = maker.rng.below(REQUESTS);
    let mut stamp = maker.table.requests[place].stamp;
    let mut from = maker.digit();
    let mut to = maker.digit();
    if maker.rng.chance(30) {
        stamp = maker.rng.pick(&[0, 1, stamp.wrapping_add(8), (1 << 40) - 1]);
    }
    if maker.rng.chance(25) {
        to = from;
    }
    if maker.rng.chance(30) {
        from = down_digit(maker);
    }
    if maker.rng.chance(15) {
        to = bad_digit(maker);
    }
    if maker.rng.chance(15) {
        from = bad_digit(maker);
    }
    maker.put(&Step::Tell { from, stamp, to });
}

fn bad_other(maker: &mut Maker) {
    let digit = match maker.rng.below(3) {
        0 => bad_digit(maker),
        1 => down_digit(maker),
        _ => maker.digit(),
    };
    let place = match maker.rng.below(3) {
        0 => maker.rng.byte(),
        _ => maker.rng.below(66) as u8,
    };
    let request = maker.rng.below(REQUESTS);
    let held = maker.table.requests[request].stamp;
    let step = match maker.rng.below(9) {
        0 => Step::Deliver { place },
        1 => Step::Drop { place },
        2 => Step::Down { site: digit },
        3 | 4 => Step::Up { site: digit },
        5 => Step::Retire { stamp: held },
        6 => Step::Retire { stamp: maker.rng.pick(&[0, held + 1, (1 << 40) - 1]) },
        7 => Step::Read { site: digit, item: maker.rng.pick(&[0, 23, 24, 255]) },
        _ => return bad_record(maker),
    };
    maker.put(&step);
}

/// A whole record with an unknown code, or a known code and a wrong length.
fn bad_record(maker: &mut Maker) {
    let code = some_code(&mut maker.rng);
    let length = maker.rng.below(40);
    let body: Vec<u8> = (0..length).map(|_| maker.rng.byte()).collect();
    if read_body(code, &body).is_err() {
        maker.put_raw(code, &body);
    }
}

pub(super) fn some_code(rng: &mut Rng) -> u8 {
    match rng.below(4) {
        0 => rng.pick(&[0, 9, 10, 33, 254, 255]),
        1 => rng.byte(),
        _ => 1 + rng.below(8) as u8,
    }
}

/// Empty input, bad site counts, a site count alone, and short beginnings of records.
pub(super) fn tiny(mut rng: Rng) -> Vec<u8> {
    let count = some_count(&mut rng);
    let body = [1, 65, 31, 0, 0, 0, 2];
    match rng.below(8) {
        0 => Vec::new(),
        1 => vec![rng.pick(&[0, 8, 9, 128, 255])],
        2 => {
            let mut bytes = meaningful(rng.clone(), 5).bytes;
            bytes[0] = rng.pick(&[0, 8, 255]);
            bytes
        }
        3 => vec![count],
        4 => vec![count, some_code(&mut rng)],
        5 => vec![count, some_code(&mut rng), rng.below(8) as u8],
        6 => {
            let mut bytes = vec![count, some_code(&mut rng), rng.below(8) as u8, 0];
            bytes.extend(&body[..rng.below(8)]);
            bytes
        }
        _ => {
            let mut bytes = meaningful(rng.clone(), 2).bytes;
            bytes.truncate(rng.below(bytes.len() + 1));
            bytes
        }
    }
}
