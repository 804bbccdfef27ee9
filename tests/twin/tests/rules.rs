//! Places where a rule is easily got wrong, and the numbers step by step.

mod common;

use common::{begin, fields, Night};
use twin::sound::sound;
use twin::table::{Answer, Mark, Message, Step, Table, Verdict};

/// "Numbers given for other items are not looked at and are stored as 0."
#[test]
fn other_numbers_are_stored_as_0() {
    let mut night = Night::new(1);
    let mut given = begin(1, 1000, &[(0, 0), (1, 0)], &[(0, 5)]);
    given.stamps[7] = u64::MAX;
    given.values[1] = i32::MAX;
    assert_eq!(night.step(Step::Begin(given)).number, 0);
    let request = &night.table.requests[0];
    assert_eq!((request.stamps[7], request.values[1]), (0, 0));
}

/// "an item above 23 in either"
#[test]
fn items_above_23() {
    let mut night = Night::new(1);
    for (base, update) in
        [(1 << 24 | 1, 1), (1 << 24, 1 << 24), (1, 2), (1, 0), (0, 0), (1 << 31 | 1, 1 << 31)]
    {
        let mut given = begin(1, 1000, &[(0, 0)], &[(0, 5)]);
        (given.base, given.update) = (base, update);
        assert_eq!(night.step(Step::Begin(given)).number, 5);
    }
}

/// "for equal digits the smaller stamp is higher": the second of one site gets DR, not a deferral.
#[test]
fn equal_digits_go_by_stamp() {
    let mut night = Night::new(3);
    night.begin(1, 1000, &[(0, 0)], &[(0, 1)]);
    night.begin(1, 1000, &[(0, 0)], &[(0, 2)]);
    assert_eq!(night.mark(1, 8009), Mark::Dr);
}

/// "REJ is a vote like DR": two of three are needed.
#[test]
fn one_rej_does_not_reject() {
    let mut night = Night::new(3);
    night.begin(1, 1000, &[(0, 0)], &[(0, 1)]);
    night.pass(1, 8001, 2);
    night.begin(2, 1000, &[(0, 0)], &[(0, 2)]);
    assert_eq!((night.mark(2, 8002), night.verdict(2, 8002)), (Mark::Rej, Verdict::Open));
    night.pass(2, 8001, 1);
    assert_eq!(fields(&night.pass(2, 8002, 1)), (0, 0, 0, 0, 1));
}

/// "counting a repeated voter twice" is wrong.
#[test]
fn a_repeated_voter_counts_once() {
    let mut night = Night::new(5);
    night.begin(1, 1000, &[(0, 0)], &[(0, 1)]);
    let place = night.tell(1, 8001, 2).first as u8;
    for _ in 0..3 {
        assert_eq!(fields(&night.deliver(place)), (0, 0, 0, 0, 0));
    }
    assert_eq!(night.verdict(2, 8001), Verdict::Open);
    assert_eq!(fields(&night.pass(2, 8001, 3)), (0, 0, 0, 1, 0));
}

/// One begin brings three verdicts: two wait for stamps that nobody will issue, and vote REJ when
/// a larger one is written.
#[test]
fn three_verdicts_in_one_step() {
    let mut night = Night::new(1);
    assert_eq!(fields(&night.begin(1, 0, &[(0, 81)], &[(0, 2)])), (0, 89, 0, 0, 0));
    assert_eq!(fields(&night.begin(1, 0, &[(0, 89)], &[(0, 3)])), (0, 97, 1, 0, 0));
    assert_eq!((night.mark(1, 89), night.mark(1, 97)), (Mark::Deferred, Mark::Deferred));
    assert_eq!(fields(&night.begin(1, 0, &[(0, 0)], &[(0, 9)])), (0, 105, 2, 1, 2));
    assert_eq!(night.site(1).queue.length, 0);
}

/// "restarting no walk after a verdict inside a walk" is wrong: the first in the queue votes only
/// after the second has brought a verdict.
#[test]
fn one_passed_over_votes_after_the_restart() {
    let mut night = Night::new(2);
    let p = night.begin(2, 1000, &[(0, 0)], &[(0, 1)]).first as u64;
    let b = night.begin(1, 1000, &[(0, 0), (1, 0)], &[(1, 2)]).first as u64;
    // At site 2, A waits for B's stamp on item 1, and B waits behind P, which is pending there.
    let a = night.begin(2, 1000, &[(1, b)], &[(1, 4)]).first as u64;
    night.pass(1, b, 2);
    assert_eq!((night.mark(2, a), night.mark(2, b)), (Mark::Deferred, Mark::Deferred));
    assert_eq!(night.site(2).queue.places[..2], [2, 1]);
    // Site 1 rejects P: DR, and one is enough with two sites.
    assert_eq!(fields(&night.pass(2, p, 1)), (0, 0, 0, 0, 1));
    // P's verdict at 2: the walk passes over A, accepts B, and starts again; then A votes OK.
    assert_eq!(fields(&night.pass(1, p, 2)), (0, 0, 0, 1, 1));
    assert_eq!(night.mark(2, a), Mark::Ok);
}

/// "Losing a message empties that one place"; the lowest free place is filled next.
#[test]
fn lowest_free_message_place() {
    let mut night = Night::new(3);
    night.begin(1, 1000, &[(0, 0)], &[(0, 1)]);
    for place in 0..64 {
        assert_eq!(night.tell(1, 8001, 2).first, place);
    }
    assert_eq!(night.tell(1, 8001, 2).number, 12);
    let mut before = night.table.clone();
    assert_eq!(night.step(Step::Drop { place: 40 }).number, 0);
    before.messages[40] = Message::default();
    before.held &= !(1 << 40);
    assert_eq!(night.table, before);
    night.step(Step::Drop { place: 5 });
    assert_eq!(night.tell(1, 8001, 3).first, 5);
    assert_eq!(night.tell(1, 8001, 3).first, 40);
}

/// Retire: each site must have a verdict and no message may name it; the place is used again.
#[test]
fn retire_and_use_again() {
    let mut night = Night::new(2);
    night.begin(1, 1000, &[(0, 0)], &[(0, 1)]);
    night.begin(1, 1000, &[(1, 0)], &[(1, 1)]);
    assert_eq!(night.step(Step::Retire { stamp: 8001 }).number, 14);
    night.pass(1, 8001, 2);
    assert_eq!(night.step(Step::Retire { stamp: 8001 }).number, 14);
    night.pass(2, 8001, 1);
    assert_eq!(night.step(Step::Retire { stamp: 8001 }).number, 14, "messages name it");
    night.step(Step::Drop { place: 0 });
    night.step(Step::Drop { place: 1 });
    night.step(Step::Down { site: 1 });
    assert_eq!(night.step(Step::Retire { stamp: 8001 }).number, 0, "whoever is down");
    assert_eq!(night.step(Step::Retire { stamp: 8001 }).number, 10);
    assert_eq!(night.begin(2, 2000, &[(2, 0)], &[(2, 1)]).second, 0);
}

/// Sixteen held: 9. Stamp 0 names no request, though free places are blank: 10.
#[test]
fn sixteen_requests() {
    let mut night = Night::new(3);
    for place in 0..16 {
        assert_eq!(night.begin(1, 0, &[(0, 0)], &[(0, 1)]).second, place);
    }
    assert_eq!(night.begin(1, 0, &[(0, 0)], &[(0, 1)]).number, 9);
    let mut night = Night::new(3);
    assert_eq!(night.tell(1, 0, 2).number, 10);
    assert_eq!(night.step(Step::Retire { stamp: 0 }).number, 10);
}

/// Tell: 3, 4, 10, 11, 12 in this order; the one told may be down.
#[test]
fn numbers_of_tell() {
    let mut night = Night::new(3);
    night.begin(1, 1000, &[(0, 0)], &[(0, 1)]);
    night.step(Step::Down { site: 2 });
    assert_eq!(night.tell(2, 9, 4).number, 3);
    assert_eq!(night.tell(2, 9, 2).number, 4);
    assert_eq!(night.tell(3, 9, 3).number, 10);
    assert_eq!(night.tell(3, 8001, 1).number, 11);
    assert_eq!(night.tell(1, 8001, 1).number, 11);
    assert_eq!(night.tell(1, 8001, 2).number, 0);
    assert_eq!(night.deliver(0).number, 4);
    assert_eq!(night.deliver(1).number, 13);
    assert_eq!(night.deliver(64).number, 13);
    assert_eq!(night.step(Step::Drop { place: 255 }).number, 13);
    assert_eq!(night.step(Step::Drop { place: 0 }).number, 0);
}

#[test]
fn numbers_of_down_up_and_read() {
    let mut night = Night::new(2);
    assert_eq!(night.step(Step::Up { site: 1 }).number, 15);
    assert_eq!(night.step(Step::Down { site: 1 }).number, 0);
    assert_eq!(night.step(Step::Down { site: 1 }).number, 4);
    assert_eq!(night.step(Step::Read { site: 1, item: 24 }).number, 4);
    assert_eq!(night.step(Step::Up { site: 1 }).number, 0);
    assert_eq!(night.step(Step::Read { site: 1, item: 24 }).number, 16);
    assert_eq!(night.step(Step::Read { site: 3, item: 24 }).number, 3);
    assert_eq!(night.step(Step::Down { site: 0 }).number, 3);
    assert_eq!(night.step(Step::Up { site: 3 }).number, 3);
    assert_eq!(fields(&night.step(Step::Read { site: 2, item: 23 })), (0, 0, 0, 0, 0));
}

/// "A fresh table refused is all zeros, site count 0, and not sound"; stepping it gives 1.
#[test]
fn fresh_tables() {
    for count in 0..=255 {
        let (number, mut table) = Table::fresh(count);
        let is_site_count = (1..=7).contains(&count);
        assert_eq!(number, if is_site_count { 0 } else { 3 });
        assert_eq!(sound(&table), is_site_count);
        if !is_site_count {
            assert_eq!(table, Table::default());
            let answer = table.checked_step(&Step::Up { site: 1 }, &mut ());
            assert_eq!(answer, Answer::refused(1));
        }
    }
}

/// A message that carries a verdict and voters is sound if both are backed;
/// delivering it takes the verdict over and joins nothing.
#[test]
fn a_message_with_verdict_and_voters() {
    let mut night = Night::new(3);
    night.begin(1, 1000, &[(0, 0)], &[(0, 1)]);
    night.pass(1, 8001, 2);
    let place = night.tell(2, 8001, 3).first as usize;
    assert_eq!(night.table.messages[place].oks, 0, "with a verdict it carries no voters");
    night.table.messages[place].oks = 3;
    assert!(sound(&night.table));
    assert_eq!(fields(&night.deliver(place as u8)), (0, 0, 0, 1, 0));
    assert_eq!((night.site(3).oks[0], night.mark(3, 8001)), (0, Mark::None));
}

/// An open message without voters, in a handed table, is sound: the receiver just considers.
#[test]
fn an_open_message_without_voters() {
    let mut night = Night::new(3);
    night.begin(1, 1000, &[(0, 0)], &[(0, 1)]);
    night.table.messages[9] = Message { request: 0, from: 2, to: 3, ..Message::default() };
    night.table.held = 1 << 9;
    assert!(sound(&night.table));
    assert_eq!(fields(&night.deliver(9)), (0, 0, 0, 0, 0));
    assert_eq!((night.site(3).oks[0], night.mark(3, 8001)), (4, Mark::Ok));
}

/// An open message that alone knows enough voters, in a handed table, is sound too: the receiver
/// accepts and does not vote.
#[test]
fn an_open_message_with_a_majority() {
    let mut night = Night::new(3);
    night.begin(1, 1000, &[(0, 0)], &[(0, 1)]);
    night.pass(1, 8001, 2);
    night.table.messages[9] = Message { request: 0, from: 2, to: 3, oks: 3, ..Message::default() };
    night.table.held |= 1 << 9;
    assert!(sound(&night.table));
    assert_eq!(fields(&night.deliver(9)), (0, 0, 0, 1, 0));
    assert_eq!((night.site(3).oks[0], night.mark(3, 8001)), (3, Mark::None));
}
