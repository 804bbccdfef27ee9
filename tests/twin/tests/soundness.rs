//! Each part of "A table is sound if", broken alone where it can be, and only that part.

mod common;

use common::Night;
use twin::sound::*;
use twin::table::{Mark, Message, Request, Table, Verdict};

type Part = fn(&Table) -> bool;

const PARTS: [(&str, Part); 13] = [
    ("count", count_fits),
    ("blank", unused_is_blank),
    ("requests", requests_pass),
    ("last", no_t_above_last),
    ("copies", copies_fit),
    ("queues", queues_fit),
    ("messages", messages_fit),
    ("voters", voters_have_marks),
    ("own vote", own_votes_known),
    ("backed", verdicts_backed),
    ("verdict deferred", no_verdict_deferred),
    ("too few", open_knows_too_few),
    ("unheard", unheard_knows_none),
];

/// Five sites. 8001 on item 0 is open and known to 1 and 2; 8002 on items 0 and 1 is pending at 2 and DR at 1;
/// 8011 (place 2) is accepted by 3 and 4, held open by 5; messages 0 to 3 are held.
fn some_table() -> Table {
    let mut night = Night::new(5);
    night.begin(1, 1000, &[(0, 0)], &[(0, 1)]);
    night.begin(2, 1000, &[(0, 0), (1, 0)], &[(1, 2)]);
    night.pass(1, 8001, 2);
    night.pass(2, 8002, 1);
    let third = night.begin(3, 1001, &[(5, 0)], &[(5, -7)]);
    assert_eq!((third.first, third.second), (8011, 2));
    night.pass(3, 8011, 5);
    assert_eq!(night.pass(5, 8011, 4).accepted, 1);
    assert_eq!(night.pass(4, 8011, 3).accepted, 1);
    assert_eq!(night.mark(2, 8001), Mark::Deferred);
    assert_eq!(night.mark(1, 8002), Mark::Dr);
    assert_eq!(night.verdict(5, 8011), Verdict::Open);
    night.table
}

/// Breaks a sound table; exactly the named parts must notice.
fn broken(names: &[&str], change: impl Fn(&mut Table)) {
    let mut table = some_table();
    assert!(sound(&table));
    change(&mut table);
    assert!(!sound(&table), "{names:?} still sound");
    for (name, part) in PARTS {
        assert_eq!(part(&table), !names.contains(&name), "{name}, when {names:?} is broken");
    }
}

#[test]
fn the_site_count() {
    for count in [0, 8, 255] {
        let mut table = some_table();
        table.count = count;
        assert!(!sound(&table));
        assert!(!count_fits(&table));
    }
}

#[test]
fn unused_sites_are_blank() {
    broken(&["blank"], |t| t.sites[5].up = true);
    broken(&["blank"], |t| t.sites[6].last = 1);
    broken(&["blank"], |t| t.sites[6].values[3] = 1);
    broken(&["blank", "last"], |t| t.sites[6].stamps[3] = 80_009);
}

#[test]
fn unused_places_are_blank() {
    broken(&["blank"], |t| t.requests[9].stamp = 1);
    broken(&["blank"], |t| t.requests[9].update = 1);
    broken(&["blank"], |t| t.requests[9].stamps[23] = 1);
    broken(&["blank"], |t| t.requests[15].values[0] = -1);
    broken(&["blank", "own vote"], |t| t.sites[0].marks[9] = Mark::Ok);
    broken(&["blank", "voters", "unheard"], |t| t.sites[0].oks[9] = 1);
    broken(&["blank", "backed"], |t| t.sites[0].verdicts[9] = Verdict::Rejected);
    broken(&["blank"], |t| t.messages[50].oks = 1);
    broken(&["blank"], |t| t.messages[63].from = 1);
    broken(&["blank"], |t| t.sites[1].queue.places[15] = 1);
}

#[test]
fn used_requests_pass_the_checks() {
    broken(&["requests"], |t| t.requests[0].update = 0);
    broken(&["requests"], |t| t.requests[0].update = 2);
    broken(&["requests"], |t| t.requests[0].base |= 1 << 24);
    broken(&["requests"], |t| t.requests[0].stamps[0] = 8006);
    broken(&["requests"], |t| t.requests[0].values[0] = 8_640_001);
    broken(&["requests"], |t| t.requests[0].stamp = 0);
    broken(&["requests"], |t| t.requests[0].stamp = t.requests[1].stamp);
    broken(&["requests"], |t| t.requests[0].stamp = 1);
    broken(&["requests", "last"], |t| t.requests[0].stamp = 8006);
}

/// Numbers outside the sets are not looked at.
#[test]
fn other_numbers_are_not_looked_at() {
    let mut table = some_table();
    table.requests[0].stamps[9] = u64::MAX;
    table.requests[0].values[9] = i32::MIN;
    assert!(sound(&table));
}

#[test]
fn no_t_is_above_its_sites_last() {
    broken(&["last"], |t| t.sites[0].last = 999);
    broken(&["last"], |t| t.sites[2].last = 1000);
    broken(&["last"], |t| t.sites[0].stamps[7] = 8 * 1002 + 3);
    // A base stamp may be one that nobody issued.
    let mut table = some_table();
    table.requests[0].stamps[0] = 8 * 5000 + 3;
    assert!(sound(&table));
}

#[test]
fn copies_are_well_formed() {
    broken(&["copies"], |t| t.sites[0].values[7] = 1);
    broken(&["copies"], |t| (t.sites[0].stamps[7], t.sites[0].values[7]) = (9, 8_640_001));
    broken(&["copies"], |t| t.sites[0].stamps[7] = 1);
    broken(&["copies", "last"], |t| t.sites[0].stamps[7] = 8006);
}

#[test]
fn queues_hold_the_deferred_requests() {
    broken(&["queues"], |t| t.sites[1].queue.length = 0);
    broken(&["queues"], |t| t.sites[1].queue.length = 2);
    broken(&["queues"], |t| t.sites[1].queue.length = 17);
    broken(&["queues"], |t| t.sites[1].queue.places[0] = 1);
    broken(&["queues"], |t| t.sites[1].queue.places[0] = 16);
    broken(&["queues", "unheard"], |t| t.sites[1].marks[0] = Mark::None);
    broken(&["queues"], |t| (t.sites[4].queue.length, t.sites[4].queue.places[0]) = (1, 1));
}

#[test]
fn messages_name_a_request_and_two_sites() {
    let open = Message { request: 0, from: 1, to: 2, ..Message::default() };
    let held = |t: &mut Table, message: Message| {
        t.held |= 1 << 63;
        t.messages[63] = message;
    };
    broken(&["messages"], |t| held(t, Message { request: 3, ..open }));
    broken(&["messages"], |t| held(t, Message { request: 16, ..open }));
    broken(&["messages"], |t| held(t, Message { from: 0, ..open }));
    broken(&["messages"], |t| held(t, Message { to: 6, ..open }));
    broken(&["messages"], |t| held(t, Message { to: 1, ..open }));
}

#[test]
fn voters_have_that_mark() {
    broken(&["voters"], |t| t.sites[1].oks[0] |= 2);
    broken(&["voters"], |t| t.sites[0].others[0] |= 4);
    broken(&["voters"], |t| t.sites[0].oks[1] |= 1);
    broken(&["voters"], |t| t.messages[0].others = 1);
    broken(&["voters"], |t| t.messages[0].oks |= 128);
    broken(&["voters"], |t| t.sites[2].oks[2] |= 128);
    // A verdict and voters at once are sound if both are backed.
    let mut table = some_table();
    assert_eq!(table.messages[4].verdict, Verdict::Accepted);
    table.messages[4].oks = 4;
    assert!(sound(&table));
}

#[test]
fn voting_sites_know_their_own_vote() {
    broken(&["own vote"], |t| t.sites[0].oks[0] = 0);
    broken(&["own vote"], |t| t.sites[0].others[1] = 0);
}

#[test]
fn verdicts_are_backed() {
    broken(&["backed"], |t| t.sites[0].verdicts[0] = Verdict::Accepted);
    broken(&["backed"], |t| t.sites[0].verdicts[0] = Verdict::Rejected);
    broken(&["backed"], |t| t.messages[0].verdict = Verdict::Accepted);
    broken(&["backed"], |t| t.messages[4].verdict = Verdict::Rejected);
}

#[test]
fn a_verdict_and_a_deferred_mark() {
    broken(&["verdict deferred"], |t| {
        t.sites[0].marks[2] = Mark::Deferred;
        t.sites[0].verdicts[2] = Verdict::Accepted;
        t.sites[0].queue.places[0] = 2;
        t.sites[0].queue.length = 1;
    });
}

#[test]
fn an_open_one_knows_too_few() {
    broken(&["too few"], |t| t.sites[4].oks[2] = t.sites[3].oks[2]);
}

#[test]
fn an_unheard_one_knows_nobody() {
    broken(&["unheard"], |t| t.sites[2].oks[0] = 1);
}

#[test]
fn a_blank_request_is_the_default() {
    assert_eq!(Request::default().stamp, 0);
    assert_eq!(
        Message::default(),
        Message { request: 0, from: 0, to: 0, verdict: Verdict::Open, oks: 0, others: 0 }
    );
}
