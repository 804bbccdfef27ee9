//! The bench cases of document 01.

mod common;

use common::{begin, fields, Night};
use twin::sitefile::{read, to_bytes, Readings};
use twin::stamp::LARGEST_T;
use twin::streams::put_step;
use twin::table::{majority, to_reject, Mark, Step, Verdict};

/// The seven lines.
#[test]
fn worked_example() {
    let steps = [
        Step::Begin(begin(1, 1000, &[(0, 0)], &[(0, -350)])),
        Step::Begin(begin(2, 1000, &[(0, 0)], &[(0, 210)])),
        Step::Tell { from: 1, stamp: 8001, to: 3 },
        Step::Deliver { place: 0 },
        Step::Tell { from: 2, stamp: 8002, to: 3 },
        Step::Deliver { place: 1 },
        Step::Read { site: 3, item: 0 },
    ];
    let mut input = vec![3];
    for step in &steps {
        put_step(&mut input, step);
    }
    let mut lines = Vec::new();
    twin::bench::run(&input[..], &mut lines, &mut ()).unwrap();
    let wanted = "1 0 8001 0 0 0\n2 0 8002 1 0 0\n3 0 0 0 0 0\n4 0 0 0 1 0\n5 0 1 0 0 0\n6 0 0 0 0 0\n7 0 -350 8001 0 0\n";
    assert_eq!(String::from_utf8(lines).unwrap(), wanted);
}

/// "n = 1, 2, 3, 4, 7: m = 1, 2, 2, 3, 4; to reject 1, 1, 2, 2, 4."
#[test]
fn case_1() {
    let counts = [1, 2, 3, 4, 7];
    assert_eq!(counts.map(majority), [1, 2, 2, 3, 4]);
    assert_eq!(counts.map(to_reject), [1, 1, 2, 2, 4]);
}

/// "Site 1, clock 1000 twice, base stamps 0: 8001, 8009."
#[test]
fn case_2() {
    let mut night = Night::new(3);
    assert_eq!(night.begin(1, 1000, &[(0, 0)], &[(0, 1)]).first, 8001);
    assert_eq!(night.begin(1, 1000, &[(0, 0)], &[(0, 1)]).first, 8009);
}

/// "Site 2 fresh, clock 990, base stamp 8001: 8010."
#[test]
fn case_3() {
    let mut night = Night::new(3);
    assert_eq!(night.begin(2, 990, &[(0, 8001)], &[(0, 1)]).first, 8010);
    assert_eq!(night.mark(2, 8010), Mark::Deferred);
}

/// "Site 1 fresh, clock 4,294,967,295: 34,359,738,361; its next begin: 8."
#[test]
fn case_4() {
    let mut night = Night::new(1);
    assert_eq!(night.begin(1, u32::MAX, &[(0, 0)], &[(0, 1)]).first, 34_359_738_361);
    assert_eq!(night.begin(1, 0, &[(1, 0)], &[(1, 1)]).number, 8);
    let mut night = Night::new(2);
    let largest = 8 * LARGEST_T + 1;
    assert_eq!(night.begin(2, 0, &[(0, largest)], &[(0, 1)]).number, 8);
    assert_eq!(night.begin(2, 0, &[(0, largest - 8)], &[(0, 1)]).first, 34_359_738_362);
}

/// "n = 3, pending 8001 on item 0 at site 1; 8002 on item 0 comes: DR."
#[test]
fn case_5() {
    let mut night = Night::new(3);
    night.begin(1, 1000, &[(0, 0)], &[(0, 1)]);
    night.begin(2, 1000, &[(0, 0)], &[(0, 2)]);
    assert_eq!(fields(&night.pass(2, 8002, 1)), (0, 0, 0, 0, 0));
    assert_eq!(night.mark(1, 8002), Mark::Dr);
    assert_eq!(night.verdict(1, 8002), Verdict::Open);
}

/// "The other way at site 2: 8001 is deferred."
#[test]
fn case_6() {
    let mut night = Night::new(3);
    night.begin(1, 1000, &[(0, 0)], &[(0, 1)]);
    night.begin(2, 1000, &[(0, 0)], &[(0, 2)]);
    night.pass(1, 8001, 2);
    assert_eq!(night.mark(2, 8001), Mark::Deferred);
    assert_eq!((night.site(2).queue.length, night.site(2).queue.places[0]), (1, 0));
}

/// "n = 1, stamps 0: base {0, 1} update {0}, then base and update {1}: both accepted.
/// In the other order the second is rejected."
#[test]
fn case_7() {
    let mut night = Night::new(1);
    assert_eq!(fields(&night.begin(1, 1000, &[(0, 0), (1, 0)], &[(0, 5)])), (0, 8001, 0, 1, 0));
    assert_eq!(fields(&night.begin(1, 1000, &[(1, 0)], &[(1, 6)])), (0, 8009, 1, 1, 0));
    let mut night = Night::new(1);
    assert_eq!(fields(&night.begin(1, 1000, &[(1, 0)], &[(1, 6)])), (0, 8001, 0, 1, 0));
    assert_eq!(fields(&night.begin(1, 1000, &[(0, 0), (1, 0)], &[(0, 5)])), (0, 8009, 1, 0, 1));
}

/// "n = 2: 8001 deferred at 2 behind 8002; 1 votes DR and rejects 8002; that verdict at 2 gives
/// accepted 1, rejected 1 in one step."
#[test]
fn case_8() {
    let mut night = Night::new(2);
    night.begin(1, 1000, &[(0, 0)], &[(0, 1)]);
    night.begin(2, 1000, &[(0, 0)], &[(0, 2)]);
    night.pass(1, 8001, 2);
    assert_eq!(night.mark(2, 8001), Mark::Deferred);
    assert_eq!(fields(&night.pass(2, 8002, 1)), (0, 0, 0, 0, 1));
    assert_eq!(night.mark(1, 8002), Mark::Dr);
    assert_eq!(fields(&night.pass(1, 8002, 2)), (0, 0, 0, 1, 1));
    assert_eq!(night.mark(2, 8001), Mark::Ok);
    assert_eq!(night.verdict(2, 8001), Verdict::Accepted);
}

/// "3 hears A accepted, then the first word of U: REJ, still open. Then U's verdict: accepted,
/// the copy stays A's."
#[test]
fn case_9() {
    let mut night = Night::new(3);
    let u = night.begin(1, 1000, &[(0, 0)], &[(0, 1)]).first as u64;
    let to_2 = night.tell(1, u, 2).first as u8;
    let to_3 = night.tell(1, u, 3).first as u8;
    assert_eq!(fields(&night.deliver(to_2)), (0, 0, 0, 1, 0));
    assert_eq!(fields(&night.pass(2, u, 1)), (0, 0, 0, 1, 0));
    let a = night.begin(2, 1000, &[(0, u)], &[(0, 2)]).first as u64;
    assert_eq!(fields(&night.pass(2, a, 1)), (0, 0, 0, 1, 0));
    assert_eq!(fields(&night.pass(1, a, 3)), (0, 0, 0, 1, 0));
    assert_eq!(fields(&night.deliver(to_3)), (0, 0, 0, 0, 0));
    assert_eq!((night.mark(3, u), night.verdict(3, u)), (Mark::Rej, Verdict::Open));
    assert_eq!(fields(&night.pass(1, u, 3)), (0, 0, 0, 1, 0));
    assert_eq!(night.verdict(3, u), Verdict::Accepted);
    assert_eq!((night.site(3).stamps[0], night.site(3).values[0]), (a, 2));
}

/// "Values 8,640,000 and -8,640,000 pass; one beyond: 7."
#[test]
fn case_10() {
    let mut night = Night::new(1);
    for (value, number) in [(8_640_000, 0), (-8_640_000, 0), (8_640_001, 7), (-8_640_001, 7)] {
        let stamp = night.site(1).stamps[0];
        assert_eq!(night.begin(1, 1000, &[(0, stamp)], &[(0, value)]).number, number, "{value}");
    }
}

/// "No entries: a file of 8 bytes. Seven bytes: 18."
#[test]
fn case_11() {
    let night = Night::new(1);
    let file = to_bytes(&Readings::of(1, night.site(1))).unwrap();
    assert_eq!(file.len(), 8);
    assert_eq!(read(&file[..7]), Err(18));
}
