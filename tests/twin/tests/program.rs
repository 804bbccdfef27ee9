//! The bench program: beginnings, ends, lengths, and input that comes in pieces.

use std::io::{self, Read};

use twin::bench::run;
use twin::streams::{make, put_record, put_step, Kind};
use twin::table::Step;

fn printed(input: &[u8]) -> String {
    let mut lines = Vec::new();
    run(input, &mut lines, &mut ()).unwrap();
    String::from_utf8(lines).unwrap()
}

#[test]
fn beginnings() {
    assert_eq!(printed(&[]), "0 17 0 0 0 0\n");
    for count in [0, 8, 9, 255] {
        assert_eq!(printed(&[count]), "0 3 0 0 0 0\n");
        assert_eq!(printed(&[count, 5, 1, 0, 1]), "0 3 0 0 0 0\n");
    }
    for count in 1..=7 {
        assert_eq!(printed(&[count]), "");
    }
}

#[test]
fn ends() {
    assert_eq!(printed(&[1, 5]), "1 17 0 0 0 0\n");
    assert_eq!(printed(&[1, 5, 1]), "1 17 0 0 0 0\n");
    assert_eq!(printed(&[1, 5, 1, 0]), "1 17 0 0 0 0\n");
    assert_eq!(printed(&[1, 5, 1, 0, 1]), "1 0 0 0 0 0\n");
    assert_eq!(printed(&[1, 5, 1, 0, 1, 9]), "1 0 0 0 0 0\n2 17 0 0 0 0\n");
    assert_eq!(printed(&[1, 200, 2, 0, 1]), "1 17 0 0 0 0\n");
}

#[test]
fn wrong_lengths_and_unknown_codes_go_on() {
    let input = [1, 5, 0, 0, 5, 2, 0, 1, 1, 0, 0, 0, 9, 1, 0, 7, 255, 3, 0, 1, 2, 3, 5, 1, 0, 1];
    let wanted = "1 17 0 0 0 0\n2 17 0 0 0 0\n3 2 0 0 0 0\n4 2 0 0 0 0\n5 2 0 0 0 0\n6 0 0 0 0 0\n";
    assert_eq!(printed(&input), wanted);
}

#[test]
fn the_longest_bodies() {
    let mut input = vec![2];
    put_record(&mut input, 0, &[7; 65_535]);
    put_record(&mut input, 3, &[7; 65_535]);
    put_record(&mut input, 255, &[7; 65_535]);
    put_step(&mut input, &Step::Down { site: 2 });
    assert_eq!(printed(&input), "1 2 0 0 0 0\n2 17 0 0 0 0\n3 2 0 0 0 0\n4 0 0 0 0 0\n");
    input.truncate(1 + 65_538 + 65_537);
    assert_eq!(printed(&input), "1 2 0 0 0 0\n2 17 0 0 0 0\n");
}

/// Gives its bytes in small pieces, with an interruption between them.
struct Pieces<'a> {
    rest: &'a [u8],
    size: usize,
    interrupt: bool,
}

impl Read for Pieces<'_> {
    fn read(&mut self, buffer: &mut [u8]) -> io::Result<usize> {
        self.interrupt = !self.interrupt;
        if self.interrupt {
            return Err(io::ErrorKind::Interrupted.into());
        }
        let size = self.size.min(self.rest.len()).min(buffer.len());
        buffer[..size].copy_from_slice(&self.rest[..size]);
        self.rest = &self.rest[size..];
        Ok(size)
    }
}

#[test]
fn pieces_make_no_difference() {
    for kind in Kind::ALL {
        for seed in 0..20 {
            let stream = make(kind, seed, 200);
            let whole = printed(&stream);
            for size in [1, 2, 7, 4096] {
                let mut lines = Vec::new();
                run(Pieces { rest: &stream, size, interrupt: false }, &mut lines, &mut ()).unwrap();
                assert_eq!(String::from_utf8(lines).unwrap(), whole, "{kind:?}, seed {seed}");
            }
        }
    }
}

#[test]
fn more_than_the_buffers_hold() {
    let stream = make(Kind::Meaningful, 5, 40_000);
    assert!(stream.len() > 200_000);
    let lines = printed(&stream);
    assert_eq!(lines.lines().count(), 40_000);
    assert!(lines.lines().last().unwrap().starts_with("40000 "));
}
