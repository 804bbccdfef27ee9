//! Random streams with every check of the twin's own: sound after each step, refusals change
//! nothing, the smallest number that applies, demand 3 with the retired requests in it.

use twin::bench::run;
use twin::checks::Checker;
use twin::sitefile::{read, show, to_bytes};
use twin::streams::{make, site_file, Kind, FILE_KINDS};
use twin::tally::{Row, Tally};

#[test]
fn streams_of_every_kind() {
    let mut tally = Tally::default();
    for seed in 0..150 {
        for kind in Kind::ALL {
            check(&mut tally, kind, seed, 300);
        }
    }
    let missing: Vec<String> = tally.rows().into_iter().filter(Row::is_missing).map(|row| row.name).collect();
    assert_eq!(missing, Vec::<String>::new(), "never occurred");
}

#[test]
fn long_streams() {
    let mut tally = Tally::default();
    for seed in 1000..1006 {
        check(&mut tally, Kind::Meaningful, seed, 6000);
        check(&mut tally, Kind::Dense, seed, 6000);
    }
}

fn check(tally: &mut Tally, kind: Kind, seed: u64, records: usize) {
    let stream = make(kind, seed, records);
    let mut checker = Checker::new(tally);
    run(&stream[..], std::io::sink(), &mut checker).unwrap();
    assert_eq!(checker.fault(), None, "{kind:?}, seed {seed}");
}

#[test]
fn the_same_seed_makes_the_same_stream() {
    for kind in Kind::ALL {
        assert_eq!(make(kind, 77, 300), make(kind, 77, 300));
        assert!((0..20).any(|seed| make(kind, seed, 300) != make(kind, seed + 1, 300)));
    }
}

/// Kinds 0 to 2 are read, and written back the same; all others are refused.
#[test]
fn site_files_of_every_kind() {
    for seed in 0..200 {
        for (kind, name) in FILE_KINDS.iter().enumerate() {
            let file = site_file(kind, seed);
            assert_eq!(read(&file).is_ok(), kind < 3, "{name}, seed {seed}");
            match read(&file) {
                Ok(readings) => assert_eq!(to_bytes(&readings).as_ref(), Ok(&file)),
                Err(number) => assert_eq!(show(&file), format!("refused {number}\n")),
            }
        }
    }
}
