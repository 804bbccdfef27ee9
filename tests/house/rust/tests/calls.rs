//! Calls every function of the library through its safe cover.
use vundrelt::*;

/// Document 01's worked example.
const WORKED: &[u8] = &[
    3, // sites
    1, 20, 0, 1, 0xe8, 3, 0, 0, 1, 0, 0, 1, 0, 0, 0, 0, 0, 0, 0, 0xa2, 0xfe, 0xff, 0xff, // begin
    1, 20, 0, 2, 0xe8, 3, 0, 0, 1, 0, 0, 1, 0, 0, 0, 0, 0, 0, 0, 0xd2, 0, 0, 0, // begin
    2, 7, 0, 1, 0x41, 0x1f, 0, 0, 0, 3, // tell
    3, 1, 0, 0, // deliver
    2, 7, 0, 2, 0x42, 0x1f, 0, 0, 0, 3, // tell
    3, 1, 0, 1, // deliver
    8, 2, 0, 3, 0, // read
];

const WORKED_LINES: &str = "1 0 8001 0 0 0
2 0 8002 1 0 0
3 0 0 0 0 0
4 0 0 0 1 0
5 0 1 0 0 0
6 0 0 0 0 0
7 0 -350 8001 0 0
";

const FILL: u8 = 0xa5;

/// A night whose lines are known: by itself, with room to spare, with just enough, and at every shorter length.
fn expect_night(input: &[u8], lines: &str) {
    let n = lines.len();
    assert_eq!(night_length(input), n);
    assert_eq!(night(input).unwrap(), lines.as_bytes());
    for room in [n, n + 1, n + 500] {
        let mut output = vec![FILL; room];
        assert_eq!(night_into(input, &mut output), Ok(n));
        assert_eq!(&output[..n], lines.as_bytes());
        assert!(output[n..].iter().all(|b| *b == FILL));
    }
    for room in (0..n).rev().take(200) {
        let mut output = vec![FILL; room];
        assert_eq!(night_into(input, &mut output), Err(19));
        assert!(output.iter().all(|b| *b == FILL));
    }
}

#[test]
fn worked_example() {
    expect_night(WORKED, WORKED_LINES);
}

#[test]
fn spoiled_nights() {
    expect_night(&[], "0 17 0 0 0 0\n");
    expect_night(&[0], "0 3 0 0 0 0\n");
    expect_night(&[8, 3, 1, 0, 0], "0 3 0 0 0 0\n");
    expect_night(&[1], "");
    expect_night(&[1, 3], "1 17 0 0 0 0\n");
    expect_night(
        &[1, 9, 2, 0, 5, 6, 3, 2, 0, 0, 0, 3, 1, 0, 0, 3, 1, 0],
        "1 2 0 0 0 0\n2 17 0 0 0 0\n3 13 0 0 0 0\n4 17 0 0 0 0\n",
    );
}

/// A cut after each byte of the worked example: the lines of the records before it, and 17.
#[test]
fn cut_anywhere() {
    let ends = [1, 24, 47, 57, 61, 71, 75, 80];
    for cut in 1..=WORKED.len() {
        let whole = ends.iter().filter(|end| **end <= cut).count() - 1;
        let mut lines: String = WORKED_LINES.split_inclusive('\n').take(whole).collect();
        if !ends.contains(&cut) {
            lines += &format!("{} 17 0 0 0 0\n", whole + 1);
        }
        expect_night(&WORKED[..cut], &lines);
    }
}

/// Many records: the lines of several runs, one behind the other.
#[test]
fn long_night() {
    let mut input = vec![7];
    let mut lines = String::new();
    for i in 0..3000 {
        input.extend([if i % 2 == 0 { 5 } else { 6 }, 1, 0, 1 + (i / 2 % 7) as u8]);
        lines += &format!("{} 0 0 0 0 0\n", i + 1);
    }
    assert_eq!(night(&input).unwrap(), lines.as_bytes());
    let mut short = vec![FILL; lines.len() - 1];
    assert_eq!(night_into(&input, &mut short), Err(19));
    assert!(short.iter().all(|b| *b == FILL));
}

fn some_readings() -> Readings {
    let mut r = Readings { site: 2, stamps: [0; ITEMS], values: [0; ITEMS] };
    for (item, stamp, value) in
        [(0, 8001, -350), (5, 8010, 0), (7, 9875, 42), (23, 34_359_738_361, -8_640_000)]
    {
        r.stamps[item] = stamp;
        r.values[item] = value;
    }
    r
}

#[test]
fn site_file_round_trip() {
    let blank = Readings { site: 7, stamps: [0; ITEMS], values: [0; ITEMS] };
    let full = Readings { site: 1, stamps: [8001; ITEMS], values: [8_640_000; ITEMS] };
    for (r, n) in [(some_readings(), 48), (blank, 8), (full, SITE_FILE_MOST)] {
        let file = write_site_file(&r).unwrap();
        assert_eq!(file.len(), n);
        assert_eq!(read_site_file(&file), Ok(r.clone()));

        let mut output = vec![FILL; n + 9];
        assert_eq!(write_site_file_into(&r, &mut output), Ok(n));
        assert_eq!(&output[..n], file);
        assert!(output[n..].iter().all(|b| *b == FILL));

        let mut short = vec![FILL; n - 1];
        assert_eq!(write_site_file_into(&r, &mut short), Err(19));
        assert!(short.iter().all(|b| *b == FILL));
        assert_eq!(write_site_file_into(&r, &mut []), Err(19));
    }
}

#[test]
fn damaged_site_file() {
    let file = write_site_file(&some_readings()).unwrap();
    for at in 0..file.len() {
        for bit in 0..8 {
            let mut damaged = file.clone();
            damaged[at] ^= 1 << bit;
            assert_eq!(read_site_file(&damaged), Err(18));
        }
        assert_eq!(read_site_file(&file[..at]), Err(18));
    }
    assert_eq!(read_site_file(&[&file[..], &[0]].concat()), Err(18));
    assert_eq!(read_site_file(&[]), Err(18));
}

#[test]
fn readings_not_allowed() {
    let refused = |change: fn(&mut Readings)| {
        let mut r = some_readings();
        change(&mut r);
        assert_eq!(write_site_file(&r), Err(19));
    };
    refused(|r| r.site = 0);
    refused(|r| r.site = 8);
    refused(|r| r.values[1] = 1);
    refused(|r| r.values[0] = 8_640_001);
    refused(|r| r.values[0] = -8_640_001);
    refused(|r| r.stamps[0] = 8000);
    refused(|r| r.stamps[0] = 7);
    refused(|r| r.stamps[0] = 34_359_738_369);
}
