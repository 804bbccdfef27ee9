//! Runs generated streams through the twin with all its checks, and through another program if one
//! is named, and compares what they print byte for byte. Ends with a table of what occurred.

use std::fs;
use std::io::{self, Write};
use std::path::{Path, PathBuf};
use std::process::ExitCode;
use std::time::{Duration, Instant};

use twin::bench;
use twin::checks::Checker;
use twin::numbers::{NOT_A_SITE_FILE, NOT_WRITTEN};
use twin::program::{Printed, Program};
use twin::rng::Rng;
use twin::sitefile::{self, Readings};
use twin::streams::{make, site_file, some_readings, Kind, FILE_KINDS, USUAL_RECORDS};
use twin::table::{Table, ITEMS};
use twin::tally::{Row, Tally};

const USAGE: &str = "usage: compare [--bench PROGRAM] [--site-files PROGRAM] [--site-show PROGRAM]
               [--seconds N | --rounds N] [--seed S]
A round is one stream of each kind and one site file of each kind. PROGRAM may have words
behind it, as in --bench 'path/twin bench'.";

/// Every so many rounds the streams are this much longer.
const LONG_EVERY: u64 = 100;
const LONGER: usize = 60;

/// The comparison ends at this many faults.
const FAULTS: u64 = 5;

fn main() -> ExitCode {
    let words: Vec<String> = std::env::args().skip(1).collect();
    let options = match Options::read(&words) {
        Ok(options) => options,
        Err(error) => {
            eprintln!("compare: {error}\n{USAGE}");
            return ExitCode::from(2);
        }
    };
    let folder = std::env::temp_dir().join(format!("twin-compare-{}", std::process::id()));
    let result = fs::create_dir_all(&folder).and_then(|()| Comparison::new(options, folder.clone()).run());
    let removed = fs::remove_dir_all(&folder);
    match result.and_then(|fine| removed.map(|()| fine)) {
        Ok(true) => ExitCode::SUCCESS,
        Ok(false) => ExitCode::FAILURE,
        Err(error) => {
            eprintln!("compare: {error}");
            ExitCode::FAILURE
        }
    }
}

struct Options {
    bench: Option<Program>,
    site_files: Option<Program>,
    site_show: Option<Program>,
    limit: Limit,
    seed: u64,
}

enum Limit {
    Time(Duration),
    Rounds(u64),
}

impl Options {
    fn read(words: &[String]) -> io::Result<Options> {
        let mut options = Options {
            bench: None,
            site_files: None,
            site_show: None,
            limit: Limit::Time(Duration::from_secs(20)),
            seed: 1,
        };
        for pair in words.chunks(2) {
            let [name, value] = pair else {
                return Err(io::Error::other(format!("nothing behind {}", pair[0])));
            };
            match name.as_str() {
                "--bench" => options.bench = Some(Program::new(value)?),
                "--site-files" => options.site_files = Some(Program::new(value)?),
                "--site-show" => options.site_show = Some(Program::new(value)?),
                "--seconds" => options.limit = Limit::Time(Duration::from_secs(whole(value)?)),
                "--rounds" => options.limit = Limit::Rounds(whole(value)?),
                "--seed" => options.seed = whole(value)?,
                _ => return Err(io::Error::other(format!("unknown: {name}"))),
            }
        }
        Ok(options)
    }
}

fn whole(value: &str) -> io::Result<u64> {
    value.parse().map_err(|_| io::Error::other(format!("not a whole number: {value}")))
}

struct Comparison {
    options: Options,
    folder: PathBuf,
    tally: Tally,
    start: Instant,
    steps: u64,
    records: u64,
    runs_of_program: u64,
    faults: u64,
    kinds: [u64; Kind::ALL.len()],
    site_counts: [u64; 8],
    bad_counts: u64,
    empty: u64,
    files: [u64; FILE_KINDS.len()],
    file_numbers: [u64; 20],
}

/// What the twin makes of one stream.
struct Wanted {
    lines: Vec<u8>,
    table: Box<Table>,
}

impl Comparison {
    fn new(options: Options, folder: PathBuf) -> Comparison {
        Comparison {
            options,
            folder,
            tally: Tally::default(),
            start: Instant::now(),
            steps: 0,
            records: 0,
            runs_of_program: 0,
            faults: 0,
            kinds: [0; Kind::ALL.len()],
            site_counts: [0; 8],
            bad_counts: 0,
            empty: 0,
            files: [0; FILE_KINDS.len()],
            file_numbers: [0; 20],
        }
    }

    /// True if there was no fault and nothing is missing.
    fn run(mut self) -> io::Result<bool> {
        let mut round = 0;
        while self.goes_on(round) {
            self.round(round)?;
            round += 1;
        }
        let missing = self.print(round);
        Ok(self.faults == 0 && missing == 0)
    }

    fn goes_on(&self, round: u64) -> bool {
        let time_left = match self.options.limit {
            Limit::Time(limit) => self.start.elapsed() < limit,
            Limit::Rounds(rounds) => round < rounds,
        };
        time_left && self.faults < FAULTS
    }

    fn round(&mut self, round: u64) -> io::Result<()> {
        let seed = self.options.seed.wrapping_add(round);
        let is_long = round % LONG_EVERY == LONG_EVERY - 1;
        let records = if is_long { LONGER * USUAL_RECORDS } else { USUAL_RECORDS };
        for kind in Kind::ALL {
            self.stream(kind, seed, records)?;
        }
        for kind in 0..FILE_KINDS.len() {
            self.site_file(kind, seed)?;
        }
        self.writer(seed);
        Ok(())
    }

    fn stream(&mut self, kind: Kind, seed: u64, records: usize) -> io::Result<()> {
        let stream = make(kind, seed, records);
        self.count(kind, &stream);
        let wanted = self.twin(kind, seed, &stream)?;
        if let Some(bench) = self.options.bench.clone() {
            let printed = bench.run(&self.folder, &[], &stream)?;
            self.runs_of_program += 1;
            self.same_lines(kind, seed, &stream, &wanted, &printed)?;
        }
        if let Some(program) = self.options.site_files.clone() {
            self.same_site_files(&program, kind, seed, &stream, &wanted)?;
        }
        Ok(())
    }

    fn count(&mut self, kind: Kind, stream: &[u8]) {
        self.kinds[kind as usize] += 1;
        match stream.first() {
            None => self.empty += 1,
            Some(&count @ 1..=7) => self.site_counts[usize::from(count)] += 1,
            Some(_) => self.bad_counts += 1,
        }
    }

    /// The twin's own run, with its checks.
    fn twin(&mut self, kind: Kind, seed: u64, stream: &[u8]) -> io::Result<Wanted> {
        let mut lines = Vec::new();
        let mut checker = Checker::new(&mut self.tally);
        let table = bench::run(stream, &mut lines, &mut checker)?;
        self.steps += checker.steps();
        let fault = checker.fault().map(String::from);
        self.records += lines.iter().filter(|&&byte| byte == b'\n').count() as u64;
        if let Some(fault) = fault {
            self.fault(kind, seed, stream, &format!("the twin's own check: {fault}"))?;
        }
        Ok(Wanted { lines, table })
    }

    fn same_lines(
        &mut self,
        kind: Kind,
        seed: u64,
        stream: &[u8],
        wanted: &Wanted,
        printed: &Printed,
    ) -> io::Result<()> {
        if printed.output != wanted.lines {
            return self.fault(kind, seed, stream, &first_difference(&wanted.lines, &printed.output));
        }
        if !printed.success {
            return self.fault(kind, seed, stream, "the program printed the right lines but failed");
        }
        Ok(())
    }

    fn same_site_files(
        &mut self,
        program: &Program,
        kind: Kind,
        seed: u64,
        stream: &[u8],
        wanted: &Wanted,
    ) -> io::Result<()> {
        let folder = self.folder.join("sites");
        fs::create_dir_all(&folder)?;
        let printed = program.run(&folder, &[], stream)?;
        self.runs_of_program += 1;
        self.same_lines(kind, seed, stream, wanted, &printed)?;
        for digit in 1..=7 {
            let found = fs::read(folder.join(format!("site{digit}.six"))).ok();
            if found != file_of(&wanted.table, digit) {
                self.fault(kind, seed, stream, &format!("site{digit}.six differs"))?;
            }
        }
        fs::remove_dir_all(folder)
    }

    /// The reader on one file: what the twin reads, it writes back the same; and the other program.
    fn site_file(&mut self, kind: usize, seed: u64) -> io::Result<()> {
        let file = site_file(kind, seed);
        self.files[kind] += 1;
        match sitefile::read(&file) {
            Ok(readings) => {
                self.expect_file(sitefile::to_bytes(&readings).as_ref() == Ok(&file), kind, seed, &file)?
            }
            Err(number) => {
                self.file_numbers[usize::from(number)] += 1;
                self.expect_file(number == NOT_A_SITE_FILE, kind, seed, &file)?;
            }
        }
        let Some(program) = self.options.site_show.clone() else {
            return Ok(());
        };
        fs::write(self.folder.join("shown.six"), &file)?;
        let printed = program.run(&self.folder, &["shown.six"], &[])?;
        self.runs_of_program += 1;
        self.expect_file(printed.output == sitefile::show(&file).into_bytes(), kind, seed, &file)
    }

    fn expect_file(&mut self, holds: bool, kind: usize, seed: u64, file: &[u8]) -> io::Result<()> {
        if holds {
            return Ok(());
        }
        self.faults += 1;
        let path = save(&format!("twin-file-{kind}-{seed}.six"), file)?;
        say(&format!("FAULT site file ({}), seed {seed}: saved as {}", FILE_KINDS[kind], path.display()));
        Ok(())
    }

    /// The writer on some readings, allowed or not, and on buffers long and short.
    fn writer(&mut self, seed: u64) {
        let mut rng = Rng::new(seed);
        let count = rng.below(ITEMS + 1);
        let mut readings = some_readings(&mut rng, count);
        if rng.chance(50) {
            spoil_readings(&mut rng, &mut readings);
        }
        let size = rng.below(260);
        let mut buffer = vec![165; size];
        let written = sitefile::write(&mut buffer, &readings);
        let untouched = match written {
            Ok(length) => length..size,
            Err(_) => 0..size,
        };
        let mut fine = buffer[untouched].iter().all(|&byte| byte == 165);
        match written {
            Ok(length) => fine &= sitefile::read(&buffer[..length]) == Ok(readings),
            Err(number) => {
                fine &= number == NOT_WRITTEN;
                self.file_numbers[usize::from(number)] += 1;
            }
        }
        if !fine {
            self.faults += 1;
            say(&format!("FAULT site file writer, seed {seed}"));
        }
    }

    fn fault(&mut self, kind: Kind, seed: u64, stream: &[u8], what: &str) -> io::Result<()> {
        self.faults += 1;
        let path = save(&format!("twin-{}-{seed}.bin", kind.name()), stream)?;
        say(&format!(
            "FAULT kind {}, seed {seed}: {what}\n  stream saved as {}",
            kind.name(),
            path.display()
        ));
        Ok(())
    }

    /// Prints the table and gives the number of rows that are missing.
    fn print(&self, rounds: u64) -> usize {
        let seconds = self.start.elapsed().as_secs_f64();
        let (seed, last) = (self.options.seed, self.options.seed.wrapping_add(rounds));
        say(&format!("rounds {rounds} (seeds {seed} to below {last}), {seconds:.1} s"));
        say(&format!(
            "records {}, steps {}, runs of the other program {}",
            self.records, self.steps, self.runs_of_program
        ));
        let rows = self.rows();
        for row in &rows {
            say(&format!("{:>12}  {}", row.count, row.name));
        }
        let missing: Vec<&Row> = rows.iter().filter(|row| row.is_missing()).collect();
        for row in &missing {
            say(&format!("NEVER OCCURRED: {}", row.name));
        }
        say(&format!("faults {}, rows that never occurred {}", self.faults, missing.len()));
        missing.len()
    }

    fn rows(&self) -> Vec<Row> {
        let mut rows = Vec::new();
        for (kind, count) in Kind::ALL.iter().zip(self.kinds) {
            rows.push(Row::new(format!("streams of kind {}", kind.name()), count));
        }
        for (sites, &count) in self.site_counts.iter().enumerate().skip(1) {
            rows.push(Row::new(format!("streams with site count {sites}"), count));
        }
        rows.push(Row::new("streams with a bad site count", self.bad_counts));
        rows.push(Row::new("empty streams", self.empty));
        rows.extend(self.tally.rows());
        for (name, count) in FILE_KINDS.iter().zip(self.files) {
            rows.push(Row::new(format!("site files: {name}"), count));
        }
        for number in [NOT_A_SITE_FILE, NOT_WRITTEN] {
            rows.push(Row::new(
                format!("number {number} (site file)"),
                self.file_numbers[usize::from(number)],
            ));
        }
        rows
    }
}

/// The site file that belongs to a site of the table; none for a site it does not have.
fn file_of(table: &Table, digit: u8) -> Option<Vec<u8>> {
    let site = table.sites_of_table().get(usize::from(digit) - 1)?;
    sitefile::to_bytes(&Readings::of(digit, site)).ok()
}

fn spoil_readings(rng: &mut Rng, readings: &mut Readings) {
    let item = rng.below(ITEMS);
    match rng.below(4) {
        0 => readings.site = rng.pick(&[0, 8, 255]),
        1 => readings.values[item] = rng.pick(&[8_640_001, -8_640_001, i32::MIN]),
        2 => readings.stamps[item] = rng.pick(&[1, 8, 34_359_738_369, u64::MAX]),
        _ => (readings.stamps[item], readings.values[item]) = (0, 1),
    }
}

/// A line for the reader; that nobody reads it is no fault.
fn say(line: &str) {
    let _ = writeln!(io::stdout(), "{line}");
}

fn save(name: &str, bytes: &[u8]) -> io::Result<PathBuf> {
    let path = std::env::temp_dir().join(Path::new(name));
    fs::write(&path, bytes)?;
    Ok(path)
}

/// The first line in which two outputs differ.
fn first_difference(wanted: &[u8], found: &[u8]) -> String {
    let mut wanted_lines = wanted.split_inclusive(|&byte| byte == b'\n');
    let mut found_lines = found.split_inclusive(|&byte| byte == b'\n');
    let mut line = 1;
    loop {
        let (a, b) = (wanted_lines.next(), found_lines.next());
        if a != b || a.is_none() {
            return format!("line {line}: wanted {}, found {}", quoted(a), quoted(b));
        }
        line += 1;
    }
}

fn quoted(line: Option<&[u8]>) -> String {
    match line {
        Some(line) => format!("{:?}", String::from_utf8_lossy(line)),
        None => String::from("no line"),
    }
}
