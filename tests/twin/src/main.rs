//! `twin bench`: the bench program. `twin site-files`: the same, and each site's file at the end.
//! `twin site-show FILE`: the readings of one site file.

use std::fs::{self, File};
use std::io::{self, Read, Write};
use std::process::ExitCode;

use twin::bench;
use twin::sitefile::{self, Readings, LONGEST_FILE};
use twin::table::Table;

const USAGE: &str = "usage: twin bench | twin site-files | twin site-show FILE";

fn main() -> ExitCode {
    let words: Vec<String> = std::env::args().skip(1).collect();
    let words: Vec<&str> = words.iter().map(String::as_str).collect();
    let done = match words[..] {
        ["bench"] => run_bench().map(|_| ()),
        ["site-files"] => site_files(),
        ["site-show", file] => site_show(file),
        _ => {
            eprintln!("{USAGE}");
            return ExitCode::from(2);
        }
    };
    match done {
        Ok(()) => ExitCode::SUCCESS,
        Err(error) => {
            eprintln!("twin: {error}");
            ExitCode::FAILURE
        }
    }
}

fn run_bench() -> io::Result<Box<Table>> {
    bench::run(io::stdin().lock(), io::stdout().lock(), &mut ())
}

fn site_files() -> io::Result<()> {
    let table = run_bench()?;
    for (site, digit) in table.sites_of_table().iter().zip(1..) {
        let file = sitefile::to_bytes(&Readings::of(digit, site))
            .map_err(|number| io::Error::other(format!("site {digit}: refused {number}")))?;
        fs::write(format!("site{digit}.six"), file)?;
    }
    Ok(())
}

/// One byte more than the longest file is enough to refuse a longer one.
fn site_show(name: &str) -> io::Result<()> {
    let mut bytes = Vec::new();
    File::open(name)?.take(LONGEST_FILE as u64 + 1).read_to_end(&mut bytes)?;
    io::stdout().write_all(sitefile::show(&bytes).as_bytes())
}
