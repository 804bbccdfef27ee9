//! `streams KIND SEED [RECORDS]`: a record stream on standard output.
//! `streams site-file KIND-NUMBER SEED`: a site file. `streams kinds`: the kinds of both.

use std::io::{self, Write};
use std::process::ExitCode;

use twin::streams::{make, site_file, Kind, FILE_KINDS, USUAL_RECORDS};

const USAGE: &str = "usage: streams KIND SEED [RECORDS] | streams site-file NUMBER SEED | streams kinds";

fn main() -> ExitCode {
    let words: Vec<String> = std::env::args().skip(1).collect();
    let Some(bytes) = wanted(&words) else {
        eprintln!("{USAGE}");
        return ExitCode::from(2);
    };
    match io::stdout().write_all(&bytes) {
        Ok(()) => ExitCode::SUCCESS,
        Err(_) => ExitCode::FAILURE,
    }
}

fn wanted(words: &[String]) -> Option<Vec<u8>> {
    let words: Vec<&str> = words.iter().map(String::as_str).collect();
    match words[..] {
        ["kinds"] => Some(kinds().into_bytes()),
        ["site-file", kind, seed] => {
            let kind = kind.parse().ok().filter(|&kind| kind < FILE_KINDS.len())?;
            Some(site_file(kind, seed.parse().ok()?))
        }
        [kind, seed] => Some(make(Kind::named(kind)?, seed.parse().ok()?, USUAL_RECORDS)),
        [kind, seed, records] => Some(make(Kind::named(kind)?, seed.parse().ok()?, records.parse().ok()?)),
        _ => None,
    }
}

fn kinds() -> String {
    let streams = Kind::ALL.iter().map(|kind| format!("{}\n", kind.name()));
    let files = FILE_KINDS.iter().enumerate().map(|(number, name)| format!("site-file {number}: {name}\n"));
    streams.chain(files).collect()
}
