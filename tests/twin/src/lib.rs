//! A second program of the vote table, written from document 01 and not from the first program.
//! The first program is compared with it byte for byte.

pub mod applies;
pub mod bench;
pub mod checks;
pub mod demand;
pub mod numbers;
pub mod program;
pub mod record;
pub mod rng;
pub mod sitefile;
pub mod sound;
pub mod stamp;
pub mod streams;
pub mod table;
pub mod tally;
pub mod watch;
