//! Someone who watches a table at work. Every call does nothing unless it is wanted;
//! watching with `()` costs nothing.

use crate::numbers::Number;
use crate::table::{Answer, Outcome, Request, Step, Table, Verdict};

/// When a request is considered.
#[derive(Clone, Copy, Debug, PartialEq, Eq)]
pub enum Turn {
    /// At begin, or when the site first hears of it.
    First,
    /// In a walk, at this position of the queue.
    Walk(usize),
}

/// How a site came to a verdict.
#[derive(Clone, Copy, Debug, PartialEq, Eq)]
pub enum Way {
    /// Its own vote, outside a walk.
    Vote,
    /// Voters joined from a message.
    Joined,
    /// A verdict taken over from a message.
    TakenOver,
    /// Its own vote inside a walk.
    Walk,
}

pub trait Watch {
    fn before(&mut self, _table: &Table, _step: &Step) {}
    fn after(&mut self, _table: &Table, _step: &Step, _answer: &Answer) {}
    /// A record that the reader refused.
    fn unread(&mut self, _number: Number) {}
    fn begun(&mut self, _request: &Request) {}
    fn considered(&mut self, _site: usize, _request: &Request, _outcome: Outcome, _turn: Turn) {}
    fn resolved(&mut self, _site: usize, _request: &Request, _verdict: Verdict, _way: Way) {}
    /// A deferred request left the queue because its verdict came from outside.
    fn left_queue(&mut self, _site: usize, _request: &Request) {}
    /// An accepted update was not written: the copy's stamp is not smaller.
    fn not_written(&mut self, _site: usize, _request: &Request, _item: usize) {}
    /// A walk starts again from the front; it had come to this position.
    fn restarted(&mut self, _site: usize, _position: usize) {}
}

impl Watch for () {}
