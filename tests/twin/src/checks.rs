//! The twin's own checks beside a run: sound after each step, nothing changed by a refusal or by
//! a message delivered again, the smallest number that applies, the counts of verdicts, demand 3.

use crate::applies::applying;
use crate::demand::Recorder;
use crate::numbers::{Number, DONE};
use crate::sound::sound;
use crate::table::{Answer, Outcome, Request, Step, Table, Verdict};
use crate::tally::{Event, Tally};
use crate::watch::{Turn, Watch, Way};

/// Watches one stream; the tally goes on from stream to stream.
pub struct Checker<'a> {
    tally: &'a mut Tally,
    recorder: Recorder,
    before: Box<Table>,
    applying: u32,
    accepted: u8,
    rejected: u8,
    rej_voted: bool,
    fault: Option<String>,
    steps: u64,
}

impl<'a> Checker<'a> {
    pub fn new(tally: &'a mut Tally) -> Checker<'a> {
        tally.start_stream();
        Checker {
            tally,
            recorder: Recorder::default(),
            before: Box::default(),
            applying: 0,
            accepted: 0,
            rejected: 0,
            rej_voted: false,
            fault: None,
            steps: 0,
        }
    }

    pub fn fault(&self) -> Option<&str> {
        self.fault.as_deref().or(self.recorder.fault())
    }

    pub fn steps(&self) -> u64 {
        self.steps
    }

    fn expect(&mut self, holds: bool, fault: &str, answer: &Answer) {
        if holds {
            return;
        }
        let step = self.steps;
        self.fault.get_or_insert_with(|| format!("step {step}: {fault}, answer {answer:?}"));
    }
}

impl Watch for Checker<'_> {
    fn before(&mut self, table: &Table, step: &Step) {
        (*self.before).clone_from(table);
        self.applying = applying(table, step);
        self.tally.applying(step, self.applying);
        (self.accepted, self.rejected, self.rej_voted) = (0, 0, false);
        self.steps += 1;
    }

    fn after(&mut self, table: &Table, step: &Step, answer: &Answer) {
        let again = matches!(*step, Step::Deliver { place } if self.tally.was_delivered(usize::from(place)));
        self.expect(!again || *table == *self.before, "delivered again and changed", answer);
        self.tally.answered(&self.before, step, answer);
        self.recorder.compare(table);
        self.expect(sound(table), "not sound", answer);
        let refused = answer.number != DONE;
        let smallest = if self.applying == 0 { DONE } else { self.applying.trailing_zeros() as Number };
        self.expect(answer.number == smallest, "not the smallest number that applies", answer);
        self.expect(!refused || *table == *self.before, "refused and changed", answer);
        self.expect(!refused || *answer == Answer::refused(answer.number), "no zeros beside", answer);
        let counts = (answer.accepted, answer.rejected) == (self.accepted, self.rejected);
        self.expect(counts, "wrong counts of verdicts", answer);
        if self.rej_voted && self.accepted + self.rejected == 0 {
            self.tally.event(Event::OpenAfterRej);
        }
    }

    fn unread(&mut self, number: Number) {
        self.tally.number(number);
    }

    fn begun(&mut self, request: &Request) {
        self.recorder.begun(request);
    }

    fn considered(&mut self, _site: usize, _request: &Request, outcome: Outcome, turn: Turn) {
        self.tally.considered(outcome, turn);
        self.rej_voted |= outcome == Outcome::Rej;
    }

    fn resolved(&mut self, site: usize, request: &Request, verdict: Verdict, way: Way) {
        self.tally.resolved(verdict, way);
        self.recorder.resolved(site, request.stamp, verdict);
        match verdict {
            Verdict::Accepted => self.accepted += 1,
            _ => self.rejected += 1,
        }
    }

    fn left_queue(&mut self, _site: usize, _request: &Request) {
        self.tally.event(Event::LeftQueue);
    }

    fn not_written(&mut self, _site: usize, _request: &Request, _item: usize) {
        self.tally.event(Event::NotWritten);
    }

    fn restarted(&mut self, _site: usize, position: usize) {
        self.tally.restarted(position);
    }
}
