//! How often each thing occurred in the streams run so far, and what never did.

use crate::numbers::*;
use crate::table::{members, Answer, Message, Outcome, Step, Table, Verdict};
use crate::watch::{Turn, Way};

const STEPS: [&str; 8] = ["begin", "tell", "deliver", "drop", "down", "up", "retire", "read"];

const OUTCOMES: [(Outcome, &str); 5] = [
    (Outcome::Ok, "OK"),
    (Outcome::Dr, "DR"),
    (Outcome::Rej, "REJ"),
    (Outcome::DeferAhead, "deferral of the first kind"),
    (Outcome::DeferBehind, "deferral of the second kind"),
];

const WAYS: [(Way, &str); 4] = [
    (Way::Vote, "by its own vote"),
    (Way::Joined, "by voters joined"),
    (Way::TakenOver, "taken over"),
    (Way::Walk, "by its own vote in a walk"),
];

/// Things counted one by one.
#[derive(Clone, Copy, Debug, PartialEq, Eq)]
pub enum Event {
    Restart,
    RestartBack,
    RestartVote,
    LeftQueue,
    NotWritten,
    Again,
    VoterAgain,
    TooLate,
    OpenAfterRej,
    BothVerdicts,
    ThreeVerdicts,
    PlaceReused,
    MessageReused,
}

const EVENTS: [(Event, &str); 13] = [
    (Event::Restart, "verdict inside a walk (restart)"),
    (Event::RestartBack, "restart that goes back over deferred ones"),
    (Event::RestartVote, "restart after which one passed over votes"),
    (Event::LeftQueue, "deferred one resolved from outside, leaves its queue"),
    (Event::NotWritten, "accepted update not written, the copy is newer"),
    (Event::Again, "message delivered again"),
    (Event::VoterAgain, "voters joined, some known already"),
    (Event::TooLate, "delivered to a receiver that has a verdict"),
    (Event::OpenAfterRej, "REJ voted, request still open there"),
    (Event::BothVerdicts, "step that both accepted and rejected"),
    (Event::ThreeVerdicts, "step with three verdicts or more"),
    (Event::PlaceReused, "request place used again after retire"),
    (Event::MessageReused, "message place used again after drop"),
];

/// The pairs of numbers that can apply at once, with the code of their step.
const PAIRS: [(u8, Number, Number); 31] = [
    (1, 3, 5),
    (1, 3, 6),
    (1, 3, 7),
    (1, 3, 9),
    (1, 4, 5),
    (1, 4, 6),
    (1, 4, 7),
    (1, 4, 8),
    (1, 4, 9),
    (1, 5, 6),
    (1, 5, 7),
    (1, 5, 8),
    (1, 5, 9),
    (1, 6, 7),
    (1, 6, 8),
    (1, 6, 9),
    (1, 7, 8),
    (1, 7, 9),
    (1, 8, 9),
    (2, 3, 4),
    (2, 3, 10),
    (2, 3, 11),
    (2, 3, 12),
    (2, 4, 10),
    (2, 4, 11),
    (2, 4, 12),
    (2, 10, 11),
    (2, 10, 12),
    (2, 11, 12),
    (8, 3, 16),
    (8, 4, 16),
];

/// The numbers that no stream can bring: a table not sound, and the two of the site file.
const NOT_BY_STREAM: [Number; 3] = [NOT_SOUND, NOT_A_SITE_FILE, NOT_WRITTEN];

#[derive(Clone, Debug, Default)]
pub struct Tally {
    numbers: [u64; 20],
    steps_done: [u64; STEPS.len()],
    first_turns: [u64; OUTCOMES.len()],
    walk_turns: [u64; OUTCOMES.len()],
    accepted: [u64; WAYS.len()],
    rejected: [u64; WAYS.len()],
    events: [u64; EVENTS.len()],
    pairs: [u64; PAIRS.len()],
    stream: Stream,
}

/// What is remembered within one stream.
#[derive(Clone, Copy, Debug, Default)]
struct Stream {
    /// Message places delivered since they were filled, one bit a place.
    delivered: u64,
    dropped: u64,
    /// Request places freed by retire, one bit a place.
    retired: u16,
    /// How many at the front of the queue the walk had passed over before its last restart.
    passed_over: usize,
}

/// One line of the table: a name, how often, and whether it must occur.
pub struct Row {
    pub name: String,
    pub count: u64,
    pub must: bool,
}

impl Row {
    pub fn new(name: impl Into<String>, count: u64) -> Row {
        Row { name: name.into(), count, must: true }
    }

    pub fn is_missing(&self) -> bool {
        self.must && self.count == 0
    }
}

impl Tally {
    pub fn start_stream(&mut self) {
        self.stream = Stream::default();
    }

    pub fn number(&mut self, number: Number) {
        self.numbers[usize::from(number)] += 1;
    }

    pub fn considered(&mut self, outcome: Outcome, turn: Turn) {
        let which = OUTCOMES.iter().position(|(o, _)| *o == outcome).unwrap_or(0);
        let Turn::Walk(position) = turn else {
            self.first_turns[which] += 1;
            return;
        };
        self.walk_turns[which] += 1;
        if position < self.stream.passed_over && outcome.vote().is_some() {
            self.stream.passed_over -= 1;
            self.event(Event::RestartVote);
        }
    }

    pub fn resolved(&mut self, verdict: Verdict, way: Way) {
        let which = WAYS.iter().position(|(w, _)| *w == way).unwrap_or(0);
        match verdict {
            Verdict::Accepted => self.accepted[which] += 1,
            _ => self.rejected[which] += 1,
        }
    }

    pub fn restarted(&mut self, position: usize) {
        self.event(Event::Restart);
        self.stream.passed_over = position;
        if position > 0 {
            self.event(Event::RestartBack);
        }
    }

    pub fn event(&mut self, event: Event) {
        self.events[event as usize] += 1;
    }

    /// The numbers that apply to the step to come, one bit a number.
    pub fn applying(&mut self, step: &Step, applying: u32) {
        for (pair, seen) in PAIRS.iter().zip(&mut self.pairs) {
            let (code, a, b) = *pair;
            let both = 1 << a | 1 << b;
            *seen += u64::from(code == step.code() && applying & both == both);
        }
    }

    /// A step done or refused, with the table as it was before.
    pub fn answered(&mut self, before: &Table, step: &Step, answer: &Answer) {
        self.number(answer.number);
        self.stream.passed_over = 0;
        if answer.number != DONE {
            return;
        }
        self.steps_done[usize::from(step.code()) - 1] += 1;
        if answer.accepted > 0 && answer.rejected > 0 {
            self.event(Event::BothVerdicts);
        }
        if answer.accepted + answer.rejected >= 3 {
            self.event(Event::ThreeVerdicts);
        }
        match *step {
            Step::Begin(_) => self.begun(1 << answer.second),
            Step::Tell { .. } => self.told(1 << answer.first),
            Step::Deliver { place } => self.delivered(before, usize::from(place)),
            Step::Drop { place } => self.dropped(1 << place),
            Step::Retire { stamp } => self.retired(before, stamp),
            Step::Down { .. } | Step::Up { .. } | Step::Read { .. } => {}
        }
    }

    fn begun(&mut self, place: u16) {
        if self.stream.retired & place != 0 {
            self.event(Event::PlaceReused);
        }
        self.stream.retired &= !place;
    }

    fn told(&mut self, place: u64) {
        if self.stream.dropped & place != 0 {
            self.event(Event::MessageReused);
        }
        self.stream.dropped &= !place;
        self.stream.delivered &= !place;
    }

    fn dropped(&mut self, place: u64) {
        self.stream.dropped |= place;
    }

    fn retired(&mut self, before: &Table, stamp: u64) {
        for place in members(before.used) {
            if before.requests[place].stamp == stamp {
                self.stream.retired |= 1 << place;
            }
        }
    }

    fn delivered(&mut self, before: &Table, place: usize) {
        if self.was_delivered(place) {
            self.event(Event::Again);
        }
        self.stream.delivered |= 1 << place;
        self.heard(before, &before.messages[place]);
    }

    fn heard(&mut self, before: &Table, message: &Message) {
        let request = usize::from(message.request);
        let receiver = &before.sites[usize::from(message.to) - 1];
        if receiver.verdicts[request] != Verdict::Open {
            return self.event(Event::TooLate);
        }
        let known = receiver.oks[request] & message.oks | receiver.others[request] & message.others;
        if known != 0 {
            self.event(Event::VoterAgain);
        }
    }

    /// The message in this place has been delivered before.
    pub fn was_delivered(&self, place: usize) -> bool {
        place < 64 && self.stream.delivered >> place & 1 == 1
    }

    /// The whole table, group by group.
    pub fn rows(&self) -> Vec<Row> {
        let mut rows = Vec::new();
        for (number, &count) in self.numbers.iter().enumerate() {
            let mut row = Row::new(format!("number {number}"), count);
            row.must = !NOT_BY_STREAM.contains(&(number as Number));
            if row.must {
                rows.push(row);
            }
        }
        rows.extend(
            STEPS.iter().zip(self.steps_done).map(|(name, count)| Row::new(format!("{name} done"), count)),
        );
        for (which, (_, name)) in OUTCOMES.iter().enumerate() {
            rows.push(Row::new(format!("{name}, when first considered"), self.first_turns[which]));
            rows.push(Row::new(format!("{name}, in a walk"), self.walk_turns[which]));
        }
        for (which, (_, name)) in WAYS.iter().enumerate() {
            rows.push(Row::new(format!("accepted {name}"), self.accepted[which]));
            rows.push(Row::new(format!("rejected {name}"), self.rejected[which]));
        }
        rows.extend(EVENTS.iter().zip(self.events).map(|((_, name), count)| Row::new(*name, count)));
        for ((code, a, b), &count) in PAIRS.iter().zip(&self.pairs) {
            let step = STEPS[usize::from(*code) - 1];
            rows.push(Row::new(format!("{step}: {a} and {b} at once"), count));
        }
        rows
    }
}

#[cfg(test)]
mod tests {
    use super::*;

    #[test]
    fn events_stand_at_their_own_index() {
        for (index, (event, _)) in EVENTS.iter().enumerate() {
            assert_eq!(*event as usize, index);
        }
    }

    #[test]
    fn an_empty_tally_misses_every_row() {
        assert!(Tally::default().rows().iter().all(Row::is_missing));
    }
}
