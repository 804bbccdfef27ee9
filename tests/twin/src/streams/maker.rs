//! A stream under way, with a model table so that stamps, tells and deliveries hit.

use super::{put_record, put_step};
use crate::rng::Rng;
use crate::stamp::{stamp, LARGEST_T};
use crate::table::{members, Answer, Begin, Step, Table, Verdict, ALL_ITEMS, ITEMS, LARGEST_VALUE, MESSAGES};

/// How often each thing is tried, and on which items.
#[derive(Clone, Debug)]
pub(super) struct Habit {
    /// Begin, tell, deliver, deliver again, drop, down or up, retire, read.
    weights: [usize; 8],
    items: Vec<usize>,
    /// The most base items of a usual request.
    widest: usize,
    /// Base stamps in a hundred begins: from another site's copy; of a request held; made up.
    from_other: usize,
    ahead: usize,
    made_up: usize,
    /// Message places that tell leaves free.
    spare: usize,
}

impl Habit {
    pub(super) fn usual(rng: &mut Rng) -> Habit {
        let most = rng.pick(&[5, ITEMS]);
        let count = 1 + rng.below(most);
        Habit {
            weights: [16, 26, 30, 4, 12, 2, 8, 4],
            items: some_items(rng, count),
            widest: 1 + rng.below(5),
            from_other: 10,
            ahead: 8,
            made_up: 2,
            spare: 8,
        }
    }

    pub(super) fn dense(rng: &mut Rng) -> Habit {
        let count = 1 + rng.below(4);
        Habit {
            weights: [24, 24, 28, 3, 8, 1, 10, 2],
            items: some_items(rng, count),
            widest: 3,
            from_other: 8,
            ahead: 30,
            made_up: 4,
            spare: 4,
        }
    }

    pub(super) fn full(rng: &mut Rng) -> Habit {
        Habit { weights: [24, 30, 24, 4, 6, 1, 9, 2], spare: 0, ..Habit::usual(rng) }
    }
}

/// So many different items, in any order.
pub(super) fn some_items(rng: &mut Rng, count: usize) -> Vec<usize> {
    let mut items: Vec<usize> = (0..ITEMS).collect();
    for index in 0..count {
        let other = index + rng.below(ITEMS - index);
        items.swap(index, other);
    }
    items.truncate(count);
    items
}

/// A site count; 3 comes most often.
pub(super) fn some_count(rng: &mut Rng) -> u8 {
    rng.pick(&[1, 2, 2, 3, 3, 3, 4, 5, 5, 6, 7, 7])
}

/// A stream under way and the model table that it has led to.
pub(super) struct Maker {
    pub(super) rng: Rng,
    pub(super) habit: Habit,
    pub(super) table: Box<Table>,
    pub(super) bytes: Vec<u8>,
    /// Where each record starts.
    pub(super) starts: Vec<usize>,
    pub(super) clock: u32,
    /// Message places not yet delivered, one bit a place.
    undelivered: u64,
    /// A site that hears nothing for long times, and then much at once.
    laggard: u8,
    lags: bool,
}

impl Maker {
    pub(super) fn new(mut rng: Rng, count: u8, habit: Habit) -> Maker {
        let table = Box::new(Table::fresh(count).1);
        let laggard = 1 + rng.below(usize::from(count)) as u8;
        let lags = rng.chance(50);
        let (bytes, starts) = (vec![count], Vec::new());
        Maker { rng, habit, table, bytes, starts, clock: 1000, undelivered: 0, laggard, lags }
    }

    pub(super) fn records(&self) -> usize {
        self.starts.len()
    }

    pub(super) fn put(&mut self, step: &Step) -> Answer {
        self.starts.push(self.bytes.len());
        put_step(&mut self.bytes, step);
        let answer = self.table.step(step, &mut ());
        match *step {
            Step::Tell { .. } if answer.number == 0 => self.undelivered |= 1 << answer.first,
            Step::Deliver { place } | Step::Drop { place } if answer.number == 0 => {
                self.undelivered &= !(1 << place)
            }
            _ => {}
        }
        answer
    }

    pub(super) fn put_raw(&mut self, code: u8, body: &[u8]) {
        self.starts.push(self.bytes.len());
        put_record(&mut self.bytes, code, body);
    }

    /// One step as the habit has it. What cannot be done now becomes a begin.
    pub(super) fn act(&mut self) {
        self.lags ^= self.rng.chance(2);
        if self.rng.chance(8) && self.up_again() {
            return;
        }
        let step = match self.rng.weighted(&self.habit.weights) {
            0 => None,
            1 => self.tell(),
            2 => self.deliver(),
            3 => self.deliver_again(),
            4 => self.drop(),
            5 => Some(self.down_or_up()),
            6 => self.retire(),
            _ => Some(self.read()),
        };
        let step = step.unwrap_or_else(|| self.begin_or_retire());
        self.put(&step);
    }

    /// With all places held, most begins become a step towards a free place.
    fn begin_or_retire(&mut self) -> Step {
        if self.table.used == u16::MAX && !self.rng.chance(10) {
            let other =
                self.retire().or_else(|| self.deliver()).or_else(|| self.tell()).or_else(|| self.drop());
            if let Some(step) = other {
                return step;
            }
        }
        Step::Begin(self.begin())
    }

    pub(super) fn digit(&mut self) -> u8 {
        1 + self.rng.below(usize::from(self.table.count)) as u8
    }

    /// A site that is up, if there is one.
    fn digit_up(&mut self) -> u8 {
        let up: Vec<u8> = (1..=self.table.count).filter(|&digit| self.is_up(digit)).collect();
        match self.rng.pick_some(&up) {
            Some(digit) => digit,
            None => self.digit(),
        }
    }

    pub(super) fn is_up(&self, digit: u8) -> bool {
        self.table.sites[usize::from(digit) - 1].up
    }

    /// Clocks rise, and are not quite the same at all sites.
    fn next_clock(&mut self) -> u32 {
        self.clock = self.clock.saturating_add(self.rng.below(3) as u32);
        if self.rng.chance(2) {
            return 0;
        }
        self.clock.saturating_add(self.rng.below(12) as u32)
    }

    pub(super) fn begin(&mut self) -> Begin {
        let site = if self.rng.chance(98) { self.digit_up() } else { self.digit() };
        let base = self.base_set();
        let mut given =
            Begin { site, clock: self.next_clock(), base, update: self.part_of(base), ..Begin::default() };
        self.give_stamps(&mut given);
        for item in members(given.update) {
            given.values[item] = self.value();
        }
        given
    }

    fn base_set(&mut self) -> u32 {
        if self.rng.chance(1) {
            return ALL_ITEMS;
        }
        let size = 1 + self.rng.below(self.habit.widest);
        (0..size).fold(0, |set, _| set | 1 << self.rng.pick(&self.habit.items))
    }

    /// A part of a set, not empty; often all of it.
    fn part_of(&mut self, set: u32) -> u32 {
        let part = set & self.rng.draw() as u32;
        if part == 0 || self.rng.chance(40) {
            return set;
        }
        part
    }

    fn value(&mut self) -> i32 {
        match self.rng.below(12) {
            0 => 0,
            1 => LARGEST_VALUE,
            2 => -LARGEST_VALUE,
            _ => self.rng.below(2001) as i32 - 1000,
        }
    }

    fn give_stamps(&mut self, given: &mut Begin) {
        let roll = self.rng.below(100);
        let from_other = self.habit.from_other;
        let ahead = from_other + self.habit.ahead;
        let made_up = ahead + self.habit.made_up;
        let copy = if roll < from_other { self.digit() } else { given.site };
        let copy = &self.table.sites[usize::from(copy) - 1].stamps;
        for item in members(given.base) {
            given.stamps[item] = copy[item];
        }
        if (from_other..ahead).contains(&roll) {
            self.base_on_request(given);
        }
        if (ahead..made_up).contains(&roll) {
            self.base_on_nothing(given);
        }
    }

    /// Base stamps of a request held, which may be written yet or never.
    fn base_on_request(&mut self, given: &mut Begin) {
        let meeting: Vec<usize> =
            members(self.table.used).filter(|&p| self.table.requests[p].update & given.base != 0).collect();
        let Some(place) = self.rng.pick_some(&meeting) else {
            return;
        };
        let request = &self.table.requests[place];
        for item in members(request.update & given.base) {
            given.stamps[item] = request.stamp;
        }
    }

    /// A base stamp that nobody has issued: the next one of some site, or any.
    fn base_on_nothing(&mut self, given: &mut Begin) {
        let digit = self.digit();
        let last = u64::from(self.table.sites[usize::from(digit) - 1].last);
        let t = if self.rng.chance(60) { last + 1 } else { 1 + self.rng.below(self.clock as usize) as u64 };
        if let Some(item) = self.pick_member(given.base) {
            given.stamps[item] = stamp(t.min(LARGEST_T), digit);
        }
    }

    pub(super) fn pick_member(&mut self, set: impl Into<u64>) -> Option<usize> {
        let all: Vec<usize> = members(set).collect();
        self.rng.pick_some(&all)
    }

    /// Someone tells a site that has no verdict yet; mostly what is news there.
    fn tell(&mut self) -> Option<Step> {
        if self.table.held.count_ones() as usize + self.habit.spare >= MESSAGES && !self.rng.chance(5) {
            return self.drop();
        }
        let want_news = self.rng.chance(95);
        let mut useful = Vec::new();
        for place in members(self.table.used) {
            for from in self.tellers(place) {
                let waiting = self
                    .waiting(place)
                    .filter(|&to| to != from && (!want_news || self.is_news(place, from, to)));
                useful.extend(waiting.map(|to| (from, place, to)));
            }
        }
        let (from, place, to) = self.rng.pick_some(&useful)?;
        Some(Step::Tell { from, stamp: self.table.requests[place].stamp, to })
    }

    /// The teller has a verdict, or knows a voter that the other does not.
    fn is_news(&self, place: usize, from: u8, to: u8) -> bool {
        let from = &self.table.sites[usize::from(from) - 1];
        let to = &self.table.sites[usize::from(to) - 1];
        let unknown = from.oks[place] & !to.oks[place] | from.others[place] & !to.others[place];
        from.verdicts[place] != Verdict::Open || unknown != 0
    }

    /// The sites, up, that have a vote or a verdict on it.
    pub(super) fn tellers(&self, place: usize) -> impl Iterator<Item = u8> + '_ {
        (1..).zip(self.table.sites_of_table()).filter_map(move |(digit, site)| {
            let can = site.up && (site.marks[place].is_vote() || site.verdicts[place] != Verdict::Open);
            can.then_some(digit)
        })
    }

    /// The sites that have no verdict on it.
    fn waiting(&self, place: usize) -> impl Iterator<Item = u8> + '_ {
        let sites = (1..).zip(self.table.sites_of_table());
        sites.filter_map(move |(digit, site)| (site.verdicts[place] == Verdict::Open).then_some(digit))
    }

    /// A message not delivered yet, to a site that is up and has no verdict. If there is none, a tell.
    fn deliver(&mut self) -> Option<Step> {
        let useful: u64 = members(self.undelivered).filter(|&m| self.is_useful(m)).map(|m| 1 << m).sum();
        match self.pick_member(useful) {
            Some(place) => Some(Step::Deliver { place: place as u8 }),
            None => self.tell(),
        }
    }

    fn is_useful(&self, message: usize) -> bool {
        let message = &self.table.messages[message];
        if self.lags && message.to == self.laggard {
            return false;
        }
        let receiver = &self.table.sites[usize::from(message.to) - 1];
        receiver.up && receiver.verdicts[usize::from(message.request)] == Verdict::Open
    }

    fn deliver_again(&mut self) -> Option<Step> {
        let place = self.pick_member(self.table.held & !self.undelivered)?;
        Some(Step::Deliver { place: place as u8 })
    }

    /// A message that has been delivered or comes too late, seldom any.
    fn drop(&mut self) -> Option<Step> {
        let useful: u64 = members(self.undelivered).filter(|&m| self.is_useful(m)).map(|m| 1 << m).sum();
        let useless = self.table.held & !useful;
        let from = if useless == 0 || self.rng.chance(10) { self.table.held } else { useless };
        let place = self.pick_member(from)?;
        Some(Step::Drop { place: place as u8 })
    }

    /// A site that is down, if there is one.
    pub(super) fn digit_down(&mut self) -> Option<u8> {
        let down: Vec<u8> = (1..=self.table.count).filter(|&digit| !self.is_up(digit)).collect();
        self.rng.pick_some(&down)
    }

    fn down_or_up(&mut self) -> Step {
        match self.digit_down() {
            Some(site) if self.rng.chance(75) => Step::Up { site },
            _ => Step::Down { site: self.digit_up() },
        }
    }

    /// Brings a site up if one is down.
    fn up_again(&mut self) -> bool {
        let Some(site) = self.digit_down() else {
            return false;
        };
        self.put(&Step::Up { site });
        true
    }

    /// Retires a request that all have a verdict on; before that, drops the messages that name it.
    fn retire(&mut self) -> Option<Step> {
        let settled: u64 = members(self.table.used).filter(|&p| self.table.settled(p)).map(|p| 1 << p).sum();
        let place = self.pick_member(settled)?;
        let naming: u64 = members(self.table.held)
            .filter(|&m| usize::from(self.table.messages[m].request) == place)
            .map(|m| 1 << m)
            .sum();
        match self.pick_member(naming) {
            Some(place) if self.rng.chance(90) => Some(Step::Drop { place: place as u8 }),
            _ => Some(Step::Retire { stamp: self.table.requests[place].stamp }),
        }
    }

    fn read(&mut self) -> Step {
        let item = self.rng.pick(&self.habit.items) as u8;
        Step::Read { site: self.digit_up(), item }
    }
}
