//! The vote table and its eight steps, changed in place.
//! Sites are indexed from 0 inside; their digits, 1 to the site count, stand at the surface.

use crate::numbers::*;
use crate::sound::sound;
use crate::stamp::{higher, stamp, t_of, well_formed, LARGEST_T};
use crate::watch::{Turn, Watch, Way};

/// "One table holds 1 to 7 sites (benches), 24 items, 16 request places and 64 message places."
pub const SITES: usize = 7;
pub const ITEMS: usize = 24;
pub const REQUESTS: usize = 16;
pub const MESSAGES: usize = 64;

/// All 24 items as a set.
pub const ALL_ITEMS: u32 = (1 << ITEMS) - 1;

/// "-8,640,000 to 8,640,000"
pub const LARGEST_VALUE: i32 = 8_640_000;

/// "its own mark (none, deferred, OK, DR, REJ)"
#[derive(Clone, Copy, Debug, Default, PartialEq, Eq)]
pub enum Mark {
    #[default]
    None,
    Deferred,
    Ok,
    Dr,
    Rej,
}

impl Mark {
    pub fn is_vote(self) -> bool {
        matches!(self, Mark::Ok | Mark::Dr | Mark::Rej)
    }
}

/// "its verdict (open, accepted, rejected)"
#[derive(Clone, Copy, Debug, Default, PartialEq, Eq)]
pub enum Verdict {
    #[default]
    Open,
    Accepted,
    Rejected,
}

/// What considering a request comes to: the five rules, in their order.
#[derive(Clone, Copy, Debug, PartialEq, Eq)]
pub enum Outcome {
    Rej,
    /// The first kind of deferral: a base stamp is larger than the copy's.
    DeferAhead,
    Dr,
    /// The second kind: a conflicting request of lower priority is pending.
    DeferBehind,
    Ok,
}

impl Outcome {
    /// The vote, or nothing for a deferral.
    pub fn vote(self) -> Option<Mark> {
        match self {
            Outcome::Rej => Some(Mark::Rej),
            Outcome::Dr => Some(Mark::Dr),
            Outcome::Ok => Some(Mark::Ok),
            Outcome::DeferAhead | Outcome::DeferBehind => None,
        }
    }
}

/// "A request has a base set and an update set of items, a base stamp for each base item,
/// and a new value for each update item."
#[derive(Clone, Copy, Debug, Default, PartialEq, Eq)]
pub struct Request {
    pub stamp: u64,
    pub base: u32,
    pub update: u32,
    pub stamps: [u64; ITEMS],
    pub values: [i32; ITEMS],
}

impl Request {
    /// "A covers B if A's update set meets B's base set."
    pub fn covers(&self, other: &Request) -> bool {
        self.update & other.base != 0
    }

    /// "They conflict if either covers the other."
    pub fn conflicts(&self, other: &Request) -> bool {
        self.covers(other) || other.covers(self)
    }

    /// "They are concurrent if each item in both base sets has equal base stamps in both."
    pub fn concurrent(&self, other: &Request) -> bool {
        members(self.base & other.base).all(|item| self.stamps[item] == other.stamps[item])
    }
}

/// The requests a site has deferred, in their order. Places behind the end are 0.
#[derive(Clone, Copy, Debug, Default, PartialEq, Eq)]
pub struct Queue {
    pub places: [u8; REQUESTS],
    pub length: u8,
}

impl Queue {
    /// "A deferred request joins the end of that site's queue."
    fn join(&mut self, place: usize) {
        self.places[usize::from(self.length)] = place as u8;
        self.length += 1;
    }

    fn leave_at(&mut self, position: usize) {
        self.places.copy_within(position + 1.., position);
        self.places[REQUESTS - 1] = 0;
        self.length -= 1;
    }

    fn leave(&mut self, place: usize) {
        let waiting = &self.places[..usize::from(self.length)];
        if let Some(position) = waiting.iter().position(|&p| usize::from(p) == place) {
            self.leave_at(position);
        }
    }
}

/// One site: its copy, its queue, and what it keeps for each request place.
#[derive(Clone, Copy, Debug, Default, PartialEq, Eq)]
pub struct Site {
    pub up: bool,
    /// "the last t this site issued (0 when fresh)"
    pub last: u32,
    pub stamps: [u64; ITEMS],
    pub values: [i32; ITEMS],
    pub marks: [Mark; REQUESTS],
    pub verdicts: [Verdict; REQUESTS],
    /// The OK voters it knows, one bit a site.
    pub oks: [u8; REQUESTS],
    /// The other voters it knows.
    pub others: [u8; REQUESTS],
    pub queue: Queue,
}

impl Site {
    /// "A request is pending at a site that marked it OK and holds it open."
    fn pending(&self) -> u32 {
        let mut set = 0;
        for place in 0..REQUESTS {
            let pending = self.marks[place] == Mark::Ok && self.verdicts[place] == Verdict::Open;
            set |= u32::from(pending) << place;
        }
        set
    }

    fn forget(&mut self, place: usize) {
        self.marks[place] = Mark::None;
        self.verdicts[place] = Verdict::Open;
        self.oks[place] = 0;
        self.others[place] = 0;
    }
}

/// "the teller's known voters while open, else its verdict". Sites are digits here.
#[derive(Clone, Copy, Debug, Default, PartialEq, Eq)]
pub struct Message {
    pub request: u8,
    pub from: u8,
    pub to: u8,
    pub verdict: Verdict,
    pub oks: u8,
    pub others: u8,
}

#[derive(Clone, Debug, PartialEq, Eq)]
pub struct Table {
    /// The site count; 0 in a refused fresh table.
    pub count: u8,
    /// The request places in use, one bit a place.
    pub used: u16,
    /// The message places in use, one bit a place.
    pub held: u64,
    pub requests: [Request; REQUESTS],
    pub sites: [Site; SITES],
    pub messages: [Message; MESSAGES],
}

/// All zeros, site count 0: what a refused fresh table is.
impl Default for Table {
    fn default() -> Table {
        Table {
            count: 0,
            used: 0,
            held: 0,
            requests: [Request::default(); REQUESTS],
            sites: [Site::default(); SITES],
            messages: [Message::default(); MESSAGES],
        }
    }
}

/// What begin is given.
#[derive(Clone, Copy, Debug, Default, PartialEq, Eq)]
pub struct Begin {
    pub site: u8,
    pub clock: u32,
    pub base: u32,
    pub update: u32,
    pub stamps: [u64; ITEMS],
    pub values: [i32; ITEMS],
}

#[derive(Clone, Copy, Debug, PartialEq, Eq)]
#[allow(clippy::large_enum_variant)]
pub enum Step {
    Begin(Begin),
    Tell { from: u8, stamp: u64, to: u8 },
    Deliver { place: u8 },
    Drop { place: u8 },
    Down { site: u8 },
    Up { site: u8 },
    Retire { stamp: u64 },
    Read { site: u8, item: u8 },
}

impl Step {
    pub fn code(&self) -> u8 {
        match self {
            Step::Begin(_) => 1,
            Step::Tell { .. } => 2,
            Step::Deliver { .. } => 3,
            Step::Drop { .. } => 4,
            Step::Down { .. } => 5,
            Step::Up { .. } => 6,
            Step::Retire { .. } => 7,
            Step::Read { .. } => 8,
        }
    }
}

/// "Each answer also gives how many requests that step accepted and how many it rejected at its site."
#[derive(Clone, Copy, Debug, Default, PartialEq, Eq)]
pub struct Answer {
    pub number: Number,
    pub first: i64,
    pub second: u64,
    pub accepted: u8,
    pub rejected: u8,
}

impl Answer {
    /// "Each returns zeros beside it and changes nothing."
    pub fn refused(number: Number) -> Answer {
        Answer { number, ..Answer::default() }
    }

    fn done(first: i64, second: u64) -> Answer {
        Answer { first, second, ..Answer::default() }
    }
}

/// The members of a set of items or places, rising.
pub fn members(set: impl Into<u64>) -> Members {
    Members(set.into())
}

#[derive(Clone, Copy)]
pub struct Members(u64);

impl Iterator for Members {
    type Item = usize;

    #[inline]
    fn next(&mut self) -> Option<usize> {
        if self.0 == 0 {
            return None;
        }
        let lowest = self.0.trailing_zeros() as usize;
        self.0 &= self.0 - 1;
        Some(lowest)
    }
}

/// "With n sites a majority is m = n div 2 + 1."
pub fn majority(count: u8) -> u32 {
    u32::from(count) / 2 + 1
}

/// "rejects when it knows n - m + 1 voters of DR and REJ together"
pub fn to_reject(count: u8) -> u32 {
    u32::from(count) + 1 - majority(count)
}

/// Check 5: "update set empty or outside base, or an item above 23 in either".
pub fn sets_pass(base: u32, update: u32) -> bool {
    update != 0 && update & !base == 0 && (base | update) & !ALL_ITEMS == 0
}

/// Check 6: "base stamp not well formed". Only base items are looked at.
pub fn stamps_pass(base: u32, stamps: &[u64; ITEMS], count: u8) -> bool {
    members(base & ALL_ITEMS).all(|item| well_formed(stamps[item], count))
}

/// Check 7: "update value out of range". Only update items are looked at.
pub fn values_pass(update: u32, values: &[i32; ITEMS]) -> bool {
    members(update & ALL_ITEMS).all(|item| value_in_range(values[item]))
}

pub fn value_in_range(value: i32) -> bool {
    (-LARGEST_VALUE..=LARGEST_VALUE).contains(&value)
}

impl Table {
    /// "A fresh table has every site up, last t 0 and all else blank."
    /// "A fresh table refused is all zeros, site count 0, and not sound."
    pub fn fresh(count: u8) -> (Number, Table) {
        let mut table = Table::default();
        if !(1..=SITES as u8).contains(&count) {
            return (NO_SITE, table);
        }
        table.count = count;
        for site in &mut table.sites[..usize::from(count)] {
            site.up = true;
        }
        (DONE, table)
    }

    /// A step on any table at all: number 1 comes before every other.
    pub fn checked_step<W: Watch>(&mut self, step: &Step, watch: &mut W) -> Answer {
        if !sound(self) {
            return Answer::refused(NOT_SOUND);
        }
        self.step(step, watch)
    }

    /// A step on a sound table. Every table that came from a fresh one by steps is sound.
    pub fn step<W: Watch>(&mut self, step: &Step, watch: &mut W) -> Answer {
        let outcome = match *step {
            Step::Begin(ref given) => self.begin(given, watch),
            Step::Tell { from, stamp, to } => self.tell(from, stamp, to),
            Step::Deliver { place } => self.deliver(place, watch),
            Step::Drop { place } => self.drop(place),
            Step::Down { site } => self.down(site),
            Step::Up { site } => self.up(site),
            Step::Retire { stamp } => self.retire(stamp),
            Step::Read { site, item } => self.read(site, item),
        };
        outcome.unwrap_or_else(Answer::refused)
    }

    /// "Begin stores the request in the lowest free place and its site considers it,
    /// having no votes of others."
    fn begin<W: Watch>(&mut self, given: &Begin, watch: &mut W) -> Result<Answer, Number> {
        let site = self.site(given.site)?;
        self.awake(site)?;
        refuse_unless(sets_pass(given.base, given.update), WRONG_SETS)?;
        refuse_unless(stamps_pass(given.base, &given.stamps, self.count), WRONG_STAMP)?;
        refuse_unless(values_pass(given.update, &given.values), WRONG_VALUE)?;
        let t = next_t(given, self.sites[site].last)?;
        let place = self.free_request_place()?;

        self.sites[site].last = t;
        let name = stamp(u64::from(t), given.site);
        self.used |= 1 << place;
        store(&mut self.requests[place], given, name);
        watch.begun(&self.requests[place]);

        let mut acting = self.acting(site, watch);
        acting.consider_first(place);
        Ok(acting.answer(name as i64, place as u64))
    }

    /// "Tell puts a message in the lowest free place."
    fn tell(&mut self, from: u8, stamp: u64, to: u8) -> Result<Answer, Number> {
        let teller = self.site(from)?;
        self.site(to)?;
        self.awake(teller)?;
        let request = self.find(stamp)?;
        let site = &self.sites[teller];
        let verdict = site.verdicts[request];
        let can_tell = site.marks[request].is_vote() || verdict != Verdict::Open;
        refuse_unless(can_tell && from != to, NOTHING_TO_TELL)?;
        let place = self.free_message_place()?;

        let mut message = Message { request: request as u8, from, to, verdict, ..Message::default() };
        if verdict == Verdict::Open {
            message.oks = site.oks[request];
            message.others = site.others[request];
        }
        self.messages[place] = message;
        self.held |= 1 << place;
        Ok(Answer::done(place as i64, 0))
    }

    /// "Deliver leaves the message where it is."
    fn deliver<W: Watch>(&mut self, place: u8, watch: &mut W) -> Result<Answer, Number> {
        let place = self.message(place)?;
        let message = self.messages[place];
        let receiver = usize::from(message.to) - 1;
        self.awake(receiver)?;
        let mut acting = self.acting(receiver, watch);
        acting.hear(&message);
        Ok(acting.answer(0, 0))
    }

    /// "Losing a message empties that one place and leaves the other 63 as they were."
    fn drop(&mut self, place: u8) -> Result<Answer, Number> {
        let place = self.message(place)?;
        self.messages[place] = Message::default();
        self.held &= !(1 << place);
        Ok(Answer::default())
    }

    /// "A site that is down keeps all it holds."
    fn down(&mut self, digit: u8) -> Result<Answer, Number> {
        let site = self.site(digit)?;
        self.awake(site)?;
        self.sites[site].up = false;
        Ok(Answer::default())
    }

    fn up(&mut self, digit: u8) -> Result<Answer, Number> {
        let site = self.site(digit)?;
        refuse_unless(!self.sites[site].up, ALREADY_UP)?;
        self.sites[site].up = true;
        Ok(Answer::default())
    }

    /// "Retire frees the request's place; freed places are used again."
    fn retire(&mut self, stamp: u64) -> Result<Answer, Number> {
        let place = self.find(stamp)?;
        refuse_unless(self.settled(place) && !self.named(place), NOT_SETTLED)?;
        self.used &= !(1 << place);
        self.requests[place] = Request::default();
        for site in self.sites_of_table_mut() {
            site.forget(place);
        }
        Ok(Answer::default())
    }

    fn read(&mut self, digit: u8, item: u8) -> Result<Answer, Number> {
        let site = self.site(digit)?;
        self.awake(site)?;
        let item = usize::from(item);
        refuse_unless(item < ITEMS, NO_ITEM)?;
        let site = &self.sites[site];
        Ok(Answer::done(i64::from(site.values[item]), site.stamps[item]))
    }

    pub fn sites_of_table(&self) -> &[Site] {
        &self.sites[..usize::from(self.count).min(SITES)]
    }

    fn sites_of_table_mut(&mut self) -> &mut [Site] {
        &mut self.sites[..usize::from(self.count).min(SITES)]
    }

    /// The index of a site digit, or 3.
    fn site(&self, digit: u8) -> Result<usize, Number> {
        refuse_unless(digit >= 1 && digit <= self.count, NO_SITE)?;
        Ok(usize::from(digit) - 1)
    }

    /// 4 if the acting site is down.
    fn awake(&self, site: usize) -> Result<(), Number> {
        refuse_unless(self.sites[site].up, DOWN)
    }

    /// The place of the request with that stamp, or 10. Stamp 0 names no request.
    fn find(&self, stamp: u64) -> Result<usize, Number> {
        self.place_of(stamp).ok_or(NO_REQUEST)
    }

    pub fn place_of(&self, stamp: u64) -> Option<usize> {
        members(self.used).find(|&place| self.requests[place].stamp == stamp)
    }

    fn free_request_place(&self) -> Result<usize, Number> {
        refuse_unless(self.used != u16::MAX, REQUESTS_FULL)?;
        Ok((!self.used).trailing_zeros() as usize)
    }

    fn free_message_place(&self) -> Result<usize, Number> {
        refuse_unless(self.held != u64::MAX, MESSAGES_FULL)?;
        Ok((!self.held).trailing_zeros() as usize)
    }

    /// A message place that is in use, or 13.
    fn message(&self, place: u8) -> Result<usize, Number> {
        let place = usize::from(place);
        refuse_unless(place < MESSAGES && self.held >> place & 1 == 1, NO_MESSAGE)?;
        Ok(place)
    }

    /// Each site of the table has a verdict on it.
    pub fn settled(&self, place: usize) -> bool {
        self.sites_of_table().iter().all(|site| site.verdicts[place] != Verdict::Open)
    }

    /// A message names it.
    pub fn named(&self, place: usize) -> bool {
        members(self.held).any(|m| usize::from(self.messages[m].request) == place)
    }

    fn acting<'a, W: Watch>(&'a mut self, site: usize, watch: &'a mut W) -> Acting<'a, W> {
        Acting {
            to_accept: majority(self.count),
            to_reject: to_reject(self.count),
            requests: &self.requests,
            site: &mut self.sites[site],
            index: site,
            watch,
            accepted: 0,
            rejected: 0,
        }
    }
}

fn refuse_unless(fine: bool, number: Number) -> Result<(), Number> {
    if fine {
        return Ok(());
    }
    Err(number)
}

/// "t = the largest of: the clock given; 1 + the largest t in the base stamps (stamp 0 has t 0);
/// 1 + the last t this site issued (0 when fresh)."
fn next_t(given: &Begin, last: u32) -> Result<u32, Number> {
    let largest_base = members(given.base).map(|item| t_of(given.stamps[item])).max().unwrap_or(0);
    let t = u64::from(given.clock).max(1 + largest_base).max(1 + u64::from(last));
    refuse_unless(t <= LARGEST_T, NO_T_LEFT)?;
    Ok(t as u32)
}

/// "Numbers given for other items are not looked at and are stored as 0."
fn store(request: &mut Request, given: &Begin, name: u64) {
    request.stamp = name;
    request.base = given.base;
    request.update = given.update;
    for item in members(given.base) {
        request.stamps[item] = given.stamps[item];
    }
    for item in members(given.update) {
        request.values[item] = given.values[item];
    }
}

/// One site at work: it considers, votes, comes to verdicts and walks its queue.
struct Acting<'a, W> {
    to_accept: u32,
    to_reject: u32,
    requests: &'a [Request; REQUESTS],
    site: &'a mut Site,
    index: usize,
    watch: &'a mut W,
    accepted: u8,
    rejected: u8,
}

impl<W: Watch> Acting<'_, W> {
    fn answer(&self, first: i64, second: u64) -> Answer {
        Answer { number: DONE, first, second, accepted: self.accepted, rejected: self.rejected }
    }

    /// "If the receiver has a verdict nothing changes. A verdict is taken over."
    fn hear(&mut self, message: &Message) {
        let place = usize::from(message.request);
        if self.site.verdicts[place] != Verdict::Open {
            return;
        }
        if message.verdict != Verdict::Open {
            self.resolve(place, message.verdict, Way::TakenOver);
            self.walk();
            return;
        }
        self.join(place, message);
    }

    /// "Known voters are joined to the receiver's; if that gives no verdict and its mark is none,
    /// it considers the request."
    fn join(&mut self, place: usize, message: &Message) {
        self.site.oks[place] |= message.oks;
        self.site.others[place] |= message.others;
        if self.resolve_by_count(place, Way::Joined) {
            self.walk();
            return;
        }
        if self.site.marks[place] == Mark::None {
            self.consider_first(place);
        }
    }

    /// A request that this site has not considered before.
    fn consider_first(&mut self, place: usize) {
        let outcome = self.consider(place, Turn::First);
        let Some(mark) = outcome.vote() else {
            self.site.marks[place] = Mark::Deferred;
            self.site.queue.join(place);
            return;
        };
        self.vote(place, mark);
        if self.resolve_by_count(place, Way::Vote) {
            self.walk();
        }
    }

    /// "To consider a request a site takes the first that fits."
    fn consider(&mut self, place: usize, turn: Turn) -> Outcome {
        let outcome = self.weigh(&self.requests[place]);
        self.watch.considered(self.index, &self.requests[place], outcome, turn);
        outcome
    }

    fn weigh(&self, request: &Request) -> Outcome {
        let mut ahead = false;
        for item in members(request.base) {
            // 1: "some base item's copy has a larger stamp than the base stamp: vote REJ"
            if self.site.stamps[item] > request.stamps[item] {
                return Outcome::Rej;
            }
            ahead |= self.site.stamps[item] < request.stamps[item];
        }
        // 2: "some base stamp is larger than the copy's: defer"
        if ahead {
            return Outcome::DeferAhead;
        }
        let mut behind = false;
        for place in members(self.site.pending()) {
            let pending = &self.requests[place];
            if !request.conflicts(pending) {
                continue;
            }
            // 3: "it conflicts with a pending request of higher priority: vote DR"
            if higher(pending.stamp, request.stamp) {
                return Outcome::Dr;
            }
            behind = true;
        }
        // 4: "it conflicts with a pending request: defer"
        if behind {
            return Outcome::DeferBehind;
        }
        // 5: "vote OK"
        Outcome::Ok
    }

    /// "A vote is never changed and counts at once among the voters the site knows."
    fn vote(&mut self, place: usize, mark: Mark) {
        self.site.marks[place] = mark;
        let known = match mark {
            Mark::Ok => &mut self.site.oks[place],
            _ => &mut self.site.others[place],
        };
        *known |= 1 << self.index;
    }

    /// "A site accepts when it knows m OK voters, and rejects when it knows n - m + 1 voters
    /// of DR and REJ together."
    fn counted(&self, place: usize) -> Verdict {
        if self.site.oks[place].count_ones() >= self.to_accept {
            return Verdict::Accepted;
        }
        if self.site.others[place].count_ones() >= self.to_reject {
            return Verdict::Rejected;
        }
        Verdict::Open
    }

    /// True if the voters known bring a verdict.
    fn resolve_by_count(&mut self, place: usize, way: Way) -> bool {
        let verdict = self.counted(place);
        if verdict == Verdict::Open {
            return false;
        }
        self.resolve(place, verdict, way);
        true
    }

    /// Takes a verdict. The walk that each verdict calls for is the caller's.
    fn resolve(&mut self, place: usize, verdict: Verdict, way: Way) {
        self.site.verdicts[place] = verdict;
        self.watch.resolved(self.index, &self.requests[place], verdict, way);
        if self.site.marks[place] == Mark::Deferred {
            self.leave_queue(place);
        }
        if verdict == Verdict::Accepted {
            self.accepted += 1;
            self.write(place);
            return;
        }
        self.rejected += 1;
    }

    /// "A deferred request that gets a verdict leaves the queue and its mark becomes none."
    fn leave_queue(&mut self, place: usize) {
        self.site.marks[place] = Mark::None;
        self.site.queue.leave(place);
        self.watch.left_queue(self.index, &self.requests[place]);
    }

    /// "Accepting writes each update item whose copy stamp is smaller than the request's."
    fn write(&mut self, place: usize) {
        let request = &self.requests[place];
        for item in members(request.update) {
            if self.site.stamps[item] >= request.stamp {
                self.watch.not_written(self.index, request, item);
                continue;
            }
            self.site.stamps[item] = request.stamp;
            self.site.values[item] = request.values[item];
        }
    }

    /// "After each verdict at a site, its queue is considered again from the front.
    /// One that votes leaves the queue; one still deferred keeps its place; if a vote brings
    /// a verdict, the walk starts again from the front."
    fn walk(&mut self) {
        let mut position = 0;
        while position < usize::from(self.site.queue.length) {
            let place = usize::from(self.site.queue.places[position]);
            let Some(mark) = self.consider(place, Turn::Walk(position)).vote() else {
                position += 1;
                continue;
            };
            self.site.queue.leave_at(position);
            self.vote(place, mark);
            if self.resolve_by_count(place, Way::Walk) {
                self.watch.restarted(self.index, position);
                position = 0;
            }
        }
    }
}
