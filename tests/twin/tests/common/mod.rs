//! A table at hand, with short words for its steps.
#![allow(dead_code)]

use twin::sound::sound;
use twin::table::{Answer, Begin, Mark, Site, Step, Table, Verdict};

pub struct Night {
    pub table: Table,
}

impl Night {
    pub fn new(count: u8) -> Night {
        let (number, table) = Table::fresh(count);
        assert_eq!(number, 0);
        Night { table }
    }

    /// One step; the table stays sound, and a refusal changes nothing.
    pub fn step(&mut self, step: Step) -> Answer {
        let before = self.table.clone();
        let answer = self.table.checked_step(&step, &mut ());
        assert!(sound(&self.table), "not sound after {step:?}");
        if answer.number != 0 {
            assert_eq!(answer, Answer::refused(answer.number));
            assert!(self.table == before, "refused and changed: {step:?}");
        }
        answer
    }

    /// Base items with their stamps, update items with their values.
    pub fn begin(&mut self, site: u8, clock: u32, base: &[(usize, u64)], update: &[(usize, i32)]) -> Answer {
        self.step(Step::Begin(begin(site, clock, base, update)))
    }

    pub fn tell(&mut self, from: u8, stamp: u64, to: u8) -> Answer {
        self.step(Step::Tell { from, stamp, to })
    }

    pub fn deliver(&mut self, place: u8) -> Answer {
        self.step(Step::Deliver { place })
    }

    /// Tells and delivers at once; gives the answer of the delivery.
    pub fn pass(&mut self, from: u8, stamp: u64, to: u8) -> Answer {
        let told = self.tell(from, stamp, to);
        assert_eq!(told.number, 0);
        self.deliver(told.first as u8)
    }

    pub fn site(&self, digit: u8) -> &Site {
        &self.table.sites[usize::from(digit) - 1]
    }

    pub fn mark(&self, digit: u8, stamp: u64) -> Mark {
        self.site(digit).marks[self.place(stamp)]
    }

    pub fn verdict(&self, digit: u8, stamp: u64) -> Verdict {
        self.site(digit).verdicts[self.place(stamp)]
    }

    fn place(&self, stamp: u64) -> usize {
        self.table.place_of(stamp).expect("no such request")
    }
}

pub fn begin(site: u8, clock: u32, base: &[(usize, u64)], update: &[(usize, i32)]) -> Begin {
    let mut given = Begin { site, clock, ..Begin::default() };
    for &(item, stamp) in base {
        given.base |= 1 << item;
        given.stamps[item] = stamp;
    }
    for &(item, value) in update {
        given.update |= 1 << item;
        given.values[item] = value;
    }
    given
}

/// Number, results, accepted, rejected: the fields of a line.
pub fn fields(answer: &Answer) -> (u8, i64, u64, u8, u8) {
    (answer.number, answer.first, answer.second, answer.accepted, answer.rejected)
}
