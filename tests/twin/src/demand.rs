//! Demand 3, kept by a recorder beside a run: no request accepted at one site and rejected at any;
//! of two concurrent requests that cover each other at most one is ever accepted; each copy is the
//! accepted reading with the largest stamp. Retired requests stay in the record.

use std::collections::HashMap;

use crate::table::{members, Request, Table, Verdict, ITEMS, SITES};

#[derive(Clone, Debug)]
struct Known {
    request: Request,
    /// The sites that accepted it, one bit a site.
    accepted: u8,
    rejected: u8,
}

#[derive(Clone, Debug, Default)]
pub struct Recorder {
    known: HashMap<u64, Known>,
    /// The requests accepted anywhere, in the order of their first acceptance.
    accepted: Vec<u64>,
    /// The accepted reading with the largest stamp, for each site and item.
    largest: [[(u64, i32); ITEMS]; SITES],
    fault: Option<String>,
}

impl Recorder {
    pub fn begun(&mut self, request: &Request) {
        let known = Known { request: *request, accepted: 0, rejected: 0 };
        if self.known.insert(request.stamp, known).is_some() {
            self.report(format!("stamp {} was issued twice", request.stamp));
        }
    }

    pub fn resolved(&mut self, site: usize, stamp: u64, verdict: Verdict) {
        let Some(known) = self.known.get_mut(&stamp) else {
            return self.report(format!("verdict on {stamp}, which was never begun"));
        };
        let is_first = known.accepted == 0;
        match verdict {
            Verdict::Open => return self.report(format!("open is no verdict on {stamp}")),
            Verdict::Accepted => known.accepted |= 1 << site,
            Verdict::Rejected => known.rejected |= 1 << site,
        }
        if known.accepted != 0 && known.rejected != 0 {
            self.report(format!("{stamp} is accepted at one site and rejected at another"));
        }
        if verdict == Verdict::Accepted {
            self.accept(site, stamp, is_first);
        }
    }

    fn accept(&mut self, site: usize, stamp: u64, is_first: bool) {
        let request = self.known[&stamp].request;
        for item in members(request.update) {
            let reading = (stamp, request.values[item]);
            let largest = &mut self.largest[site][item];
            *largest = (*largest).max(reading);
        }
        if !is_first {
            return;
        }
        if let Some(rival) = self.rival(&request) {
            self.report(format!("{stamp} and {rival} cover each other and are both accepted"));
        }
        self.accepted.push(stamp);
    }

    /// An accepted request, concurrent with this one, where each covers the other.
    fn rival(&self, request: &Request) -> Option<u64> {
        let is_rival =
            |other: &Request| request.covers(other) && other.covers(request) && request.concurrent(other);
        self.accepted.iter().copied().find(|stamp| is_rival(&self.known[stamp].request))
    }

    /// Compares every copy with the accepted reading of the largest stamp.
    pub fn compare(&mut self, table: &Table) {
        for (index, site) in table.sites.iter().enumerate() {
            for item in 0..ITEMS {
                let copy = (site.stamps[item], site.values[item]);
                if copy != self.largest[index][item] {
                    let wanted = self.largest[index][item];
                    self.report(format!("site {}, item {item}: {copy:?}, not {wanted:?}", index + 1));
                }
            }
        }
    }

    fn report(&mut self, fault: String) {
        self.fault.get_or_insert(fault);
    }

    pub fn fault(&self) -> Option<&str> {
        self.fault.as_deref()
    }
}

#[cfg(test)]
mod tests {
    use super::*;

    fn request(stamp: u64, base: u32, update: u32) -> Request {
        Request { stamp, base, update, ..Request::default() }
    }

    #[test]
    fn accepted_here_and_rejected_there_is_seen() {
        let mut recorder = Recorder::default();
        recorder.begun(&request(9, 1, 1));
        recorder.resolved(0, 9, Verdict::Accepted);
        assert_eq!(recorder.fault(), None);
        recorder.resolved(1, 9, Verdict::Rejected);
        assert!(recorder.fault().is_some());
    }

    #[test]
    fn both_of_two_that_cover_each_other_is_seen() {
        let mut recorder = Recorder::default();
        recorder.begun(&request(9, 3, 1));
        recorder.begun(&request(10, 2, 2));
        recorder.begun(&request(11, 3, 2));
        recorder.resolved(0, 9, Verdict::Accepted);
        recorder.resolved(0, 10, Verdict::Accepted);
        assert_eq!(recorder.fault(), None, "only one covers the other");
        recorder.resolved(1, 11, Verdict::Accepted);
        assert!(recorder.fault().is_some());
    }

    #[test]
    fn a_copy_that_is_not_the_largest_is_seen() {
        let mut recorder = Recorder::default();
        let mut table = Table::fresh(1).1;
        recorder.compare(&table);
        assert_eq!(recorder.fault(), None);
        table.sites[0].stamps[5] = 9;
        recorder.compare(&table);
        assert!(recorder.fault().is_some());
    }
}
