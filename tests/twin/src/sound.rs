//! "A table is sound if": one function for each part of that paragraph, and nothing more.
//! Each function is total, so that it can be asked about any table at all.

use crate::stamp::{digit_of, in_range, t_of, well_formed};
use crate::table::{
    majority, members, sets_pass, stamps_pass, to_reject, value_in_range, values_pass, Mark, Message,
    Request, Site, Table, Verdict, ITEMS, REQUESTS, SITES,
};

/// "A table is sound if: ..."
pub fn sound(table: &Table) -> bool {
    count_fits(table)
        && unused_is_blank(table)
        && requests_pass(table)
        && no_t_above_last(table)
        && copies_fit(table)
        && queues_fit(table)
        && messages_fit(table)
        && voters_have_marks(table)
        && own_votes_known(table)
        && verdicts_backed(table)
        && no_verdict_deferred(table)
        && open_knows_too_few(table)
        && unheard_knows_none(table)
}

/// "the site count is 1 to 7"
pub fn count_fits(table: &Table) -> bool {
    (1..=SITES as u8).contains(&table.count)
}

/// "and unused sites and places are blank"
pub fn unused_is_blank(table: &Table) -> bool {
    let unused_sites = &table.sites[table.sites_of_table().len()..];
    unused_sites.iter().all(|site| *site == Site::default())
        && unused_requests(table).all(|place| request_place_blank(table, place))
        && members(!table.held).all(|place| table.messages[place] == Message::default())
        && table.sites.iter().all(queue_end_blank)
}

fn unused_requests(table: &Table) -> impl Iterator<Item = usize> {
    members(!table.used)
}

fn request_place_blank(table: &Table, place: usize) -> bool {
    table.requests[place] == Request::default() && table.sites.iter().all(|site| keeps_nothing(site, place))
}

fn keeps_nothing(site: &Site, place: usize) -> bool {
    site.marks[place] == Mark::None
        && site.verdicts[place] == Verdict::Open
        && site.oks[place] == 0
        && site.others[place] == 0
}

fn queue_end_blank(site: &Site) -> bool {
    let end = usize::from(site.queue.length).min(REQUESTS);
    site.queue.places[end..].iter().all(|&place| place == 0)
}

/// "used requests pass checks 5, 6 and 7 and have distinct well-formed stamps other than 0"
pub fn requests_pass(table: &Table) -> bool {
    members(table.used).all(|place| {
        let request = &table.requests[place];
        sets_pass(request.base, request.update)
            && stamps_pass(request.base, &request.stamps, table.count)
            && values_pass(request.update, &request.values)
            && in_range(request.stamp, table.count)
            && members(table.used).all(|p| p == place || table.requests[p].stamp != request.stamp)
    })
}

/// "no request or copy stamp has a t above its site's last"
pub fn no_t_above_last(table: &Table) -> bool {
    members(table.used).all(|place| t_not_above(table, table.requests[place].stamp))
        && table.sites.iter().flat_map(|site| &site.stamps).all(|&stamp| t_not_above(table, stamp))
}

fn t_not_above(table: &Table, stamp: u64) -> bool {
    if stamp == 0 {
        return true;
    }
    let site = usize::from(digit_of(stamp)).wrapping_sub(1);
    table.sites_of_table().get(site).is_some_and(|site| t_of(stamp) <= u64::from(site.last))
}

/// "copy stamps are well formed, copy values in range, and 0 at stamp 0"
pub fn copies_fit(table: &Table) -> bool {
    table.sites_of_table().iter().all(|site| {
        (0..ITEMS).all(|item| {
            let (stamp, value) = (site.stamps[item], site.values[item]);
            well_formed(stamp, table.count) && value_in_range(value) && (stamp != 0 || value == 0)
        })
    })
}

/// "queues hold exactly the deferred requests, once each"
pub fn queues_fit(table: &Table) -> bool {
    table.sites_of_table().iter().all(queue_fits)
}

fn queue_fits(site: &Site) -> bool {
    let Some(waiting) = site.queue.places.get(..usize::from(site.queue.length)) else {
        return false;
    };
    let in_queue = |place: usize| waiting.iter().filter(|&&p| usize::from(p) == place).count();
    waiting.iter().all(|&place| usize::from(place) < REQUESTS)
        && (0..REQUESTS).all(|place| in_queue(place) == usize::from(is_deferred(site, place)))
}

fn is_deferred(site: &Site, place: usize) -> bool {
    site.marks[place] == Mark::Deferred
}

/// "messages name a used request and two different sites of the table"
pub fn messages_fit(table: &Table) -> bool {
    let is_site = |digit: u8| digit >= 1 && digit <= table.count;
    members(table.held).all(|place| {
        let message = &table.messages[place];
        usize::from(message.request) < REQUESTS
            && table.used >> message.request & 1 == 1
            && is_site(message.from)
            && is_site(message.to)
            && message.from != message.to
    })
}

/// "a voter known anywhere, messages included, has that mark of its own"
pub fn voters_have_marks(table: &Table) -> bool {
    (0..REQUESTS).all(|place| {
        let (ok, other) = own_marks(table, place);
        let backed = |oks: u8, others: u8| oks & !ok == 0 && others & !other == 0;
        table.sites.iter().all(|site| backed(site.oks[place], site.others[place]))
            && messages_naming(table, place).all(|m| backed(m.oks, m.others))
    })
}

/// The sites that marked a request OK, and those that marked it DR or REJ.
fn own_marks(table: &Table, place: usize) -> (u8, u8) {
    let mut ok = 0;
    let mut other = 0;
    for (index, site) in table.sites_of_table().iter().enumerate() {
        match site.marks[place] {
            Mark::Ok => ok |= 1 << index,
            Mark::Dr | Mark::Rej => other |= 1 << index,
            Mark::None | Mark::Deferred => {}
        }
    }
    (ok, other)
}

fn messages_naming(table: &Table, place: usize) -> impl Iterator<Item = &Message> {
    members(table.held)
        .map(|m| &table.messages[m])
        .filter(move |message| usize::from(message.request) == place)
}

/// "each voting site knows its own vote"
pub fn own_votes_known(table: &Table) -> bool {
    table.sites_of_table().iter().enumerate().all(|(index, site)| {
        (0..REQUESTS).all(|place| match site.marks[place] {
            Mark::Ok => site.oks[place] >> index & 1 == 1,
            Mark::Dr | Mark::Rej => site.others[place] >> index & 1 == 1,
            Mark::None | Mark::Deferred => true,
        })
    })
}

/// "a verdict held or sent is backed by that many own marks"
pub fn verdicts_backed(table: &Table) -> bool {
    (0..REQUESTS).all(|place| {
        let (ok, other) = own_marks(table, place);
        let backed = |verdict: Verdict| match verdict {
            Verdict::Open => true,
            Verdict::Accepted => ok.count_ones() >= majority(table.count),
            Verdict::Rejected => other.count_ones() >= to_reject(table.count),
        };
        table.sites.iter().all(|site| backed(site.verdicts[place]))
            && messages_naming(table, place).all(|message| backed(message.verdict))
    })
}

/// "a site with a verdict has no deferred mark"
pub fn no_verdict_deferred(table: &Table) -> bool {
    each_kept(table, |site, place| {
        site.verdicts[place] == Verdict::Open || site.marks[place] != Mark::Deferred
    })
}

/// "a site holding a request open knows too few voters for either verdict"
pub fn open_knows_too_few(table: &Table) -> bool {
    each_kept(table, |site, place| {
        site.verdicts[place] != Verdict::Open
            || site.oks[place].count_ones() < majority(table.count)
                && site.others[place].count_ones() < to_reject(table.count)
    })
}

/// "a site holding it open with no mark has not heard of it and knows no voters"
pub fn unheard_knows_none(table: &Table) -> bool {
    each_kept(table, |site, place| {
        let unheard = site.verdicts[place] == Verdict::Open && site.marks[place] == Mark::None;
        !unheard || site.oks[place] == 0 && site.others[place] == 0
    })
}

fn each_kept(table: &Table, holds: impl Fn(&Site, usize) -> bool) -> bool {
    table.sites_of_table().iter().all(|site| (0..REQUESTS).all(|place| holds(site, place)))
}
