//! Which numbers apply to a step, each asked on its own and in no order.
//! "Smallest number that applies": the steps are checked against this list.

use crate::numbers::*;
use crate::stamp::{t_of, LARGEST_T};
use crate::table::{
    members, sets_pass, stamps_pass, values_pass, Begin, Mark, Site, Step, Table, Verdict, ITEMS,
};

/// The numbers that apply to this step on this sound table, one bit a number.
pub fn applying(table: &Table, step: &Step) -> u32 {
    let found: Vec<(bool, Number)> = match *step {
        Step::Begin(ref given) => begin(table, given),
        Step::Tell { from, stamp, to } => tell(table, from, stamp, to),
        Step::Deliver { place } => deliver(table, place),
        Step::Drop { place } => vec![(no_message(table, place), NO_MESSAGE)],
        Step::Down { site } => vec![(no_site(table, site), NO_SITE), (is_down(table, site), DOWN)],
        Step::Up { site } => vec![(no_site(table, site), NO_SITE), (is_up(table, site), ALREADY_UP)],
        Step::Retire { stamp } => retire(table, stamp),
        Step::Read { site, item } => vec![
            (no_site(table, site), NO_SITE),
            (is_down(table, site), DOWN),
            (usize::from(item) >= ITEMS, NO_ITEM),
        ],
    };
    found.iter().filter(|(applies, _)| *applies).map(|(_, number)| 1 << number).sum()
}

fn begin(table: &Table, given: &Begin) -> Vec<(bool, Number)> {
    vec![
        (no_site(table, given.site), NO_SITE),
        (is_down(table, given.site), DOWN),
        (!sets_pass(given.base, given.update), WRONG_SETS),
        (!stamps_pass(given.base, &given.stamps, table.count), WRONG_STAMP),
        (!values_pass(given.update, &given.values), WRONG_VALUE),
        (t_passes(table, given), NO_T_LEFT),
        (table.used.count_ones() == 16, REQUESTS_FULL),
    ]
}

fn t_passes(table: &Table, given: &Begin) -> bool {
    let last_is_largest = site(table, given.site).is_some_and(|s| u64::from(s.last) == LARGEST_T);
    let base_is_largest =
        members(given.base).any(|item| item < ITEMS && t_of(given.stamps[item]) >= LARGEST_T);
    last_is_largest || base_is_largest
}

fn tell(table: &Table, from: u8, stamp: u64, to: u8) -> Vec<(bool, Number)> {
    vec![
        (no_site(table, from) || no_site(table, to), NO_SITE),
        (is_down(table, from), DOWN),
        (table.place_of(stamp).is_none(), NO_REQUEST),
        (from == to || nothing_to_tell(table, from, stamp), NOTHING_TO_TELL),
        (table.held.count_ones() == 64, MESSAGES_FULL),
    ]
}

fn nothing_to_tell(table: &Table, from: u8, stamp: u64) -> bool {
    let (Some(teller), Some(place)) = (site(table, from), table.place_of(stamp)) else {
        return false;
    };
    let no_vote = matches!(teller.marks[place], Mark::None | Mark::Deferred);
    no_vote && teller.verdicts[place] == Verdict::Open
}

fn deliver(table: &Table, place: u8) -> Vec<(bool, Number)> {
    let empty = no_message(table, place);
    let receiver_down = !empty && is_down(table, table.messages[usize::from(place)].to);
    vec![(receiver_down, DOWN), (empty, NO_MESSAGE)]
}

fn retire(table: &Table, stamp: u64) -> Vec<(bool, Number)> {
    let Some(place) = table.place_of(stamp) else {
        return vec![(true, NO_REQUEST)];
    };
    vec![(!table.settled(place) || table.named(place), NOT_SETTLED)]
}

fn no_message(table: &Table, place: u8) -> bool {
    place > 63 || !members(table.held).any(|held| held == usize::from(place))
}

fn site(table: &Table, digit: u8) -> Option<&Site> {
    table.sites_of_table().get(usize::from(digit).wrapping_sub(1))
}

fn no_site(table: &Table, digit: u8) -> bool {
    site(table, digit).is_none()
}

fn is_down(table: &Table, digit: u8) -> bool {
    site(table, digit).is_some_and(|site| !site.up)
}

fn is_up(table: &Table, digit: u8) -> bool {
    site(table, digit).is_some_and(|site| site.up)
}
