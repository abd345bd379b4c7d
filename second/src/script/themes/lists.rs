//! Lists of missing numbers, one after the other.

use super::storms::any_list;
use crate::script::cast::Name;
use crate::script::pdus::{self, Entry};
use crate::script::Script;

pub fn lists(s: &mut Script) {
    let Some(name) = s.some_sender() else { return };
    s.make_room(name);
    let count = 1 + s.random.below(3);
    let ships = s.enrolled(name, count);
    let (total, expiry) = (
        s.random.one_of(&[1, 2, 6, 12, 40]),
        s.some_expiry(name) + 60,
    );
    let Some(identity) = s.send(name, total, expiry, &ships) else {
        return;
    };
    s.poll_all(name, 2);
    for _ in 0..8 + s.random.below(8) {
        let ship = s.random.one_of(&ships);
        let count = s.random.one_of(&[1, 1, 2]);
        let mut lists: Vec<Vec<u16>> = (0..count).map(|_| any_list(s, total as u16)).collect();
        if !s.random.one_in(10) {
            lists.retain(|list| !list.is_empty());
        }
        if !lists.is_empty() {
            answer(s, name, identity, ship, &lists);
        }
    }
    above_total(s, name, identity, &ships, total as u16);
    s.poll_all(name, 45);
    if let Some(deadline) = s.next_moment(name) {
        s.tick(name, deadline);
    }
    s.poll_all(name, 45);
}

/// An ACK with an entry for each list, and what is missing then.
fn answer(s: &mut Script, name: Name, identity: u32, ship: u32, lists: &[Vec<u16>]) {
    let source = s.sender(name).map_or(0, |sender| sender.source());
    let entries: Vec<Entry> = lists
        .iter()
        .map(|list| Entry {
            source,
            message: identity,
            missing: list.clone(),
        })
        .collect();
    let time_option = s.random.one_in(4);
    s.take(name, &pdus::ack(ship, 0, &entries, time_option));
    s.call(&format!("{name} lacking {identity} {ship}"));
}

/// Numbers above the total, in the first entry, in a later one, and after an
/// entry that makes the destination complete.
fn above_total(s: &mut Script, name: Name, identity: u32, ships: &[u32], total: u16) {
    let ship = s.random.one_of(ships);
    let (at, above) = (vec![total], vec![total + 1]);
    answer(s, name, identity, ship, &[at.clone(), above.clone()]);
    answer(s, name, identity, ship, &[vec![], above.clone()]);
    answer(s, name, identity, ship, &[vec![1, total, 256]]);
    answer(s, name, identity, ship, &[vec![]]);
    answer(s, name, identity, ship, &[at, vec![]]);
    answer(s, name, identity, ship, &[above]);
}
