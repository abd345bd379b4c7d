//! The roster, and drafts up to their submit.

use crate::replay::words::digits;
use crate::script::cast::Name;
use crate::script::Script;

/// Everybody is enrolled in the end, and after that nobody.
pub fn roster(s: &mut Script) {
    let Some(name) = s.some_sender() else { return };
    let mut ships = s.cast.ships.clone();
    s.random.shuffle(&mut ships);
    let count = s.random.one_of(&[3, 8, 15, 16]);
    for ship in &ships[..count] {
        s.call(&format!("{name} enrol {ship}"));
        if s.random.one_in(4) {
            let again = s.random.one_of(&ships[..count]);
            s.call(&format!("{name} enrol {again}"));
        }
    }
    for ship in [ships[0], ships[15], 123_456] {
        let word = s.random.one_of(&["on", "off"]);
        s.call(&format!("{name} silence {ship} {word}"));
        s.call(&format!("{name} silence {ship} off"));
    }
    for ship in [ships[0], 123_456] {
        if count == 16 {
            s.call(&format!("{name} enrol {ship}"));
        }
    }
}

pub fn drafts(s: &mut Script) {
    let Some(name) = s.some_sender() else { return };
    s.make_room(name);
    let mut begun = Vec::new();
    let count = s.random.one_of(&[2, 9]);
    for _ in 0..count {
        begun.extend(s.begin(name));
    }
    for identity in begun.iter().take(3) {
        fragments(s, name, *identity);
    }
    if let Some(other) = s.some_sender() {
        wrong_sender(s, other, name, &begun);
    }
    for identity in begun {
        match s.random.below(4) {
            0 => {
                s.append(name, identity, 1);
                submit_good(s, name, identity);
            }
            1 => {}
            _ => {
                s.call(&format!("{name} withdraw {name}:{identity}"));
            }
        }
        if s.random.one_in(4) {
            s.call(&format!("{name} withdraw {name}:{identity}"));
            s.call(&format!("{name} standing {identity} 1"));
            s.call(&format!("{name} forget {identity}"));
        }
    }
}

/// Fragments of every length that is an edge.
fn fragments(s: &mut Script, name: Name, identity: u32) {
    let width = usize::from(s.sender(name).map_or(16, |sender| sender.width()));
    for length in [0, 1, width - 1, width, width + 1, 2 * width] {
        if s.random.one_in(2) {
            let octets = digits(&s.random.octets(length));
            s.call(&format!("{name} append {name}:{identity} {octets}"));
        }
    }
}

/// A draft in the hands of another sender, or of its own.
fn wrong_sender(s: &mut Script, other: Name, owner: Name, begun: &[u32]) {
    for identity in begun.iter().take(2) {
        let draft = format!("{owner}:{identity}");
        s.call(&format!("{other} append {draft} -"));
        s.call(&format!("{other} append {draft} 2a"));
        s.call(&format!("{other} submit {draft} 0 0 -"));
        s.call(&format!("{other} submit {draft} 0 4294967295 -"));
        if other != owner {
            s.call(&format!("{other} withdraw {draft}"));
        }
        s.call(&format!("{other} append {other}:{identity} 2b"));
    }
}

fn submit_good(s: &mut Script, name: Name, identity: u32) {
    let expiry = s.some_expiry(name);
    let count = s.random.one_of(&[1, 2, 5, 15, 16]);
    let ships = s.enrolled(name, count);
    s.submit(name, identity, expiry, &ships);
}

/// Submits with one thing wrong, or with several.
pub fn submits(s: &mut Script) {
    let Some(name) = s.some_sender() else { return };
    s.make_room(name);
    let Some(identity) = s.begin(name) else {
        return;
    };
    let ships = s.enrolled(name, 4);
    let expiry = s.expiry_in(name, 1);
    for round in 0..2 {
        for list in wrong_lists(s, &ships) {
            s.submit(name, identity, expiry, &list);
        }
        for late in [expiry - 1, expiry.saturating_sub(2), 0] {
            s.submit(name, identity, late, &ships[..1]);
            s.submit(name, identity, late, &[]);
        }
        if round == 0 {
            // Without a fragment even a good list is refused.
            s.submit(name, identity, expiry, &ships);
            s.append(name, identity, 1);
        }
    }
    let moment = u64::from(expiry) * 1000;
    let clock = s.random.one_of(&[moment - 1, moment, moment + 1]);
    s.tick(name, clock);
    s.submit(name, identity, expiry, &ships);
    s.call(&format!("{name} lacking {identity} {}", ships[0]));
    s.call(&format!("{name} lacking {identity} 123456"));
    s.poll(name);
}

fn wrong_lists(s: &mut Script, ships: &[u32]) -> Vec<Vec<u32>> {
    let [a, b, c, d] = [ships[0], ships[1], ships[2], ships[3]];
    let mut all = s.cast.ships.clone();
    all.sort_unstable();
    let mut seventeen = all.clone();
    seventeen.push(123_456);
    let mut lists = vec![
        vec![],
        vec![123_456],
        vec![a, a],
        vec![b, a],
        vec![a, b, c, c],
        vec![a, b, d, c],
        vec![a, 123_456, b],
        vec![c, a, 123_456],
        seventeen,
        (0..300).collect(),
    ];
    lists.push(all.iter().rev().copied().collect());
    s.random.shuffle(&mut lists);
    lists.truncate(7);
    lists
}
