//! Making ends, and failing to.

use crate::script::Script;

pub fn ends(s: &mut Script) {
    // Now and then as many as there may be.
    let count = s.random.one_of(&[1, 1, 1, 1, 1, 8]);
    let is_sender = s.random.one_in(2);
    for _ in 0..count {
        one_more(s, is_sender);
    }
    refused(s);
    if s.random.one_in(2) {
        malformed(s);
    }
}

fn one_more(s: &mut Script, is_sender: bool) {
    let store = s.store(false);
    if is_sender {
        s.make_sender(&store)
            .or_else(|| s.sender_to_wear(0xFFFF_FF00));
    } else {
        s.make_receiver(&store).or_else(|| s.receiver_to_wear());
    }
}

/// Widths and limits around their bounds, under a name that stays free. The
/// ninth of a kind is malformed, whatever its store.
fn refused(s: &mut Script) {
    let stores = [
        "grid 0",
        "grid 15",
        "grid 1025",
        "grid 65535",
        "pool 15 0",
        "pool 15 2049",
        "pool 1025 1",
        "pool 64 65535",
        "pool 0 4000",
    ];
    for _ in 0..2 {
        let store = s.random.one_of(&stores);
        let first = s.random.one_of(&[0, 1]);
        s.call(&format!("free sender 77777 {first} {store}"));
        s.call(&format!("free receiver 77777 {store}"));
    }
    s.call("free sender 77777 1 pool 1024 0");
    s.call("free receiver 77777 pool 16 2049");
    s.call("free sender 77777 0 pool 16 1");
}

/// Names in use and identities in use.
fn malformed(s: &mut Script) {
    let (Some(sender), Some(receiver)) = (s.some_sender(), s.some_receiver()) else {
        return;
    };
    let source = s.sender(sender).map_or(0, |end| end.source());
    let identity = s.receiver(receiver).map_or(0, |end| end.identity());
    s.call(&format!("{sender} sender 88888 1 grid 16"));
    s.call(&format!("{sender} receiver 88888 grid 16"));
    s.call(&format!("{receiver} receiver 88888 pool 16 1"));
    s.call(&format!("free sender {source} 1 grid 16"));
    s.call(&format!("free sender {source} 0 grid 1"));
    s.call(&format!("free receiver {identity} grid 16"));
    s.call(&format!("free receiver {identity} pool 0 0"));
}
