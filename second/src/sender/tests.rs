use super::*;
use crate::wire::write::{self, Heading};

const SOURCE: u32 = 7;
const SHIP: u32 = 9;

fn heading(message: u32) -> Heading {
    Heading {
        priority: 0,
        source: SOURCE,
        message,
    }
}

/// A sender with one message to one ship.
fn submitted(total: u16, expiry: u32) -> Sender {
    let mut sender = Sender::new(SOURCE, 1, Store::grid(16).unwrap()).unwrap();
    sender.enrol(SHIP).unwrap();
    let (source, identity) = (SOURCE, sender.begin().unwrap());
    for _ in 0..total {
        let draft = DraftId { source, identity };
        sender.append(draft, &[1]).unwrap();
    }
    let terms = Terms {
        priority: 0,
        expiry,
        destinations: vec![SHIP],
    };
    sender.submit(DraftId { source, identity }, &terms).unwrap();
    sender
}

fn poll_all(sender: &mut Sender) -> usize {
    std::iter::from_fn(|| sender.poll(1472).ok()).count()
}

#[test]
fn reads_lists_by_their_pairs() {
    let lists: [(&[u16], &[u16]); 5] = [
        (&[1, 1], &[1]),
        (&[3, 5, 3], &[3, 5]),
        (&[2, 4], &[1, 2, 4, 5, 6]),
        (&[2], &[1, 2, 3, 4, 5, 6]),
        (&[5, 2], &[2, 3, 4, 5]),
    ];
    for (list, left) in lists {
        let mut sender = submitted(6, 1000);
        let ack = write::ack(SHIP, heading(1), list);
        assert_eq!(sender.take(&ack), Ok(Taken::Noted));
        let missing: Vec<u16> = sender.lacking(1, SHIP).unwrap().rising().collect();
        assert_eq!(missing, left, "{list:?}");
    }
    let mut sender = submitted(6, 1000);
    let above = write::ack(SHIP, heading(1), &[7]);
    assert_eq!(sender.take(&above), Err(Refusal::AgainstRow { row: 0 }));
}

#[test]
fn waits_longer_from_round_to_round() {
    let mut sender = submitted(1, 1_000_000);
    let waits = [
        8_000, 12_000, 18_000, 27_000, 40_500, 60_750, 91_125, 136_687, 205_030, 307_545, 461_317,
        600_000, 600_000,
    ];
    for wait in waits {
        assert_eq!(poll_all(&mut sender), 2);
        sender.tick(sender.now + wait - 1).unwrap();
        assert_eq!(poll_all(&mut sender), 0, "{wait}");
        sender.tick(sender.now + 1).unwrap();
    }
}

#[test]
fn sends_four_rounds_into_silence() {
    let mut sender = submitted(1, 1_000_000);
    sender.silence(SHIP, true).unwrap();
    for _ in 0..5 {
        assert_eq!(poll_all(&mut sender), 2);
        sender.tick(sender.now + 3_600_000).unwrap();
    }
    assert_eq!(poll_all(&mut sender), 0);
    let foreign = write::ack(SHIP, heading(2), &[]);
    assert_eq!(sender.take(&foreign), Ok(Taken::PassedOver));
    sender.tick(sender.now).unwrap();
    assert_eq!(poll_all(&mut sender), 2);
}

#[test]
fn closes_at_the_expiry() {
    let mut sender = submitted(2, 10);
    sender.tick(9_999).unwrap();
    assert_eq!(sender.standing(1, SHIP), Ok(Standing::Waiting));
    sender.tick(10_000).unwrap();
    assert_eq!(sender.standing(1, SHIP), Ok(Standing::Expired));
    assert_eq!(sender.poll(16), Ok(write::discard(heading(1))));
    assert_eq!(sender.lacking(1, SHIP).unwrap().count(), 2);
    assert_eq!(sender.forget(1), Ok(()));
}

#[test]
fn uses_the_last_identity_once() {
    let mut sender = Sender::new(SOURCE, u32::MAX, Store::grid(16).unwrap()).unwrap();
    assert_eq!(sender.begin(), Ok(u32::MAX));
    assert_eq!(sender.begin(), Err(Refusal::Identity { value: u32::MAX }));
}
