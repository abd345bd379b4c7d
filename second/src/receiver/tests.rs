use super::*;
use crate::wire::write::{self, Addressed, Heading};

const SHIP: u32 = 0;
const EXPIRY: u32 = 1000;
const HEADING: Heading = Heading {
    priority: 3,
    source: 7,
    message: 0,
};

fn address(total: u16) -> Vec<u8> {
    let to_us = Addressed {
        id: SHIP,
        sequence_number: 1,
    };
    write::address(HEADING, total, EXPIRY, &[to_us])
}

fn data(number: u16) -> Vec<u8> {
    write::data(HEADING, number, &[number as u8])
}

fn receiver() -> Receiver {
    Receiver::new(SHIP, Store::grid(16).unwrap())
}

/// The delay of this ship for this message is 0: what is raised is due.
fn due(receiver: &mut Receiver) -> bool {
    receiver.poll(1472).is_ok()
}

#[test]
fn lists_32_missing_and_the_lowest_again() {
    for (total, listed) in [(33, 33), (34, 32)] {
        let mut receiver = receiver();
        assert_eq!(receiver.take(&address(total)), Ok(Taken::Noted));
        assert_eq!(receiver.take(&data(1)), Ok(Taken::Kept));
        receiver.tick(5_000).unwrap();
        let missing: Vec<u16> = (2..=33).chain([2]).take(listed).collect();
        let ack = write::ack(SHIP, HEADING, &missing);
        assert_eq!(receiver.poll(ack.len()), Ok(ack), "{total}");
    }
}

#[test]
fn raises_an_ack_at_32_gaps() {
    let mut receiver = receiver();
    receiver.take(&address(256)).unwrap();
    for (number, raised) in [(32, false), (33, false), (35, true)] {
        assert_eq!(receiver.take(&data(number)), Ok(Taken::Kept));
        assert_eq!(due(&mut receiver), raised, "{number}");
    }
    assert_eq!(receiver.take(&data(200)), Ok(Taken::Kept));
    assert!(!due(&mut receiver));
    assert_eq!(receiver.take(&data(256)), Ok(Taken::Kept));
    assert!(due(&mut receiver));
}

#[test]
fn keeps_loose_data_a_minute() {
    let mut receiver = receiver();
    for (clock, answer) in [(59_999, Taken::Again), (60_000, Taken::Kept)] {
        receiver.take(&data(2)).unwrap();
        receiver.tick(clock).unwrap();
        assert_eq!(receiver.take(&data(2)), Ok(answer));
    }
    assert_eq!(
        receiver.take(&address(1)),
        Err(Refusal::AgainstRow { row: 0 })
    );
    assert_eq!(receiver.take(&data(1)), Ok(Taken::Kept));
    assert_eq!(receiver.take(&address(2)), Ok(Taken::Complete));
    let collected = receiver.collect(2).unwrap();
    assert_eq!(collected.octets, [1, 2]);
    assert_eq!(receiver.take(&data(2)), Ok(Taken::Again));
    receiver.tick(u64::from(EXPIRY) * 1000).unwrap();
    assert_eq!(receiver.take(&data(2)), Ok(Taken::Kept));
}

#[test]
fn answers_after_its_silence() {
    let mut receiver = receiver();
    receiver.take(&address(2)).unwrap();
    receiver.take(&data(2)).unwrap();
    receiver.silence(true);
    receiver.tick(5_000).unwrap();
    assert!(!due(&mut receiver));
    receiver.silence(false);
    assert!(due(&mut receiver));
    receiver.tick(20_000).unwrap();
    assert!(!due(&mut receiver));
}

#[test]
fn draws_each_delay_once() {
    let mut delays: Vec<u64> = (0..256).map(|low| delay::delay(low, 0x1FF)).collect();
    assert_eq!(delays[1..5], [0, 1, 6, 31]);
    delays.sort_unstable();
    assert_eq!(delays, (0..256).collect::<Vec<u64>>());
}
