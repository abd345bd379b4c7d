//! The ends of a script, and the calls that its lines make at them.

use super::answer::{answer, Answer};
use super::words::{is_name, list, number, number_to, octets, on_or_off};
use crate::receiver::Receiver;
use crate::refusal::Refusal;
use crate::sender::{DraftId, Sender, Terms};
use crate::store::Store;

const MOST_SENDERS: usize = 8;
const MOST_RECEIVERS: usize = 8;

const LONGEST_POLL: usize = 65_535;
const LONGEST_COLLECT: usize = 1_048_576;

/// The ends that a script made, in the order of their making.
#[derive(Debug, Default)]
pub struct Session {
    ends: Vec<(String, End)>,
}

#[derive(Debug)]
enum End {
    Sender(Sender),
    Receiver(Receiver),
}

/// The store that a line asks for.
#[derive(Clone, Copy)]
enum StoreForm {
    Grid { width: u16 },
    Pool { width: u16, limit: u16 },
}

impl StoreForm {
    fn read(words: &[&str]) -> Option<StoreForm> {
        match *words {
            ["grid", width] => Some(StoreForm::Grid {
                width: number(width)?,
            }),
            ["pool", width, limit] => Some(StoreForm::Pool {
                width: number(width)?,
                limit: number(limit)?,
            }),
            _ => None,
        }
    }

    fn make(self) -> Result<Store, Refusal> {
        match self {
            StoreForm::Grid { width } => Store::grid(width),
            StoreForm::Pool { width, limit } => Store::pool(width, limit),
        }
    }
}

impl Session {
    pub fn answer(&mut self, line: &[u8]) -> Answer {
        let line = std::str::from_utf8(line).ok();
        let answer = line.and_then(|line| self.call(line));
        answer.unwrap_or(Answer::Malformed)
    }

    /// Makes the call of a line; nothing if the line is malformed.
    fn call(&mut self, line: &str) -> Option<Answer> {
        let words: Vec<&str> = line.split(' ').collect();
        match *words.as_slice() {
            [name, "sender", source, first, ref store @ ..] => {
                let store = StoreForm::read(store)?;
                self.make_sender(name, number(source)?, number(first)?, store)
            }
            [name, "receiver", identity, ref store @ ..] => {
                let store = StoreForm::read(store)?;
                self.make_receiver(name, number(identity)?, store)
            }
            [name, "append" | "submit" | "withdraw", draft, ref terms @ ..] => {
                let draft = self.held_draft(draft)?;
                match self.end(name)? {
                    End::Sender(sender) => at_draft(sender, words[1], draft, terms),
                    End::Receiver(_) => None,
                }
            }
            [name, ref call @ ..] => match self.end(name)? {
                End::Sender(sender) => at_sender(sender, call),
                End::Receiver(receiver) => at_receiver(receiver, call),
            },
            [] => None,
        }
    }

    fn make_sender(
        &mut self,
        name: &str,
        source: u32,
        first: u32,
        store: StoreForm,
    ) -> Option<Answer> {
        let sources: Vec<u32> = self.senders().map(Sender::source).collect();
        self.judge_new(name, source, &sources, MOST_SENDERS)?;
        let made = store
            .make()
            .and_then(|store| Sender::new(source, first, store));
        Some(self.add(name, made.map(End::Sender)))
    }

    fn make_receiver(&mut self, name: &str, identity: u32, store: StoreForm) -> Option<Answer> {
        let identities: Vec<u32> = self.receivers().map(Receiver::identity).collect();
        self.judge_new(name, identity, &identities, MOST_RECEIVERS)?;
        let made = store.make().map(|store| Receiver::new(identity, store));
        Some(self.add(name, made.map(End::Receiver)))
    }

    /// Judges a new end among those of its kind.
    fn judge_new(&self, name: &str, id: u32, others: &[u32], most: usize) -> Option<()> {
        let is_good = is_name(name)
            && self.get(name).is_none()
            && others.len() < most
            && !others.contains(&id);
        is_good.then_some(())
    }

    fn add(&mut self, name: &str, made: Result<End, Refusal>) -> Answer {
        answer(made, |end| {
            self.ends.push((name.to_string(), end));
            Answer::Made
        })
    }

    /// The draft of a word `OWNER:IDENTITY`, if its owner holds it.
    fn held_draft(&self, word: &str) -> Option<DraftId> {
        let (owner, identity) = word.split_once(':')?;
        let (owner, identity) = (self.sender(owner)?, number(identity)?);
        owner.holds_draft(identity).then_some(DraftId {
            source: owner.source(),
            identity,
        })
    }

    fn get(&self, name: &str) -> Option<&End> {
        let mut ends = self.ends.iter();
        ends.find(|(known, _)| known == name).map(|(_, end)| end)
    }

    fn end(&mut self, name: &str) -> Option<&mut End> {
        let mut ends = self.ends.iter_mut();
        ends.find(|(known, _)| known == name).map(|(_, end)| end)
    }

    pub fn sender(&self, name: &str) -> Option<&Sender> {
        match self.get(name)? {
            End::Sender(sender) => Some(sender),
            End::Receiver(_) => None,
        }
    }

    pub fn receiver(&self, name: &str) -> Option<&Receiver> {
        match self.get(name)? {
            End::Receiver(receiver) => Some(receiver),
            End::Sender(_) => None,
        }
    }

    fn senders(&self) -> impl Iterator<Item = &Sender> {
        self.ends.iter().filter_map(|(_, end)| match end {
            End::Sender(sender) => Some(sender),
            End::Receiver(_) => None,
        })
    }

    fn receivers(&self) -> impl Iterator<Item = &Receiver> {
        self.ends.iter().filter_map(|(_, end)| match end {
            End::Receiver(receiver) => Some(receiver),
            End::Sender(_) => None,
        })
    }
}

/// A call at a sender with a draft that is held, by it or by another.
fn at_draft(sender: &mut Sender, call: &str, draft: DraftId, words: &[&str]) -> Option<Answer> {
    let result = match (call, words) {
        ("append", [fragment]) => sender.append(draft, &octets(fragment)?),
        ("submit", [priority, expiry, destinations]) => {
            let terms = Terms {
                priority: number(priority)?,
                expiry: number(expiry)?,
                destinations: list(destinations)?,
            };
            sender.submit(draft, &terms)
        }
        ("withdraw", []) => sender.withdraw(draft),
        _ => return None,
    };
    Some(answer(result, |()| Answer::Done))
}

fn at_sender(sender: &mut Sender, words: &[&str]) -> Option<Answer> {
    let done = |()| Answer::Done;
    Some(match *words {
        ["enrol", destination] => answer(sender.enrol(number(destination)?), done),
        ["silence", destination, word] => {
            let destination = number(destination)?;
            answer(sender.silence(destination, on_or_off(word)?), done)
        }
        ["begin"] => answer(sender.begin(), Answer::Draft),
        ["take", datagram] => answer(sender.take(&octets(datagram)?), Answer::Noted),
        ["tick", clock] => answer(sender.tick(number(clock)?), done),
        ["poll", buffer] => answer(sender.poll(number_to(LONGEST_POLL, buffer)?), Answer::Wrote),
        ["standing", identity, destination] => answer(
            sender.standing(number(identity)?, number(destination)?),
            Answer::Standing,
        ),
        ["lacking", identity, destination] => answer(
            sender.lacking(number(identity)?, number(destination)?),
            |missing| Answer::Missing(missing.clone()),
        ),
        ["forget", identity] => answer(sender.forget(number(identity)?), done),
        _ => return None,
    })
}

fn at_receiver(receiver: &mut Receiver, words: &[&str]) -> Option<Answer> {
    Some(match *words {
        ["silence", word] => {
            receiver.silence(on_or_off(word)?);
            Answer::Done
        }
        ["take", datagram] => answer(receiver.take(&octets(datagram)?), Answer::Taken),
        ["tick", clock] => answer(receiver.tick(number(clock)?), |()| Answer::Done),
        ["poll", buffer] => answer(
            receiver.poll(number_to(LONGEST_POLL, buffer)?),
            Answer::Wrote,
        ),
        ["collect", buffer] => answer(
            receiver.collect(number_to(LONGEST_COLLECT, buffer)?),
            Answer::Message,
        ),
        _ => return None,
    })
}
