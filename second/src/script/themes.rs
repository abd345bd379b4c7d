//! The themes of episodes.

mod broken;
mod drafting;
mod endings;
mod fullness;
mod limits;
mod lines;
mod lists;
mod making;
mod receiving;
mod records;
mod storms;
mod traffic;
mod waits;

use super::Script;
use crate::random::Random;

pub struct Theme {
    pub name: &'static str,
    pub play: fn(&mut Script),
    /// How often it is chosen, against the others.
    weight: usize,
}

const fn theme(weight: usize, name: &'static str, play: fn(&mut Script)) -> Theme {
    Theme { name, play, weight }
}

const THEMES: [Theme; 30] = [
    theme(
        6,
        "one more end, and ends that cannot be made",
        making::ends,
    ),
    theme(4, "the roster", drafting::roster),
    theme(6, "drafts", drafting::drafts),
    theme(6, "submits that are refused", drafting::submits),
    theme(14, "a sender in a storm of calls", storms::at_a_sender),
    theme(14, "a receiver in a storm of PDUs", storms::at_a_receiver),
    theme(12, "traffic over a bad net", traffic::over_a_bad_net),
    theme(8, "lists of missing numbers", lists::lists),
    theme(6, "all complete, up to the end", endings::completion),
    theme(6, "an expiry at a sender", endings::expiry),
    theme(4, "waits that grow", waits::growth),
    theme(5, "rounds into silence", waits::silent_rounds),
    theme(4, "some ships silent, some not", waits::mixed_silence),
    theme(4, "priorities at a sender", waits::priorities),
    theme(8, "about 32 missing numbers", receiving::gaps),
    theme(6, "Data before the Address", receiving::loose),
    theme(6, "PDUs against a row", receiving::conflicts),
    theme(4, "a receiver falls silent", receiving::silence),
    theme(4, "quiet and silent", receiving::quiet_silence),
    theme(
        6,
        "Addresses after the message is complete",
        receiving::addresses,
    ),
    theme(5, "records", records::records),
    theme(5, "no vacant row", fullness::rows),
    theme(5, "full stores", fullness::stores),
    theme(3, "256 fragments", fullness::long_message),
    theme(1, "a brimful grid", fullness::brimful_grid),
    theme(3, "clocks at their limits", limits::clocks),
    theme(2, "the last identity", limits::last_identity),
    theme(6, "broken PDUs", broken::fields),
    theme(5, "foreign and damaged PDUs", broken::foreign),
    theme(5, "lines that are no calls", lines::lines),
];

/// Chooses a theme by its weight.
pub fn choose(random: &mut Random) -> &'static Theme {
    let sum: usize = THEMES.iter().map(|theme| theme.weight).sum();
    let mut place = random.below(sum);
    let chosen = THEMES.iter().find(|theme| {
        let is_it = place < theme.weight;
        place = place.saturating_sub(theme.weight);
        is_it
    });
    chosen.unwrap_or(&THEMES[0])
}
