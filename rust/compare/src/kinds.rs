//! Kinds of journals, and journals that nearly fill the row book.

use crate::Random;
use plain::{live_states, Journal};

/// What journals are like.
#[derive(Clone, Copy, Debug)]
pub struct Kind {
    /// What it is called.
    pub name: &'static str,
    /// How many journals there are at most.
    pub journals: usize,
    /// How many steps each has at most.
    pub steps: usize,
    /// How many codes its steps are taken from.
    pub codes: usize,
    /// Whether each journal repeats one step of its own.
    pub equal: bool,
}

/// Random journals of a kind, one after the other, cut off where there would be more than `rows`
/// live states. Appending never lowers their number, so that the place is found by halving.
pub fn grow(random: &mut Random, kind: Kind, rows: usize) -> Vec<Journal> {
    let first = random.below(16);
    let mut whole = Vec::new();
    for number in 0..kind.journals {
        let mut journal = Journal::new();
        for _ in 0..kind.steps {
            let code = match kind.equal {
                true => first + number,
                false => first + random.below(kind.codes),
            };
            journal.push((code % 16) as u8);
        }
        whole.push(journal);
    }
    let (mut fits, mut past) = (0, kind.journals * kind.steps + 1);
    while fits + 1 < past {
        let middle = (fits + past) / 2;
        match live_states(&cut(&whole, middle)) {
            Some(states) if states.len() <= rows => fits = middle,
            _ => past = middle,
        }
    }
    cut(&whole, fits)
}

/// The journals up to a number of steps in all; those behind are not open.
fn cut(whole: &[Journal], mut steps: usize) -> Vec<Journal> {
    let mut journals = Vec::new();
    for journal in whole {
        let part = journal.len().min(steps);
        journals.push(journal[..part].to_vec());
        steps -= part;
        if steps == 0 {
            break;
        }
    }
    journals
}

/// Journals of a kind whose live states are at most `rows`, and at least nine tenths of that, if
/// that can be had in some tries.
pub fn near_full(random: &mut Random, kind: Kind, rows: usize) -> Vec<Journal> {
    let mut best = Vec::new();
    let mut most = 0;
    for _ in 0..5 {
        let journals = grow(random, kind, rows);
        let states = live_states(&journals).map_or(0, |states| states.len());
        if states > most {
            most = states;
            best = journals;
        }
        if 10 * most >= 9 * rows {
            break;
        }
    }
    best
}
