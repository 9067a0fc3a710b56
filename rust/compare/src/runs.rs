//! Random runs of calls, on sound and on damaged books, with right and with wrong sizes.

use crate::{near_full, Answer, Call, Difference, Kind, Pair, Random, SIZES};
use plain::{journal_book, picture, Journal};
use std::collections::BTreeMap;

/// How often a call gave an answer of a kind.
#[derive(Clone, Debug, Default)]
pub struct Seen(pub BTreeMap<String, u64>);

impl Seen {
    /// How often a call was made on borrowed books too, whatever it answered.
    pub const BORROWED: &'static str = "on borrowed books";

    fn note(&mut self, call: &Call, answer: Answer) {
        let name = match call {
            Call::Clear => "clear",
            Call::Open => "open",
            Call::Append(_) => "append",
            Call::Rebuild => "rebuild",
            Call::TableCount(_) => "table count",
            Call::JournalCount(_) => "journal count",
            Call::OpenJournals => "open journals",
            Call::LiveRows => "live rows",
            Call::Check => "check",
            Call::List { after: 0, .. } => "list from the start",
            Call::List { .. } => "list after a word",
            Call::Row(_) => "row record",
        };
        let more = match (call, answer.number) {
            (Call::Check, 2) if answer.second == 1000 => ", too many states",
            (Call::Check, 2) if answer.first == 1 => ", book 1",
            (Call::Check, 2) => ", book 2",
            (Call::List { .. }, 0) if answer.first == 1 => ", more",
            (Call::List { .. }, 0) if answer.second == 0 => ", none",
            _ => "",
        };
        let key = format!("{name}: {}{more}", answer.number);
        *self.0.entry(key).or_insert(0) += 1;
    }

    /// Adds what another run saw.
    pub fn add(&mut self, other: Seen) {
        for (key, times) in other.0 {
            *self.0.entry(key).or_insert(0) += times;
        }
    }

    /// Every number that a call may answer and that has not been seen.
    pub fn missing(&self) -> Vec<&'static str> {
        const ALL: [&str; 53] = [
            "clear: 0",
            "clear: 1",
            "open: 0",
            "open: 1",
            "open: 2",
            "open: 7",
            "append: 0",
            "append: 1",
            "append: 2",
            "append: 3",
            "append: 4",
            "append: 5",
            "append: 6",
            "rebuild: 0",
            "rebuild: 1",
            "rebuild: 2",
            "rebuild: 6",
            "table count: 0",
            "table count: 1",
            "table count: 2",
            "table count: 3",
            "journal count: 0",
            "journal count: 1",
            "journal count: 2",
            "journal count: 10",
            "open journals: 0",
            "open journals: 1",
            "open journals: 2",
            "live rows: 0",
            "live rows: 1",
            "live rows: 2",
            "check: 0",
            "check: 1",
            "check: 2, book 1",
            "check: 2, book 2",
            "check: 2, too many states",
            "list from the start: 0",
            "list from the start: 0, more",
            "list from the start: 1",
            "list from the start: 2",
            "list from the start: 8",
            "list from the start: 9",
            "list after a word: 0",
            "list after a word: 0, more",
            "list after a word: 0, none",
            "list after a word: 1",
            "list after a word: 2",
            "list after a word: 8",
            "list after a word: 9",
            "list after a word: 10",
            "row record: 0",
            "row record: 1",
            "row record: 13",
        ];
        ALL.into_iter()
            .filter(|&answer| !self.0.contains_key(answer))
            .collect()
    }
}

/// Kinds of books whose rows stay few, so that most calls are quick.
const SMALL: [Kind; 6] = [
    Kind {
        name: "two codes",
        journals: 4,
        steps: 12,
        codes: 2,
        equal: false,
    },
    Kind {
        name: "three codes",
        journals: 6,
        steps: 8,
        codes: 3,
        equal: false,
    },
    Kind {
        name: "all codes",
        journals: 3,
        steps: 6,
        codes: 16,
        equal: false,
    },
    Kind {
        name: "many journals",
        journals: 16,
        steps: 2,
        codes: 2,
        equal: false,
    },
    Kind {
        name: "sixteen journals",
        journals: 16,
        steps: 1,
        codes: 2,
        equal: false,
    },
    Kind {
        name: "one step each",
        journals: 5,
        steps: 20,
        codes: 1,
        equal: true,
    },
];

/// Kinds of books that come near 1,000 rows, or near 200 steps.
const LARGE: [Kind; 6] = [
    Kind {
        name: "few journals of equal steps",
        journals: 5,
        steps: 200,
        codes: 1,
        equal: true,
    },
    Kind {
        name: "one full journal",
        journals: 1,
        steps: 199,
        codes: 16,
        equal: false,
    },
    Kind {
        name: "two long journals",
        journals: 2,
        steps: 200,
        codes: 2,
        equal: false,
    },
    Kind {
        name: "many journals",
        journals: 16,
        steps: 14,
        codes: 2,
        equal: false,
    },
    Kind {
        name: "many codes",
        journals: 4,
        steps: 50,
        codes: 16,
        equal: false,
    },
    Kind {
        name: "three codes in many journals",
        journals: 16,
        steps: 12,
        codes: 3,
        equal: false,
    },
];

/// One random run of about a hundred calls on small books, or of about twenty on large ones. The
/// number of the run and the seed settle it.
pub fn run(seed: u64, number: u64) -> (Seen, u64, Option<Difference>) {
    let mut random = Random::new(seed ^ number.wrapping_mul(0xd134_2543_de82_ef95));
    random.number();
    let large = random.once_in(12);
    let kind = match large {
        true => random.of(&LARGE),
        false => random.of(&SMALL),
    };
    let mut run = Run {
        random,
        kind,
        large,
        pair: Pair::new(),
        seen: Seen::default(),
        sound: None,
        damaged_for: 0,
    };
    let difference = run.go().err();
    let by_borrowed = run.pair.by_borrowed;
    run.seen.0.insert(Seen::BORROWED.to_string(), by_borrowed);
    (run.seen, run.pair.calls, difference)
}

struct Run {
    random: Random,
    kind: Kind,
    large: bool,
    pair: Pair,
    seen: Seen,
    /// The books before they were damaged, while they are damaged.
    sound: Option<(Vec<u8>, Vec<u8>)>,
    damaged_for: usize,
}

impl Run {
    fn call(&mut self, call: Call) -> Result<Answer, Difference> {
        let answer = self.pair.call(&call)?;
        self.seen.note(&call, answer);
        Ok(answer)
    }

    fn go(&mut self) -> Result<(), Difference> {
        if self.large {
            let rows = 1000 - self.random.of(&[0, 0, 1, 2, 30]);
            let journals = near_full(&mut self.random, self.kind, rows);
            let rows = picture(&journals).expect("there are few enough states");
            self.pair.set(&journal_book(&journals), &rows);
        } else if self.random.once_in(4) {
            self.garbage(0);
            self.garbage(1);
            self.call(Call::Clear)?;
        }
        let turns = if self.large { 15 } else { 90 };
        for _ in 0..turns {
            self.turn()?;
        }
        Ok(())
    }

    fn turn(&mut self) -> Result<(), Difference> {
        self.pair.sizes = SIZES;
        if let Some((journals, rows)) = &self.sound {
            if self.damaged_for == 0 {
                self.pair.set(journals, rows);
                self.sound = None;
            } else {
                self.damaged_for -= 1;
            }
        } else if self.random.once_in(16) {
            self.sound = Some((self.pair.book(0).to_vec(), self.pair.book(1).to_vec()));
            self.damaged_for = 2 + self.random.below(8);
            self.damage()?;
        }
        if self.random.once_in(40) {
            let book = self.random.below(2);
            self.pair.sizes[book] = self.wrong_size(SIZES[book]);
        }
        self.some_call()
    }

    fn some_call(&mut self) -> Result<(), Difference> {
        match self.random.below(100) {
            0..=39 => self.change(),
            40..=52 => {
                let word = self.word();
                self.call(Call::TableCount(word)).map(drop)
            }
            53..=65 => {
                let record = self.record();
                self.call(Call::JournalCount(record)).map(drop)
            }
            66..=68 => self.call(Call::OpenJournals).map(drop),
            69..=71 => self.call(Call::LiveRows).map(drop),
            72..=73 => self.call(Call::Rebuild).map(drop),
            74..=77 => self.call(Call::Check).map(drop),
            78..=93 => {
                let list = self.list();
                self.call(list).map(drop)
            }
            94..=95 => self.pages(),
            _ => {
                let row = match self.random.below(4) {
                    0 => self.random.of(&[999, 1000, 1001, 65_536, usize::MAX]),
                    _ => self.random.below(1010),
                };
                self.call(Call::Row(row)).map(drop)
            }
        }
    }

    /// A call that changes the books: on small ones mostly one that makes them grow, up to the
    /// kind's size.
    fn change(&mut self) -> Result<(), Difference> {
        let journals = self.journals();
        let steps = journals.last().map_or(0, Vec::len);
        if self.sound.is_none() && !self.large {
            let full = journals.len() >= self.kind.journals && steps >= self.kind.steps;
            let done = (full && self.random.once_in(3)) || self.random.once_in(200);
            if done || self.live_rows() > 150 {
                return self.call(Call::Clear).map(drop);
            }
        }
        let opens = journals.is_empty() || steps >= self.kind.steps;
        let call = match self.random.below(20) {
            0 if self.sound.is_some() => Call::Clear,
            0 | 1 => Call::Open,
            _ if opens && !self.large && !self.random.once_in(20) => Call::Open,
            2 => Call::Append(self.random.byte()),
            _ => Call::Append(self.code(journals.len())),
        };
        self.call(call).map(drop)
    }

    /// A step of the kind for the journal of a number.
    fn code(&mut self, journals: usize) -> u8 {
        let code = match self.kind.equal && !self.random.once_in(8) {
            true => journals,
            false => self
                .random
                .below(self.kind.codes + self.random.clone().below(2)),
        };
        (code % 16) as u8
    }

    /// How many rows are live; 0 while the books are damaged.
    fn live_rows(&self) -> usize {
        plain::live_rows(self.pair.book(0), self.pair.book(1)).rows
    }

    /// The journals, as far as the journal book can be read.
    fn journals(&self) -> Vec<Journal> {
        self.pair
            .book(0)
            .chunks_exact(256)
            .take_while(|record| record[0] != 0)
            .map(|record| record[2..2 + usize::from(record[1].min(200))].to_vec())
            .collect()
    }

    /// A word: mostly one that is left of some journal after steps were struck out.
    fn word(&mut self) -> Vec<u8> {
        let journals = self.journals();
        let mut word = Vec::new();
        if !journals.is_empty() && !self.random.once_in(5) {
            let at = self.random.below(journals.len());
            let gaps = 1 + self.random.below(4);
            for &step in &journals[at] {
                if self.random.once_in(gaps) {
                    word.push(step);
                }
            }
            if !self.random.once_in(3) {
                word.truncate(self.random.below(20));
            }
        } else {
            for _ in 0..self.random.of(&[0, 1, 2, 3, 5, 8, 15, 16, 40, 300]) {
                word.push(self.random.below(self.kind.codes) as u8);
            }
        }
        if self.random.once_in(6) {
            word.push(self.random.below(16) as u8);
        }
        if self.random.once_in(25) && !word.is_empty() {
            let at = self.random.below(word.len());
            word[at] = self.random.of(&[16, 17, 255, 128]);
        }
        word
    }

    /// A word record: mostly of right form.
    fn record(&mut self) -> Vec<u8> {
        let mut word = self.word();
        word.truncate(15);
        let mut record = vec![word.len() as u8];
        record.extend(word);
        record.resize(16, 0);
        if self.random.once_in(15) {
            let at = self.random.below(16);
            record[at] = self.random.of(&[0, 1, 15, 16, 17, 255]);
        }
        if self.random.once_in(60) {
            record[0] = self.random.byte();
        }
        if self.random.once_in(60) {
            let size = self.wrong_size(16);
            record.resize(size, 0);
        }
        record
    }

    /// A call of the list: mostly one that isn't refused.
    fn list(&mut self) -> Call {
        let k = self.journals().len();
        let quorum = match self.random.below(12) {
            0 => self.random.of(&[0, k + 1, 17, 255, 256, usize::MAX]),
            1 => k,
            _ => 1 + self.random.below(k.max(1)),
        };
        let length = match self.random.below(12) {
            0 => self.random.of(&[15, 16, 17, 255, 256, usize::MAX]),
            _ => self.random.below(16),
        };
        let out = match self.random.below(30) {
            0 => self
                .random
                .of(&[0, 1, 8, 15, 17, 24, 65_535, 65_537, 65_552]),
            1 => self.random.of(&[65_536, 65_520]),
            2..=4 => 16 * (1 + self.random.below(300)),
            _ => 16 * (1 + self.random.below(20)),
        };
        Call::List {
            quorum,
            length,
            after: self.random.of(&[0, 0, 1, 1, 2, 255]),
            record: self.record(),
            out,
            filled: self.random.byte(),
        }
    }

    /// The list, fetched page by page after the last word written, for some pages.
    fn pages(&mut self) -> Result<(), Difference> {
        let first = self.list();
        let Call::List {
            quorum,
            length,
            out,
            filled,
            ..
        } = first
        else {
            return Ok(());
        };
        let mut answer = self.call(first)?;
        for _ in 0..6 {
            if answer.number != 0 || answer.second == 0 {
                break;
            }
            let end = 16 * answer.second;
            let record = self.pair.out[end - 16..end].to_vec();
            answer = self.call(Call::List {
                quorum,
                length,
                after: 1,
                record,
                out,
                filled,
            })?;
        }
        Ok(())
    }

    /// A size that is not the right one: near it, or none, or small.
    fn wrong_size(&mut self, right: usize) -> usize {
        match self.random.below(6) {
            0 => 0,
            1 => right - 1,
            2 => right + 1,
            3 => right + 16,
            4 => right - 16,
            _ => self.random.below(right),
        }
    }

    /// Random bytes for a whole book.
    fn garbage(&mut self, book: usize) {
        for at in 0..SIZES[book] {
            let byte = self.random.byte();
            self.pair.poke(book, at, byte);
        }
    }

    /// Damages the books in one of several ways. Some of these leave them sound by chance.
    fn damage(&mut self) -> Result<(), Difference> {
        let live = self.live_rows().max(1);
        match self.random.below(16) {
            // Some bytes anywhere.
            0 | 1 => {
                for _ in 0..1 + self.random.below(3) {
                    let book = self.random.below(2);
                    let at = self.random.below(SIZES[book]);
                    let byte = self.random.byte();
                    self.pair.poke(book, at, byte);
                }
            }
            // A byte of a live row, by little.
            2..=5 => {
                for _ in 0..1 + self.random.below(2) {
                    let row = self.random.below(live);
                    let at = 64 * row
                        + self
                            .random
                            .of(&[0, 1, 15, 16, 17, 18, 30, 46, 47, 48, 48, 49, 63]);
                    let old = self.pair.book(1)[at];
                    let byte = self.random.of(&[
                        old.wrapping_add(1),
                        old.wrapping_sub(1),
                        0,
                        1,
                        16,
                        17,
                        255,
                    ]);
                    self.pair.poke(1, at, byte);
                }
            }
            // Two rows change places, or one is written twice.
            6 => {
                let (a, b) = (self.random.below(live), self.random.below(live));
                let twice = self.random.once_in(2);
                for at in 0..64 {
                    let (x, y) = (
                        self.pair.book(1)[64 * a + at],
                        self.pair.book(1)[64 * b + at],
                    );
                    self.pair.poke(1, 64 * a + at, y);
                    if !twice {
                        self.pair.poke(1, 64 * b + at, x);
                    }
                }
            }
            // A byte behind the live rows.
            7 => {
                let at = 64 * live.min(999) + self.random.below(64);
                let at = self.random.of(&[at, 63_999, 63_936]);
                self.pair.poke(1, at, 1);
            }
            // A whole row book of garbage, random or with arcs that mostly rise.
            8 => self.garbage(1),
            9 | 10 => return self.rising_rows(),
            // A journal record of wrong form, or nearly so.
            11 | 12 => {
                let record = 256 * self.random.below(16);
                let length = usize::from(self.pair.book(0)[record + 1]);
                let last = record + (1 + length).min(255);
                let (at, byte) = self.random.of(&[
                    (record, 0),
                    (record, 1),
                    (record, 2),
                    (record, 255),
                    (record + 1, 201),
                    (record + 1, 200),
                    (record + 1, 255),
                    (record + 1, 0),
                    (last, 16),
                    (last, 15),
                    ((last + 1).min(record + 255), 1),
                    (record + 201, 1),
                    (record + 202, 1),
                    (record + 255, 1),
                ]);
                self.pair.poke(0, at, byte);
            }
            // Other journals of right form, with the rows of the former ones.
            13 => {
                let kind = self.random.of(&SMALL);
                let other = crate::grow(&mut self.random, kind, 60);
                self.put_journals(&other);
            }
            // Journals with many more than 1,000 live states, or just about as many.
            14 => {
                let mut other = Vec::new();
                for _ in 0..2 + self.random.below(15) {
                    let steps = self.random.of(&[3, 20, 100, 200]);
                    let codes = 1 + self.random.below(16);
                    other.push((0..steps).map(|_| self.random.below(codes) as u8).collect());
                }
                self.put_journals(&other);
            }
            _ => self.garbage(0),
        }
        Ok(())
    }

    fn put_journals(&mut self, journals: &[Journal]) {
        let book = journal_book(journals);
        let rows = self.pair.book(1).to_vec();
        self.pair.set(&book, &rows);
    }

    /// Rows whose arcs mostly rise and whose counts are mostly right, so that walks go far; and some
    /// such walks.
    fn rising_rows(&mut self) -> Result<(), Difference> {
        for row in 0..1000 {
            for step in 0..16 {
                let arc = match self.random.below(16) {
                    0 => 0,
                    1 => self.random.of(&[row, 1000, 1001, 65_535, 999, 256, 1]),
                    _ => row + 1 + self.random.below(60),
                };
                let [low, high] = (arc.min(65_535) as u16).to_le_bytes();
                self.pair.poke(1, 64 * row + 16 + 2 * step, low);
                self.pair.poke(1, 64 * row + 16 + 2 * step + 1, high);
            }
            let count = match self.random.below(40) {
                0 => self.random.of(&[0, 17, 255]),
                _ => 1 + self.random.below(16) as u8,
            };
            self.pair.poke(1, 64 * row + 48, count);
        }
        for turn in 0..20 {
            if turn > 12 {
                let count = self.random.of(&[0, 1, 16, 17, 255]);
                self.pair.poke(1, 48, count);
            }
            let length = self.random.of(&[0, 1, 2, 3, 5, 10, 20]);
            let word = (0..length).map(|_| self.random.below(16) as u8);
            let word = word.collect();
            self.call(Call::TableCount(word))?;
        }
        Ok(())
    }
}
