//! Times the proved library beside the plain implementation, in one run.
//!
//! It prints a table and judges nothing: how long a call takes depends on the machine.

use compare::{near_full, Kind, Random};
use plain::{journal_book, live_states, picture, Journal};
use selquorin::raw;
use std::hint::black_box;
use std::time::Instant;

/// What is measured, printed above the table.
const HEADER: &str = "\
Time of one call, in microseconds: the proved library's, the plain implementation's, and the first
as a part of the second. Books of up to 995 rows, so that one more append is taken; both sides get
the same bytes. Open, append, check and list include the check of both books that comes first.
Append, open, rebuild: a call that is done, on books set anew each time; the setting isn't timed.
Check: of sound books. Counts: of words of up to 15 steps that some journal holds, a call's mean.
List: a page of up to 4,096 words, quorum 1, length 15, from the start.
Each time is the least of 25, which other work on the machine disturbs least; the two take turns.";

const KINDS: [Kind; 4] = [
    Kind {
        name: "few journals, equal steps",
        journals: 5,
        steps: 200,
        codes: 1,
        equal: true,
    },
    Kind {
        name: "two long journals",
        journals: 2,
        steps: 199,
        codes: 2,
        equal: false,
    },
    Kind {
        name: "many journals",
        journals: 15,
        steps: 14,
        codes: 2,
        equal: false,
    },
    Kind {
        name: "many letters",
        journals: 4,
        steps: 50,
        codes: 16,
        equal: false,
    },
];

const TIMES: usize = 25;
const WORDS: usize = 500;

/// The least time of a call by the library and by plain, in microseconds. `set` makes what the
/// call is given, untimed.
fn both<T>(
    mut set: impl FnMut() -> T,
    mut library: impl FnMut(&mut T),
    mut plain: impl FnMut(&mut T),
) -> (f64, f64) {
    let mut least = (f64::INFINITY, f64::INFINITY);
    let mut time = |call: &mut dyn FnMut(&mut T)| {
        let mut given = set();
        let start = Instant::now();
        call(black_box(&mut given));
        start.elapsed().as_secs_f64() * 1e6
    };
    for _ in 0..TIMES {
        least.0 = least.0.min(time(&mut library));
        least.1 = least.1.min(time(&mut plain));
    }
    least
}

/// Words of up to 15 steps that are left of some journal after steps were struck out.
fn words(random: &mut Random, journals: &[Journal]) -> Vec<Vec<u8>> {
    let mut words = Vec::new();
    while words.len() < WORDS {
        let journal = &journals[random.below(journals.len())];
        let gaps = 1 + random.below(1 + journal.len() / 10);
        let mut word = Vec::new();
        for &step in journal {
            if word.len() < 15 && random.once_in(gaps) {
                word.push(step);
            }
        }
        words.push(word);
    }
    words
}

fn record(word: &[u8]) -> [u8; 16] {
    let mut record = [0; 16];
    record[0] = word.len() as u8;
    record[1..=word.len()].copy_from_slice(word);
    record
}

/// A step that an append takes.
fn taken(journals: &[u8], rows: &[u8]) -> Option<u8> {
    (0..16).find(|&step| plain::append(&mut journals.to_vec(), &mut rows.to_vec(), step) == 0)
}

/// Books to time calls on.
struct Case {
    name: String,
    opened: Vec<Journal>,
    journals: Vec<u8>,
    rows: Vec<u8>,
}

impl Case {
    fn new(random: &mut Random, kind: Kind) -> Case {
        let opened = near_full(random, kind, 995);
        let states = live_states(&opened).map_or(0, |states| states.len());
        Case {
            name: format!("{}, {} rows", kind.name, states),
            journals: journal_book(&opened),
            rows: picture(&opened).expect("there are few enough states"),
            opened,
        }
    }

    fn line(&self, call: &str, (library, plain): (f64, f64), note: &str) {
        let (name, ratio) = (&self.name, library / plain);
        println!("{name:<42} {call:<14} {library:>10.2} {plain:>10.2} {ratio:>7.2}  {note}");
    }

    /// The calls that take both books.
    fn time_books(&self) {
        let fresh = || (self.journals.clone(), self.rows.clone());
        match taken(&self.journals, &self.rows) {
            Some(step) => {
                let times = both(
                    fresh,
                    |(j, r)| assert_eq!(raw::append(j, r, step), 0),
                    |(j, r)| assert_eq!(plain::append(j, r, step), 0),
                );
                self.line("append", times, "");
            }
            None => println!("{:<42} append: none is taken", self.name),
        }
        let times = both(
            fresh,
            |(j, r)| assert_eq!(raw::open(j, r), 0),
            |(j, r)| assert_eq!(plain::open(j, r), 0),
        );
        self.line("open", times, "");
        let times = both(
            fresh,
            |(j, r)| assert_eq!(raw::rebuild(j, r), 0),
            |(j, r)| assert_eq!(plain::rebuild(j, r), 0),
        );
        self.line("rebuild", times, "");
        let times = both(
            fresh,
            |(j, r)| assert_eq!(raw::check(j, r).number, 0),
            |(j, r)| assert_eq!(plain::check(j, r).number, 0),
        );
        self.line("check", times, "");
    }

    /// Both counts, of the same words.
    fn time_counts(&self, words: &[Vec<u8>]) {
        let by_table = |count: &dyn Fn(&[u8], &[u8]) -> u8| {
            for word in words {
                assert_ne!(count(black_box(&self.rows), word), 0);
            }
        };
        let times = both(
            || (),
            |()| by_table(&|rows, word| raw::table_count(rows, word).count),
            |()| by_table(&|rows, word| plain::table_count(rows, word).count),
        );
        self.line("table count", per_word(times), "");
        let records: Vec<[u8; 16]> = words.iter().map(|word| record(word)).collect();
        let by_journals = |count: &dyn Fn(&[u8], &[u8]) -> u8| {
            for record in &records {
                assert_ne!(count(black_box(&self.journals), record), 0);
            }
        };
        let times = both(
            || (),
            |()| by_journals(&|journals, record| raw::journal_count(journals, record).count),
            |()| by_journals(&|journals, record| plain::journal_count(journals, record).count),
        );
        self.line("journal count", per_word(times), "");
    }

    fn time_list(&self) {
        let (journals, rows) = (&self.journals, &self.rows);
        let mut written = 0;
        let times = both(
            || vec![0; 65_536],
            |out| written = raw::list(journals, rows, 1, 15, 0, &[0; 16], out).written,
            |out| {
                plain::list(journals, rows, 1, 15, false, &[0; 16], out);
            },
        );
        self.line("list", times, &format!("{written} words"));
    }
}

fn per_word((library, plain): (f64, f64)) -> (f64, f64) {
    (library / WORDS as f64, plain / WORDS as f64)
}

fn main() {
    println!("{HEADER}\n");
    println!(
        "{:<42} {:<14} {:>10} {:>10} {:>7}",
        "books", "call", "library", "plain", "ratio"
    );
    let mut random = Random::new(3);
    for kind in KINDS {
        let case = Case::new(&mut random, kind);
        case.time_books();
        case.time_counts(&words(&mut random, &case.opened));
        case.time_list();
    }
}
