//! The calls of document 01, how many journals and rows there are, and rebuild, straight from its
//! rules.
//!
//! This crate shares no code with the proved library or its wrapper. It is there to be compared
//! with, so it prefers the plain way of saying a thing: journals as rows of steps, states as rows
//! of places, the picture drawn anew each time. Every function answers for every input: wrong
//! sizes and damaged bytes too. Names are those of README.md, so that its rules are found by them.

use std::collections::{BTreeMap, BTreeSet};

/// The bytes of a journal book.
pub const JOURNAL_BOOK: usize = 4096;
/// The bytes of a row book.
pub const ROW_BOOK: usize = 64_000;
/// The bytes of a word record.
pub const WORD_RECORD: usize = 16;
/// The row records of a row book.
pub const MOST_ROWS: usize = 1000;

const JOURNAL_RECORD: usize = 256;
const ROW_RECORD: usize = 64;
const MOST_JOURNALS: usize = 16;
const LONGEST_JOURNAL: usize = 200;
const STEPS: u8 = 16;
const LOST: u8 = 255;

/// A journal: a row of steps.
pub type Journal = Vec<u8>;

/// A state: the 16 place bytes of a row.
pub type State = [u8; MOST_JOURNALS];

/// What a count answers.
#[derive(Clone, Copy, Debug, PartialEq, Eq)]
pub struct Counted {
    /// 0: done. Else why it was refused.
    pub number: u8,
    /// The count; 0 with a refusal.
    pub count: u8,
}

/// What the number of open journals answers.
#[derive(Clone, Copy, Debug, PartialEq, Eq)]
pub struct OpenJournals {
    /// 0: done. Else why it was refused.
    pub number: u8,
    /// How many journals are open; 0 with a refusal.
    pub journals: usize,
}

/// What the number of live rows answers.
#[derive(Clone, Copy, Debug, PartialEq, Eq)]
pub struct LiveRows {
    /// 0: done. Else why it was refused.
    pub number: u8,
    /// How many rows are live; 0 with a refusal.
    pub rows: usize,
}

/// What the check answers.
#[derive(Clone, Copy, Debug, PartialEq, Eq)]
pub struct Checked {
    /// 0: done. Else why it was refused.
    pub number: u8,
    /// 1 or 2 where that book is wrong, else 0.
    pub book: u8,
    /// The record that is wrong.
    pub record: usize,
    /// The byte of the row that is wrong.
    pub byte: usize,
}

/// What the list answers.
#[derive(Clone, Copy, Debug, PartialEq, Eq)]
pub struct Listed {
    /// 0: done. Else why it was refused.
    pub number: u8,
    /// How many words were written.
    pub written: usize,
    /// Whether a further word remains.
    pub more: bool,
}

// ---------------------------------------------------------------- words, places, states

/// The places in a journal: from each place by each step.
type Places = Vec<[u8; STEPS as usize]>;

/// From place p a step leads to the nearest place behind p that has this step, or is lost.
///
/// Written from the journal's end: above the last place there is no step, and above p there is
/// what is above p + 1, and the step p + 1 itself, which is nearer.
fn places(journal: &[u8]) -> Places {
    let mut places = vec![[LOST; STEPS as usize]; journal.len() + 1];
    for p in (0..journal.len()).rev() {
        places[p] = places[p + 1];
        places[p][journal[p] as usize] = p as u8 + 1;
    }
    places
}

/// The empty word is at place 0 of every journal, and a journal that isn't open has that byte too.
fn empty_state() -> State {
    [0; MOST_JOURNALS]
}

/// The state of a word with one step more: a place that is lost stays so.
fn state_after(places: &[Places], state: &State, step: u8) -> State {
    let mut next = empty_state();
    for (i, places) in places.iter().enumerate() {
        next[i] = match state[i] {
            LOST => LOST,
            p => places[p as usize][step as usize],
        };
    }
    next
}

/// The places in each journal.
fn all_places(journals: &[Journal]) -> Vec<Places> {
    journals.iter().map(|journal| places(journal)).collect()
}

/// How many of the k journals hold the state's words: journals, not distinct places.
fn state_count(k: usize, state: &State) -> usize {
    state[..k].iter().filter(|&&place| place != LOST).count()
}

/// Whether a state is live: some journal's place isn't lost. No count is asked.
fn is_live(k: usize, state: &State) -> bool {
    state[..k].iter().any(|&place| place != LOST)
}

/// The live states that some word reaches, the lower place byte first; none if there are more than
/// 1,000. A lost place is 255, so it comes last.
pub fn live_states(journals: &[Journal]) -> Option<Vec<State>> {
    let k = journals.len();
    let places = all_places(journals);
    let mut live = BTreeSet::new();
    let mut waiting = Vec::new();
    if is_live(k, &empty_state()) {
        live.insert(empty_state());
        waiting.push(empty_state());
    }
    while let Some(state) = waiting.pop() {
        for step in 0..STEPS {
            let next = state_after(&places, &state, step);
            if is_live(k, &next) && live.insert(next) {
                if live.len() > MOST_ROWS {
                    return None;
                }
                waiting.push(next);
            }
        }
    }
    Some(live.into_iter().collect())
}

// ---------------------------------------------------------------- the two books

/// The picture of some journals: their live states in order, a row record each, and zeros behind.
/// None if the row book is too small for them.
pub fn picture(journals: &[Journal]) -> Option<Vec<u8>> {
    let k = journals.len();
    let states = live_states(journals)?;
    let places = all_places(journals);
    let row_of: BTreeMap<State, usize> = states.iter().copied().zip(0..).collect();
    let mut book = vec![0; ROW_BOOK];
    for (state, record) in states.iter().zip(book.chunks_exact_mut(ROW_RECORD)) {
        record[..16].copy_from_slice(state);
        for step in 0..STEPS {
            // A state that has no row isn't live: its arc is 0.
            let next = state_after(&places, state, step);
            let arc = row_of.get(&next).copied().unwrap_or(0) as u16;
            let at = 16 + 2 * step as usize;
            record[at..at + 2].copy_from_slice(&arc.to_le_bytes());
        }
        record[48] = state_count(k, state) as u8;
    }
    Some(book)
}

/// Whether a journal record has its form: the mark, the length, as many steps, and zeros; or zeros
/// alone.
fn journal_record_has_form(record: &[u8]) -> bool {
    let length = record[1] as usize;
    match record[0] {
        0 => record.iter().all(|&byte| byte == 0),
        1 => {
            length <= LONGEST_JOURNAL
                && record[2..2 + length].iter().all(|&step| step < STEPS)
                && record[2 + length..].iter().all(|&byte| byte == 0)
        }
        _ => false,
    }
}

/// The record that the check names in book 1: none before it is wrong.
fn first_wrong_journal_record(book: &[u8]) -> Option<usize> {
    let mut one_is_shut = false;
    for (i, record) in book.chunks_exact(JOURNAL_RECORD).enumerate() {
        if !journal_record_has_form(record) || (record[0] == 1 && one_is_shut) {
            return Some(i);
        }
        one_is_shut = record[0] == 0;
    }
    None
}

/// The journals of a book that has its form.
fn journals_of(book: &[u8]) -> Vec<Journal> {
    book.chunks_exact(JOURNAL_RECORD)
        .filter(|record| record[0] == 1)
        .map(|record| record[2..2 + record[1] as usize].to_vec())
        .collect()
}

/// The journal book of up to 16 journals, each of up to 200 steps.
pub fn journal_book(journals: &[Journal]) -> Vec<u8> {
    let mut book = vec![0; JOURNAL_BOOK];
    for (journal, record) in journals.iter().zip(book.chunks_exact_mut(JOURNAL_RECORD)) {
        record[0] = 1;
        record[1] = journal.len() as u8;
        record[2..2 + journal.len()].copy_from_slice(journal);
    }
    book
}

/// Whether a book has more or fewer bytes than it should.
fn wrong_sizes(journals: &[u8], rows: &[u8]) -> bool {
    journals.len() != JOURNAL_BOOK || rows.len() != ROW_BOOK
}

/// Whether the books are sound: the check finds no fault in them.
fn is_sound(journals: &[u8], rows: &[u8]) -> bool {
    check(journals, rows).number == 0
}

// ---------------------------------------------------------------- the calls on the books

/// Clear: nothing but zeros in both books. Order: 1.
pub fn clear(journals: &mut [u8], rows: &mut [u8]) -> u8 {
    if wrong_sizes(journals, rows) {
        return 1;
    }
    journals.fill(0);
    rows.fill(0);
    0
}

/// Open: one journal more, the last, without a step. Order: 1, 2, 7.
pub fn open(journals: &mut [u8], rows: &mut [u8]) -> u8 {
    if wrong_sizes(journals, rows) {
        return 1;
    }
    if !is_sound(journals, rows) {
        return 2;
    }
    let mut opened = journals_of(journals);
    if opened.len() == MOST_JOURNALS {
        return 7;
    }
    opened.push(Journal::new());
    let drawn = picture(&opened).expect("an empty journal adds at most the first state");
    journals.copy_from_slice(&journal_book(&opened));
    rows.copy_from_slice(&drawn);
    0
}

/// Append: the last journal gets one step more. Order: 1, 2, 3, 4, 5, 6.
pub fn append(journals: &mut [u8], rows: &mut [u8], step: u8) -> u8 {
    if wrong_sizes(journals, rows) {
        return 1;
    }
    if !is_sound(journals, rows) {
        return 2;
    }
    if step >= STEPS {
        return 3;
    }
    let mut longer = journals_of(journals);
    let Some(last) = longer.last_mut() else {
        return 4;
    };
    if last.len() == LONGEST_JOURNAL {
        return 5;
    }
    last.push(step);
    let Some(drawn) = picture(&longer) else {
        return 6;
    };
    journals.copy_from_slice(&journal_book(&longer));
    rows.copy_from_slice(&drawn);
    0
}

/// Rebuild: the row book becomes the picture of the journals, whatever it held. Order: 1, 2, 6.
pub fn rebuild(journals: &[u8], rows: &mut [u8]) -> u8 {
    if wrong_sizes(journals, rows) {
        return 1;
    }
    if first_wrong_journal_record(journals).is_some() {
        return 2;
    }
    let Some(drawn) = picture(&journals_of(journals)) else {
        return 6;
    };
    rows.copy_from_slice(&drawn);
    0
}

/// The number of open journals, k, by the journal book alone. Order: 1, 2.
pub fn open_journals(journals: &[u8]) -> OpenJournals {
    let answer = |number, journals| OpenJournals { number, journals };
    if journals.len() != JOURNAL_BOOK {
        return answer(1, 0);
    }
    match first_wrong_journal_record(journals) {
        Some(_) => answer(2, 0),
        None => answer(0, journals_of(journals).len()),
    }
}

/// The number of live rows: on sound books, how many states of the journals are live. Order: 1, 2.
pub fn live_rows(journals: &[u8], rows: &[u8]) -> LiveRows {
    let answer = |number, rows| LiveRows { number, rows };
    if wrong_sizes(journals, rows) {
        return answer(1, 0);
    }
    if !is_sound(journals, rows) {
        return answer(2, 0);
    }
    let states = live_states(&journals_of(journals)).expect("sound books have few enough states");
    answer(0, states.len())
}

/// Check: the first fault, looked for in the journal book, and in the row book if there is none.
/// Order: 1, 2.
pub fn check(journals: &[u8], rows: &[u8]) -> Checked {
    let answer = |number, book, record, byte| Checked {
        number,
        book,
        record,
        byte,
    };
    if wrong_sizes(journals, rows) {
        return answer(1, 0, 0, 0);
    }
    if let Some(record) = first_wrong_journal_record(journals) {
        return answer(2, 1, record, 0);
    }
    // Journals without a picture are told by a record that no row book has.
    let Some(drawn) = picture(&journals_of(journals)) else {
        return answer(2, 2, MOST_ROWS, 0);
    };
    match (0..ROW_BOOK).find(|&at| rows[at] != drawn[at]) {
        Some(at) => answer(2, 2, at / ROW_RECORD, at % ROW_RECORD),
        None => answer(0, 0, 0, 0),
    }
}

fn row_count(rows: &[u8], row: usize) -> u8 {
    rows[ROW_RECORD * row + 48]
}

fn row_arc(rows: &[u8], row: usize, step: u8) -> usize {
    let at = ROW_RECORD * row + 16 + 2 * step as usize;
    u16::from_le_bytes([rows[at], rows[at + 1]]) as usize
}

/// Table count: along the arcs from row 0, for every content of the row book. Order: 1, 3, 2.
pub fn table_count(rows: &[u8], word: &[u8]) -> Counted {
    let refused = |number| Counted { number, count: 0 };
    let found = |count| Counted { number: 0, count };
    if rows.len() != ROW_BOOK {
        return refused(1);
    }
    if word.iter().any(|&step| step >= STEPS) {
        return refused(3);
    }
    // Row 0 may have the count 0, where there is no journal; a row at an arc's end may not.
    let mut row = 0;
    match row_count(rows, row) {
        0 => return found(0),
        1..=16 => (),
        _ => return refused(2),
    }
    for &step in word {
        let arc = row_arc(rows, row, step);
        if arc == 0 {
            return found(0);
        }
        if arc <= row || arc >= MOST_ROWS {
            return refused(2);
        }
        if !(1..=16).contains(&row_count(rows, arc)) {
            return refused(2);
        }
        row = arc;
    }
    found(row_count(rows, row))
}

/// The word of a word record of 16 bytes, if it has its form.
fn word_of(record: &[u8]) -> Option<&[u8]> {
    let length = record[0] as usize;
    if length > 15 {
        return None;
    }
    let (word, beyond) = record[1..].split_at(length);
    let right = word.iter().all(|&step| step < STEPS) && beyond.iter().all(|&byte| byte == 0);
    right.then_some(word)
}

/// Whether a word is in a journal: its first step is taken as early as it can be, then the others.
fn is_in(word: &[u8], journal: &[u8]) -> bool {
    let Some((first, rest)) = word.split_first() else {
        return true;
    };
    match journal.iter().position(|step| step == first) {
        Some(at) => is_in(rest, &journal[at + 1..]),
        None => false,
    }
}

/// Journal count: a word is looked for in each journal, without the table. Order: 1, 10, 2.
pub fn journal_count(journals: &[u8], record: &[u8]) -> Counted {
    let refused = |number| Counted { number, count: 0 };
    if journals.len() != JOURNAL_BOOK || record.len() != WORD_RECORD {
        return refused(1);
    }
    let Some(word) = word_of(record) else {
        return refused(10);
    };
    if first_wrong_journal_record(journals).is_some() {
        return refused(2);
    }
    let holders = journals_of(journals)
        .iter()
        .filter(|journal| is_in(word, journal))
        .count();
    Counted {
        number: 0,
        count: holders as u8,
    }
}

/// The number that goes with a row record. Order: 1, 13.
pub fn row_record_number(rows: &[u8], row: usize) -> u8 {
    if rows.len() != ROW_BOOK {
        1
    } else if row >= MOST_ROWS {
        13
    } else {
        0
    }
}

/// Row record: a part of the row book, empty where it is refused.
pub fn row_record(rows: &[u8], row: usize) -> &[u8] {
    if row_record_number(rows, row) != 0 {
        return &[];
    }
    &rows[ROW_RECORD * row..ROW_RECORD * (row + 1)]
}

// ---------------------------------------------------------------- the list

/// A walk over the words that the quorum admits, in dictionary order.
struct Walk {
    places: Vec<Places>,
    quorum: usize,
    length: usize,
    word: Vec<u8>,
    /// The states of the word's beginnings, the empty one first: one more than the word has steps.
    states: Vec<State>,
}

impl Walk {
    fn new(journals: &[Journal], quorum: usize, length: usize) -> Self {
        Walk {
            places: all_places(journals),
            quorum,
            length,
            word: Vec::new(),
            states: vec![empty_state()],
        }
    }

    fn push(&mut self, step: u8) {
        let last = self.states.last().expect("the empty word has a state");
        let next = state_after(&self.places, last, step);
        self.word.push(step);
        self.states.push(next);
    }

    fn pop(&mut self) -> Option<u8> {
        let step = self.word.pop()?;
        self.states.pop();
        Some(step)
    }

    /// Whether the word is in at least as many journals as the quorum says.
    fn admitted(&self) -> bool {
        let last = self.states.last().expect("the empty word has a state");
        state_count(self.places.len(), last) >= self.quorum
    }

    /// The first admitted word among this one with the steps from `lowest` on put behind it.
    fn extend_from(&mut self, lowest: u8) -> bool {
        for step in lowest..STEPS {
            self.push(step);
            if self.admitted() {
                return true;
            }
            self.pop();
        }
        false
    }

    /// Moves to the next admitted word: one step longer if there is such a one, else a higher step as
    /// far behind as can be. False at the end of the list. The word itself need not be admitted: then
    /// none of its extensions is.
    fn next(&mut self) -> bool {
        if self.word.len() < self.length && self.extend_from(0) {
            return true;
        }
        while let Some(step) = self.pop() {
            if self.extend_from(step + 1) {
                return true;
            }
        }
        false
    }
}

/// List: the admitted words, from the first on or after a word, as far as the output takes them.
/// Order: 1, 2, 9, 8, 10.
#[allow(clippy::too_many_arguments)]
pub fn list(
    journals: &[u8],
    rows: &[u8],
    quorum: usize,
    length: usize,
    after: bool,
    record: &[u8],
    out: &mut [u8],
) -> Listed {
    let refused = |number| Listed {
        number,
        written: 0,
        more: false,
    };
    let out_fits = out.len() % WORD_RECORD == 0 && (16..=65_536).contains(&out.len());
    if wrong_sizes(journals, rows) || record.len() != WORD_RECORD || !out_fits {
        return refused(1);
    }
    if !is_sound(journals, rows) {
        return refused(2);
    }
    if length > 15 {
        return refused(9);
    }
    let journals = journals_of(journals);
    if quorum < 1 || quorum > journals.len() {
        return refused(8);
    }
    let mut walk = Walk::new(&journals, quorum, length);
    let mut there = if after {
        let Some(word) = word_of(record).filter(|word| word.len() <= length) else {
            return refused(10);
        };
        for &step in word {
            walk.push(step);
        }
        walk.next()
    } else {
        // The empty word is in every journal, so it is the list's first.
        true
    };
    // Only as much of the output is written as there are words for it.
    let mut written = 0;
    for place in out.chunks_exact_mut(WORD_RECORD) {
        if !there {
            break;
        }
        place.fill(0);
        place[0] = walk.word.len() as u8;
        place[1..1 + walk.word.len()].copy_from_slice(&walk.word);
        written += 1;
        there = walk.next();
    }
    Listed {
        number: 0,
        written,
        more: there,
    }
}
