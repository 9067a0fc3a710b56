//! The safe types of the crate `selquorin`, beside the plain implementation.

use compare::{grow, Kind, Random};
use plain::{journal_book, picture, Journal};
use selquorin::{Books, BooksMut, BooksRef, Error, Step, Verdict, Word, LARGEST_PAGE};

const KIND: Kind = Kind {
    name: "small",
    journals: 5,
    steps: 7,
    codes: 4,
    equal: false,
};

/// Books made by the wrapper's calls from random journals, with these journals' books.
fn books(random: &mut Random) -> (Books, Vec<u8>, Vec<u8>, usize) {
    let journals = grow(random, KIND, 200);
    let mut books = Books::new();
    for journal in &journals {
        books.open().unwrap();
        for &code in journal {
            books.append(Step::new(code).unwrap()).unwrap();
        }
    }
    let rows = picture(&journals).expect("there are few enough states");
    (books, journal_book(&journals), rows, journals.len())
}

/// The whole list by the plain implementation, in one output.
fn plain_list(
    journals: &[u8],
    rows: &[u8],
    quorum: usize,
    length: usize,
    after: Option<&Word>,
) -> Vec<Word> {
    let mut out = vec![0; 65_536];
    let record = after.copied().unwrap_or_default().record();
    let answer = plain::list(
        journals,
        rows,
        quorum,
        length,
        after.is_some(),
        &record,
        &mut out,
    );
    assert_eq!((answer.number, answer.more), (0, false));
    let records = out.chunks_exact(16).take(answer.written);
    records.map(|r| Word::from_record(r).unwrap()).collect()
}

#[test]
fn books_are_those_of_the_journals() {
    let mut random = Random::new(5);
    for _ in 0..12 {
        let (books, journals, rows, k) = books(&mut random);
        assert_eq!(books, BooksRef::from_bytes(&journals, &rows).unwrap());
        assert_eq!(books.check(), Verdict::Sound);
        assert_eq!(books.open_journals(), Ok(k));
        let live = plain::live_rows(&journals, &rows).rows;
        assert_eq!(books.live_rows(), Ok(live));
        for row in 0..1000 {
            let record = plain::row_record(&rows, row);
            assert_eq!(books.row(row).unwrap().bytes()[..], *record);
        }
    }
}

#[test]
fn pages_make_the_whole_list() {
    let mut random = Random::new(5);
    for _ in 0..12 {
        let (books, journals, rows, k) = books(&mut random);
        for quorum in 1..=k {
            for length in [0, 1, 2, 4, 15] {
                let wanted = plain_list(&journals, &rows, quorum, length, None);
                let whole: Vec<Word> = books.list(quorum, length).unwrap().collect();
                assert_eq!(whole, wanted);
                assert!(whole.windows(2).all(|pair| pair[0] < pair[1]));
                for page in [1, 2, 3, 7, wanted.len(), wanted.len() + 1] {
                    let words = books.list_paged(quorum, length, None, page).unwrap();
                    if words.size_hint().1.is_none() {
                        assert!(page < wanted.len());
                    }
                    assert_eq!(words.collect::<Vec<_>>(), wanted, "pages of {page}");
                }
                for word in &wanted {
                    let least = Word::new(&[random.below(16) as u8; 15][..length]).unwrap();
                    for after in [word, &least] {
                        let rest = books.list_after(quorum, length, after).unwrap();
                        let due = plain_list(&journals, &rows, quorum, length, Some(after));
                        assert_eq!(rest.collect::<Vec<_>>(), due);
                    }
                }
            }
        }
    }
}

#[test]
fn journals_are_read_as_steps() {
    let mut random = Random::new(6);
    for _ in 0..12 {
        let journals = grow(&mut random, KIND, 200);
        let rows = picture(&journals).expect("there are few enough states");
        let bytes = journal_book(&journals);
        let books = BooksRef::from_bytes(&bytes, &rows).unwrap();
        let codes = |steps: &[Step]| steps.iter().map(|step| step.code()).collect();
        let all: Vec<Journal> = books.journals().unwrap().map(codes).collect();
        assert_eq!(all, journals);
        for (number, journal) in journals.iter().enumerate() {
            assert_eq!(
                books.journal(number).unwrap().map(codes).as_ref(),
                Some(journal)
            );
        }
        for number in [journals.len(), 16, usize::MAX] {
            assert_eq!(books.journal(number), Ok(None));
        }
    }
}

#[test]
fn rows_are_read_as_places_arcs_and_count() {
    let mut random = Random::new(7);
    for _ in 0..12 {
        let journals = grow(&mut random, KIND, 1000);
        let rows = picture(&journals).expect("there are few enough states");
        let bytes = journal_book(&journals);
        let books = BooksRef::from_bytes(&bytes, &rows).unwrap();
        for (number, record) in rows.chunks_exact(64).enumerate() {
            let row = books.row(number).unwrap();
            for i in 0..16 {
                let (place, arc) = (record[i], [record[16 + 2 * i], record[17 + 2 * i]]);
                assert_eq!(row.places()[i].unwrap_or(255), place);
                let arc = usize::from(u16::from_le_bytes(arc));
                assert_eq!(row.arcs()[i].unwrap_or(0), arc);
            }
            assert_eq!(row.count(), record[48]);
        }
    }
}

#[test]
fn words_have_their_counts() {
    let mut random = Random::new(8);
    for _ in 0..12 {
        let (books, mut journals, mut rows, k) = books(&mut random);
        for quorum in 1..=k {
            let words = plain_list(&journals, &rows, quorum, 15, None);
            let codes = |word: &Word| word.record()[1..=word.len()].to_vec();
            let count = |word: &Word| plain::table_count(&rows, &codes(word)).count;
            let wanted: Vec<(Word, u8)> = words.iter().map(|word| (*word, count(word))).collect();
            for page in [7, LARGEST_PAGE] {
                let words = books.list_paged(quorum, 15, None, page).unwrap();
                let hint = words.size_hint();
                let counted = words.with_counts();
                assert_eq!(counted.size_hint(), hint);
                assert_eq!(counted.collect::<Vec<_>>(), wanted);
            }
            for (word, count) in &wanted {
                assert!(usize::from(*count) >= quorum);
                assert_eq!(books.table_count(word.steps()), Ok(*count));
                assert_eq!(books.journal_count(word), Ok(*count));
            }
            let borrowed = BooksMut::from_bytes(&mut journals, &mut rows).unwrap();
            let counted = borrowed.list(quorum, 15).unwrap().with_counts();
            assert_eq!(counted.collect::<Vec<_>>(), wanted);
        }
    }
}

#[test]
fn a_row_book_is_drawn_anew() {
    let mut random = Random::new(9);
    for _ in 0..12 {
        let (sound, _, _, _) = books(&mut random);
        let mut books = sound.clone();
        books.row_bytes_mut().fill_with(|| random.byte());
        assert_ne!(books.check(), Verdict::Sound);
        assert_eq!(books.rebuild(), Ok(()));
        assert_eq!(books, sound);
    }
}

#[test]
fn a_row_book_is_drawn_of_right_journals_only() {
    let mut books = Books::new();
    for (at, error) in [(0, Error::Damaged), (1, Error::RowsFull)] {
        let many = journal_book(&many_states());
        books.journal_bytes_mut().copy_from_slice(&many);
        books.journal_bytes_mut()[0] = at;
        let before = books.clone();
        assert_eq!(books.rebuild(), Err(error));
        assert_eq!(books, before);
    }
}

/// Journals with more than 1,000 live states.
fn many_states() -> Vec<Journal> {
    let journal = |n: usize| (0..50).map(|i| (i * (n + 2) % 7) as u8).collect();
    (0..16).map(journal).collect()
}

#[test]
fn refusals_are_errors() {
    let mut books = Books::new();
    let step = Step::new(1).unwrap();
    assert_eq!(books.append(step), Err(Error::NoJournal));
    assert_eq!(books.list(1, 1).err(), Some(Error::WrongQuorum));
    for _ in 0..16 {
        books.open().unwrap();
    }
    assert_eq!(books.open(), Err(Error::JournalsFull));
    for _ in 0..200 {
        books.append(step).unwrap();
    }
    assert_eq!(books.append(step), Err(Error::JournalFull));
    assert_eq!(books.list(1, 16).err(), Some(Error::WrongLength));
    assert_eq!(books.list(17, 15).err(), Some(Error::WrongQuorum));
    let long = Word::new(&[1, 1, 1]).unwrap();
    assert_eq!(books.list_after(1, 2, &long).err(), Some(Error::WrongWord));
    for page in [0, LARGEST_PAGE + 1, usize::MAX] {
        let refused = books.list_paged(1, 2, None, page).err();
        assert_eq!(refused, Some(Error::WrongSize));
    }
    assert_eq!(books.row(1000).err(), Some(Error::WrongRow));
    assert_eq!(
        Books::from_bytes(&[0; 4096], &[0; 63_999]),
        Err(Error::WrongSize)
    );
    assert_eq!(
        Books::from_bytes(&[0; 4097], &[0; 64_000]),
        Err(Error::WrongSize)
    );
}

#[test]
fn a_full_row_book_takes_no_step_more() {
    let kind = Kind {
        name: "equal",
        journals: 5,
        steps: 200,
        codes: 1,
        equal: true,
    };
    let journals = grow(&mut Random::new(1), kind, 1000);
    let rows = picture(&journals).expect("there are 1,000 states");
    let mut books = Books::from_bytes(&journal_book(&journals), &rows).unwrap();
    assert_eq!(books.check(), Verdict::Sound);
    assert_eq!(books.live_rows(), Ok(1000));
    assert_eq!(books.row(999).unwrap().count(), 1);
    let before = books.clone();
    assert_eq!(
        books.append(Step::new(journals[4][0]).unwrap()),
        Err(Error::RowsFull)
    );
    assert!(books == before);
}

/// The books of two small journals, and a word that both hold.
fn two_journals() -> (Books, Word) {
    let mut books = Books::new();
    for journal in [[1, 2, 1], [1, 1, 2]] {
        books.open().unwrap();
        for code in journal {
            books.append(Step::new(code).unwrap()).unwrap();
        }
    }
    (books, Word::new(&[1, 2]).unwrap())
}

#[test]
fn damage_of_the_row_book_is_found_where_it_is() {
    let (mut books, word) = two_journals();
    books.row_bytes_mut()[64 * 2 + 48] = 17;
    assert_eq!(books.check(), Verdict::RowRecord { row: 2, byte: 48 });
    assert_eq!(books.table_count(word.steps()), Err(Error::Damaged));
    assert_eq!(books.journal_count(&word), Ok(2));
    assert_eq!(books.open_journals(), Ok(2));
    assert_eq!(books.live_rows(), Err(Error::Damaged));
    assert_eq!(books.open(), Err(Error::Damaged));
    assert_eq!(books.append(Step::default()), Err(Error::Damaged));
    assert_eq!(books.list(1, 1).err(), Some(Error::Damaged));
    books.clear();
    assert!(books == Books::default());
    assert_eq!(books.check(), Verdict::Sound);
}

#[test]
fn damage_of_the_journal_book_is_found_where_it_is() {
    let (mut books, word) = two_journals();
    books.journal_bytes_mut()[256 * 3] = 1;
    assert_eq!(books.check(), Verdict::JournalRecord { record: 3 });
    assert_eq!(books.table_count(word.steps()), Ok(2));
    assert_eq!(books.journal_count(&word), Err(Error::Damaged));
    assert_eq!(books.open_journals(), Err(Error::Damaged));
    assert_eq!(books.journals().err(), Some(Error::Damaged));
    assert_eq!(books.journal(0), Err(Error::Damaged));
    assert_eq!(books.live_rows(), Err(Error::Damaged));
}

#[test]
fn too_many_states_are_told() {
    let (mut books, _) = two_journals();
    let many = journal_book(&many_states());
    books.journal_bytes_mut().copy_from_slice(&many);
    assert_eq!(books.check(), Verdict::TooManyStates);
    assert_eq!(books.open_journals(), Ok(16));
    assert_eq!(books.live_rows(), Err(Error::Damaged));
}
