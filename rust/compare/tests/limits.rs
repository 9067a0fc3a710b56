//! The cases of document 01 that are only run, and its worked books, on both implementations.

use compare::{Answer, Call, Pair};

/// Makes a call; both implementations have to answer alike.
fn call(pair: &mut Pair, call: Call) -> Answer {
    match pair.call(&call) {
        Ok(answer) => answer,
        Err(difference) => panic!("{difference}"),
    }
}

/// Opens a journal and appends its steps; every call has to be done.
fn journal(pair: &mut Pair, steps: &[u8]) {
    assert_eq!(call(pair, Call::Open).number, 0);
    for &step in steps {
        assert_eq!(call(pair, Call::Append(step)).number, 0);
    }
}

/// How many journals are open and how many rows are live; both calls have to be done.
fn open_and_live(pair: &mut Pair) -> (usize, usize) {
    let open = call(pair, Call::OpenJournals);
    let live = call(pair, Call::LiveRows);
    assert_eq!((open.number, live.number), (0, 0));
    (open.first, live.first)
}

fn record(word: &[u8]) -> Vec<u8> {
    let mut record = vec![word.len() as u8];
    record.extend(word);
    record.resize(16, 0);
    record
}

fn list(quorum: usize, length: usize, out: usize) -> Call {
    Call::List {
        quorum,
        length,
        after: 0,
        record: record(&[]),
        out,
        filled: 7,
    }
}

/// The words that the last call of the list wrote.
fn words(pair: &Pair, answer: Answer) -> Vec<Vec<u8>> {
    let records = pair.out.chunks_exact(16).take(answer.second);
    records.map(|r| r[1..=usize::from(r[0])].to_vec()).collect()
}

/// Journals that each repeat a step of their own have a row for each step, and one for the empty
/// word: with 999 steps the row book is full.
#[test]
fn a_thousand_rows() {
    let mut pair = Pair::new();
    for code in 0..4 {
        journal(&mut pair, &[code; 200]);
        assert_eq!(call(&mut pair, Call::Append(code)).number, 5);
    }
    journal(&mut pair, &[4; 199]);
    assert_eq!(open_and_live(&mut pair), (5, 1000));
    assert_eq!(call(&mut pair, Call::Check).number, 0);
    assert_eq!(call(&mut pair, Call::Append(4)).number, 6);
    assert_eq!(open_and_live(&mut pair), (5, 1000));
    // A sixth, empty one adds no row, nor do steps that the first journal has too: where its state
    // was reached, the sixth's place changes from lost. A step of its own would add a row.
    journal(&mut pair, &[]);
    assert_eq!(call(&mut pair, Call::Append(9)).number, 6);
    assert_eq!(call(&mut pair, Call::Append(0)).number, 0);
    assert_eq!(call(&mut pair, Call::Append(0)).number, 0);
    assert_eq!(open_and_live(&mut pair), (6, 1000));
    assert_eq!(call(&mut pair, Call::Check).number, 0);
    for number in [0, 998, 999, 1000, usize::MAX] {
        let wanted = if number < 1000 { 0 } else { 13 };
        assert_eq!(call(&mut pair, Call::Row(number)).number, wanted);
    }
    for length in [0, 1, 15] {
        let answer = call(&mut pair, list(1, length, 65_536));
        assert_eq!((answer.first, answer.second), (0, 1 + 5 * length));
    }
}

/// The 200th step of a journal is taken, the 201st is not.
#[test]
fn a_full_journal() {
    let mut pair = Pair::new();
    let steps: Vec<u8> = (0..199).map(|i| (i * 7 % 16) as u8).collect();
    journal(&mut pair, &steps);
    assert_eq!(call(&mut pair, Call::Append(15)).number, 0);
    assert_eq!(open_and_live(&mut pair), (1, 201));
    assert_eq!(call(&mut pair, Call::Append(15)).number, 5);
    assert_eq!(call(&mut pair, Call::Append(16)).number, 3);
    // It is the last journal that counts.
    journal(&mut pair, &[0]);
}

/// A seventeenth journal is refused with 7.
#[test]
fn sixteen_journals() {
    let mut pair = Pair::new();
    for number in 0..16 {
        assert_eq!(open_and_live(&mut pair), (number, number.min(1)));
        assert_eq!(call(&mut pair, Call::Open).number, 0, "journal {number}");
    }
    assert_eq!(open_and_live(&mut pair), (16, 1));
    assert_eq!(call(&mut pair, Call::Open).number, 7);
    assert_eq!(call(&mut pair, Call::Append(3)).number, 0);
    assert_eq!(call(&mut pair, Call::Open).number, 7);
    assert_eq!(open_and_live(&mut pair), (16, 2));
    let answer = call(&mut pair, Call::JournalCount(record(&[])));
    assert_eq!((answer.number, answer.first), (0, 16));
}

/// "Quorum k is accepted, k + 1 refused." And every other quorum and length.
#[test]
fn all_quorums_and_lengths() {
    let mut pair = Pair::new();
    for k in 0..=16 {
        if k > 0 {
            let code = (k % 3) as u8;
            journal(&mut pair, &[code, 2, (k % 2) as u8, code][..k.min(4)]);
        }
        for quorum in (0..=k + 1).chain([255, 256, usize::MAX]) {
            for length in (0..=16).chain([255, 256, usize::MAX]) {
                let answer = call(&mut pair, list(quorum, length, 512));
                let wanted = match (quorum, length) {
                    (_, 16..) => 9,
                    (quorum, _) if quorum == 0 || quorum > k => 8,
                    _ => 0,
                };
                assert_eq!(
                    answer.number, wanted,
                    "quorum {quorum} length {length} k {k}"
                );
                assert_eq!(answer.second == 0, wanted != 0);
            }
        }
    }
}

/// Every size of an output, up to some past the largest.
#[test]
fn all_outputs() {
    let mut pair = Pair::new();
    journal(&mut pair, &[1, 2, 1]);
    journal(&mut pair, &[1, 1, 2]);
    for out in (0..200).chain([65_519, 65_520, 65_521, 65_535, 65_536, 65_537, 65_552]) {
        let answer = call(&mut pair, list(1, 3, out));
        let right = out % 16 == 0 && (16..=65_536).contains(&out);
        assert_eq!(answer.number, u8::from(!right), "output of {out}");
        if right {
            let fits = (out / 16).min(8);
            assert_eq!((answer.first, answer.second), ((fits < 8).into(), fits));
        }
    }
}

/// "Worked books", P1 to P7.
#[test]
fn worked_books() {
    let mut pair = Pair::new();
    journal(&mut pair, &[1, 2, 1]);
    journal(&mut pair, &[1, 1, 2]);
    assert_eq!(open_and_live(&mut pair), (2, 6));
    let lost = 255;
    let rows = [
        ([0, 0], 2, vec![(1, 1), (2, 2)]),
        ([1, 1], 2, vec![(1, 3), (2, 2)]),
        ([2, 3], 2, vec![(1, 4)]),
        ([3, 2], 2, vec![(2, 5)]),
        ([3, lost], 1, vec![]),
        ([lost, 3], 1, vec![]),
    ];
    for (number, (places, count, arcs)) in rows.into_iter().enumerate() {
        let mut wanted = [0; 64];
        wanted[..2].copy_from_slice(&places);
        for (step, row) in arcs {
            wanted[16 + 2 * step] = row;
        }
        wanted[48] = count;
        assert_eq!(pair.book(1)[64 * number..64 * (number + 1)], wanted);
    }
    for (word, count) in [(&[][..], 2), (&[1, 2, 1], 1), (&[2, 2], 0)] {
        let by_table = call(&mut pair, Call::TableCount(word.to_vec()));
        let by_journals = call(&mut pair, Call::JournalCount(record(word)));
        assert_eq!((by_table.number, by_table.first), (0, count));
        assert_eq!((by_journals.number, by_journals.first), (0, count));
    }
    let answer = call(&mut pair, list(1, 3, 65_536));
    assert_eq!((answer.number, answer.first), (0, 0));
    let wanted: [&[u8]; 8] = [
        &[],
        &[1],
        &[1, 1],
        &[1, 1, 2],
        &[1, 2],
        &[1, 2, 1],
        &[2],
        &[2, 1],
    ];
    assert_eq!(words(&pair, answer), wanted);
    // The words of the loading program's example.
    let answer = call(&mut pair, list(2, 3, 65_536));
    let wanted: [&[u8]; 5] = [&[], &[1], &[1, 1], &[1, 2], &[2]];
    assert_eq!(words(&pair, answer), wanted);
}

/// "Worked books", P8 to P10.
#[test]
fn small_worked_books() {
    let mut pair = Pair::new();
    let answer = call(&mut pair, Call::TableCount(vec![]));
    assert_eq!((answer.number, answer.first), (0, 0));
    assert_eq!(open_and_live(&mut pair), (0, 0));
    assert_eq!(call(&mut pair, Call::Append(1)).number, 4);
    assert_eq!(call(&mut pair, list(1, 3, 16)).number, 8);
    journal(&mut pair, &[]);
    assert_eq!(open_and_live(&mut pair), (1, 1));
    assert_eq!(pair.book(1)[48], 1);
    assert_eq!(call(&mut pair, Call::Clear).number, 0);
    journal(&mut pair, &[1, 1]);
    journal(&mut pair, &[]);
    assert_eq!(open_and_live(&mut pair), (2, 3));
    assert_eq!(call(&mut pair, Call::Append(1)).number, 0);
    assert_eq!(open_and_live(&mut pair), (2, 3));
}

/// The open journals need the journal book's form alone, the live rows sound books.
#[test]
fn open_journals_and_live_rows_of_wrong_books() {
    let mut sound = Pair::new();
    journal(&mut sound, &[1, 2, 1]);
    journal(&mut sound, &[1, 1, 2]);
    let numbers = |pair: &mut Pair| {
        [Call::OpenJournals, Call::LiveRows].map(|asked| {
            let answer = call(pair, asked);
            assert!(answer.number == 0 || answer.first == 0);
            answer.number
        })
    };
    for (sizes, wanted) in [
        ([4096, 64_000], [0, 0]),
        ([4095, 64_000], [1, 1]),
        ([4097, 64_000], [1, 1]),
        ([4096, 63_999], [0, 1]),
        ([4096, 64_001], [0, 1]),
        ([0, 0], [1, 1]),
    ] {
        let mut pair = sound.clone();
        pair.sizes = sizes;
        assert_eq!(numbers(&mut pair), wanted, "books of {sizes:?} bytes");
    }
    // A third journal too many, a gap before it, a step above 15, a count, an arc, a row too many.
    for (book, at, byte, wanted) in [
        (0, 256 * 2, 1, [0, 2]),
        (0, 256 * 3, 1, [2, 2]),
        (0, 256 + 2, 16, [2, 2]),
        (1, 48, 3, [0, 2]),
        (1, 64 * 5 + 16, 1, [0, 2]),
        (1, 64 * 6 + 63, 1, [0, 2]),
        (1, 63_999, 1, [0, 2]),
    ] {
        let mut pair = sound.clone();
        pair.poke(book, at, byte);
        assert_eq!(numbers(&mut pair), wanted, "book {book}, byte {at}");
    }
}

/// Rebuild reads the journal book alone: of the row book it wants nothing but the size. Done, it
/// leaves sound books.
#[test]
fn rebuilt_books() {
    let mut sound = Pair::new();
    journal(&mut sound, &[1, 2, 1]);
    journal(&mut sound, &[1, 1, 2]);
    for (sizes, wanted) in [
        ([4096, 64_000], 0),
        ([4095, 64_000], 1),
        ([4096, 64_001], 1),
        ([0, 0], 1),
    ] {
        let mut pair = sound.clone();
        pair.sizes = sizes;
        assert_eq!(call(&mut pair, Call::Rebuild).number, wanted);
        assert_eq!(pair.book(1), sound.book(1), "books of {sizes:?} bytes");
    }
    let mut pair = sound.clone();
    pair.set(sound.book(0), &[9; 64_000]);
    assert_eq!(call(&mut pair, Call::Rebuild).number, 0);
    assert_eq!(pair.book(1), sound.book(1));
    // A third journal has other rows; a gap before it, or a step above 15, leaves no journal book.
    for (at, byte, wanted) in [(256 * 2, 1, 0), (256 * 3, 1, 2), (256 + 2, 16, 2)] {
        let mut pair = sound.clone();
        pair.poke(0, at, byte);
        assert_eq!(call(&mut pair, Call::Rebuild).number, wanted, "byte {at}");
        assert_eq!(call(&mut pair, Call::Check).number, wanted);
    }
}
