//! Six sites of a replicated store, as the people see them who keep it running: which orders of
//! steps a majority of the sites shows and not all do, which sites lack each, whether a log may be
//! trimmed, and what each refusal means.
//!
//! In rust/: `cargo run --example six_sites`. What it prints is kept in six_sites.txt.

use selquorin::{Books, Error, Step, Verdict, Word};

/// The steps of the store, by their codes.
const STEPS: [&str; 5] = ["receive", "apply", "sync", "ack", "trim"];

/// Each site with its journal. Kiel has acknowledged before it synced, and Turku not at all.
const JOURNALS: [(&str, &str); 6] = [
    ("Oslo", "receive apply sync ack trim"),
    ("Bergen", "receive apply sync ack trim"),
    ("Kiel", "receive apply ack sync trim"),
    ("Gdansk", "receive apply sync ack"),
    ("Riga", "receive sync apply ack trim"),
    ("Turku", "receive apply sync"),
];

const MAJORITY: usize = JOURNALS.len() / 2 + 1;

/// The steps of their names, with blanks between.
fn steps(names: &str) -> Result<Vec<Step>, Error> {
    let code = |name| STEPS.iter().position(|&known| known == name);
    let step = |name| Step::new(code(name).ok_or(Error::WrongStep)? as u8);
    names.split_whitespace().map(step).collect()
}

/// The names of steps, with blanks between.
fn names(steps: &[Step]) -> String {
    let name = |step: &Step| STEPS[usize::from(step.code())];
    steps.iter().map(name).collect::<Vec<_>>().join(" ")
}

/// The books of some journals.
fn books_of(journals: &[Vec<Step>]) -> Result<Books, Error> {
    let mut books = Books::new();
    for journal in journals {
        books.open()?;
        for &step in journal {
            books.append(step)?;
        }
    }
    Ok(books)
}

/// The books of the six sites.
fn six_sites() -> Result<Books, Error> {
    let journals = JOURNALS.iter().map(|(_, names)| steps(names));
    books_of(&journals.collect::<Result<Vec<_>, Error>>()?)
}

/// The sites whose journals lack a word: those whose place is lost in the row that it leads to.
fn lacking(books: &Books, word: &Word) -> Result<String, Error> {
    let mut row = books.row(0)?;
    for &step in word.steps() {
        let next = row.arc(step).expect("some journal has the word");
        row = books.row(next)?;
    }
    let lost = JOURNALS.iter().zip(row.places());
    let lost = lost.filter_map(|((site, _), place)| place.is_none().then_some(*site));
    Ok(lost.collect::<Vec<_>>().join(", "))
}

/// Prints the orders that a majority shows and not all do.
fn print_shared(books: &Books) -> Result<(), Error> {
    let sites = JOURNALS.len();
    println!("Orders of up to 2 steps that {MAJORITY} of {sites} sites show, and not all:");
    for (word, count) in books.list(MAJORITY, 2)?.with_counts() {
        if usize::from(count) < sites {
            let lacking = lacking(books, &word)?;
            println!(
                "  {count} of {sites}: {}. Not {lacking}.",
                names(word.steps())
            );
        }
    }
    Ok(())
}

/// Prints whether a site that has seen an order may trim its log. The count by the table is right
/// for sound books, so they are checked first.
fn print_trim(books: &Books, order: &str) -> Result<(), Error> {
    if books.check() != Verdict::Sound {
        return Err(Error::Damaged);
    }
    let count = books.table_count(&steps(order)?)?;
    let may = match usize::from(count) >= MAJORITY {
        true => "a majority, the log may be trimmed",
        false => "no majority, the log is kept",
    };
    println!("  {count} of {}: {order}. That is {may}.", JOURNALS.len());
    Ok(())
}

/// Books with 1,000 rows: of five sites with 999 steps that share none.
fn full() -> Result<Books, Error> {
    let journal = |(code, length)| Ok(vec![Step::new(code)?; length]);
    let journals = (0..).zip([200, 200, 200, 200, 199]).map(journal);
    books_of(&journals.collect::<Result<Vec<_>, Error>>()?)
}

/// What the desk tried, and what was answered.
type Tried = (&'static str, Result<(), Error>);

/// All that is refused by the library.
fn tried() -> Result<Vec<Tried>, Error> {
    let books = six_sites()?;
    let step = steps("sync")?[0];
    let mut flipped = books.clone();
    flipped.row_bytes_mut()[48] ^= 1;
    Ok(vec![
        (
            "books from a file that was cut short",
            Books::from_bytes(&[], &[]).map(drop),
        ),
        (
            "a list by books with a flipped bit",
            flipped.list(1, 2).map(drop),
        ),
        ("step 16", Step::new(16).map(drop)),
        ("a step before any journal", Books::new().append(step)),
        ("a 201st step", books_of(&[vec![step; 200]])?.append(step)),
        ("a 1,001st row", full()?.append(Step::new(4)?)),
        ("a 17th site", books_of(&vec![vec![]; 16])?.open()),
        ("a quorum of 7", books.list(7, 2).map(drop)),
        ("orders of up to 16 steps", books.list(4, 16).map(drop)),
        ("an order of 16 steps", Word::new(&[0; 16]).map(drop)),
        ("row 1,000", books.row(1000).map(drop)),
    ])
}

/// What the desk does about a refusal.
fn advice(error: Error) -> &'static str {
    match error {
        Error::WrongSize => "The bytes aren't books. Take them from another copy.",
        Error::Damaged => "Don't trim by these books. Check them: rebuild mends the row book.",
        Error::WrongStep => "A site uses a code that the store doesn't have. Look at its journal.",
        Error::NoJournal => "Open the site's journal first.",
        Error::JournalFull => "Close this period: clear the books and begin anew.",
        Error::RowsFull => "The journals are too unlike. Take fewer sites, or a shorter period.",
        Error::JournalsFull => "Keep further sites in books of their own.",
        Error::WrongQuorum => "Ask for as many sites as there are, or fewer.",
        Error::WrongLength => "Ask for orders of up to 15 steps.",
        Error::WrongWord => "Shorten the order, or count it by the table, which takes any length.",
        Error::WrongRow => "Ask for a row below the number of live rows.",
        Error::BrokenEntry => "Look at the entry whose number the program prints.",
        Error::WrongAsk => "Write the quorum and the length into the ask file, or nothing.",
        _ => "This number is newer than this program.",
    }
}

/// Prints each refusal: its number, what met with it, what it means, and what to do.
fn print_refusals() -> Result<(), Error> {
    let tried = tried()?;
    for &error in Error::ALL {
        let met = tried.iter().find(|(_, answer)| *answer == Err(error));
        let what = met.map_or("the loading program only", |(what, _)| what);
        println!("  {}, {what}: {error}.", error.number());
        println!("    {}", advice(error));
    }
    Ok(())
}

fn main() -> Result<(), Error> {
    println!("Steps: {}.", STEPS.join(", "));
    for (site, journal) in JOURNALS {
        println!("  {site}: {journal}");
    }
    let books = six_sites()?;
    print_shared(&books)?;
    println!("May a site that has seen an order trim its log?");
    print_trim(&books, "apply sync")?;
    print_trim(&books, "apply sync ack")?;
    println!("What is refused, and what to do:");
    print_refusals()
}
