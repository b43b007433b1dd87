//! The books and postings that rows are measured with.

use crate::books::Measured;
use crate::measure::CASES;
use twin::posted::{Posted, Replied};
use twin::random::Random;
use twin::records::Posting;
use twin::refusals::{FIELD_OUT_OF_RANGE, FORBIDDEN_NOW, OUTSIDE_LIMITS};

/// A book, and a posting to it.
pub type Case<Book> = (Book, Posting);

/// The rarest kind has its cases in less than a fifth of these.
const HISTORIES: usize = 1_000;

/// The refusals that hosts meet: a field out of range, a month that forbids the posting, and a next
/// book outside its limits.
pub const REFUSALS: [u8; 3] = [
    FIELD_OUT_OF_RANGE as u8,
    FORBIDDEN_NOW as u8,
    OUTSIDE_LIMITS as u8,
];

/// Some years from a fresh book, each posting with the book that it is for.
pub fn history<Book: Measured>(random: &mut Random, postings: usize) -> Vec<Case<Book>> {
    let mut book = Book::open_twin(Book::opening(random)).book;
    let mut history = Vec::new();
    while history.len() < postings {
        for posting in book.month(random) {
            history.push((book, posting));
            book = book.post_twin(posting).book;
        }
    }
    history.truncate(postings);
    history
}

/// Postings of the kind, from as many histories as have them.
pub fn of_kind<Book: Measured>(kind: u8, random: &mut Random) -> Vec<Case<Book>> {
    gathered(random, |case: Case<Book>, _| {
        (case.1.kind == kind).then_some(case)
    })
}

/// Mistakes on the books of histories; one that its book answers otherwise is left out.
pub fn refused<Book: Measured>(random: &mut Random) -> Vec<Case<Book>> {
    gathered(random, |(book, _): Case<Book>, random| {
        let number = random.one_of(&REFUSALS);
        let mistake = book.mistake(number, random);
        let met = book.post_twin(mistake).reply.number();
        (met == number).then_some((book, mistake))
    })
}

/// What the choice makes of histories, until there are cases enough or histories tell nothing more.
fn gathered<Book: Measured>(
    random: &mut Random,
    choose: impl Fn(Case<Book>, &mut Random) -> Option<Case<Book>>,
) -> Vec<Case<Book>> {
    let mut cases = Vec::new();
    for _ in 0..HISTORIES {
        for case in history(random, CASES) {
            cases.extend(choose(case, random));
        }
        if cases.len() >= CASES {
            break;
        }
    }
    cases.truncate(CASES);
    cases
}

/// Holds all sides to the same answer and book in every case, and the answers to the numbers that the
/// row is meant for: each of them in an eighth of the cases or more, and no other.
pub fn check<Book: Measured>(cases: &[Case<Book>], meant: &[u8]) -> Result<(), String> {
    if cases.len() != CASES {
        return Err(format!("{} cases where {CASES} are meant", cases.len()));
    }
    let mut met = vec![0; meant.len()];
    for &(book, posting) in cases {
        let proved = book.post_proved(posting);
        let mut lent = book;
        let reply = lent.post_in_place(posting);
        let in_place = Posted { reply, book: lent };
        if proved != book.post_twin(posting) || proved != in_place {
            return Err(format!("the sides differ in {posting:?} on {book:?}"));
        }
        let number = proved.reply.number();
        match meant.iter().position(|&meant| meant == number) {
            Some(index) => met[index] += 1,
            None => {
                return Err(format!(
                    "answer {number} where {meant:?} is meant, to {posting:?} on {book:?}"
                ))
            }
        }
    }
    match met.iter().all(|count| 8 * count >= cases.len()) {
        true => Ok(()),
        false => Err(format!("answers {meant:?} were met {met:?} times")),
    }
}
