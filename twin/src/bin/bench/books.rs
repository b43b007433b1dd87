//! How openings of a book and postings to it are measured: a kind at a time, in turn, and refused.

use crate::cases::{check, history, of_kind, refused, Case, REFUSALS};
use crate::measure::{
    prepare, timed, with_book, without_book, without_proved, Measurement, Pass, CASES, SEED,
};
use crate::rows::Row;
use std::cell::RefCell;
use std::fmt::Debug;
use std::hint::black_box;
use twin::posted::{Posted, Replied};
use twin::random::Random;
use twin::records::Posting;

/// What a row of postings is named by.
pub struct Names {
    pub open: &'static str,
    /// Each kind.
    pub kinds: &'static [(u8, &'static str)],
    /// Postings in turn.
    pub history: &'static str,
    pub refused: &'static str,
    /// A call that does next to nothing.
    pub floor: &'static str,
    /// Journals of about so many bytes.
    pub journals: &'static [(usize, &'static str)],
}

/// A book whose postings have rows.
pub trait Measured: Copy + Debug + PartialEq + 'static {
    const NAMES: Names;

    type Opening: Copy + Debug;
    type Reply: Replied + Debug + PartialEq;

    /// What a utility opens its book with.
    fn opening(random: &mut Random) -> Self::Opening;
    fn open_proved(opening: Self::Opening) -> Posted<Self::Reply, Self>;
    fn open_twin(opening: Self::Opening) -> Posted<Self::Reply, Self>;
    /// The first bytes of a journal that opens with the book, which is fresh.
    fn opening_bytes(&self) -> Vec<u8>;

    fn post_proved(self, posting: Posting) -> Posted<Self::Reply, Self>;
    fn post_twin(self, posting: Posting) -> Posted<Self::Reply, Self>;
    fn post_in_place(&mut self, posting: Posting) -> Self::Reply;
    fn floor(self, posting: Posting) -> Posted<Self::Reply, Self>;
    fn floor_in_place(&mut self, posting: Posting) -> Self::Reply;

    /// The postings of a month as a utility has them, all of which the book accepts.
    fn month(&self, random: &mut Random) -> Vec<Posting>;
    /// A mistake of a host that the book refuses with the number, most often.
    fn mistake(&self, number: u8, random: &mut Random) -> Posting;

    /// The checksum with all that is answered.
    fn add_reply(sum: u64, reply: &Self::Reply) -> u64;
    /// The checksum with one value that each kind changes.
    fn add_values(&self, sum: u64) -> u64;
    /// The checksum with all that an opening gives.
    fn add_opened(&self, sum: u64) -> u64;
}

pub fn rows<Book: Measured>() -> Vec<Row> {
    let names = Book::NAMES;
    let mut rows = vec![Row::new(names.open, open::<Book>)];
    for &(kind, name) in names.kinds {
        rows.push(Row::new(name, move || kind_alone::<Book>(kind)));
    }
    rows.push(Row::new(names.history, in_turn::<Book>));
    rows.push(Row::new(names.refused, refusals::<Book>));
    rows.push(Row::new(names.floor, floor::<Book>));
    rows
}

fn open<Book: Measured>() -> Measurement {
    let openings = prepare(Book::opening);
    for &opening in &openings {
        let (proved, twin) = (Book::open_proved(opening), Book::open_twin(opening));
        if proved != twin {
            return Err(format!("the sides differ in opening {opening:?}"));
        }
        if proved.reply.number() != 0 {
            return Err(format!("opening {opening:?} is refused"));
        }
    }
    without_book(
        openings.len(),
        || open_each(&openings, Book::open_proved),
        || open_each(&openings, Book::open_twin),
    )
}

/// Makes every opening, and gives a checksum of answers and books.
fn open_each<Book: Measured>(
    openings: &[Book::Opening],
    open: impl Fn(Book::Opening) -> Posted<Book::Reply, Book>,
) -> u64 {
    let openings = black_box(openings).iter();
    openings.fold(0, |sum, &opening| {
        let opened = open(opening);
        opened.book.add_opened(Book::add_reply(sum, &opened.reply))
    })
}

fn kind_alone<Book: Measured>(kind: u8) -> Measurement {
    let cases = of_kind::<Book>(kind, &mut Random::new(SEED));
    check(&cases, &[0])?;
    apart(&cases)
}

fn refusals<Book: Measured>() -> Measurement {
    let cases = refused::<Book>(&mut Random::new(SEED));
    check(&cases, &REFUSALS)?;
    apart(&cases)
}

/// Measures postings to books apart.
fn apart<Book: Measured>(cases: &[Case<Book>]) -> Measurement {
    let lent = RefCell::new(cases.to_vec());
    with_book(
        cases.len(),
        || post_each(cases, Book::post_proved),
        || post_each(cases, Book::post_twin),
        || post_each_in_place(cases, &mut lent.borrow_mut(), Book::post_in_place),
    )
}

/// A call that hands the book over and adds one number: what no posting can cost less than.
fn floor<Book: Measured>() -> Measurement {
    let cases = history::<Book>(&mut Random::new(SEED), CASES);
    let lent = RefCell::new(cases.clone());
    without_proved(
        cases.len(),
        || post_each(&cases, Book::floor),
        || post_each_in_place(&cases, &mut lent.borrow_mut(), Book::floor_in_place),
    )
}

/// Posts to each book by itself, and gives a checksum of answers and books.
fn post_each<Book: Measured>(
    cases: &[Case<Book>],
    post: impl Fn(Book, Posting) -> Posted<Book::Reply, Book>,
) -> u64 {
    let cases = black_box(cases).iter();
    cases.fold(0, |sum, &(book, posting)| {
        let posted = post(book, posting);
        posted.book.add_values(Book::add_reply(sum, &posted.reply))
    })
}

/// As above, where each book stands; books that the last pass changed are put back before the clock runs.
fn post_each_in_place<Book: Measured>(
    cases: &[Case<Book>],
    lent: &mut [Case<Book>],
    post: impl Fn(&mut Book, Posting) -> Book::Reply,
) -> Pass {
    lent.copy_from_slice(cases);
    let lent = black_box(lent).iter_mut();
    timed(|| {
        lent.fold(0, |sum, (book, posting)| {
            let reply = post(book, *posting);
            book.add_values(Book::add_reply(sum, &reply))
        })
    })
}

/// Measures postings of some years to one book.
fn in_turn<Book: Measured>() -> Measurement {
    let history = history::<Book>(&mut Random::new(SEED), CASES);
    check(&history, &[0])?;
    let fresh = history[0].0;
    let postings: Vec<Posting> = history.into_iter().map(|(_, posting)| posting).collect();
    with_book(
        postings.len(),
        || post_in_turn(fresh, &postings, Book::post_proved),
        || post_in_turn(fresh, &postings, Book::post_twin),
        || timed(|| post_in_turn_in_place(fresh, &postings)),
    )
}

/// Posts each to the book that the one before gave, and gives a checksum of answers and the end.
fn post_in_turn<Book: Measured>(
    fresh: Book,
    postings: &[Posting],
    post: impl Fn(Book, Posting) -> Posted<Book::Reply, Book>,
) -> u64 {
    let (mut book, mut sum) = (fresh, 0);
    for &posting in black_box(postings) {
        let posted = post(book, posting);
        sum = Book::add_reply(sum, &posted.reply);
        book = posted.book;
    }
    book.add_values(sum)
}

/// As above, on one book that stays where it is.
fn post_in_turn_in_place<Book: Measured>(fresh: Book, postings: &[Posting]) -> u64 {
    let (mut book, mut sum) = (fresh, 0);
    for &posting in black_box(postings) {
        let reply = book.post_in_place(posting);
        sum = Book::add_reply(sum, &reply);
    }
    book.add_values(sum)
}
