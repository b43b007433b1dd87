//! The proved functions of the static library, as safe functions.

use crate::electric::{self, ElectricBook, Sales};
use crate::posted::{Posted, Replied};
use crate::records::{Book, Posting, Read};
use crate::steam::{self, SteamBook};
use crate::written::Written;
use std::fmt::Debug;

pub use exported::{Cents, Points, Reading, Writing};

mod exported {
    use crate::electric::{self, ElectricBook, Sales};
    use crate::records::Posting;
    use crate::steam::{self, SteamBook};

    /// Number 0: the posting was found, and the place is the next one.
    #[repr(C)]
    pub struct Reading {
        pub number: u8,
        pub place: usize,
        pub posting: Posting,
    }

    /// Number 0: so many bytes were written.
    #[repr(C)]
    pub struct Writing {
        pub number: u8,
        pub length: usize,
    }

    #[repr(C)]
    pub struct Cents(pub i64);

    #[repr(C)]
    pub struct Points(pub i32);

    extern "C" {
        pub fn neapscroll_round_div(a: i64, b: i64) -> i64;
        pub fn neapscroll_weight(secondary: i64, primary: i64) -> i64;
        pub fn neapscroll_write_cents(cents: Cents, buffer: *mut u8, length: usize) -> Writing;
        pub fn neapscroll_write_points(points: Points, buffer: *mut u8, length: usize) -> Writing;
        pub fn neapscroll_read_record(
            steam: bool,
            bytes: *const u8,
            length: usize,
            place: usize,
        ) -> Reading;
        pub fn neapscroll_write_record(
            steam: bool,
            posting: Posting,
            buffer: *mut u8,
            length: usize,
        ) -> Writing;
        pub fn neapscroll_electric_open(division: u8) -> electric::Posted;
        pub fn neapscroll_electric_post(book: ElectricBook, posting: Posting) -> electric::Posted;
        pub fn neapscroll_steam_open(
            first: i64,
            second: i64,
            third: i64,
            fourth: i64,
        ) -> steam::Posted;
        pub fn neapscroll_steam_post(book: SteamBook, posting: Posting) -> steam::Posted;
        pub fn neapscroll_journal(
            input: *const u8,
            input_length: usize,
            buffer: *mut u8,
            length: usize,
        ) -> Writing;
        pub fn neapscroll_journal_length(input: *const u8, input_length: usize) -> usize;
        pub fn neapscroll_electric_sheet(
            book: ElectricBook,
            estimates: Sales,
            page: *mut u8,
            page_length: usize,
        ) -> Writing;
    }
}

/// round(a/b), as proved.
#[inline]
pub fn round_div(a: i64, b: i64) -> i64 {
    // SAFETY: the function is total on 64-bit numbers and touches no memory of its caller.
    unsafe { exported::neapscroll_round_div(a, b) }
}

/// The weight of the secondary amount, as proved.
#[inline]
pub fn weight(secondary: i64, primary: i64) -> i64 {
    // SAFETY: the function is total on 64-bit numbers and touches no memory of its caller.
    unsafe { exported::neapscroll_weight(secondary, primary) }
}

/// The text of cents, as proved.
#[inline]
pub fn write_cents(cents: i64, buffer: &mut [u8]) -> Written {
    let cents = exported::Cents(cents);
    // SAFETY: the function touches no memory of its caller but the buffer of that length.
    written(unsafe { exported::neapscroll_write_cents(cents, buffer.as_mut_ptr(), buffer.len()) })
}

/// The text of points, as proved.
#[inline]
pub fn write_points(points: i32, buffer: &mut [u8]) -> Written {
    let points = exported::Points(points);
    // SAFETY: the function touches no memory of its caller but the buffer of that length.
    written(unsafe { exported::neapscroll_write_points(points, buffer.as_mut_ptr(), buffer.len()) })
}

/// The posting whose record is at the place, as proved.
#[inline]
pub fn read_record(book: Book, bytes: &[u8], place: usize) -> Read {
    let steam = book == Book::Steam;
    // SAFETY: the function is total on places and only reads the bytes of that length.
    read(unsafe { exported::neapscroll_read_record(steam, bytes.as_ptr(), bytes.len(), place) })
}

/// The record of the posting, as proved.
#[inline]
pub fn write_record(book: Book, posting: Posting, buffer: &mut [u8]) -> Written {
    let steam = book == Book::Steam;
    let (start, length) = (buffer.as_mut_ptr(), buffer.len());
    // SAFETY: the function touches no memory of its caller but the buffer of that length.
    written(unsafe { exported::neapscroll_write_record(steam, posting, start, length) })
}

/// The fresh electric book of the division, as proved.
#[inline]
pub fn electric_open(division: u8) -> electric::Posted {
    // SAFETY: the function is total on bytes and touches no memory of its caller.
    posted(unsafe { exported::neapscroll_electric_open(division) })
}

/// What the posting to the electric book gives, as proved.
#[inline]
pub fn electric_post(book: ElectricBook, posting: Posting) -> electric::Posted {
    // SAFETY: the function is total on books and postings and touches no memory of its caller.
    posted(unsafe { exported::neapscroll_electric_post(book, posting) })
}

/// As above, without the check of a refusal, whose time the benchmark would count.
#[inline]
pub fn electric_post_bare(book: ElectricBook, posting: Posting) -> electric::Posted {
    // SAFETY: the function is total on books and postings and touches no memory of its caller.
    unsafe { exported::neapscroll_electric_post(book, posting) }
}

/// The sheet of the settlement with those estimates, as proved.
#[inline]
pub fn electric_sheet(book: ElectricBook, estimates: Sales, page: &mut [u8]) -> Written {
    let (start, length) = (page.as_mut_ptr(), page.len());
    // SAFETY: the function touches no memory of its caller but the page of that length.
    written(unsafe { exported::neapscroll_electric_sheet(book, estimates, start, length) })
}

/// The fresh steam book of the quarters, oldest first, as proved.
#[inline]
pub fn steam_open(quarters: [i64; 4]) -> steam::Posted {
    let [first, second, third, fourth] = quarters;
    // SAFETY: the function is total on 64-bit numbers and touches no memory of its caller.
    posted(unsafe { exported::neapscroll_steam_open(first, second, third, fourth) })
}

/// What the posting to the steam book gives, as proved.
#[inline]
pub fn steam_post(book: SteamBook, posting: Posting) -> steam::Posted {
    // SAFETY: the function is total on books and postings and touches no memory of its caller.
    posted(unsafe { exported::neapscroll_steam_post(book, posting) })
}

/// As above, without the check of a refusal, whose time the benchmark would count.
#[inline]
pub fn steam_post_bare(book: SteamBook, posting: Posting) -> steam::Posted {
    // SAFETY: the function is total on books and postings and touches no memory of its caller.
    unsafe { exported::neapscroll_steam_post(book, posting) }
}

/// All that the journal program prints for the input, as proved.
#[inline]
pub fn journal(input: &[u8], buffer: &mut [u8]) -> Written {
    let (start, length) = (buffer.as_mut_ptr(), buffer.len());
    // SAFETY: the function only reads the input, and touches no other memory but the buffer.
    written(unsafe { exported::neapscroll_journal(input.as_ptr(), input.len(), start, length) })
}

/// How many bytes the journal program prints for the input, as proved.
#[inline]
pub fn journal_length(input: &[u8]) -> usize {
    // SAFETY: the function only reads the input of that length.
    unsafe { exported::neapscroll_journal_length(input.as_ptr(), input.len()) }
}

#[inline]
fn posted<Reply: Replied + Debug + PartialEq, Book>(
    posted: Posted<Reply, Book>,
) -> Posted<Reply, Book> {
    if posted.reply.number() != 0 {
        refused_posting(&posted.reply);
    }
    posted
}

#[inline]
fn read(reading: exported::Reading) -> Read {
    if reading.number != 0 {
        return refused_reading(reading);
    }
    // Number by number, since a copy of the whole would wait for the stores that it is made of.
    let Posting {
        kind,
        numbers: [first, second, third],
    } = reading.posting;
    Read::Found {
        posting: Posting {
            kind,
            numbers: [first, second, third],
        },
        next: reading.place,
    }
}

#[inline]
fn written(writing: exported::Writing) -> Written {
    match writing.number {
        0 => Written::Length(writing.length),
        _ => refused_writing(writing),
    }
}

// All of a refusal is checked here: the benchmark comes here with none, so the check takes none of its time.

#[cold]
fn refused_reading(reading: exported::Reading) -> Read {
    let number = reading.number.into();
    let nothing = Posting {
        kind: 0,
        numbers: [0; 3],
    };
    assert_eq!(reading.posting, nothing, "proved refusal {number}");
    Read::Refused {
        number,
        place: reading.place,
    }
}

#[cold]
fn refused_writing(writing: exported::Writing) -> Written {
    let number = writing.number.into();
    assert_eq!(writing.length, 0, "proved refusal {number}");
    Written::Refused(number)
}

#[cold]
fn refused_posting<Reply: Replied + Debug + PartialEq>(reply: &Reply) {
    let number = reply.number();
    assert_eq!(reply, &Reply::refused(number), "proved refusal {number}");
}
