//! What stands in a cell, as text.

use crate::amounts::answered;
use crate::text::{write_cents, write_points};
use crate::written::Written;

pub(super) const CELL_LENGTH: usize = 15;

/// A figure and its form.
#[derive(Clone, Copy)]
pub(super) enum Cell {
    Blank,
    /// Money, in cents.
    Cents(i128),
    /// A factor, in points.
    Points(i128),
    Kwh(i128),
    /// Hundred-thousandths, as percent with three decimals.
    Percent(i128),
    /// Hundredths, as percent without decimals.
    WholePercent(i128),
}

impl Cell {
    /// Sets the text to the right end of the place, which is blank.
    pub fn set_right(&self, place: &mut [u8]) {
        match *self {
            Cell::Blank => {}
            Cell::Cents(cents) => set_text(place, |text| write_cents(answered(cents), text)),
            Cell::Points(points) => set_text(place, |text| write_points(narrow(points), text)),
            Cell::Kwh(kwh) => set_whole(place, kwh),
            Cell::Percent(parts) => set_percent(place, parts),
            Cell::WholePercent(parts) => set_whole(set_byte(place, b'%'), parts),
        }
    }
}

fn set_text(place: &mut [u8], write: impl FnOnce(&mut [u8]) -> Written) {
    let mut text = [0; CELL_LENGTH];
    match write(&mut text) {
        Written::Length(length) => {
            let start = place.len() - length;
            place[start..].copy_from_slice(&text[..length]);
        }
        Written::Refused(number) => panic!("refusal {number} of an amount in a cell"),
    }
}

/// A sum of two factors.
fn narrow(points: i128) -> i32 {
    i32::try_from(points).expect("the limits keep it within 32 bits")
}

fn set_whole(place: &mut [u8], number: i128) {
    set_digits(place, number, 1);
}

fn set_percent(place: &mut [u8], parts: i128) {
    let place = set_byte(place, b'%');
    let place = set_digits(place, parts % 1_000, 3);
    let place = set_byte(place, b'.');
    set_whole(place, parts / 1_000);
}

// The last digit is found first, so each of these sets to the end of the place, and gives what is left before.

fn set_byte(place: &mut [u8], byte: u8) -> &mut [u8] {
    let (last, before) = place.split_last_mut().expect("a cell has room for it");
    *last = byte;
    before
}

/// So many digits or more.
fn set_digits(mut place: &mut [u8], number: i128, least: usize) -> &mut [u8] {
    let (mut rest, mut count) = (answered(number), 0);
    while rest > 0 || count < least {
        place = set_byte(place, b'0' + (rest % 10) as u8);
        rest /= 10;
        count += 1;
    }
    place
}
