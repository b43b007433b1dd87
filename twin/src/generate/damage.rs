//! Random damage to a journal.

use super::journals::Journal;
use crate::journal::{LONGEST_INPUT, STEAM};
use crate::random::Random;

type Damage = fn(&mut Journal, &mut Random);

/// Of any byte.
const ANYWHERE: [Damage; 7] = [
    flip_bit,
    set_byte,
    cut_tail,
    insert_byte,
    drop_byte,
    one_byte_more,
    too_long,
];

/// Of a record that is there.
const IN_RECORD: [Damage; 7] = [
    flip_bit_of_head,
    unknown_kind,
    stray_bit,
    zero_field,
    wild_field,
    cut_in_record,
    one_byte_of_record,
];

/// Of the opening.
const IN_OPENING: [Damage; 4] = [wrong_opening, wild_quarter, cut_opening, empty];

/// Damages the journal in one way.
pub fn damage(journal: &mut Journal, random: &mut Random) {
    let chosen = match random.below(8) {
        // Earlier damage may have left no byte.
        _ if journal.bytes.is_empty() => one_byte_more,
        0 => random.one_of(&IN_OPENING),
        1..=3 => random.one_of(&ANYWHERE),
        _ if journal.places.is_empty() => random.one_of(&IN_OPENING),
        _ => random.one_of(&IN_RECORD),
    };
    chosen(journal, random);
}

fn any_place(journal: &Journal, random: &mut Random) -> usize {
    random.below(journal.bytes.len())
}

/// The place of a record whose head is there.
fn any_record(journal: &Journal, random: &mut Random) -> usize {
    let place = random.one_of(&journal.places);
    place.min(journal.bytes.len().saturating_sub(2))
}

fn flip_bit(journal: &mut Journal, random: &mut Random) {
    let place = any_place(journal, random);
    journal.bytes[place] ^= 1 << random.below(8);
}

fn set_byte(journal: &mut Journal, random: &mut Random) {
    let place = any_place(journal, random);
    journal.bytes[place] = random.bits() as u8;
}

fn cut_tail(journal: &mut Journal, random: &mut Random) {
    let length = any_place(journal, random);
    journal.cut(length);
}

fn insert_byte(journal: &mut Journal, random: &mut Random) {
    let place = any_place(journal, random);
    journal.bytes.insert(place, random.bits() as u8);
}

fn drop_byte(journal: &mut Journal, random: &mut Random) {
    let place = any_place(journal, random);
    journal.bytes.remove(place);
    journal.cut(journal.bytes.len());
}

fn one_byte_more(journal: &mut Journal, random: &mut Random) {
    let any = random.bits() as u8;
    journal.bytes.push(random.one_of(&[0, 1, 3, 5, 255, any]));
}

/// Bytes that are likely to be records, to one past the longest input or more.
fn too_long(journal: &mut Journal, random: &mut Random) {
    let length = LONGEST_INPUT + random.one_of(&[1, 1, 2, 3, 1_000]);
    journal.bytes.resize(length, 0);
}

fn flip_bit_of_head(journal: &mut Journal, random: &mut Random) {
    let place = any_record(journal, random) + random.below(2);
    journal.bytes[place] ^= 1 << random.below(8);
}

fn unknown_kind(journal: &mut Journal, random: &mut Random) {
    let place = any_record(journal, random);
    journal.bytes[place] = random.one_of(&[0, 7, 8, 9, 64, 128, 255]);
}

fn stray_bit(journal: &mut Journal, random: &mut Random) {
    let place = any_record(journal, random);
    journal.bytes[place + 1] |= 1 << random.below(8);
}

/// Puts the number into one of the record's fields, if it has one that is whole.
fn set_field(journal: &mut Journal, random: &mut Random, number: i64) {
    let place = any_record(journal, random);
    let fields = journal.bytes[place + 1].count_ones() as usize;
    let start = place + 2 + 8 * random.below(fields.max(1));
    if let Some(field) = journal.bytes.get_mut(start..start + 8) {
        field.copy_from_slice(&number.to_be_bytes());
    }
}

fn zero_field(journal: &mut Journal, random: &mut Random) {
    set_field(journal, random, 0);
}

fn wild_field(journal: &mut Journal, random: &mut Random) {
    let any = random.signed_of_any_length();
    let power = 10_i64.pow(random.below(19) as u32);
    let beside = random.within(-1, 1);
    let number = random.one_of(&[any, power + beside, -power + beside, i64::MIN, i64::MAX]);
    set_field(journal, random, number);
}

fn cut_in_record(journal: &mut Journal, random: &mut Random) {
    let length = any_record(journal, random) + 2 + random.below(24);
    journal.cut(length);
}

fn one_byte_of_record(journal: &mut Journal, random: &mut Random) {
    let length = any_record(journal, random) + 1;
    journal.cut(length);
}

fn wrong_opening(journal: &mut Journal, random: &mut Random) {
    let byte = random.one_of(&[0, 1, 2, 3, 4, 48, 128, 255]);
    journal.bytes[0] = byte;
}

/// A quarter at the limit, past it, or anywhere.
fn wild_quarter(journal: &mut Journal, random: &mut Random) {
    let any = random.signed_of_any_length();
    let number = random.one_of(&[-1, 0, 100_000_000, 100_000_001, i64::MIN, i64::MAX, any]);
    let start = 1 + 8 * random.below(4);
    if journal.bytes[0] == STEAM {
        if let Some(quarter) = journal.bytes.get_mut(start..start + 8) {
            quarter.copy_from_slice(&number.to_be_bytes());
        }
    }
}

fn cut_opening(journal: &mut Journal, random: &mut Random) {
    let any = random.below(33);
    journal.cut(random.one_of(&[1, any, 31, 32, 33, 34]));
}

fn empty(journal: &mut Journal, _: &mut Random) {
    journal.cut(0);
}
