//! Where a journal's run ends: with the last record, or with one that cannot be read.

use crate::sides::expect;
use crate::written::{journal, openings};

#[test]
fn one_byte_left_is_refused_by_one_whatever_it_is() {
    for opening in openings() {
        for byte in 0..=255 {
            let mut bytes = journal(&opening, &[(3, &[]), (1, &[5])]);
            expect("1 3 line 0.00\n2 1 done\n", &bytes);
            bytes.push(byte);
            expect("1 3 line 0.00\n2 1 done\n3 0 refused 1\n", &bytes);
        }
    }
}

#[test]
fn every_kind_and_bit_map_is_read_or_ends_the_run() {
    let electric = [3, 2, 2, 2, 1, 2];
    let steam = [1, 1, 1, 1, 0, 2, 2];
    for opening in openings() {
        let fields: &[u32] = if opening[0] == 2 { &steam } else { &electric };
        for (kind, bit_map) in (0..=u16::MAX).map(|pair| pair.to_be_bytes().into()) {
            let known = usize::from(kind)
                .checked_sub(1)
                .and_then(|kind| fields.get(kind));
            let number = match known {
                None => 2,
                Some(&count) if u32::from(bit_map) >= 1 << count => 3,
                Some(_) if bit_map != 0 => 4,
                Some(_) => continue,
            };
            // Cut after the head, and a record after it that is not to be read.
            let head: [u8; 2] = [kind, bit_map];
            let mut bytes = [&opening[..], &head].concat();
            expect(&format!("1 0 refused {number}\n"), &bytes);
            if number < 4 {
                bytes.extend([3, 0, 3, 0]);
                expect(&format!("1 0 refused {number}\n"), &bytes);
            }
        }
    }
}

#[test]
fn a_record_cut_anywhere_ends_the_run() {
    for opening in openings() {
        let before = journal(&opening, &[(5, &[])]);
        let whole = journal(&before, &[(6, &[1, 1])]);
        let answer = if opening[0] == 2 {
            "done"
        } else {
            "interest 0.00 0.00"
        };
        let first = format!("1 5 {answer}\n");
        for length in before.len()..=whole.len() {
            let second = match length - before.len() {
                0 => "",
                1 => "2 0 refused 1\n",
                18 => "2 6 done\n",
                _ => "2 0 refused 4\n",
            };
            expect(&format!("{first}{second}"), &whole[..length]);
        }
    }
}

#[test]
fn a_field_of_zero_ends_the_run() {
    for opening in openings() {
        let mut bytes = journal(&opening, &[(3, &[]), (6, &[1, 1]), (3, &[])]);
        let field = opening.len() + 4;
        bytes[field..field + 8].fill(0);
        expect("1 3 line 0.00\n2 0 refused 5\n", &bytes);
    }
}

#[test]
fn a_refused_posting_does_not_end_the_run() {
    for opening in openings() {
        let postings: [(u8, &[i64]); 4] = [(4, &[1, 1]), (3, &[0, 1 << 40]), (3, &[]), (1, &[])];
        let electric = "1 4 refused 8\n2 3 refused 7\n3 3 line 0.00\n4 1 done\n";
        if opening[0] < 2 {
            expect(electric, &journal(&opening, &postings));
        }
        let steam: [(u8, &[i64]); 4] = [(4, &[1]), (3, &[1 << 40]), (7, &[]), (3, &[])];
        if opening[0] == 2 {
            let text = "1 4 refused 8\n2 3 refused 7\n3 7 refused 7\n4 3 line 0.00\n";
            expect(text, &journal(&opening, &steam));
        }
    }
}
