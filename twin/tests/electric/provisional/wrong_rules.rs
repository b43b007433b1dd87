//! Wrong month ends, each of which a listed case must tell from what both sides give.

use super::cases::{self, Case};
use super::flaws::{Flaw, FLAWS};
use super::plain;
use crate::met::LISTED;
use crate::postings::month_end;
use crate::sides::post;

fn tells(case: &Case, flaw: Flaw) -> bool {
    let right = post(case.book, month_end(case.rate), LISTED);
    let interest = right.reply.interest;
    let right = (
        [interest.secondary, interest.primary].map(i128::from),
        right.book,
    );
    plain::month_end(&case.book, case.rate, flaw) != right
}

#[test]
fn every_wrong_month_end_is_told() {
    let cases = cases::all();
    let mut left = Vec::new();
    for &flaw in FLAWS {
        let told = cases.iter().filter(|case| tells(case, flaw)).count();
        println!("{flaw:?} told by {told} of {} cases", cases.len());
        if told == 0 {
            left.push(flaw);
        }
    }
    assert_eq!(left, [], "not told");
}
