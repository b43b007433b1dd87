//! Every limit from both sides: of what a book holds, and of what the next book would hold.

use crate::met::LISTED;
use crate::postings::{adjust, bill, cost, costs, month_end, sales, settle, KINDS};
use crate::sides::{expect, expect_refusal, open, post};
use crate::stored::{stored, CENTS, KWH, STORED};
use twin::calendar::{AUGUST, FEBRUARY, JANUARY, JUNE, MAY, NOVEMBER};
use twin::electric::ElectricBook;
use twin::records::Posting;

/// A posting that every book within its limits accepts, and that moves nothing.
fn nothing() -> Posting {
    bill(0, 0)
}

#[test]
fn a_stored_value_past_its_limit_is_refused_and_at_its_limit_is_not() {
    for value in &STORED {
        let with = |number| value.with(open(1).book, number);
        for inside in [value.low, value.high, value.low + 1, value.high - 1] {
            let book = with(inside);
            let met = expect([0, 0], book, nothing());
            assert_eq!(met, book, "{} at {inside}", value.name);
        }
        for outside in [value.low - 1, value.high + 1] {
            for kind in KINDS {
                let numbers = [0; 3];
                expect_refusal(6, with(outside), Posting { kind, numbers });
            }
        }
        // The ends of 32 bits are wild to a factor, and amounts like others to cents.
        for number in [i32::MIN, i32::MAX].map(i64::from) {
            let fits = (value.low..=value.high).contains(&number);
            let met = post(with(number), nothing(), LISTED).reply.number;
            assert_eq!(met == 0, fits, "{} at {number}", value.name);
        }
    }
}

#[test]
fn month_division_and_settled_have_their_limits() {
    for month in 0..=255 {
        for (division, settled) in [0, 1, 2, 3, 128, 255]
            .map(|d| [(d, false), (d, true)])
            .concat()
        {
            let mut book = open(0).book;
            book.month = month;
            book.division = division;
            book.settled = settled;
            let fits =
                (1..=12).contains(&month) && division < 2 && (!settled || [5, 11].contains(&month));
            let number = post(book, nothing(), LISTED).reply.number;
            assert_eq!(number, if fits { 0 } else { 6 }, "{book:?}");
        }
    }
}

/// A fresh book in the month with some values set.
fn book(month: u8, values: &[(&str, i64)]) -> ElectricBook {
    let mut book = open(0).book;
    book.month = month;
    for &(name, number) in values {
        stored(name).set(&mut book, number);
    }
    book
}

/// Holds a posting to be accepted and to leave the number stored under the name.
fn lands(book: ElectricBook, posting: Posting, name: &str, number: i64) {
    let posted = post(book, posting, LISTED);
    assert_eq!(posted.reply.number, 0, "{posting:?} on {book:?}");
    let met = stored(name).get(posted.book);
    assert_eq!(met, number, "{name} after {posting:?} on {book:?}");
}

const LEVELS: [(i64, &str); 2] = [(0, "secondary"), (1, "primary")];
const SIGNS: [i64; 2] = [1, -1];

/// Every level with every sign.
fn levels_and_signs() -> impl Iterator<Item = (i64, &'static str, i64)> {
    let levels = LEVELS.into_iter();
    levels.flat_map(|(level, name)| SIGNS.map(|sign| (level, name, sign)))
}

#[test]
fn open_cost_reaches_its_limit_and_no_further() {
    for sign in SIGNS {
        let near = book(JUNE, &[("cost", sign * (CENTS - 7))]);
        lands(near, cost(sign * 7), "cost", sign * CENTS);
        let there_and_back = costs([sign * 9, -sign * 9, sign * 7]);
        lands(near, there_and_back, "cost", sign * CENTS);
        expect_refusal(12, near, cost(sign * 8));
        expect_refusal(12, near, costs([sign * 3, sign * 4, sign]));
    }
}

#[test]
fn open_sales_reach_their_limit_and_no_further() {
    let values = [("secondary sales", KWH - 3), ("primary sales", KWH - 5)];
    let near = book(JUNE, &values);
    lands(near, sales(3, 5), "secondary sales", KWH);
    lands(near, sales(3, 5), "primary sales", KWH);
    for (secondary, primary) in [(4, 0), (0, 6), (4, 5), (3, 6)] {
        expect_refusal(12, near, sales(secondary, primary));
    }
}

#[test]
fn carried_cents_reach_their_limit_and_no_further() {
    for (level, name, sign) in levels_and_signs() {
        let carried = format!("{name} carried");
        let near = book(MAY, &[(&carried, sign * (CENTS - 9))]);
        lands(near, adjust(level, sign * 9), &carried, sign * CENTS);
        expect_refusal(12, near, adjust(level, sign * 10));
    }
}

#[test]
fn due_cents_reach_their_limit_by_bills_and_no_further() {
    for (level, name, sign) in levels_and_signs() {
        for run in ["first", "second"] {
            let due = format!("{name} {run} due");
            let factor = format!("{name} {run} factor");
            // At 100 points a kWh is a cent.
            let near = book(MAY, &[(&due, sign * (CENTS - 4)), (&factor, 100)]);
            lands(near, bill(level, -sign * 4), &due, sign * CENTS);
            expect_refusal(12, near, bill(level, -sign * 5));
        }
    }
}

#[test]
fn due_cents_reach_their_limit_from_nothing() {
    let mut billed = book(JUNE, &[("primary first factor", 100)]);
    let most = 1_000_000_000;
    for _ in 0..1_000 {
        billed = expect([most, 0], billed, bill(1, most));
    }
    assert_eq!(billed.primary.first.due, -CENTS);
    expect_refusal(12, billed, bill(1, 1));
    for _ in 0..2_000 {
        billed = expect([-most, 0], billed, bill(1, -most));
    }
    assert_eq!(billed.primary.first.due, CENTS);
    expect_refusal(12, billed, bill(1, -1));
}

#[test]
fn a_line_may_pass_the_limit_of_stored_cents() {
    let factors = [
        ("secondary first factor", 99_999),
        ("secondary second factor", 99_999),
    ];
    let line = 1_999_980_000_000;
    let billed = expect([line, 0], book(JUNE, &factors), bill(0, 1_000_000_000));
    assert_eq!(billed.secondary.first.due, -line / 2);
    assert_eq!(billed.secondary.second.due, -line / 2);
    expect_refusal(12, billed, bill(0, 1_000_000_000));
}

#[test]
fn interest_reaches_its_limit_and_no_further() {
    for (_, name, sign) in levels_and_signs() {
        let interest = format!("{name} interest");
        let carried = format!("{name} carried");
        // At 12% a year 800 cents bear 8 a month, and 850 bear 9.
        let near = |cents| {
            let values = [(&*interest, sign * (CENTS - 8)), (&carried, sign * cents)];
            book(JANUARY, &values)
        };
        lands(near(800), month_end(120_000), &interest, sign * CENTS);
        lands(near(849), month_end(120_000), &interest, sign * CENTS);
        expect_refusal(12, near(850), month_end(120_000));
    }
}

/// A book of the division with all cents of a sign at their limit but the interest, and the largest cost and sales open.
fn largest(division: u8, sign: i64, remainder: i64) -> ElectricBook {
    let period = [
        ("cost", sign * CENTS),
        ("secondary sales", KWH),
        ("primary sales", KWH),
        ("remainder", remainder),
    ];
    let mut largest = book(JANUARY, &period);
    largest.division = division;
    for (_, name) in LEVELS {
        for cents in ["carried", "pending", "first due", "second due"] {
            stored(&format!("{name} {cents}")).set(&mut largest, sign * CENTS);
        }
    }
    largest
}

#[test]
fn interest_on_the_largest_shares_reaches_its_limit_and_no_further() {
    // C + Q + d1 + d2 and the share, a 60th of which is a month at 20% a year.
    let cases = [
        // 4462625967851 and 4453193032150: 74377099464.18 and 74219883869.17.
        (0, 1, 50_000, [74_377_099_464, 74_219_883_869]),
        // −4497159032151 and −4487021967850: −74952650535.85 and −74783699464.17.
        (0, -1, -50_000, [-74_952_650_536, -74_783_699_464]),
        // 4457805637260 and 4443972362740: 74296760621 and 74066206045.67.
        (1, 1, -50_000, [74_296_760_621, 74_066_206_046]),
        // −4506767362740 and −4491454637260: −75112789379 and −74857577287.67.
        (1, -1, 50_000, [-75_112_789_379, -74_857_577_288]),
    ];
    for (division, sign, remainder, interest) in cases {
        let mut near = largest(division, sign, remainder);
        near.secondary.interest = sign * CENTS - interest[0];
        near.primary.interest = sign * CENTS - interest[1];
        let next = expect(interest, near, month_end(200_000));
        let at_limit = [next.secondary, next.primary].map(|level| level.interest);
        assert_eq!(at_limit, [sign * CENTS; 2]);
        assert_eq!(next.period, near.period);
        for (level, _) in LEVELS {
            let mut past = near;
            past.level_mut(level).interest += sign;
            expect_refusal(12, past, month_end(200_000));
        }
    }
}

#[test]
fn interest_passes_its_limit_by_the_share_alone() {
    for (level, name, sign) in levels_and_signs() {
        let interest = format!("{name} interest");
        // V = 1799000 ± 20000000 − 1799000 is ±19000 cents of R, of which 1% are borne at 12% a year.
        let near = |cents| {
            let sold = ["secondary sales", "primary sales"][level as usize];
            let values = [
                ("cost", 1_799 + sign * 20_000),
                (sold, 1_000),
                (&interest, sign * (CENTS - cents)),
            ];
            book(JANUARY, &values)
        };
        lands(near(190), month_end(120_000), &interest, sign * CENTS);
        expect_refusal(12, near(189), month_end(120_000));
        // In a settled month the same book bears nothing.
        let mut settled = near(189);
        settled.month = NOVEMBER;
        settled.settled = true;
        lands(settled, month_end(120_000), &interest, sign * (CENTS - 189));
    }
}

#[test]
fn carried_cents_reach_their_limit_by_handover_and_no_further() {
    for (_, name, sign) in levels_and_signs() {
        let carried = format!("{name} carried");
        for (month, run) in [(FEBRUARY, "first"), (AUGUST, "second")] {
            let due = format!("{name} {run} due");
            let near = |cents, month| {
                let values = [(&*carried, sign * (CENTS - 600)), (&due, sign * cents)];
                book(month, &values)
            };
            lands(near(600, month), month_end(0), &carried, sign * CENTS);
            expect_refusal(12, near(601, month), month_end(0));
            // In other months nothing is handed over.
            lands(near(601, JANUARY), month_end(0), &due, sign * 601);
            let other = if month == FEBRUARY { AUGUST } else { FEBRUARY };
            lands(near(601, other), month_end(0), &due, sign * 601);
        }
    }
}

/// A book to settle whose shares are 0, since its sales cost the base.
fn without_share(values: &[(&str, i64)]) -> ElectricBook {
    // V = 1000 × 1799 − 1799 × 1000.
    let shared = [("cost", 1_799), ("secondary sales", 1_000)];
    book(NOVEMBER, &[&shared[..], values].concat())
}

#[test]
fn pending_cents_reach_their_limit_and_no_further() {
    for (_, name, sign) in levels_and_signs() {
        let pending = format!("{name} pending");
        let (carried, interest) = (format!("{name} carried"), format!("{name} interest"));
        let near = |cents| {
            let values = [(&*carried, sign * (CENTS - 5)), (&interest, sign * cents)];
            without_share(&values)
        };
        let largest = settle(KWH, KWH);
        lands(near(5), largest, &pending, sign * CENTS);
        expect_refusal(12, near(6), largest);
        // On the way the sum may be past the limit.
        let back = without_share(&[(&carried, sign * CENTS), (&interest, -sign * 3)]);
        lands(back, largest, &pending, sign * (CENTS - 3));
    }
}

#[test]
fn filed_factors_reach_their_limit_and_no_further() {
    // Cents, estimated sales, and whether the factor of 100 × cents / sales is stored.
    let cases = [
        (99_999, 100, true),
        (100_000, 100, false),
        (999_994, 1_000, true),
        (999_995, 1_000, false),
        (999_999_999_999, 1_000_009_999, true),
        (999_999_999_999, 1_000_000_000, false),
        // Factors of more than 32 bits, some of which are small again once they are cut.
        (42_949_673, 1, false),
        (42_949_672_960, 1, false),
        (1_000_000_000_000, 1, false),
        (1_073_741_824, 25, false),
    ];
    for (_, name, sign) in levels_and_signs() {
        let (carried, factor) = (format!("{name} carried"), format!("{name} pending factor"));
        for (cents, sold, stores) in cases {
            let near = without_share(&[(&carried, sign * cents)]);
            match stores {
                true => lands(near, settle(sold, sold), &factor, sign * 99_999),
                false => expect_refusal(12, near, settle(sold, sold)),
            }
        }
    }
}

#[test]
fn the_largest_cost_and_sales_are_shared() {
    let cases = [
        (0, CENTS, [462_625_967_850, 453_193_032_150]),
        (0, -CENTS, [-497_159_032_150, -487_021_967_850]),
        (1, CENTS, [457_805_637_260, 443_972_362_740]),
        (1, -CENTS, [-506_767_362_740, -491_454_637_260]),
    ];
    for (division, cost, shares) in cases {
        let sold = [("secondary sales", KWH), ("primary sales", KWH)];
        let mut largest = book(MAY, &[&sold[..], &[("cost", cost)]].concat());
        largest.division = division;
        let settled = post(largest, settle(KWH, KWH), LISTED).book;
        let met = [settled.secondary, settled.primary].map(|level| level.pending.due);
        assert_eq!(met, shares, "division {division}, cost {cost}");
    }
}
