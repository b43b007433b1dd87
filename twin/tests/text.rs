//! Compares the proved text of amounts with the twin's.

#![forbid(unsafe_code)]

mod common;

use common::{seeded, write_around, Answers, ToWrite};
use twin::random::Random;
use twin::written::{Refusal, Written, BUFFER_TOO_SHORT};
use twin::{proved, text};

const RANDOM_CASES: usize = 1_000_000;

#[derive(Clone, Copy, Debug)]
enum Amount {
    Cents(i64),
    Points(i32),
}

use Amount::{Cents, Points};

impl ToWrite for Amount {
    fn write_proved(&self, buffer: &mut [u8]) -> Written {
        match *self {
            Cents(cents) => proved::write_cents(cents, buffer),
            Points(points) => proved::write_points(points, buffer),
        }
    }

    fn write_twin(&self, buffer: &mut [u8]) -> Written {
        match *self {
            Cents(cents) => text::write_cents(cents, buffer),
            Points(points) => text::write_points(points, buffer),
        }
    }

    fn expected(&self) -> Result<Vec<u8>, Refusal> {
        let (amount, unit, digits) = match *self {
            Cents(cents) => (i128::from(cents), 100, 2),
            Points(points) => (i128::from(points), 10_000, 4),
        };
        let sign = if amount < 0 { "-" } else { "" };
        let (whole, part) = (amount.abs() / unit, amount.abs() % unit);
        Ok(format!("{sign}{whole}.{part:0digits$}").into_bytes())
    }
}

/// The numbers beside each power of two and of ten, and the ends, of both signs.
fn edges() -> Vec<i64> {
    let twos = (0..=62).map(|power| 1_i64 << power);
    let tens = (0..=18).map(|power| 10_i64.pow(power));
    let mut edges = vec![0, i64::MIN, i64::MAX];
    for centre in twos.chain(tens).chain([i64::MAX]) {
        for beside in -2..=2 {
            let edge = centre.saturating_add(beside);
            edges.extend([edge, -edge, !edge]);
        }
    }
    edges.sort_unstable();
    edges.dedup();
    edges
}

/// Writes every amount to buffers of eight lengths, of which three are too short.
fn write_all(amounts: impl Iterator<Item = Amount>, random: &mut Random, origin: &str) -> usize {
    let mut met = Answers::default();
    let mut count = 0;
    for amount in amounts {
        write_around(&amount, random, &mut met, origin);
        count += 1;
    }
    assert_eq!(met[0], 5 * count, "texts written, {origin}");
    assert_eq!(met[BUFFER_TOO_SHORT], 3 * count, "refusals, {origin}");
    count
}

fn expect_text(expected: &str, amount: Amount, random: &mut Random, origin: &str) {
    let text = amount.expected().expect("every amount has a text");
    assert_eq!(text, expected.as_bytes(), "text of {amount:?}, {origin}");
    write_all([amount].into_iter(), random, origin);
}

#[test]
fn figures_of_the_paper_are_met() {
    let (mut random, origin) = seeded(1);
    for (cents, text) in [(-90, "-0.90"), (0, "0.00")] {
        expect_text(text, Cents(cents), &mut random, &origin);
    }
}

#[test]
fn listed_texts_are_met() {
    let (mut random, origin) = seeded(2);
    let listed = [
        (Cents(9), "0.09"),
        (Cents(-1), "-0.01"),
        (Cents(-100), "-1.00"),
        (Cents(-199), "-1.99"),
        (Cents(100_000), "1000.00"),
        (Cents(123_456_789), "1234567.89"),
        (Cents(i64::MAX), "92233720368547758.07"),
        (Cents(i64::MIN), "-92233720368547758.08"),
        (Points(0), "0.0000"),
        (Points(9), "0.0009"),
        (Points(-9), "-0.0009"),
        (Points(-9_999), "-0.9999"),
        (Points(10_000), "1.0000"),
        (Points(99_999), "9.9999"),
        (Points(-123_456), "-12.3456"),
        (Points(i32::MAX), "214748.3647"),
        (Points(i32::MIN), "-214748.3648"),
    ];
    for (amount, text) in listed {
        expect_text(text, amount, &mut random, &origin);
    }
}

#[test]
fn texts_of_edges_agree() {
    let (mut random, origin) = seeded(3);
    let edges = edges();
    let points = || edges.iter().filter_map(|&edge| i32::try_from(edge).ok());
    for end in [i32::MIN, i32::MIN + 1, i32::MAX - 1, i32::MAX] {
        assert!(points().any(|edge| edge == end), "{end} is no edge");
    }
    let cents = edges.iter().copied();
    let of_cents = write_all(cents.map(Cents), &mut random, &origin);
    let of_points = write_all(points().map(Points), &mut random, &origin);
    assert!(of_cents > 400, "{of_cents} edges of cents");
    assert!(of_points > 200, "{of_points} edges of points");
}

#[test]
fn texts_of_all_small_amounts_agree() {
    let (mut random, origin) = seeded(4);
    let small = -50_500..=50_500;
    write_all(small.clone().map(Points), &mut random, &origin);
    write_all(small.map(i64::from).map(Cents), &mut random, &origin);
}

/// How many amounts have so many digits, for either sign.
fn digits_met(amounts: &[i64]) -> [[usize; 20]; 2] {
    let mut met = [[0; 20]; 2];
    for &amount in amounts {
        let digits = amount.unsigned_abs().to_string().len();
        met[usize::from(amount < 0)][digits] += 1;
    }
    met
}

/// A number of either sign and at most the given count of digits, every count as likely.
fn of_any_digits(random: &mut Random, most: u32) -> i64 {
    let first = 10_i64.pow(random.below(most as usize) as u32);
    let magnitude = random.within(first, first.saturating_mul(10) - 1);
    magnitude * random.one_of(&[-1, 1])
}

#[test]
fn texts_of_random_cents_agree() {
    let (mut random, origin) = seeded(5);
    let cents: Vec<i64> = (0..RANDOM_CASES)
        .map(|_| match random.coin() {
            true => random.signed_of_any_length(),
            false => of_any_digits(&mut random, 19),
        })
        .collect();
    for counts in digits_met(&cents) {
        assert!(
            counts[1..=19].iter().all(|&count| count > 1_000),
            "{counts:?}"
        );
    }
    write_all(cents.into_iter().map(Cents), &mut random, &origin);
}

#[test]
fn texts_of_random_points_agree() {
    let (mut random, origin) = seeded(6);
    let points: Vec<i32> = (0..RANDOM_CASES)
        .map(|_| match random.coin() {
            true => random.bits() as i32 >> random.within(0, 31),
            false => of_any_digits(&mut random, 9) as i32,
        })
        .collect();
    let wide: Vec<i64> = points.iter().copied().map(i64::from).collect();
    for counts in digits_met(&wide) {
        assert!(
            counts[1..=10].iter().all(|&count| count > 1_000),
            "{counts:?}"
        );
    }
    write_all(points.into_iter().map(Points), &mut random, &origin);
}
