//! Compares the proved rounding and weight with the twin's.

#![forbid(unsafe_code)]

use twin::random::Random;
use twin::rounding::{within_limits, AMOUNT_LIMIT, WHOLE_WEIGHT};
use twin::{proved, rounding};

const RANDOM_CASES: usize = 1_000_000;

/// What a case without a seed is named by.
const LISTED: &str = "a listed case";

fn seeded(seed: u64) -> (Random, String) {
    (Random::new(seed), format!("seed {seed}"))
}

/// Both sides of round(a/b), which must agree.
fn both_round(a: i64, b: i64, origin: &str) -> i64 {
    let proved = proved::round_div(a, b);
    let twin = rounding::round_div(a, b);
    assert_eq!(proved, twin, "proved and twin round({a}/{b}), {origin}");
    twin
}

/// Both sides of a weight, which must agree.
fn both_weight(secondary: i64, primary: i64, origin: &str) -> i64 {
    let proved = proved::weight(secondary, primary);
    let twin = rounding::weight(secondary, primary);
    assert_eq!(
        proved, twin,
        "proved and twin weight of {secondary} and {primary}, {origin}"
    );
    twin
}

fn expect_round(expected: i64, a: i64, b: i64, origin: &str) {
    let rounded = both_round(a, b, origin);
    assert_eq!(rounded, expected, "round({a}/{b}) and expected, {origin}");
}

fn expect_weight(expected: i64, secondary: i64, primary: i64, origin: &str) {
    let weight = both_weight(secondary, primary, origin);
    assert_eq!(
        weight, expected,
        "weight of {secondary} and {primary} and expected, {origin}"
    );
}

/// Twice the distance of the remainder of a/b from a half of b: 0 is a tie.
fn from_half(a: impl Into<i128>, b: impl Into<i128>) -> i128 {
    let (a, b) = (a.into(), b.into());
    let rest = (a % b).abs();
    (2 * rest - b).abs()
}

/// The edges of 64-bit numbers, and the numbers beside each.
fn edges() -> Vec<i64> {
    let twos = (0..=62).map(|power| 1_i64 << power);
    let tens = (0..=18).map(|power| 10_i64.pow(power));
    let named = [i64::MAX, i64::MIN, i64::MAX / 2, 0, 45, 50, 90];
    let mut edges: Vec<i64> = Vec::new();
    for centre in twos.chain(tens).chain(named).chain(0..=12) {
        for beside in [-1, 0, 1] {
            let edge = centre.saturating_add(beside);
            edges.extend([edge, edge.saturating_neg(), !edge]);
        }
    }
    edges.sort_unstable();
    edges.dedup();
    edges
}

#[test]
fn figures_of_the_paper_are_met() {
    let figures = [(-90, 100, -1), (-45, 100, 0), (50, 100, 1), (-50, 100, -1)];
    for (a, b, rounded) in figures {
        expect_round(rounded, a, b, LISTED);
    }
    expect_weight(60_494, 600_000 * 108_443, 400_000 * 106_231, LISTED);
}

#[test]
fn quotients_of_edges_agree() {
    let edges = edges();
    for edge in [i64::MIN, i64::MIN + 1, i64::MIN / 2 - 1, i64::MIN / 2 + 1] {
        assert!(edges.contains(&edge) && edges.contains(&!edge), "{edge}");
    }
    let mut without_quotient = 0;
    for &a in &edges {
        for &b in &edges {
            if b < 1 {
                expect_round(0, a, b, LISTED);
                without_quotient += 1;
            } else {
                both_round(a, b, LISTED);
            }
        }
    }
    assert!(edges.len() > 400, "{} edges", edges.len());
    assert!(without_quotient > 80_000, "{without_quotient} below 1");
}

#[test]
fn random_quotients_agree() {
    let (mut random, origin) = seeded(1);
    let mut lengths = [[0; 64]; 2];
    let mut nonzero = 0;
    for _ in 0..RANDOM_CASES {
        let a = random.signed_of_any_length();
        let b = random.of_any_length().max(1);
        if both_round(a, b, &origin) != 0 {
            nonzero += 1;
        }
        let magnitude = if a < 0 { !a } else { a };
        lengths[usize::from(a < 0)][64 - magnitude.leading_zeros() as usize] += 1;
    }
    assert!(lengths.iter().flatten().all(|&count| count > 1_000));
    assert!(nonzero > RANDOM_CASES / 3, "{nonzero} not rounded to 0");
}

#[test]
fn random_divisors_below_one_give_zero() {
    let (mut random, origin) = seeded(2);
    for _ in 0..RANDOM_CASES {
        let a = random.signed_of_any_length();
        let b = random.of_any_length().saturating_neg();
        expect_round(0, a, b, &origin);
    }
}

/// An even divisor b and a whole quotient, small enough for b × whole ± (b/2 + 1).
fn even_divisor_and_quotient(random: &mut Random) -> (i64, i64) {
    let half = random.up_to(i64::MAX / 2 - 1).max(1);
    let divisor = 2 * half;
    let quotient = random.up_to((i64::MAX - half - 1) / divisor);
    let sign = random.one_of(&[-1, 1]);
    (divisor, sign * quotient)
}

#[test]
fn ties_go_away_from_zero() {
    let (mut random, origin) = seeded(3);
    let (mut positive, mut negative, mut small, mut large) = (0, 0, 0, 0);
    for _ in 0..RANDOM_CASES {
        let (b, whole) = even_divisor_and_quotient(&mut random);
        let side = random.one_of(&[-1, 1]);
        let a = b * whole + side * (b / 2);
        assert_eq!(from_half(a, b), 0, "{a}/{b} is no tie, {origin}");
        let farther = if (side > 0) == (a > 0) {
            whole + side
        } else {
            whole
        };
        expect_round(farther, a, b, &origin);
        positive += usize::from(a > 0);
        negative += usize::from(a < 0);
        small += usize::from(b < 1 << 16);
        large += usize::from(b > 1 << 48);
    }
    for (count, kind) in [(positive, "a > 0"), (negative, "a < 0")] {
        assert!(count > RANDOM_CASES / 3, "{count} ties with {kind}");
    }
    for (count, kind) in [(small, "small b"), (large, "large b")] {
        assert!(count > RANDOM_CASES / 10, "{count} ties with {kind}");
    }
}

#[test]
fn quotients_one_from_a_tie_go_to_the_nearest() {
    let (mut random, origin) = seeded(4);
    for _ in 0..RANDOM_CASES {
        let (b, whole) = even_divisor_and_quotient(&mut random);
        let side = random.one_of(&[-1, 1]);
        let tie = b * whole + side * (b / 2);
        for (a, nearest) in [(tie - side, whole), (tie + side, whole + side)] {
            assert_eq!(from_half(a, b), 2, "{a}/{b} is not near, {origin}");
            expect_round(nearest, a, b, &origin);
        }
    }
}

#[test]
fn quotients_beside_the_half_of_an_odd_divisor_go_to_the_nearest() {
    let (mut random, origin) = seeded(5);
    for _ in 0..RANDOM_CASES {
        let (even, whole) = even_divisor_and_quotient(&mut random);
        let b = even - 1;
        let side = random.one_of(&[-1, 1]);
        for (part, nearest) in [(b / 2, whole), (b / 2 + 1, whole + side)] {
            let a = b * whole + side * part;
            assert_eq!(from_half(a, b), 1, "{a}/{b} is not near, {origin}");
            expect_round(nearest, a, b, &origin);
        }
    }
}

/// What the paper says of round(a/b), held to the twin alone in 128-bit numbers.
fn twin_keeps_the_paper(a: i64, b: i64, origin: &str) {
    let rounded = i128::from(rounding::round_div(a, b));
    let (a, b) = (i128::from(a), i128::from(b));
    let distance = (a - b * rounded).abs();
    assert!(2 * distance <= b, "round({a}/{b}) is not nearest, {origin}");
    assert!(
        2 * distance < b || (b * rounded).abs() > a.abs(),
        "round({a}/{b}) is a half that goes to zero, {origin}"
    );
    let mirrored = rounding::round(-a, b);
    assert_eq!(mirrored, -rounded, "round(-a/b), a {a}, b {b}, {origin}");
}

#[test]
fn twin_keeps_the_paper_at_edges() {
    let edges = edges();
    let mut cases = 0;
    for &a in &edges {
        for &b in edges.iter().filter(|&&b| b >= 1) {
            twin_keeps_the_paper(a, b, LISTED);
            cases += 1;
        }
    }
    assert!(cases > 80_000, "{cases} cases");
}

#[test]
fn twin_keeps_the_paper_at_random() {
    let (mut random, origin) = seeded(6);
    for _ in 0..RANDOM_CASES {
        let a = random.signed_of_any_length();
        let b = random.of_any_length().max(1);
        twin_keeps_the_paper(a, b, &origin);
        let (b, whole) = even_divisor_and_quotient(&mut random);
        twin_keeps_the_paper(b * whole + b / 2, b, &origin);
    }
}

#[test]
fn weights_of_edges_agree() {
    let mut amounts = edges();
    for centre in [AMOUNT_LIMIT, AMOUNT_LIMIT / 2, WHOLE_WEIGHT] {
        amounts.extend([centre - 1, centre, centre + 1, -centre]);
    }
    let (mut inside, mut outside) = (0, 0);
    for &secondary in &amounts {
        for &primary in &amounts {
            if within_limits(secondary) && within_limits(primary) {
                both_weight(secondary, primary, LISTED);
                inside += 1;
            } else {
                expect_weight(0, secondary, primary, LISTED);
                outside += 1;
            }
        }
    }
    assert!(inside > 20_000, "{inside} pairs within the limits");
    assert!(outside > 100_000, "{outside} pairs outside the limits");
}

#[test]
fn weights_at_the_limits_are_met() {
    let limit = AMOUNT_LIMIT;
    let cases = [
        (0, 0, 0),
        (1, 0, 100_000),
        (0, 1, 0),
        (1, 1, 50_000),
        (limit, 0, 100_000),
        (0, limit, 0),
        (limit, limit, 50_000),
        (limit, 1, 100_000),
        (1, limit, 0),
        (limit + 1, 0, 0),
        (limit + 1, limit, 0),
        (limit, limit + 1, 0),
        (limit, -1, 0),
        (-1, limit, 0),
        (i64::MAX, i64::MAX, 0),
        (i64::MIN, i64::MIN, 0),
        (i64::MAX, 1, 0),
        (1, i64::MIN, 0),
    ];
    for (secondary, primary, weight) in cases {
        expect_weight(weight, secondary, primary, LISTED);
    }
}

/// What the paper says of a weight that has a divisor, held to the weight found.
fn weight_is_nearest(weight: i64, secondary: i64, primary: i64, origin: &str) {
    let total = i128::from(secondary) + i128::from(primary);
    let exact = i128::from(WHOLE_WEIGHT) * i128::from(secondary);
    let distance = exact - total * i128::from(weight);
    assert!(
        2 * distance.abs() <= total && 2 * distance != total,
        "weight {weight} of {secondary} and {primary}, {origin}"
    );
}

#[test]
fn random_weights_agree() {
    let (mut random, origin) = seeded(7);
    let (mut between, mut large) = (0, 0);
    for _ in 0..RANDOM_CASES {
        let secondary = random.up_to(AMOUNT_LIMIT);
        let primary = random.up_to(AMOUNT_LIMIT);
        let weight = both_weight(secondary, primary, &origin);
        if secondary + primary >= 1 {
            weight_is_nearest(weight, secondary, primary, &origin);
        }
        between += usize::from(weight > 0 && weight < WHOLE_WEIGHT);
        large += usize::from(secondary > AMOUNT_LIMIT / 4 && primary > AMOUNT_LIMIT / 4);
    }
    assert!(between > RANDOM_CASES / 4, "{between} between the ends");
    assert!(large > RANDOM_CASES / 100, "{large} of large amounts");
}

#[test]
fn weights_at_and_beside_ties_go_up_or_to_the_nearest() {
    let (mut random, origin) = seeded(8);
    let mut large = 0;
    for _ in 0..RANDOM_CASES {
        let lower = random.within(0, WHOLE_WEIGHT - 1);
        let parts = 2 * lower + 1;
        let other_parts = 2 * WHOLE_WEIGHT - parts;
        let unit = random.up_to((AMOUNT_LIMIT - 1) / parts.max(other_parts));
        let (secondary, primary) = (parts * unit.max(1), other_parts * unit.max(1));
        let exact = i128::from(WHOLE_WEIGHT) * i128::from(secondary);
        let distance = from_half(exact, secondary + primary);
        assert_eq!(distance, 0, "no tie: {secondary} and {primary}, {origin}");
        expect_weight(lower + 1, secondary, primary, &origin);
        expect_weight(lower, secondary - 1, primary + 1, &origin);
        expect_weight(lower + 1, secondary + 1, primary - 1, &origin);
        large += usize::from(secondary + primary > AMOUNT_LIMIT / 4);
    }
    assert!(large > RANDOM_CASES / 10, "{large} ties of large amounts");
}

/// A number that is no amount, near the limits and far.
fn outside_limits(random: &mut Random) -> i64 {
    let beyond = random.up_to(i64::MAX - AMOUNT_LIMIT - 1);
    if random.coin() {
        AMOUNT_LIMIT + 1 + beyond
    } else {
        !beyond
    }
}

#[test]
fn weights_outside_the_limits_are_zero() {
    let (mut random, origin) = seeded(9);
    for _ in 0..RANDOM_CASES {
        let outside = outside_limits(&mut random);
        assert!(!within_limits(outside), "{outside}, {origin}");
        let inside = random.up_to(AMOUNT_LIMIT);
        let other = outside_limits(&mut random);
        expect_weight(0, outside, inside, &origin);
        expect_weight(0, inside, outside, &origin);
        expect_weight(0, outside, other, &origin);
    }
}
