//! The paper's rounding and weight, in 128-bit numbers.

/// The largest amount that has a weight.
pub const AMOUNT_LIMIT: i64 = 2_000_000_000_000_000;

/// The weight of all sales.
pub const WHOLE_WEIGHT: i64 = 100_000;

/// round(a/b): the nearest whole number, a half going away from zero; 0 for a divisor below 1.
pub fn round(a: i128, b: i128) -> i128 {
    if b < 1 {
        return 0;
    }
    let towards_zero = a / b;
    let rest = (a % b).abs();
    if 2 * rest < b {
        towards_zero
    } else {
        towards_zero + a.signum()
    }
}

// The proved functions are behind a C call, so for a fair benchmark these two are never inlined.

/// round(a/b) of 64-bit numbers.
#[inline(never)]
pub fn round_div(a: i64, b: i64) -> i64 {
    narrow(round(i128::from(a), i128::from(b)))
}

/// round(100000 × Ws / (Ws + Wp)); 0 for an amount outside the limits.
#[inline(never)]
pub fn weight(secondary: i64, primary: i64) -> i64 {
    if !within_limits(secondary) || !within_limits(primary) {
        return 0;
    }
    let secondary = i128::from(secondary);
    let primary = i128::from(primary);
    narrow(round(
        i128::from(WHOLE_WEIGHT) * secondary,
        secondary + primary,
    ))
}

pub fn within_limits(amount: i64) -> bool {
    (0..=AMOUNT_LIMIT).contains(&amount)
}

fn narrow(number: i128) -> i64 {
    i64::try_from(number).expect("a rounded quotient has 64 bits")
}
