//! The text of figures on the plain sheet, with one flaw if wanted.

use super::flaws::Flaw;

pub fn cents(amount: i128, flaw: Flaw) -> String {
    decimal(amount, 100, 2, flaw)
}

pub fn points(factor: i128, flaw: Flaw) -> String {
    match flaw {
        Flaw::PointsLikeCents => decimal(factor, 100, 2, flaw),
        _ => decimal(factor, 10_000, 4, flaw),
    }
}

/// Hundred-thousandths as percent.
pub fn percent(parts: i128, flaw: Flaw) -> String {
    let (whole, thousandths) = (parts / 1_000, parts % 1_000);
    match flaw {
        Flaw::PercentWithLeadingZeros => format!("{whole:02}.{thousandths:03}%"),
        Flaw::PercentWithoutZeros => format!("{whole}.{thousandths}%"),
        Flaw::PercentOfTwoDecimals => format!("{whole}.{:02}%", thousandths / 10),
        _ => format!("{whole}.{thousandths:03}%"),
    }
}

fn decimal(amount: i128, unit: i128, digits: usize, flaw: Flaw) -> String {
    let (whole, part) = ((amount / unit).abs(), (amount % unit).abs());
    let below = match flaw {
        Flaw::SignFromDollars => amount / unit < 0,
        Flaw::MinusBeforeZero => amount <= 0,
        _ => amount < 0,
    };
    let sign = if below { "-" } else { "" };
    format!("{sign}{whole}.{part:0digits$}")
}
