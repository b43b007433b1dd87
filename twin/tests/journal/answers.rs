//! The text of answers, slowly, with one flaw if wanted.

use crate::flaws::Flaw;
use crate::plain::{Ledger, Reply};
use twin::electric::ElectricBook;
use twin::records::Posting;

/// The fields after the kind.
pub fn answer(ledger: &Ledger, posting: Posting, reply: Reply, flaw: Flaw) -> String {
    let first = posting.numbers[0];
    match (ledger, posting.kind) {
        _ if reply.number != 0 => format!("refused {}", reply.number),
        (_, 3) => line(reply.line, flaw),
        (Ledger::Electric(_), 4) => electric_filed(reply, flaw),
        (Ledger::Steam(_), 4) => steam_filed(reply, flaw),
        (Ledger::Electric(book), 5) => interest(book, reply, flaw),
        (Ledger::Steam(_), 5) if flaw == Flaw::SteamInterest => "interest 0.00 0.00".to_string(),
        (_, 6) if flaw == Flaw::AdjustPrintsCents => format!("done {}", cents(first, flaw)),
        (_, 7) if flaw == Flaw::ReconcileIsFiled => "filed 0.0000".to_string(),
        _ => "done".to_string(),
    }
}

fn line(amount: i64, flaw: Flaw) -> String {
    match flaw {
        Flaw::LineWithoutMinus => format!("line {}", cents(amount.abs(), flaw)),
        _ => format!("line {}", cents(amount, flaw)),
    }
}

fn electric_filed(reply: Reply, flaw: Flaw) -> String {
    let [secondary, primary] = reply.filed.map(|factor| points(factor, flaw));
    match flaw {
        Flaw::FactorsPrimaryFirst => format!("filed {primary} {secondary}"),
        Flaw::FactorOfOneLevel => format!("filed {secondary}"),
        _ => format!("filed {secondary} {primary}"),
    }
}

fn steam_filed(reply: Reply, flaw: Flaw) -> String {
    let [factor, nothing] = reply.filed.map(|factor| points(factor, flaw));
    match flaw {
        Flaw::SteamFactorTwice => format!("filed {factor} {nothing}"),
        _ => format!("filed {factor}"),
    }
}

/// The book is the one after the month's end.
fn interest(book: &ElectricBook, reply: Reply, flaw: Flaw) -> String {
    let [secondary, primary] = reply.interest;
    let amounts = match flaw {
        Flaw::InterestAccrued => [book.secondary.interest, book.primary.interest],
        Flaw::InterestPrimaryFirst => [primary, secondary],
        _ => [secondary, primary],
    };
    let [secondary, primary] = amounts.map(|amount| cents(amount, flaw));
    format!("interest {secondary} {primary}")
}

fn cents(amount: i64, flaw: Flaw) -> String {
    decimal(amount, 100, 2, flaw)
}

fn points(amount: i32, flaw: Flaw) -> String {
    let amount = amount.into();
    match flaw {
        Flaw::PointsLikeCents => decimal(amount, 100, 2, flaw),
        _ => decimal(amount, 10_000, 4, flaw),
    }
}

fn decimal(amount: i64, unit: i64, digits: usize, flaw: Flaw) -> String {
    let (whole, part) = ((amount / unit).abs(), (amount % unit).abs());
    let below = match flaw {
        Flaw::SignFromDollars => amount / unit < 0,
        Flaw::MinusBeforeZero => amount <= 0,
        _ => amount < 0,
    };
    let sign = if below { "-" } else { "" };
    match flaw {
        Flaw::CentsWithoutZeros => format!("{sign}{whole}.{part}"),
        _ => format!("{sign}{whole}.{part:0digits$}"),
    }
}
