//! A separate, slow writing of a month end from the papers, with one flaw if wanted.

use super::flaws::Flaw;
use crate::plain_settlement::{round, Levels, Settlement, RATES};
use twin::amounts::Run;
use twin::electric::{ElectricBook, Level};

/// The nearest whole number, but a half going towards zero.
fn round_half_down(a: i128, b: i128) -> i128 {
    (2 * a.abs() + b - 1) / (2 * b) * a.signum()
}

fn settlement(book: &ElectricBook, flaw: Flaw) -> Settlement {
    let mut settlement = Settlement::of(book);
    let (base, losses) = RATES[usize::from(1 - book.division)];
    match flaw {
        Flaw::VarianceIsBorneWhole => settlement.borne = 100,
        Flaw::BaseOfOtherDivision => settlement.base = base,
        Flaw::LossesOfOtherDivision => settlement.losses = losses,
        Flaw::PartedByKwh => settlement.losses = [1, 1],
        Flaw::RemainderLeftOut => settlement.remainder = 0,
        Flaw::RemainderTakenOff => settlement.remainder *= -1,
        _ => {}
    }
    settlement
}

fn parted(settlement: &Settlement, flaw: Flaw) -> Levels {
    let exact = settlement.exact();
    let all = match flaw {
        Flaw::ShareTowardsZero => exact / 100_000,
        Flaw::HalfOfShareTowardsZero => round_half_down(exact, 100_000),
        _ => round(exact, 100_000),
    };
    let secondary = round(all * settlement.weight(0), 100_000);
    match flaw {
        Flaw::SharesOfOtherLevel => [all - secondary, secondary],
        Flaw::WholeShareAtSecondary => [all, 0],
        Flaw::WholeShareAtPrimary => [0, all],
        Flaw::WholeShareAtBoth => [all, all],
        Flaw::HalfAtEither => [round(all, 2), all - round(all, 2)],
        Flaw::SharesRoundedApart => {
            let primary = round(all * settlement.weight(1), 100_000);
            [secondary, primary]
        }
        _ => [secondary, all - secondary],
    }
}

/// The provisional share of either level.
pub fn shares(book: &ElectricBook, flaw: Flaw) -> Levels {
    let settled = book.settled && flaw != Flaw::BorneInSettledMonth;
    let settlement = settlement(book, flaw);
    let unsold = settlement.sold == [0, 0] && flaw != Flaw::BorneWithoutSales;
    let early = flaw == Flaw::BorneBeforeSettlingMonthAlone && ![4, 10].contains(&book.month);
    match settled || unsold || early || flaw == Flaw::OpenCostBearsNone {
        true => [0, 0],
        false => parted(&settlement, flaw),
    }
}

fn interest(level: &Level, share: i128, rate: i64, flaw: Flaw) -> i128 {
    let cents = [level.carried, level.first.due, level.second.due];
    let mut base: i128 = cents.map(i128::from).iter().sum();
    if flaw != Flaw::InPlaceOfPending || share == 0 {
        base += i128::from(level.pending.due);
    }
    if flaw == Flaw::AccruedInterestBears {
        base += i128::from(level.interest);
    }
    let rate = i128::from(rate);
    match flaw {
        Flaw::RoundedByItself => round(rate * base, 12_000_000) + round(rate * share, 12_000_000),
        Flaw::InterestTowardsZero => rate * (base + share) / 12_000_000,
        Flaw::HalfOfInterestTowardsZero => round_half_down(rate * (base + share), 12_000_000),
        _ => round(rate * (base + share), 12_000_000),
    }
}

/// The handover of February and August, by the run that is replaced.
fn hand_over(level: &mut Level, month: u8) {
    let run = match month {
        2 => &mut level.first,
        8 => &mut level.second,
        _ => return,
    };
    level.carried += run.due;
    *run = level.pending;
    level.pending = Run { factor: 0, due: 0 };
}

/// The interest and the next book, whose cents may be past their limits.
pub fn month_end(book: &ElectricBook, rate: i64, flaw: Flaw) -> (Levels, ElectricBook) {
    let shares = shares(book, flaw);
    let levels = [&book.secondary, &book.primary];
    let borne = [0, 1].map(|index: usize| interest(levels[index], shares[index], rate, flaw));
    let mut next = *book;
    for (index, level) in [&mut next.secondary, &mut next.primary]
        .into_iter()
        .enumerate()
    {
        level.interest += borne[index] as i64;
        hand_over(level, book.month);
        match flaw {
            Flaw::ShareJoinsCarried => level.carried += shares[index] as i64,
            Flaw::ShareJoinsInterest => level.interest += shares[index] as i64,
            Flaw::ShareIsPending => level.pending.due += shares[index] as i64,
            _ => {}
        }
    }
    let period = &mut next.period;
    match flaw {
        Flaw::CostIsConsumed => period.cost = 0,
        Flaw::PeriodIsConsumed => (period.cost, period.sales) = Default::default(),
        Flaw::RemainderMovesOn => {
            let exact = Settlement::of(book).exact();
            period.remainder = (exact - 100_000 * round(exact, 100_000)) as i64;
        }
        Flaw::RemainderIsDropped => period.remainder = 0,
        _ => {}
    }
    next.month = if book.month == 12 { 1 } else { book.month + 1 };
    next.settled = flaw == Flaw::SettledStays && book.settled;
    (borne, next)
}
