//! Openings: each quarter within its range, at its ends and outside.

use crate::met::seeded;
use crate::sides::open;
use twin::amounts::Run;
use twin::calendar::JANUARY;
use twin::steam::{Period, Reconciliation, Reply, SteamBook};

fn fresh(quarters: [i64; 4]) -> SteamBook {
    SteamBook {
        month: JANUARY,
        settled: false,
        period: Period {
            cost: 0,
            sales: 0,
            remainder: 0,
        },
        quarters,
        carried: 0,
        pending: Run { factor: 0, due: 0 },
        factors: [0; 4],
        dues: [0; 4],
        reconciliation: Reconciliation {
            run: Run { factor: 0, due: 0 },
            months: 0,
        },
    }
}

/// Both sides, which must be as the paper wants; gives whether it was accepted.
fn check(quarters: [i64; 4]) -> bool {
    let posted = open(quarters);
    let in_range = |sold: &i64| (0..=100_000_000).contains(sold);
    let accepted = quarters.iter().all(in_range);
    let number = if accepted { 0 } else { 7 };
    let reply = Reply {
        number,
        ..Reply::default()
    };
    assert_eq!(posted.reply, reply, "opening {quarters:?}");
    let expected = fresh(if accepted { quarters } else { [0; 4] });
    assert_eq!(posted.book, expected, "opening {quarters:?}");
    accepted
}

#[test]
fn quarters_are_kept_in_their_order() {
    assert!(check([1, 2, 3, 4]));
    assert!(check([4, 3, 2, 1]));
    assert!(check([0; 4]));
    assert!(check([100_000_000; 4]));
}

#[test]
fn each_quarter_is_taken_to_both_ends_and_no_further() {
    let ends = [
        -1,
        0,
        1,
        99_999_999,
        100_000_000,
        100_000_001,
        i64::MIN,
        i64::MAX,
        1 << 32,
        i64::MIN + 1,
    ];
    let mut accepted = 0;
    for first in ends {
        for second in ends {
            for third in ends {
                for fourth in ends {
                    accepted += usize::from(check([first, second, third, fourth]));
                }
            }
        }
    }
    assert_eq!(accepted, 4 * 4 * 4 * 4);
}

#[test]
fn random_openings_agree() {
    let (mut random, _) = seeded(1);
    let mut accepted = 0;
    for _ in 0..100_000 {
        let mut quarters = [0; 4].map(|_: i64| random.up_to(100_000_000));
        if random.coin() {
            quarters[random.below(4)] = random.signed_of_any_length();
        }
        accepted += usize::from(check(quarters));
    }
    assert!((50_000..90_000).contains(&accepted), "{accepted} accepted");
}
