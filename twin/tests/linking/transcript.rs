//! What `host/example.c` has to print: the same postings, given to the twin.

use crate::text::{cents, points, run};
use twin::electric::{self, sheet, ElectricBook, Level, Sales};
use twin::records::{self, Book, Posting, Read};
use twin::records::{ADJUST, BILL, COST, MONTH_END, RECONCILE, SALES, SETTLE};
use twin::rounding::{round_div, weight};
use twin::steam::{self, SteamBook};
use twin::written::Written;

const SECONDARY: i64 = 0;
const PRIMARY: i64 = 1;

fn posting(kind: u8, numbers: [i64; 3]) -> Posting {
    Posting { kind, numbers }
}

/// An answer of the electric book in the words of the paper's journal.
fn electric_answer(kind: u8, posted: &electric::Posted) -> String {
    let electric::Reply {
        number,
        filed,
        line,
        interest,
    } = posted.reply;
    match (number, kind) {
        (0, BILL) => format!("line {}", cents(line)),
        (0, SETTLE) => format!(
            "filed {} {}",
            points(filed.secondary),
            points(filed.primary)
        ),
        (0, MONTH_END) => format!(
            "interest {} {}",
            cents(interest.secondary),
            cents(interest.primary)
        ),
        (0, _) => "done".to_owned(),
        (number, _) => format!("refused {number}"),
    }
}

/// The sheet of a settlement that is still to be posted.
fn sheet_of(book: ElectricBook, settlement: Posting) -> String {
    let [secondary, primary, _] = settlement.numbers;
    match sheet::printed(book, Sales { secondary, primary }) {
        Ok(sheet) => format!("sheet\n{}", String::from_utf8_lossy(&sheet)),
        Err(number) => format!("sheet refused {number}\n"),
    }
}

/// An answer of the steam book likewise.
fn steam_answer(kind: u8, posted: &steam::Posted) -> String {
    match (posted.reply.number, kind) {
        (0, BILL) => format!("line {}", cents(posted.reply.line)),
        (0, SETTLE) => format!("filed {}", points(posted.reply.filed)),
        (0, _) => "done".to_owned(),
        (number, _) => format!("refused {number}"),
    }
}

/// L&P's postings, with document 01's settlement.
fn electric_postings() -> Vec<Posting> {
    let cost = posting(COST, [1_500_000, 400_000, 100_000]);
    let settle = posting(SETTLE, [1_250_000, 800_000, 0]);
    let month_end = posting(MONTH_END, [60_000, 0, 0]);
    let mut list = vec![cost, posting(SALES, [600_000, 400_000, 0]), settle];
    list.extend([month_end; 5]);
    list.push(settle);
    list.extend([month_end; 4]);
    list.push(posting(BILL, [SECONDARY, 1_000_000, 0]));
    list.push(posting(BILL, [PRIMARY, -15, 0]));
    list.push(posting(ADJUST, [PRIMARY, -90, 0]));
    list.push(cost);
    list
}

fn level(name: &str, level: Level) -> String {
    let held = [level.carried, level.interest].map(cents).join(" ");
    let runs = [level.pending, level.first, level.second]
        .map(run)
        .join(" ");
    format!("{name} {held} {runs}\n")
}

fn electric() -> String {
    let mut text = String::new();
    let mut book: ElectricBook = electric::open(0).book;
    for posting in electric_postings() {
        if posting.kind == SETTLE {
            text += &sheet_of(book, posting);
        }
        let posted = electric::post(book, posting);
        let answer = electric_answer(posting.kind, &posted);
        text += &format!("electric {} {answer}\n", posting.kind);
        book = posted.book;
    }
    let settled = u8::from(book.settled);
    text += &format!("division {} month {} ", book.division, book.month);
    text += &format!("settled {settled} cost {} ", cents(book.period.cost));
    let sales = book.period.sales;
    text += &format!("sales {} {} ", sales.secondary, sales.primary);
    text += &format!("remainder {}\n", book.period.remainder);
    text + &level("secondary", book.secondary) + &level("primary", book.primary)
}

fn steam_postings() -> Vec<Posting> {
    let month_end = posting(MONTH_END, [0; 3]);
    let reconcile = posting(RECONCILE, [12, 40_000, 0]);
    let mut list = vec![
        posting(COST, [3_700_000, 0, 0]),
        posting(SALES, [10_000, 0, 0]),
    ];
    list.extend([month_end; 2]);
    list.push(posting(SETTLE, [100, 0, 0]));
    list.extend([month_end; 3]);
    list.push(posting(BILL, [3_000, 0, 0]));
    list.push(posting(ADJUST, [100_000, 1_000_000, 0]));
    list.push(posting(ADJUST, [100_001, 1_000_000, 0]));
    list.extend([reconcile; 2]);
    list
}

fn steam() -> String {
    let mut text = String::new();
    let mut book: SteamBook = steam::open(9_000, 10_000, 10_000, 10_000).book;
    for posting in steam_postings() {
        let posted = steam::post(book, posting);
        let answer = steam_answer(posting.kind, &posted);
        text += &format!("steam {} {answer}\n", posting.kind);
        book = posted.book;
    }
    let settled = u8::from(book.settled);
    text += &format!("month {} settled {settled} ", book.month);
    text += &format!(
        "cost {} sales {} ",
        cents(book.period.cost),
        book.period.sales
    );
    text += &format!("remainder {} ", book.period.remainder);
    text += &format!(
        "quarters {}\n",
        book.quarters.map(|sales| sales.to_string()).join(" ")
    );
    text + &steam_runs(&book)
}

fn steam_runs(book: &SteamBook) -> String {
    let mut text = format!(
        "carried {} pending {} runs",
        cents(book.carried),
        run(book.pending)
    );
    for (factor, due) in book.factors.into_iter().zip(book.dues) {
        text += &format!(" {} {}", points(factor), cents(due));
    }
    let reconciliation = book.reconciliation;
    text += &format!(" reconciliation {} ", run(reconciliation.run));
    text + &format!("months {}\n", reconciliation.months)
}

fn openings() -> String {
    let electric = electric::open(2).reply.number;
    let steam = steam::open(-1, 0, 0, 0).reply.number;
    format!("electric opening refused {electric}\nsteam opening refused {steam}\n")
}

fn record() -> String {
    let bill = posting(BILL, [PRIMARY, -10, 0]);
    let mut bytes = [0; 26];
    let Written::Length(length) = records::write_record(Book::Electric, bill, &mut bytes) else {
        panic!("{bill:?} has no record");
    };
    let hex: String = bytes[..length]
        .iter()
        .map(|byte| format!(" {byte:02X}"))
        .collect();
    let Read::Found { posting, next } = records::read_record(Book::Electric, &bytes, 0) else {
        panic!("{bytes:?} has no record");
    };
    let [first, second, third] = posting.numbers;
    let read = format!(
        "read 0 to {next}: {} {first} {second} {third}",
        posting.kind
    );
    let Read::Refused { number, place } =
        records::read_record(Book::Electric, &bytes[..length], next)
    else {
        panic!("{bytes:?} has two records");
    };
    let short = records::write_record(Book::Electric, bill, &mut bytes[..length - 1]);
    let Written::Refused(refusal) = short else {
        panic!("{bill:?} has a shorter record");
    };
    format!("record{hex}\n{read}\nread {number} at {place}\nwritten {refusal}, 0 bytes\n")
}

/// The weight is that of document 01's settlement.
fn rounding() -> String {
    let (secondary, primary) = (600_000 * 108_443, 400_000 * 106_231);
    let rounded = round_div(-90, 100);
    format!("round {rounded}\nweight {}\n", weight(secondary, primary))
}

/// Document 01's journal, whole.
const JOURNAL: &str = "1 1 done\n2 3 line 0.00\n3 4 refused 8\n";

fn journal() -> String {
    let length = JOURNAL.len();
    format!("journal 0, {length} bytes of {length}\n{JOURNAL}journal 13, 0 bytes\n")
}

pub fn whole() -> String {
    electric() + &steam() + &openings() + &record() + &rounding() + &journal()
}

/// Document 01's figures, and what follows from its formulas, stand in what is expected.
#[test]
fn the_paper_says_the_same() {
    let text = whole();
    for line in [
        "sheet refused 8",
        "electric 4 refused 8",
        // V 201,000 over 1,000, and the shares
        "3   First Interim Total                    2010.00                              ",
        "6   Second Interim Total by voltage        1909.50        1155.13         754.37",
        // 60,000 × 115,513 / 12,000,000 and 60,000 × 75,437 / 12,000,000, in each open month
        "electric 5 interest 5.78 3.77",
        "8   Interest (I)                                            28.90          18.85",
        // 118,403 and 77,322 with the interest of five months, over 1,250,000 and 800,000
        "electric 4 filed 0.0009 0.0010",
        // 60,000 × 118,403 / 12,000,000 and 60,000 × 77,322 / 12,000,000, pending
        "electric 5 interest 5.92 3.87",
        // 1,000,000 × 9 / 100, and −15 × 10 / 100, a half that goes away from zero
        "electric 3 line 900.00",
        "electric 3 line -0.02",
        // R 556,000 over D = 40,000 + 100
        "steam 4 filed 0.1387",
        "steam 6 refused 11",
        "steam 7 refused 9",
        "electric opening refused 7",
        "record 03 03 00 00 00 00 00 00 00 01 FF FF FF FF FF FF FF F6",
        "read 1 at 18",
        "written 13, 0 bytes",
        "round -1",
        "weight 60494",
    ] {
        assert!(text.lines().any(|found| found == line), "{line} in\n{text}");
    }
}
