//! A separate, slow journal program over the proved books, with one flaw if wanted.

use crate::answers::answer;
use crate::flaws::Flaw;
use twin::electric::{self, ElectricBook};
use twin::proved;
use twin::records::{Book, Posting, Read};
use twin::steam::SteamBook;
use twin::written::Written;

/// Either book, as proved.
#[derive(Clone, Copy)]
pub enum Ledger {
    Electric(ElectricBook),
    Steam(SteamBook),
}

/// What either book answers; amounts of levels are secondary first, and the steam book's factor is.
#[derive(Clone, Copy)]
pub struct Reply {
    pub number: u8,
    pub line: i64,
    pub interest: [i64; 2],
    pub filed: [i32; 2],
}

impl Ledger {
    fn book(&self) -> Book {
        match self {
            Ledger::Electric(_) => Book::Electric,
            Ledger::Steam(_) => Book::Steam,
        }
    }

    fn post(&mut self, posting: Posting) -> Reply {
        match self {
            Ledger::Electric(book) => {
                let posted = proved::electric_post(*book, posting);
                *book = posted.book;
                let electric::Reply {
                    number,
                    filed,
                    line,
                    interest,
                } = posted.reply;
                Reply {
                    number,
                    line,
                    interest: [interest.secondary, interest.primary],
                    filed: [filed.secondary, filed.primary],
                }
            }
            Ledger::Steam(book) => {
                let posted = proved::steam_post(*book, posting);
                *book = posted.book;
                Reply {
                    number: posted.reply.number,
                    line: posted.reply.line,
                    interest: [0; 2],
                    filed: [posted.reply.filed, 0],
                }
            }
        }
    }
}

/// Writes the whole text, as a writer with the flaw would.
pub fn write(input: &[u8], buffer: &mut [u8], flaw: Flaw) -> Written {
    let text = printed(input, flaw);
    let short = match flaw {
        Flaw::ExactBufferIsRefused => buffer.len() <= text.len(),
        _ => buffer.len() < text.len(),
    };
    if short {
        if flaw == Flaw::ShortBufferIsFilled {
            let length = buffer.len();
            buffer.copy_from_slice(&text.as_bytes()[..length]);
        }
        return Written::Refused(if flaw == Flaw::ShortBufferIsTwelve {
            12
        } else {
            13
        });
    }
    let length = buffer.len();
    let (front, rest) = buffer.split_at_mut(text.len());
    front.copy_from_slice(text.as_bytes());
    match flaw {
        Flaw::RestOfBufferIsCleared => rest.fill(0),
        Flaw::AnswerIsBufferLength => return Written::Length(length),
        _ => {}
    }
    Written::Length(text.len())
}

/// How long the text is, as a call with the flaw would say.
pub fn length(input: &[u8], flaw: Flaw) -> usize {
    let text = printed(input, flaw);
    match flaw {
        Flaw::LengthOfLinesWithoutFeed => text.lines().map(str::len).sum(),
        Flaw::LengthRefusesThirteen if text.len() > 65_536 => 13,
        _ => text.len(),
    }
}

/// The whole text.
pub fn printed(input: &[u8], flaw: Flaw) -> String {
    let lines = match opened(input, flaw) {
        Err(0) => Vec::new(),
        Err(number) => vec![format!("refused {number}")],
        Ok((ledger, place)) => run(ledger, input, place, flaw),
    };
    let end = match flaw {
        Flaw::CarriageReturns => "\r\n",
        Flaw::BlankAtLineEnd => " \n",
        _ => "\n",
    };
    let mut text: String = lines.iter().map(|line| format!("{line}{end}")).collect();
    if flaw == Flaw::NoLastLineFeed {
        text.pop();
    }
    text
}

/// The book and the place of the first record, or the number printed, 0 for none.
fn opened(input: &[u8], flaw: Flaw) -> Result<(Ledger, usize), u8> {
    let longest = match flaw {
        Flaw::LongestIsRefused => 65_535,
        Flaw::LongerIsTaken => 65_537,
        Flaw::LongerIsReadInPart => usize::MAX,
        _ => 65_536,
    };
    if input.len() > longest {
        return Err(7);
    }
    let bad = if flaw == Flaw::BadOpeningIsOne { 1 } else { 7 };
    match input.first() {
        None if flaw == Flaw::EmptyIsSeven => Err(7),
        None if flaw == Flaw::EmptyPrintsNothing => Err(0),
        None => Err(1),
        Some(2) => steam_opened(input, bad, flaw),
        Some(1) if flaw == Flaw::DivisionsAreOne => Ok((electric(0), 1)),
        Some(&division) if division < 2 => Ok((electric(division), 1)),
        Some(_) => Err(bad),
    }
}

fn electric(division: u8) -> Ledger {
    Ledger::Electric(proved::electric_open(division).book)
}

fn steam_opened(input: &[u8], bad: u8, flaw: Flaw) -> Result<(Ledger, usize), u8> {
    if input.len() < 33 {
        return match flaw {
            Flaw::CutOpeningIsFour => Err(4),
            Flaw::CutOpeningIsElectric => Ok((electric(0), 1)),
            _ => Err(bad),
        };
    }
    let mut quarters = [0, 1, 2, 3].map(|index| {
        let mut bytes: Vec<u8> = input[1 + 8 * index..9 + 8 * index].to_vec();
        if flaw == Flaw::QuartersLowestByteFirst {
            bytes.reverse();
        }
        let number = bytes
            .iter()
            .fold(0, |sum: u64, &byte| sum * 256 + u64::from(byte));
        number as i64
    });
    let none = quarters.contains(&0);
    match flaw {
        Flaw::QuartersNewestFirst => quarters.reverse(),
        Flaw::QuarterOfZeroIsRefused if none => return Err(bad),
        Flaw::QuarterPastLimitIsTaken => {
            quarters = quarters.map(|quarter| quarter.clamp(0, 100_000_000));
        }
        _ => {}
    }
    let posted = proved::steam_open(quarters);
    match posted.reply.number {
        0 => Ok((Ledger::Steam(posted.book), 33)),
        _ => Err(bad),
    }
}

/// The lines of the records from the place on.
fn run(mut ledger: Ledger, input: &[u8], start: usize, flaw: Flaw) -> Vec<String> {
    let input = match flaw {
        Flaw::LongerIsReadInPart => &input[..input.len().min(65_536)],
        _ => input,
    };
    let (mut lines, mut place, mut number) = (Vec::new(), start, 0);
    let first = if flaw == Flaw::NumbersFromZero { 0 } else { 1 };
    loop {
        let remaining = input.len() - place;
        let ends = match flaw {
            Flaw::LineAtEnd => false,
            Flaw::LastByteIsLeftOut => remaining < 2,
            _ => remaining == 0,
        };
        if ends {
            return lines;
        }
        let step = step(&mut ledger, input, place, flaw);
        let repeats = flaw == Flaw::UnreadableHasLastNumber && step.next.is_none();
        let shown = shown(first + number - usize::from(repeats), flaw);
        lines.extend(step.line.iter().map(|line| format!("{shown} {line}")));
        number += usize::from(step.counts);
        match step.next {
            Some(next) => place = next,
            None => return lines,
        }
    }
}

fn shown(number: usize, flaw: Flaw) -> String {
    match flaw {
        Flaw::NumbersInOneByte => (number as u8).to_string(),
        Flaw::NumbersInFourDigits => (number % 10_000).to_string(),
        _ => number.to_string(),
    }
}

/// What a record gives: its line after the number, whether it counts, and the next place, if any.
struct Step {
    line: Option<String>,
    counts: bool,
    next: Option<usize>,
}

fn step(ledger: &mut Ledger, input: &[u8], place: usize, flaw: Flaw) -> Step {
    match proved::read_record(ledger.book(), input, place) {
        Read::Refused { number, .. } => unread(input, place, number, flaw),
        Read::Found { posting, next } => {
            let before = *ledger;
            let reply = ledger.post(posting);
            let refused = reply.number != 0;
            if refused && flaw == Flaw::RefusalMovesBook {
                *ledger = moved(before);
            }
            let answer = answer(ledger, posting, reply, flaw);
            let kind = posting.kind;
            let line = match flaw {
                Flaw::KindInHexadecimal => format!("{kind:02x} {answer}"),
                _ => format!("{kind} {answer}"),
            };
            Step {
                line: Some(line),
                counts: !(refused && flaw == Flaw::NumbersOfAcceptedOnly),
                next: Some(next).filter(|_| !(refused && flaw == Flaw::RefusalEndsRun)),
            }
        }
    }
}

/// The book with a cent more than it should have.
fn moved(mut ledger: Ledger) -> Ledger {
    match &mut ledger {
        Ledger::Electric(book) => book.secondary.first.due += 1,
        Ledger::Steam(book) => book.carried += 1,
    }
    ledger
}

fn unread(input: &[u8], place: usize, number: usize, flaw: Flaw) -> Step {
    let byte = |place| input.get(place).map_or(0, |&byte: &u8| byte);
    let (kind, bit_map) = (byte(place), byte(place + 1));
    let length = 2 + 8 * bit_map.count_ones() as usize;
    let after = Some(place + length).filter(|&next| next <= input.len());
    let printed = |kind: u8, number: usize| Some(format!("{kind} refused {number}"));
    let (line, next) = match (flaw, number) {
        (Flaw::UnreadableHasNoLine, _) => (None, None),
        (Flaw::UnreadableHasItsKind, _) => (printed(kind, number), None),
        (Flaw::UnknownKindIsPosted, 2) => (printed(kind, number), after),
        (Flaw::StrayBitIsPosted, 3) => (printed(kind, number), after),
        (Flaw::UnknownKindIsSkipped, 2) => (None, after),
        (Flaw::ZeroFieldIsTaken, 5) => (Some(format!("{kind} done")), after),
        (Flaw::CutRecordIsOne, 4) => (printed(0, 1), None),
        _ => (printed(0, number), None),
    };
    Step {
        line,
        counts: true,
        next,
    }
}
