//! A separate, slow writer of sheets from the papers, over the proved settlement, with one flaw if wanted.

use super::flaws::Flaw;
use super::plain_rows::{rows, Given, Row};
use super::sides::{Case, Memory, SHEET};
use twin::proved;
use twin::records::Posting;
use twin::written::Written;

pub fn write(case: &Case, memory: &mut Memory, flaw: Flaw) -> Written {
    if flaw == Flaw::BytePastPageIsSet {
        *memory.past() = b'\n';
    }
    let Case {
        book,
        estimates,
        page_length,
    } = *case;
    let short = match flaw {
        Flaw::ExactPageIsRefused => page_length <= SHEET,
        _ => page_length < SHEET,
    };
    let page = memory.page();
    let settle = Posting {
        kind: 4,
        numbers: [estimates.secondary, estimates.primary, 0],
    };
    let posted = proved::electric_post(book, settle);
    match posted.reply.number {
        0 => {}
        _ if short && flaw == Flaw::PageBeforeSettlement => return Written::Refused(13),
        number => return refuse_settlement(number, page, flaw),
    }
    let given = Given {
        before: book,
        after: posted.book,
        estimates,
        flaw,
    };
    let text = text(&rows(&given), flaw);
    match short {
        true => refuse(&text, page, flaw),
        false => fill(&text, page, flaw),
    }
}

fn refuse_settlement(number: u8, page: &mut [u8], flaw: Flaw) -> Written {
    if flaw == Flaw::RefusedPageIsBlanked {
        page.fill(b' ');
    }
    Written::Refused(number.into())
}

fn refuse(text: &str, page: &mut [u8], flaw: Flaw) -> Written {
    if flaw == Flaw::ShortPageIsFilled {
        let length = page.len().min(text.len());
        page[..length].copy_from_slice(&text.as_bytes()[..length]);
    }
    match flaw {
        Flaw::ShortPageIsTwelve => Written::Refused(12),
        _ => Written::Refused(13),
    }
}

fn fill(text: &str, page: &mut [u8], flaw: Flaw) -> Written {
    // A text that is too long is written as far as the page goes.
    let length = page.len().min(text.len());
    page[..length].copy_from_slice(&text.as_bytes()[..length]);
    match flaw {
        Flaw::RestOfPageIsCleared => page[length..].fill(0),
        Flaw::ByteAfterSheetIsSet if length < page.len() => page[length] = b'\n',
        Flaw::LengthOfPageIsAnswered => return Written::Length(page.len()),
        _ => {}
    }
    Written::Length(length)
}

fn text(rows: &[Row], flaw: Flaw) -> String {
    let mut lines: Vec<String> = rows.iter().map(|row| line(row, flaw)).collect();
    match flaw {
        Flaw::HeadingIsPrinted => lines.insert(0, format!("{:50}Total\n", "")),
        Flaw::LastRowIsMissing => drop(lines.pop()),
        _ => {}
    }
    let mut text = lines.concat();
    if flaw == Flaw::NoLastLineFeed {
        text.pop();
    }
    text
}

fn line([number, label, total, secondary, primary]: &Row, flaw: Flaw) -> String {
    let cut = match flaw {
        Flaw::LabelCutAtThirty => 30,
        Flaw::LabelCutAtThirtyTwo => 32,
        _ => 31,
    };
    let head = match flaw {
        Flaw::NumberSetRight => format!("{number:>4}{label:<31.cut$}"),
        _ => format!("{number:<4}{label:<31.cut$}"),
    };
    match flaw {
        Flaw::CellsSetLeft => format!("{head}{total:<15}{secondary:<15}{primary:<15}\n"),
        _ => format!("{head}{total:>15}{secondary:>15}{primary:>15}\n"),
    }
}
