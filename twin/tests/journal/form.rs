//! The form that the paper gives each line.

/// What a record is answered.
#[derive(Clone, Copy, Debug, PartialEq, Eq)]
pub enum Answer {
    Unread(usize),
    Refused(usize),
    /// The answer that the kind has.
    Given(usize),
}

impl Answer {
    /// The answer of a line after its number, if it has the paper's form.
    pub fn of(rest: &str, steam: bool) -> Option<Self> {
        let mut fields = rest.split(' ');
        let kind = fields.next()?.parse().ok()?;
        let word = fields.next()?;
        let amounts: Vec<&str> = fields.collect();
        match (kind, word, &amounts[..]) {
            (0, "refused", [number]) => Some(Answer::Unread(number.parse().ok()?)),
            (1..=7, "refused", [number]) => Some(Answer::Refused(number.parse().ok()?)),
            _ => is_answer(kind, word, &amounts, steam).then_some(Answer::Given(kind)),
        }
    }
}

/// Whether the book answers an accepted posting of the kind so.
fn is_answer(kind: usize, word: &str, amounts: &[&str], steam: bool) -> bool {
    match (kind, word, amounts) {
        (3, "line", [cents]) => is_amount(cents, 2),
        (4, "filed", [factor]) => steam && is_amount(factor, 4),
        (4, "filed", [secondary, primary]) => {
            !steam && is_amount(secondary, 4) && is_amount(primary, 4)
        }
        (5, "interest", [secondary, primary]) => {
            !steam && is_amount(secondary, 2) && is_amount(primary, 2)
        }
        (1 | 2 | 6, "done", []) => true,
        (5 | 7, "done", []) => steam,
        _ => false,
    }
}

/// A minus only below zero, no leading zeros, a point, and so many digits after it.
fn is_amount(text: &str, digits: usize) -> bool {
    let size = text.strip_prefix('-').unwrap_or(text);
    let Some((whole, part)) = size.split_once('.') else {
        return false;
    };
    let all_digits = |text: &str| text.bytes().all(|byte| byte.is_ascii_digit());
    let zero = size.bytes().all(|byte| byte == b'0' || byte == b'.');
    all_digits(whole)
        && all_digits(part)
        && part.len() == digits
        && (whole == "0" || (!whole.is_empty() && !whole.starts_with('0')))
        && !(zero && size.len() < text.len())
}
