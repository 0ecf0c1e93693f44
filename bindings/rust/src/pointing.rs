//! Where in a line something is wrong: the line with a caret below one of its columns.

use std::fmt;

/// How many characters of a long line are shown before the caret, and from there on.
const BEFORE: usize = 48;
const BEHIND: usize = 30;

/// Writes the line with a caret below the column that its reason begins with, each in a line of its own. It writes nothing if
/// the reason names no column.
pub(crate) fn fmt_pointed(to: &mut fmt::Formatter<'_>, line: &str, reason: &str) -> fmt::Result {
    let column = match column_of(reason) {
        Some(column) if !line.is_empty() => column,
        _ => return Ok(()),
    };
    let (front, behind): (Vec<char>, Vec<char>) = (
        line.chars().take(column - 1).collect(),
        line.chars().skip(column - 1).collect(),
    );
    let mut shown = String::from("\n  ");
    let hidden = front.len().saturating_sub(BEFORE);
    if hidden > 0 {
        shown.push('…');
    }
    shown.extend(front[hidden..].iter().map(visible));
    let width: usize = usize::from(hidden > 0) + front[hidden..].iter().map(width).sum::<usize>();
    shown.extend(behind.iter().take(BEHIND).map(visible));
    if behind.len() > BEHIND {
        shown.push('…');
    }
    write!(to, "{shown}\n  {:width$}^", "")
}

/// The column that a reason begins with, counted from 1.
fn column_of(reason: &str) -> Option<usize> {
    let (column, _) = reason.strip_prefix("column ")?.split_once(": ")?;
    column.parse().ok().filter(|column| *column > 0)
}

/// A character that takes one place of a line, and moves nothing.
fn visible(character: &char) -> char {
    match character {
        '\u{2028}' | '\u{2029}' => ' ',
        character if character.is_control() => ' ',
        character => *character,
    }
}

/// How many places of a terminal a character takes: two for those of East Asia and for pictures, and none for accents that are
/// put on the character before.
fn width(character: &char) -> usize {
    match u32::from(*character) {
        0x300..=0x36f | 0x200d | 0xfe00..=0xfe0f => 0,
        0x1100..=0x115f | 0x2e80..=0x303e | 0x3041..=0xa4cf | 0xac00..=0xd7a3 | 0xf900..=0xfaff => 2,
        0xfe30..=0xfe6f | 0xff00..=0xff60 | 0xffe0..=0xffe6 | 0x1f300..=0x1faff | 0x20000..=0x3fffd => 2,
        _ => 1,
    }
}
