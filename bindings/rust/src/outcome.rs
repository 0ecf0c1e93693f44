//! What a command answers.

use crate::line::first_word;
use crate::rows::Rows;

/// What a command that isn't refused answers.
#[derive(Clone, Debug, PartialEq, Eq)]
pub enum Outcome {
    /// `table`, `index` and their drops are done. A comment or a blank line has this outcome too.
    Done,
    /// The number of rows of an `insert`, an `update` or a `delete`.
    Count(usize),
    /// The rows of a `select`.
    Rows(Rows),
    /// The declarations of `tables`, each ended by a line feed, or the load that a `dump` answers.
    Text(String),
}

impl Outcome {
    /// The number of rows of a change, if it was one.
    pub fn count(&self) -> Option<usize> {
        match self {
            Outcome::Count(count) => Some(*count),
            _ => None,
        }
    }

    /// The rows, if it was a select.
    pub fn into_rows(self) -> Option<Rows> {
        match self {
            Outcome::Rows(rows) => Some(rows),
            _ => None,
        }
    }

    /// The outcome of an answer which is neither a select's nor a refusal.
    pub(crate) fn of(line: &str, answer: &str) -> Outcome {
        if answer.is_empty() || answer == "ok\n" {
            return Outcome::Done;
        }
        if first_word(line) == "tables" {
            let end = answer.rfind("ok ").unwrap_or(answer.len());
            return Outcome::Text(answer[..end].to_string());
        }
        count_of(answer).map_or_else(|| Outcome::Text(answer.to_string()), Outcome::Count)
    }
}

/// The number of rows in the answer to a change.
pub(crate) fn count_of(answer: &str) -> Option<usize> {
    answer.strip_prefix("ok ")?.trim_end_matches('\n').parse().ok()
}
