//! Lines with places for values.

use std::ops::Range;

use crate::bound::Bound;
use crate::error::Error;
use crate::params::Params;
use crate::spelling::push_value;
use crate::to_value::ToValue;
use crate::value::{Value, ValueRef};

pub(crate) const BLANKS: &[char] = &[' ', '\t'];

// Where nothing is needed between a place and what is before it, or after it, to keep the two apart.
const APART_BEFORE: &[char] = &[' ', '\t', '(', ',', '=', '<', '>'];
const APART_BEHIND: &[char] = &[' ', '\t', ')', ','];

/// A place of a line.
#[derive(Clone, Debug)]
pub(crate) struct Place {
    /// Where it stands.
    at: Range<usize>,
    /// Whether it is a `?`.
    is_nameless: bool,
}

impl Place {
    /// How it is written in its line.
    fn name<'l>(&self, line: &'l str) -> &'l str {
        &line[self.at.clone()]
    }

    fn missing(&self, line: &str) -> Error {
        Error::MissingParameter {
            name: self.name(line).to_string(),
        }
    }
}

/// The values that are given for the places of a line.
#[derive(Debug)]
pub struct Binding<'a> {
    line: &'a str,
    places: &'a [Place],
    /// The values of the first places.
    bound: &'a mut Bound,
    /// How many values were given.
    given: usize,
}

/// Takes the parameters as the values of the places, in the order of these.
pub(crate) fn bind<P: Params>(line: &str, places: &[Place], parameters: P, bound: &mut Bound) -> Result<(), Error> {
    bound.clear();
    let mut binding = Binding {
        line,
        places,
        bound,
        given: 0,
    };
    parameters.bind(&mut binding)?;
    binding.finish()
}

impl Binding<'_> {
    /// Takes the value of the next place, which is a `?`.
    pub(crate) fn put(&mut self, value: &dyn ToValue) -> Result<(), Error> {
        self.given += 1;
        match self.places.get(self.bound.len()) {
            Some(place) if place.is_nameless => self.bound.push((&value.to_value()?).into()),
            Some(place) => return Err(place.missing(self.line)),
            None => {}
        }
        Ok(())
    }

    /// Takes the value of each place, by the place's name.
    pub(crate) fn put_named<'v>(&mut self, value_of: impl Fn(&str) -> Option<&'v dyn ToValue>) -> Result<(), Error> {
        for place in self.places {
            let value = value_of(place.name(self.line)).ok_or_else(|| place.missing(self.line))?;
            self.given += 1;
            self.bound.push((&value.to_value()?).into());
        }
        Ok(())
    }

    /// Takes values in the order of the places, whatever these are called.
    pub(crate) fn put_in_order(&mut self, values: &[Value]) {
        self.given += values.len();
        values.iter().for_each(|value| self.bound.push(value.into()));
    }

    /// Whether a place has this name.
    pub(crate) fn has_place(&self, name: &str) -> bool {
        self.places.iter().any(|place| place.name(self.line) == name)
    }

    /// Sees that as many values were given as there are places.
    fn finish(self) -> Result<(), Error> {
        let mut without = self.places[self.bound.len()..].iter();
        if let Some(place) = without.find(|place| !place.is_nameless) {
            return Err(place.missing(self.line));
        }
        if self.places.len() != self.given {
            return Err(Error::Places {
                places: self.places.len(),
                parameters: self.given,
            });
        }
        Ok(())
    }
}

/// Makes the line with each value in its place, spelled as the language does.
pub(crate) fn fill<'v>(line: &str, places: &[Place], values: impl Iterator<Item = ValueRef<'v>>, made: &mut String) {
    made.clear();
    let mut rest = 0;
    for (place, value) in places.iter().zip(values) {
        made.push_str(&line[rest..place.at.start]);
        if !made.ends_with(APART_BEFORE) {
            made.push(' ');
        }
        push_value(made, value);
        if !line[place.at.end..].starts_with(APART_BEHIND) {
            made.push(' ');
        }
        rest = place.at.end;
    }
    made.push_str(&line[rest..]);
}

/// The line with nulls in its places.
pub(crate) fn with_nulls(line: &str, places: &[Place]) -> String {
    let mut made = String::new();
    fill(line, places, places.iter().map(|_| ValueRef::Null), &mut made);
    made
}

/// A reason, whose column is one of the line with a `?` at each place, with that of the line as it is.
pub(crate) fn pointed(line: &str, places: &[Place], reason: String) -> String {
    if places.iter().all(|place| place.is_nameless) {
        return reason;
    }
    let (column, words) = match column_of(&reason) {
        Some(found) => found,
        None => return reason,
    };
    let (mut wider, mut found) = (0, "?");
    for place in places {
        let at = line[..place.at.start].chars().count() + 1 - wider;
        if at == column {
            found = place.name(line);
        }
        if at >= column {
            break;
        }
        wider += place.name(line).chars().count() - 1;
    }
    let words = words.replacen("found ?", &format!("found {found}"), 1);
    format!("column {}: {words}", column + wider)
}

/// The column that a reason begins with, where it does, and its words.
fn column_of(reason: &str) -> Option<(usize, &str)> {
    let (column, words) = reason.strip_prefix("column ")?.split_once(": ")?;
    Some((column.parse().ok()?, words))
}

/// Puts the places of a line there in the stead of what is there. A comment has none.
pub(crate) fn find_places(line: &str, places: &mut Vec<Place>) {
    places.clear();
    if !first_token(line).starts_with('#') {
        places.extend(places_of(line));
    }
}

/// The places of a line, in their order.
fn places_of(line: &str) -> impl Iterator<Item = Place> + '_ {
    let mut from = 0;
    std::iter::from_fn(move || {
        let found = first_place(&line[from..])?;
        let at = from + found.start..from + found.end;
        from = at.end;
        Some(Place {
            is_nameless: line[at.clone()] == *"?",
            at,
        })
    })
}

/// Whether a line has a place.
pub(crate) fn has_places(line: &str) -> bool {
    first_place(line).is_some()
}

/// The line as the library takes it as a statement, where each place is a `?`; or none where it is so already.
pub(crate) fn with_marks(line: &str, places: &[Place]) -> Option<String> {
    if places.iter().all(|place| place.is_nameless) {
        return None;
    }
    let mut made = String::with_capacity(line.len());
    let mut rest = 0;
    for place in places {
        made.push_str(&line[rest..place.at.start]);
        made.push('?');
        rest = place.at.end;
    }
    made.push_str(&line[rest..]);
    Some(made)
}

/// The first place of a line that begins in no text: a `?`, or a `:` and a word, outside of texts.
fn first_place(line: &str) -> Option<Range<usize>> {
    let mut in_text = false;
    for (at, byte) in line.bytes().enumerate() {
        match byte {
            b'\'' => in_text = !in_text,
            b'?' if !in_text => return Some(at..at + 1),
            b':' if !in_text => match word_at(line, at + 1) {
                "" => {}
                word => return Some(at..at + 1 + word.len()),
            },
            _ => {}
        }
    }
    None
}

/// The letters, digits and `_` that stand at a place of a line.
pub(crate) fn word_at(line: &str, at: usize) -> &str {
    let is_of_word = |byte: &u8| byte.is_ascii_alphanumeric() || *byte == b'_';
    let length = line.as_bytes()[at..].iter().take_while(|byte| is_of_word(byte)).count();
    &line[at..at + length]
}

/// The word that a command begins with, or nothing.
pub(crate) fn first_word(line: &str) -> &str {
    word_at(first_token(line), 0)
}

/// Whether a line is an insert, an update or a delete, by its first word.
pub(crate) fn is_change(line: &str) -> bool {
    matches!(first_word(line), "insert" | "update" | "delete")
}

/// Whether a line is a select, by its first word.
pub(crate) fn is_select(line: &str) -> bool {
    first_word(line) == "select"
}

fn first_token(line: &str) -> &str {
    line.trim_start_matches(BLANKS)
}
