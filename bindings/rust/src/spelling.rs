//! How values are spelled.

use crate::value::ValueRef;

/// Writes a value as a line spells it. A text with a line feed can't be in a line.
pub(crate) fn push_value(line: &mut String, value: ValueRef<'_>) {
    match value {
        ValueRef::Null => line.push_str("null"),
        ValueRef::Integer(integer) => push_integer(line, integer),
        ValueRef::Text(text) => push_marked(line, text, '\''),
    }
}

/// Writes a text between marks, with each of these marks in it doubled.
pub(crate) fn push_marked(to: &mut String, text: &str, mark: char) {
    to.push(mark);
    for piece in text.split_inclusive(mark) {
        to.push_str(piece);
        if piece.ends_with(mark) {
            to.push(mark);
        }
    }
    to.push(mark);
}

/// Writes an integer in decimal digits, as a formatter would, which takes longer.
pub(crate) fn push_integer(to: &mut String, integer: i64) {
    let mut digits = [0; 20];
    let mut from = digits.len();
    let mut rest = integer.unsigned_abs();
    while rest > 0 || from == digits.len() {
        from -= 1;
        digits[from] = b'0' + (rest % 10) as u8;
        rest /= 10;
    }
    if integer < 0 {
        to.push('-');
    }
    to.push_str(std::str::from_utf8(&digits[from..]).expect("digits are ASCII"));
}
