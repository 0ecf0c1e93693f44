//! The fields of a record, and how a block has them.

use crate::csv_options::Form;

/// The fields of a record, in room that is used again: each as it is written in a CSV, with the quote marks that it has.
#[derive(Debug, Default)]
pub(crate) struct Fields {
    bytes: Vec<u8>,
    /// Where each field ends.
    ends: Vec<usize>,
    /// Where a value is spelled.
    spelled: String,
}

impl Fields {
    pub(crate) fn clear(&mut self) {
        self.bytes.clear();
        self.ends.clear();
    }

    /// Adds to the field that isn't ended yet.
    pub(crate) fn push(&mut self, bytes: &[u8]) {
        self.bytes.extend_from_slice(bytes);
    }

    /// Adds what a function spells.
    pub(crate) fn push_spelled(&mut self, spell: impl FnOnce(&mut String)) {
        self.spelled.clear();
        spell(&mut self.spelled);
        self.bytes.extend_from_slice(self.spelled.as_bytes());
    }

    /// Ends a field.
    pub(crate) fn end(&mut self) {
        self.ends.push(self.bytes.len());
    }

    /// How many fields there are.
    pub(crate) fn len(&self) -> usize {
        self.ends.len()
    }

    /// Whether they are an empty line, or there are none.
    pub(crate) fn is_empty(&self) -> bool {
        self.size() == 0 && self.len() < 2
    }

    /// How many bytes they have, without what is between them.
    pub(crate) fn size(&self) -> usize {
        self.bytes.len()
    }

    fn get(&self, at: usize) -> &[u8] {
        let from = at.checked_sub(1).map_or(0, |before| self.ends[before]);
        &self.bytes[from..self.ends[at]]
    }

    /// What each field says, in a CSV of a form.
    pub(crate) fn said(&self, form: Form) -> impl Iterator<Item = Vec<u8>> + '_ {
        (0..self.len()).map(move |at| said(self.get(at), form))
    }

    /// Writes a record of a block, with the fields of these places, which are in a form. A field without a place is empty.
    pub(crate) fn write(&self, places: impl Iterator<Item = Option<usize>>, form: Form, to: &mut Vec<u8>) {
        let front = to.len();
        for (at, place) in places.enumerate() {
            if at > 0 {
                to.push(b',');
            }
            match place.map(|place| self.get(place)) {
                Some(field) if form == Form::BLOCK => to.extend_from_slice(field),
                Some(field) if is_as_in_a_block(field, form) => to.extend_from_slice(field),
                Some(field) => push_marked(to, field, form),
                None => {}
            }
        }
        if to.len() == front {
            // (a line without a byte would be no record)
            to.extend_from_slice(b"\"\"");
        }
    }
}

/// Whether bytes of a field need quote marks in a block.
pub(crate) fn wants_marks(field: &[u8]) -> bool {
    field.iter().any(|byte| matches!(byte, b',' | b'"' | b'\r' | b'\n'))
}

/// Whether a field in a form is written in a block as it is.
fn is_as_in_a_block(field: &[u8], form: Form) -> bool {
    !field.first().map_or(false, |byte| form.is_quote(*byte)) && !wants_marks(field)
}

/// Writes a field of a form with the quote marks of a block.
fn push_marked(to: &mut Vec<u8>, field: &[u8], form: Form) {
    to.push(b'"');
    say(field, form, |byte| {
        if byte == b'"' {
            to.push(b'"');
        }
        to.push(byte);
    });
    to.push(b'"');
}

/// What a field says, without its quote marks.
fn said(field: &[u8], form: Form) -> Vec<u8> {
    let mut said = Vec::new();
    say(field, form, |byte| said.push(byte));
    said
}

/// Hands out what a field says, byte by byte. What is behind its closing quote mark is a part of it as it is.
fn say(field: &[u8], form: Form, mut take: impl FnMut(u8)) {
    let mut bytes = field.iter().copied().peekable();
    if bytes.next_if(|byte| form.is_quote(*byte)).is_none() {
        return bytes.for_each(take);
    }
    while let Some(byte) = bytes.next() {
        if !form.is_quote(byte) || bytes.next_if_eq(&byte).is_some() {
            take(byte);
        } else {
            bytes.by_ref().for_each(&mut take);
        }
    }
}
