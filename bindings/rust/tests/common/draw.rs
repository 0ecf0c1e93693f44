//! Texts that try to break out of a line, drawn at random.

const PARTS: [&str; 38] = [
    "'",
    "''",
    "\"",
    "?",
    ":s",
    ":id",
    "\\",
    "\\'",
    "%",
    "{}",
    "\0",
    "\r",
    "\t",
    ",",
    "(",
    ")",
    "#",
    "--",
    ";",
    " ",
    "",
    "null",
    "1",
    "-7",
    "007",
    "a",
    "B",
    "é",
    "ß",
    "€",
    "\u{2028}",
    "\u{85}",
    "\u{feff}",
    "😀",
    "\u{10ffff}",
    "') ",
    "); delete t",
    "' or id <> '",
];

/// Numbers drawn by a linear congruence.
pub struct Draw(pub u64);

impl Draw {
    fn below(&mut self, end: usize) -> usize {
        self.0 = self
            .0
            .wrapping_mul(6_364_136_223_846_793_005)
            .wrapping_add(1_442_695_040_888_963_407);
        (self.0 >> 33) as usize % end
    }

    pub fn text(&mut self) -> String {
        let count = [0, 1, 1, 2, 3, 8][self.below(6)];
        (0..count).map(|_| PARTS[self.below(PARTS.len())]).collect()
    }

    pub fn of<T: Clone>(&mut self, items: &[T]) -> T {
        items[self.below(items.len())].clone()
    }
}
