use std::error::Error;
use std::fmt;

/// Why a call was refused: one of sixteen numbers, and the row that it names.
///
/// A refusal changes nothing that was lent.
///
/// ```
/// use zaldrume::{convert, Mode};
///
/// let refusal = convert(Mode::Text, b"no rules", b"no tree", &mut [], &mut []).unwrap_err();
/// assert_eq!(refusal.number(), 2);
/// assert_eq!(refusal.to_string(), "the rule file breaks its layout");
/// ```
#[derive(Debug, Clone, Copy, PartialEq, Eq, Hash)]
pub struct Refusal {
    number: u8,
    row: usize,
}

impl Refusal {
    pub(crate) fn new(number: u8, row: usize) -> Self {
        Refusal { number, row }
    }

    /// The number, from 1 to 16.
    pub fn number(&self) -> u8 {
        self.number
    }

    /// The row of the tree file where it was met; 0 where it names none.
    pub fn row(&self) -> usize {
        self.row
    }

    /// What is wrong, in words.
    pub fn message(&self) -> &'static str {
        match self.number {
            1 => "the mode is neither text nor math",
            2 => "the rule file breaks its layout",
            3 => "the tree file breaks its layout or is over a limit",
            4 => "the tree is deeper than 64",
            5 => "an element of the tree lacks a part that its kind needs",
            6 => "there is no such block, position or list of blocks, or the kept text and ledger do not fit the document",
            7 => "an element stands where it cannot be converted",
            8 => "the two ends of a formula do not match",
            9 => "a command is not in the rules",
            10 => "an environment is not in the rules",
            11 => "\\item stands outside of a list",
            12 => "an argument is missing",
            13 => "a column letter is not l, c, r or |",
            14 => "a label is longer than 120 bytes",
            15 => "the text buffer, the ledger or the writer's buffer is too short",
            16 => "a step of the writer is out of place",
            _ => "unknown refusal",
        }
    }
}

impl fmt::Display for Refusal {
    fn fmt(&self, f: &mut fmt::Formatter<'_>) -> fmt::Result {
        match (self.number, self.row) {
            (5 | 7..=14, row) => write!(f, "{} (row {row})", self.message()),
            _ => f.write_str(self.message()),
        }
    }
}

impl Error for Refusal {}

#[cfg(test)]
mod tests {
    use super::*;
    use std::collections::HashSet;

    #[test]
    fn each_number_has_its_message() {
        let messages: HashSet<_> = (0..=16)
            .map(|number| Refusal::new(number, 0).message())
            .collect();
        assert_eq!(messages.len(), 17);
    }
}
