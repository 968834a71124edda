//! Convert, the changes and the writer of tree files written a second time, in plain Rust over a parsed tree.
//!
//! It shares no code with the proved library and is compared with it, answer by answer and byte by
//! byte. [`made`] makes the inputs, and [`constructs`] and [`hostile`] those on which speed is measured.

mod calls;
mod converter;
mod ledger;
mod rules;
mod sha256;
mod tree;
mod writer;

pub mod builder;
pub mod constructs;
pub mod hostile;
pub mod made;

pub use calls::{check, convert, edit, insert, remove, replace_all, Converted, Edited};
pub use ledger::{ledger_fits, LABEL_MOST, ROW_SIZE};
pub use sha256::sha256;
pub use tree::{walk, Kind};
pub use writer::{standing_of, Standing, Step, Writer};

/// A file has at most so many bytes.
pub const FILE_MOST: usize = 65_536;

/// A document has at most so many blocks.
pub const BLOCKS_MOST: usize = 512;

/// One of the refusals 1 to 15, and the row that it names (0 where it names none).
#[derive(Debug, Clone, Copy, PartialEq, Eq)]
pub struct Refused {
    pub number: u8,
    pub row: usize,
}

impl Refused {
    pub(crate) fn new(number: u8, row: usize) -> Self {
        Refused { number, row }
    }

    pub(crate) fn whole(number: u8) -> Self {
        Refused { number, row: 0 }
    }
}

/// A file's text area and its rows, by the trailer; nothing where they do not fill the file.
pub(crate) fn parts(file: &[u8]) -> Option<(&[u8], &[u8])> {
    if file.len() > FILE_MOST {
        return None;
    }
    let (body, trailer) = file.split_last_chunk::<8>()?;
    let start = u32::from_le_bytes(trailer[..4].try_into().ok()?) as usize;
    let count = u32::from_le_bytes(trailer[4..].try_into().ok()?) as usize;
    if start.checked_add(count.checked_mul(8)?)? != body.len() {
        return None;
    }
    Some(body.split_at(start))
}
