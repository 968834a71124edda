//! LaTeX trees to Typst, block by block, by a proved static library.
//!
//! A caller's parser hands over a document as a *tree file* and the commands it knows as a *rule
//! file* ([`mod@file`] builds both; [`TreeFile`](file::TreeFile) shows how a parser's tree is walked
//! into one). [`convert`], [`edit`], [`insert`], [`remove`] and [`replace_all`] work on the caller's
//! buffers: the Typst text, and a *ledger* that has a row of [`ROW_SIZE`] bytes for each block.
//! [`Document`] owns the buffers and keeps them up to date.
//!
//! ```
//! use zaldrume::file::{Kind, RuleFile, TreeFile};
//! use zaldrume::{Document, Mode};
//!
//! let rules = RuleFile::new().build().unwrap();
//! let formulas = |texts: &[&str]| {
//!     let mut tree = TreeFile::new();
//!     for text in texts {
//!         tree.start(Kind::ItemFormula);
//!         tree.token(Kind::TokenDollar, "$");
//!         tree.token(Kind::TokenWord, text);
//!         tree.token(Kind::TokenDollar, "$");
//!         tree.finish();
//!     }
//!     tree.build().unwrap()
//! };
//!
//! let mut document = Document::open(Mode::Text, &rules, &formulas(&["x"]))?;
//! assert_eq!(document.text(), b"#math.equation(block: false, $x $);");
//!
//! let edited = document.edit(&formulas(&["xy"]), 0)?;
//! assert_eq!((edited.growth, edited.count), (2, 1));
//! assert_eq!(document.text(), b"#math.equation(block: false, $x y $);");
//!
//! document.insert(&formulas(&["xy", "y"]), 1)?;
//! document.replace_all(&formulas(&["xz", "z"]), &[0, 1])?;
//! document.remove(&formulas(&["z"]), 0)?;
//! assert_eq!(document.text(), b"#math.equation(block: false, $z $);");
//! # Ok::<(), zaldrume::Refusal>(())
//! ```
//!
//! Any bytes may be passed: a call gives a result or one of sixteen [`Refusal`]s, and a refusal
//! changes nothing that was lent.

#![warn(missing_docs)]

mod document;
mod refusal;

pub mod file;
pub mod raw;

pub use document::{Block, Blocks, Document};
pub use refusal::Refusal;

/// A rule file or a tree file has at most so many bytes.
pub const FILE_MOST: usize = 65_536;

/// A document has at most so many blocks.
pub const BLOCKS_MOST: usize = 512;

/// A ledger row has so many bytes.
pub const ROW_SIZE: usize = 128;

/// What a document is read as at its start.
#[derive(Debug, Clone, Copy, PartialEq, Eq, Hash)]
#[repr(u8)]
pub enum Mode {
    /// Running text.
    Text = 0,
    /// The inside of a formula.
    Math = 1,
}

/// The mode of a number; any but 0 and 1 is refusal 1.
///
/// ```
/// use zaldrume::Mode;
///
/// assert_eq!(Mode::try_from(1), Ok(Mode::Math));
/// assert_eq!(Mode::try_from(2).unwrap_err().number(), 1);
/// ```
impl TryFrom<u8> for Mode {
    type Error = Refusal;

    fn try_from(number: u8) -> Result<Self, Refusal> {
        match number {
            0 => Ok(Mode::Text),
            1 => Ok(Mode::Math),
            _ => Err(Refusal::new(1, 0)),
        }
    }
}

/// What an accepted [`convert`] gives.
#[derive(Debug, Clone, Copy, PartialEq, Eq, Hash)]
pub struct Converted {
    /// How many bytes of the text buffer hold the text.
    pub length: usize,
    /// How many blocks there are, each with a row in the ledger.
    pub blocks: usize,
}

/// What an accepted [`edit`], [`insert`], [`remove`] or [`replace_all`] gives.
#[derive(Debug, Clone, Copy, PartialEq, Eq, Hash)]
pub struct Edited {
    /// How many bytes of the text buffer hold the text now.
    pub length: usize,
    /// The new length less the old.
    pub growth: i64,
    /// How many blocks were converted: in an edit the named one and those after it, in an
    /// insertion the new one and those after it, in a removal those after the one taken out; where
    /// several are replaced, all of these and those after them.
    pub count: usize,
}

/// Converts a tree file from its start into the caller's buffers.
///
/// Bytes after the text and after the last row stay as they were.
///
/// ```
/// use zaldrume::file::{Kind, RuleFile, TreeFile};
/// use zaldrume::{convert, Mode, ROW_SIZE};
///
/// let rules = RuleFile::new().build().unwrap();
/// let mut tree = TreeFile::new();
/// tree.token(Kind::TokenWord, "ab");
/// let tree = tree.build().unwrap();
///
/// let mut text = [0; 16];
/// let mut ledger = [0; ROW_SIZE];
/// let converted = convert(Mode::Math, &rules, &tree, &mut text, &mut ledger)?;
/// assert_eq!(&text[..converted.length], b"a b ");
/// # Ok::<(), zaldrume::Refusal>(())
/// ```
///
/// # Errors
///
/// Any refusal but 1 and 6; the buffers then are as they were.
pub fn convert(
    mode: Mode,
    rules: &[u8],
    tree: &[u8],
    text: &mut [u8],
    ledger: &mut [u8],
) -> Result<Converted, Refusal> {
    let answer = raw::convert(mode as u8, rules, tree, text, ledger);
    accepted(answer)?;
    Ok(Converted {
        length: answer.place,
        blocks: answer.count,
    })
}

/// Converts one block of a document again, and those after it until nothing more can change.
///
/// `tree` is the whole new document, which differs from the kept one in `block` alone (counted
/// from 0); `kept` is the text's length as the last accepted call gave it; text and ledger are as
/// that call left them.
///
/// ```
/// use zaldrume::file::{Kind, RuleFile, TreeFile};
/// use zaldrume::{convert, edit, Mode, ROW_SIZE};
///
/// let rules = RuleFile::new().build().unwrap();
/// let words = |first, second| {
///     let mut tree = TreeFile::new();
///     tree.token(Kind::TokenWord, first);
///     tree.token(Kind::TokenWord, second);
///     tree.build().unwrap()
/// };
/// let mut text = [0; 16];
/// let mut ledger = [0; 2 * ROW_SIZE];
/// let kept = convert(Mode::Text, &rules, &words("one", "two"), &mut text, &mut ledger)?.length;
///
/// let edited = edit(Mode::Text, &rules, &words("three", "two"), 0, kept, &mut text, &mut ledger)?;
/// assert_eq!((edited.length, edited.growth, edited.count), (8, 2, 1));
/// assert_eq!(&text[..edited.length], b"threetwo");
/// # Ok::<(), zaldrume::Refusal>(())
/// ```
///
/// # Errors
///
/// Any refusal but 1; the buffers then are as they were.
pub fn edit(
    mode: Mode,
    rules: &[u8],
    tree: &[u8],
    block: usize,
    kept: usize,
    text: &mut [u8],
    ledger: &mut [u8],
) -> Result<Edited, Refusal> {
    let answer = raw::edit(mode as u8, rules, tree, block, kept, text, ledger);
    edited(answer)
}

/// Puts one block in before a position, and converts those after it until nothing more can change.
///
/// `tree` is the whole new document: the kept one with one block more, which is block `position` of
/// it (0 to the count of blocks that there were). `kept`, text and ledger are as for [`edit`], and
/// the ledger needs room for one row more.
///
/// ```
/// use zaldrume::file::{Kind, RuleFile, TreeFile};
/// use zaldrume::{convert, insert, Mode, ROW_SIZE};
///
/// let rules = RuleFile::new().build().unwrap();
/// let words = |words: &[&str]| {
///     let mut tree = TreeFile::new();
///     words.iter().for_each(|word| tree.token(Kind::TokenWord, word));
///     tree.build().unwrap()
/// };
/// let mut text = [0; 16];
/// let mut ledger = [0; 3 * ROW_SIZE];
/// let kept = convert(Mode::Text, &rules, &words(&["one", "two"]), &mut text, &mut ledger)?.length;
///
/// let tree = words(&["one", "and", "two"]);
/// let inserted = insert(Mode::Text, &rules, &tree, 1, kept, &mut text, &mut ledger)?;
/// assert_eq!((inserted.length, inserted.growth, inserted.count), (9, 3, 1));
/// assert_eq!(&text[..inserted.length], b"oneandtwo");
/// # Ok::<(), zaldrume::Refusal>(())
/// ```
///
/// # Errors
///
/// Any refusal but 1; the buffers then are as they were. A position that is not there is 6, a ledger
/// without room for the new row 15.
pub fn insert(
    mode: Mode,
    rules: &[u8],
    tree: &[u8],
    position: usize,
    kept: usize,
    text: &mut [u8],
    ledger: &mut [u8],
) -> Result<Edited, Refusal> {
    let answer = raw::insert(mode as u8, rules, tree, position, kept, text, ledger);
    edited(answer)
}

/// Takes one block out, and converts those after it until nothing more can change.
///
/// `tree` is the whole new document: the kept one without its block `block`, counted from 0.
/// `kept`, text and ledger are as for [`edit`]. The row that is left over at the end is zeros.
///
/// ```
/// use zaldrume::file::{Kind, RuleFile, TreeFile};
/// use zaldrume::{convert, remove, Mode, ROW_SIZE};
///
/// let rules = RuleFile::new().build().unwrap();
/// let words = |words: &[&str]| {
///     let mut tree = TreeFile::new();
///     words.iter().for_each(|word| tree.token(Kind::TokenWord, word));
///     tree.build().unwrap()
/// };
/// let mut text = [0; 16];
/// let mut ledger = [0; 2 * ROW_SIZE];
/// let kept = convert(Mode::Text, &rules, &words(&["one", "two"]), &mut text, &mut ledger)?.length;
///
/// let removed = remove(Mode::Text, &rules, &words(&["two"]), 0, kept, &mut text, &mut ledger)?;
/// assert_eq!((removed.length, removed.growth, removed.count), (3, -3, 0));
/// assert_eq!(&text[..removed.length], b"two");
/// # Ok::<(), zaldrume::Refusal>(())
/// ```
///
/// # Errors
///
/// Any refusal but 1; the buffers then are as they were. A block that is not there is 6. A label
/// that lands elsewhere can make the text longer, so 15 is among them.
pub fn remove(
    mode: Mode,
    rules: &[u8],
    tree: &[u8],
    block: usize,
    kept: usize,
    text: &mut [u8],
    ledger: &mut [u8],
) -> Result<Edited, Refusal> {
    let answer = raw::remove(mode as u8, rules, tree, block, kept, text, ledger);
    edited(answer)
}

/// Replaces several blocks together, and converts those after each until nothing more can change.
///
/// `tree` is the whole new document, which differs from the kept one in `blocks` alone: their
/// numbers, counted from 0, each greater than the one before. `kept`, text and ledger are as for
/// [`edit`]. The text comes to what single edits would give, but no text that these give on the way
/// needs room.
///
/// ```
/// use zaldrume::file::{Kind, RuleFile, TreeFile};
/// use zaldrume::{convert, replace_all, Mode, ROW_SIZE};
///
/// let rules = RuleFile::new().build().unwrap();
/// let words = |words: &[&str]| {
///     let mut tree = TreeFile::new();
///     words.iter().for_each(|word| tree.token(Kind::TokenWord, word));
///     tree.build().unwrap()
/// };
/// let mut text = [0; 16];
/// let mut ledger = [0; 3 * ROW_SIZE];
/// let tree = words(&["cat", "and", "cats"]);
/// let kept = convert(Mode::Text, &rules, &tree, &mut text, &mut ledger)?.length;
///
/// let tree = words(&["dog", "and", "dogs"]);
/// let replaced = replace_all(Mode::Text, &rules, &tree, &[0, 2], kept, &mut text, &mut ledger)?;
/// assert_eq!((replaced.length, replaced.growth, replaced.count), (10, 0, 2));
/// assert_eq!(&text[..replaced.length], b"doganddogs");
/// # Ok::<(), zaldrume::Refusal>(())
/// ```
///
/// # Errors
///
/// Any refusal but 1; the buffers then are as they were. 6 is also an empty list, a block that is not
/// there, and numbers that do not rise.
pub fn replace_all(
    mode: Mode,
    rules: &[u8],
    tree: &[u8],
    blocks: &[usize],
    kept: usize,
    text: &mut [u8],
    ledger: &mut [u8],
) -> Result<Edited, Refusal> {
    let answer = raw::replace_all(mode as u8, rules, tree, blocks, kept, text, ledger);
    edited(answer)
}

fn edited(answer: raw::Answer) -> Result<Edited, Refusal> {
    accepted(answer)?;
    Ok(Edited {
        length: answer.place,
        growth: answer.growth,
        count: answer.count,
    })
}

fn accepted(answer: raw::Answer) -> Result<(), Refusal> {
    match answer.number {
        0 => Ok(()),
        number => Err(Refusal::new(number, answer.place)),
    }
}
