use std::ops::Range;

use crate::file::{self, TreeFile};
use crate::{convert, edit, insert, remove, replace_all};
use crate::{Converted, Edited, Mode, Refusal, BLOCKS_MOST, ROW_SIZE};

/// The refusal for kept parts that do not fit.
const NO_FIT: u8 = 6;

/// The refusal for a buffer that is too short.
const TOO_SHORT: u8 = 15;

/// A text buffer counts as at most so many bytes.
const TEXT_MOST: usize = u32::MAX as usize;

/// [`edit`], [`insert`], [`remove`] or [`replace_all`].
type Change<P> = fn(Mode, &[u8], &[u8], P, usize, &mut [u8], &mut [u8]) -> Result<Edited, Refusal>;

/// What a change names: a block, a position, or several blocks.
trait Place: Copy {
    /// What is in no document.
    const NOWHERE: Self;
}

impl Place for usize {
    const NOWHERE: Self = usize::MAX;
}

impl Place for &[usize] {
    const NOWHERE: Self = &[];
}

/// An open document that owns its text and its ledger.
///
/// ```
/// use zaldrume::file::{Kind, RuleFile, TreeFile};
/// use zaldrume::{Document, Mode};
///
/// let rules = RuleFile::new().build().unwrap();
/// let lines = |words: &[&str]| {
///     let mut tree = TreeFile::new();
///     for word in words {
///         tree.start(Kind::ItemText);
///         tree.token(Kind::TokenWord, word);
///         tree.token(Kind::TokenLineBreak, "\n");
///         tree.finish();
///     }
///     tree.build().unwrap()
/// };
///
/// let mut document = Document::open(Mode::Text, &rules, &lines(&["one", "two", "three"]))?;
/// document.edit(&lines(&["one", "2", "three"]), 1)?;
/// assert_eq!(document.text(), b"one\n2\nthree\n");
///
/// let second = document.blocks().nth(1).unwrap();
/// assert_eq!(&document.text()[second.range], b"2\n");
///
/// document.insert(&lines(&["one", "2", "and", "three"]), 2)?;
/// document.remove(&lines(&["2", "and", "three"]), 0)?;
/// document.replace_all(&lines(&["two", "and", "3"]), &[0, 2])?;
/// assert_eq!(document.text(), b"two\nand\n3\n");
/// # Ok::<(), zaldrume::Refusal>(())
/// ```
#[derive(Debug, Clone)]
pub struct Document {
    mode: Mode,
    rules: Vec<u8>,
    // the buffer, of which the first `length` bytes are the text
    text: Vec<u8>,
    length: usize,
    // a row for each block and no byte more
    ledger: Vec<u8>,
}

impl Document {
    /// Converts a tree file from its start, in buffers that are long enough.
    ///
    /// # Errors
    ///
    /// Any refusal but 1, 6 and 15.
    pub fn open(mode: Mode, rules: &[u8], tree: &[u8]) -> Result<Self, Refusal> {
        let mut text = vec![0; 2 * tree.len()];
        let mut ledger = vec![0; BLOCKS_MOST * ROW_SIZE];
        let Converted { length, blocks } = with_room(&mut text, |text| {
            convert(mode, rules, tree, text, &mut ledger)
        })?;
        ledger.truncate(blocks * ROW_SIZE);
        Ok(Document {
            mode,
            rules: rules.to_vec(),
            text,
            length,
            ledger,
        })
    }

    /// A document from the parts that were kept of one, without converting it: its text is the first
    /// `length` bytes of `text`, and the first rows of `ledger` are those of its `blocks`, as a call
    /// leaves both buffers.
    ///
    /// The caller promises that these bytes are those of a document with this mode and this rule
    /// file, as [`text`](Self::text) and [`ledger`](Self::ledger) give them. Changes then go on from
    /// that document: what cannot be seen from the parts alone, such as a text of another document of
    /// the same lengths, is not found out.
    ///
    /// ```
    /// use zaldrume::file::{Kind, RuleFile, TreeFile};
    /// use zaldrume::{Document, Mode};
    ///
    /// let rules = RuleFile::new().build().unwrap();
    /// let words = |words: &[&str]| {
    ///     let mut tree = TreeFile::new();
    ///     words.iter().for_each(|word| tree.token(Kind::TokenWord, word));
    ///     tree.build().unwrap()
    /// };
    /// let document = Document::open(Mode::Text, &rules, &words(&["one", "two"]))?;
    /// let stored = (document.mode() as u8, document.text().to_vec(), document.ledger().to_vec());
    ///
    /// let (mode, text, ledger) = stored;
    /// let (mode, length) = (Mode::try_from(mode)?, text.len());
    /// let mut document = Document::from_parts(mode, &rules, text, length, ledger, 2)?;
    /// document.remove(&words(&["two"]), 0)?;
    /// assert_eq!(document.text(), b"two");
    /// # Ok::<(), zaldrume::Refusal>(())
    /// ```
    ///
    /// # Errors
    ///
    /// 2 where the rule file breaks its layout; 6 where there are more than [`BLOCKS_MOST`] blocks, the
    /// text or the ledger is shorter than is said, or the rows do not fit the text's length.
    pub fn from_parts(
        mode: Mode,
        rules: &[u8],
        text: Vec<u8>,
        length: usize,
        mut ledger: Vec<u8>,
        blocks: usize,
    ) -> Result<Self, Refusal> {
        check_rules(mode, rules)?;
        let whole =
            length <= text.len() && blocks <= BLOCKS_MOST && blocks * ROW_SIZE <= ledger.len();
        if !whole || !rows_fit(&ledger[..blocks * ROW_SIZE], length) {
            return Err(Refusal::new(NO_FIT, 0));
        }
        ledger.truncate(blocks * ROW_SIZE);
        Ok(Document {
            mode,
            rules: rules.to_vec(),
            text,
            length,
            ledger,
        })
    }

    /// Takes a new tree, which differs from the last accepted one in `block` alone, counted from 0.
    ///
    /// # Errors
    ///
    /// Any refusal but 1 and 15, and 6 where the tree has another count of blocks; the document
    /// then is as it was.
    pub fn edit(&mut self, tree: &[u8], block: usize) -> Result<Edited, Refusal> {
        self.change(edit, tree, block, Some(self.count()))
    }

    /// Takes a new tree, which is the last accepted one with one block more: block `position` of it,
    /// from 0 to the count of blocks that there were.
    ///
    /// ```
    /// use zaldrume::file::{Kind, RuleFile, TreeFile};
    /// use zaldrume::{Document, Mode};
    ///
    /// let rules = RuleFile::new().build().unwrap();
    /// let words = |words: &[&str]| {
    ///     let mut tree = TreeFile::new();
    ///     words.iter().for_each(|word| tree.token(Kind::TokenWord, word));
    ///     tree.build().unwrap()
    /// };
    /// let mut document = Document::open(Mode::Text, &rules, &words(&["one", "two"]))?;
    /// let inserted = document.insert(&words(&["one", "two", "three"]), 2)?;
    /// assert_eq!((inserted.growth, inserted.count), (5, 1));
    /// assert_eq!(document.text(), b"onetwothree");
    /// # Ok::<(), zaldrume::Refusal>(())
    /// ```
    ///
    /// # Errors
    ///
    /// Any refusal but 1 and 15, and 6 where the tree does not have one block more; the document
    /// then is as it was.
    pub fn insert(&mut self, tree: &[u8], position: usize) -> Result<Edited, Refusal> {
        self.change(insert, tree, position, Some(self.count() + 1))
    }

    /// Takes a new tree, which is the last accepted one without its block `block`, counted from 0.
    ///
    /// ```
    /// use zaldrume::file::{Kind, RuleFile, TreeFile};
    /// use zaldrume::{Document, Mode};
    ///
    /// let rules = RuleFile::new().build().unwrap();
    /// let words = |words: &[&str]| {
    ///     let mut tree = TreeFile::new();
    ///     words.iter().for_each(|word| tree.token(Kind::TokenWord, word));
    ///     tree.build().unwrap()
    /// };
    /// let mut document = Document::open(Mode::Text, &rules, &words(&["one", "two"]))?;
    /// let removed = document.remove(&words(&["one"]), 1)?;
    /// assert_eq!((removed.growth, removed.count), (-3, 0));
    /// assert_eq!(document.text(), b"one");
    /// # Ok::<(), zaldrume::Refusal>(())
    /// ```
    ///
    /// # Errors
    ///
    /// Any refusal but 1 and 15, and 6 where the tree does not have one block less; the document
    /// then is as it was.
    pub fn remove(&mut self, tree: &[u8], block: usize) -> Result<Edited, Refusal> {
        self.change(remove, tree, block, self.count().checked_sub(1))
    }

    /// Takes a new tree, which differs from the last accepted one in `blocks` alone: their numbers,
    /// counted from 0, each greater than the one before.
    ///
    /// A search and replace: one call for all blocks that it touches.
    ///
    /// ```
    /// use zaldrume::file::{Kind, RuleFile, TreeFile};
    /// use zaldrume::{Document, Mode};
    ///
    /// let rules = RuleFile::new().build().unwrap();
    /// let tree = |words: &[String]| {
    ///     let mut tree = TreeFile::new();
    ///     words.iter().for_each(|word| tree.token(Kind::TokenWord, word));
    ///     tree.build().unwrap()
    /// };
    /// let mut words = ["cat", ", dog and ", "cats"].map(String::from);
    /// let mut document = Document::open(Mode::Text, &rules, &tree(&words))?;
    ///
    /// let touched = |&block: &usize| words[block].contains("cat");
    /// let blocks: Vec<_> = (0..words.len()).filter(touched).collect();
    /// words = words.map(|word| word.replace("cat", "mouse"));
    /// let replaced = document.replace_all(&tree(&words), &blocks)?;
    /// assert_eq!((replaced.growth, replaced.count), (4, 2));
    /// assert_eq!(document.text(), b"mouse, dog and mouses");
    /// # Ok::<(), zaldrume::Refusal>(())
    /// ```
    ///
    /// # Errors
    ///
    /// Any refusal but 1 and 15, and 6 where the tree has another count of blocks, the list is empty
    /// or its numbers do not rise; the document then is as it was.
    pub fn replace_all(&mut self, tree: &[u8], blocks: &[usize]) -> Result<Edited, Refusal> {
        self.change(replace_all, tree, blocks, Some(self.count()))
    }

    /// A change at a place, after which there are `after` blocks.
    fn change<P: Place>(
        &mut self,
        call: Change<P>,
        tree: &[u8],
        at: P,
        after: Option<usize>,
    ) -> Result<Edited, Refusal> {
        let before = self.count();
        // with another count no place is the one that is meant
        let (at, after) = match after {
            Some(after) if file::count_blocks(tree) == Some(after) => (at, after),
            _ => (P::NOWHERE, before),
        };
        // room for a row that is put in
        self.ledger.resize(before.max(after) * ROW_SIZE, 0);
        let answer = with_room(&mut self.text, |text| {
            call(
                self.mode,
                &self.rules,
                tree,
                at,
                self.length,
                text,
                &mut self.ledger,
            )
        });
        self.length = answer.map_or(self.length, |edited| edited.length);
        let rows = answer.map_or(before, |_| after);
        self.ledger.truncate(rows * ROW_SIZE);
        answer
    }

    /// How many blocks there are.
    fn count(&self) -> usize {
        self.ledger.len() / ROW_SIZE
    }

    /// What the document was read as.
    pub fn mode(&self) -> Mode {
        self.mode
    }

    /// The rule file.
    pub fn rules(&self) -> &[u8] {
        &self.rules
    }

    /// The Typst text.
    pub fn text(&self) -> &[u8] {
        &self.text[..self.length]
    }

    /// The ledger: a row of [`ROW_SIZE`] bytes for each block.
    pub fn ledger(&self) -> &[u8] {
        &self.ledger
    }

    /// What each block came to, in order.
    pub fn blocks(&self) -> Blocks<'_> {
        Blocks {
            rows: self.ledger.chunks_exact(ROW_SIZE),
            start: 0,
        }
    }
}

/// Calls again with a longer text as long as it is refused for its length.
fn with_room<T>(
    text: &mut Vec<u8>,
    mut call: impl FnMut(&mut [u8]) -> Result<T, Refusal>,
) -> Result<T, Refusal> {
    loop {
        match call(text) {
            Err(refusal) if refusal.number() == TOO_SHORT && text.len() < TEXT_MOST => {
                text.resize((2 * text.len()).clamp(1024, TEXT_MOST), 0);
            }
            answer => return answer,
        }
    }
}

/// Refuses a rule file as a conversion of the empty document does.
fn check_rules(mode: Mode, rules: &[u8]) -> Result<(), Refusal> {
    let empty = TreeFile::new().build().expect("a short file");
    convert(mode, rules, &empty, &mut [], &mut []).map(|_| ())
}

/// Whether rows fit a text of this length.
fn rows_fit(ledger: &[u8], length: usize) -> bool {
    let mut rows = ledger.chunks_exact(ROW_SIZE);
    let last = rows.try_fold(0, |last, row| {
        let end = Row::parse(row)?.end;
        (last <= end).then_some(end)
    });
    last == Some(length)
}

/// A ledger row.
struct Row<'a> {
    end: usize,
    flag: bool,
    label: Option<&'a [u8]>,
}

impl<'a> Row<'a> {
    /// Nothing where the bytes are not laid out as a row.
    fn parse(row: &'a [u8]) -> Option<Self> {
        let (head, rest) = row.split_first_chunk::<8>()?;
        let [a, b, c, d, flag, held, size, zero] = *head;
        let (label, padding) = rest.split_at_checked(usize::from(size))?;
        let is_carry = flag <= 1 && held <= 1 && (held == 1 || size == 0);
        let is_row = is_carry && zero == 0 && padding.iter().all(|&byte| byte == 0);
        is_row.then_some(Row {
            end: u32::from_le_bytes([a, b, c, d]) as usize,
            flag: flag == 1,
            label: (held == 1).then_some(label),
        })
    }
}

/// A block of a document, as its ledger row has it.
#[derive(Debug, Clone, PartialEq, Eq)]
pub struct Block<'a> {
    /// Where its text lies.
    pub range: Range<usize>,
    /// Whether a space at the start of the next block is left out.
    pub flag: bool,
    /// The label that is held for a later block.
    pub label: Option<&'a [u8]>,
}

/// The blocks of a document, from [`Document::blocks`].
#[derive(Debug, Clone)]
pub struct Blocks<'a> {
    rows: std::slice::ChunksExact<'a, u8>,
    start: usize,
}

impl<'a> Iterator for Blocks<'a> {
    type Item = Block<'a>;

    fn next(&mut self) -> Option<Block<'a>> {
        let Row { end, flag, label } = Row::parse(self.rows.next()?)?;
        let start = std::mem::replace(&mut self.start, end);
        Some(Block {
            range: start..end,
            flag,
            label,
        })
    }

    fn size_hint(&self) -> (usize, Option<usize>) {
        self.rows.size_hint()
    }
}

impl ExactSizeIterator for Blocks<'_> {}
