//! Tree files, written step by step by the library's writer.

use std::error::Error;
use std::fmt;

use super::Kind;
use crate::raw::{self, WRITER_STATE};
use crate::{Refusal, BLOCKS_MOST, FILE_MOST};

/// The refusal of a step that is out of place.
const OUT_OF_PLACE: u8 = 16;

/// Where a writer's state has the count of blocks, and that of open nodes.
const BLOCKS: usize = 3;
const OPEN: usize = 4;

/// Writes a tree file into the caller's buffer, step by step.
///
/// The file's length is at most [`FILE_MOST`], so a buffer of so many bytes always has room. A step
/// that is refused changes nothing, and another may follow it. Where a step is 15, a longer buffer
/// needs a new writer and all steps from the first on.
///
/// ```
/// use zaldrume::file::{Kind, TreeWriter};
///
/// let mut buffer = [0; 100];
/// let mut writer = TreeWriter::new(&mut buffer);
/// writer.open(Kind::ScopeRoot)?;
/// writer.token(Kind::TokenWord, "ab")?;
/// assert_eq!(writer.finish().unwrap_err().number(), 16); // the root is open
/// writer.close()?;
/// assert_eq!(writer.finish()?.len(), "ab".len() + 8 * 2 + 8);
/// # Ok::<(), zaldrume::Refusal>(())
/// ```
///
/// # Errors
///
/// Of each step, in this order: 16 where it is out of place, 3 where the file so far would be longer
/// than [`FILE_MOST`] or have more than [`BLOCKS_MOST`] blocks, 4 where a row would lie deeper than 64,
/// 15 where the buffer is too short for the file so far. A close and a finish add nothing and can only
/// be 16.
pub struct TreeWriter<'a> {
    state: [u64; WRITER_STATE],
    buffer: &'a mut [u8],
}

impl<'a> TreeWriter<'a> {
    /// Nothing is written yet.
    pub fn new(buffer: &'a mut [u8]) -> Self {
        TreeWriter {
            state: [0; WRITER_STATE],
            buffer,
        }
    }

    /// Opens a node. The first is a `ScopeRoot`, and all else lies under it.
    pub fn open(&mut self, kind: Kind) -> Result<(), Refusal> {
        accepted(raw::writer_open(&mut self.state, self.buffer, kind as u8))
    }

    /// Adds a token with its text, which is not empty.
    pub fn token(&mut self, kind: Kind, text: &str) -> Result<(), Refusal> {
        let text = text.as_bytes();
        accepted(raw::writer_token(
            &mut self.state,
            self.buffer,
            kind as u8,
            text,
        ))
    }

    /// Closes the innermost open node.
    pub fn close(&mut self) -> Result<(), Refusal> {
        accepted(raw::writer_close(&mut self.state, self.buffer))
    }

    /// The file, which stands at the buffer's front from now on. Any step after it is 16.
    pub fn finish(&mut self) -> Result<&[u8], Refusal> {
        let (number, length) = raw::writer_finish(&mut self.state, self.buffer);
        accepted(number)?;
        Ok(&self.buffer[..length])
    }
}

impl fmt::Debug for TreeWriter<'_> {
    fn fmt(&self, f: &mut fmt::Formatter<'_>) -> fmt::Result {
        f.debug_struct("TreeWriter")
            .field("state", &self.state)
            .finish_non_exhaustive()
    }
}

fn accepted(number: u8) -> Result<(), Refusal> {
    match number {
        0 => Ok(()),
        number => Err(Refusal::new(number, 0)),
    }
}

/// A tree file in the making: the root is open from the start, and its children are the blocks.
///
/// ```
/// use zaldrume::file::{Kind, TreeFile};
///
/// let mut tree = TreeFile::new();
/// tree.start(Kind::ItemCurly);
/// tree.token(Kind::TokenLBrace, "{");
/// tree.token(Kind::TokenWord, "a");
/// tree.token(Kind::TokenRBrace, "}");
/// tree.finish();
/// let file = tree.build()?;
/// assert_eq!(file.len(), "{a}".len() + 8 * 5 + 8);
/// # Ok::<(), zaldrume::file::StepRefusal>(())
/// ```
///
/// The first step that is refused is kept, those after it are not tried, and [`build`](Self::build)
/// tells which it was and why; [`refused`](Self::refused) tells it before. So the steps need no care of
/// their own:
///
/// ```
/// use zaldrume::file::{Kind, TreeFile};
///
/// let mut tree = TreeFile::new();
/// tree.start(Kind::ItemCurly);
/// tree.token(Kind::TokenWord, "");
/// let refused = tree.build().unwrap_err();
/// assert_eq!((refused.number(), refused.step()), (16, 2));
/// assert_eq!(refused.to_string(), "step 2, TokenWord: a token's text is empty (refusal 16)");
/// ```
///
/// # A parser's tree
///
/// A tree of nodes and tokens, like rowan's, is walked into it. A parser's own kinds become [`Kind`]s by
/// their names.
///
/// ```
/// use std::error::Error;
/// use zaldrume::file::{Kind, TreeFile, UnknownName};
///
/// /// The parser's kinds, or some of them.
/// #[derive(Debug, Clone, Copy)]
/// enum SyntaxKind {
///     ItemFormula,
///     TokenDollar,
///     TokenWord,
/// }
///
/// /// What the parser gives; with rowan a `NodeOrToken` of a node with `children_with_tokens`.
/// enum Element {
///     Node(SyntaxKind, Vec<Element>),
///     Token(SyntaxKind, &'static str),
/// }
///
/// fn kind_of(kind: SyntaxKind) -> Result<Kind, UnknownName> {
///     format!("{kind:?}").parse()
/// }
///
/// fn walk(tree: &mut TreeFile, element: &Element) -> Result<(), UnknownName> {
///     match element {
///         Element::Token(kind, text) => tree.token(kind_of(*kind)?, text),
///         Element::Node(kind, children) => {
///             tree.start(kind_of(*kind)?);
///             children.iter().try_for_each(|child| walk(tree, child))?;
///             tree.finish();
///         }
///     }
///     Ok(())
/// }
///
/// /// The file of the blocks, which are the root's children.
/// fn tree_file(blocks: &[Element]) -> Result<Vec<u8>, Box<dyn Error>> {
///     let mut tree = TreeFile::new();
///     blocks.iter().try_for_each(|block| walk(&mut tree, block))?;
///     Ok(tree.build()?)
/// }
///
/// // `$x$`
/// let dollar = || Element::Token(SyntaxKind::TokenDollar, "$");
/// let inside = vec![dollar(), Element::Token(SyntaxKind::TokenWord, "x"), dollar()];
/// let file = tree_file(&[Element::Node(SyntaxKind::ItemFormula, inside)])?;
/// assert!(file.starts_with(b"$x$"));
/// # Ok::<(), Box<dyn Error>>(())
/// ```
#[derive(Clone)]
pub struct TreeFile {
    state: [u64; WRITER_STATE],
    buffer: Vec<u8>,
    steps: usize,
    refused: Option<StepRefusal>,
}

impl TreeFile {
    /// A tree with an open root.
    pub fn new() -> Self {
        let mut state = [0; WRITER_STATE];
        let mut buffer = vec![0; FILE_MOST];
        let number = raw::writer_open(&mut state, &mut buffer, Kind::ScopeRoot as u8);
        debug_assert_eq!(number, 0);
        TreeFile {
            state,
            buffer,
            steps: 0,
            refused: None,
        }
    }

    /// Opens a node: what follows, up to the matching [`finish`](Self::finish), lies under it.
    pub fn start(&mut self, kind: Kind) {
        self.step(Some(kind), "no node is of this kind", |tree| {
            raw::writer_open(&mut tree.state, &mut tree.buffer, kind as u8)
        });
    }

    /// A token with its text, which is not empty.
    pub fn token(&mut self, kind: Kind, text: &str) {
        let out_of_place = match text {
            "" => "a token's text is empty",
            _ => "no token is of this kind",
        };
        self.step(Some(kind), out_of_place, |tree| {
            raw::writer_token(
                &mut tree.state,
                &mut tree.buffer,
                kind as u8,
                text.as_bytes(),
            )
        });
    }

    /// Closes the innermost open node. The root is closed by [`build`](Self::build).
    pub fn finish(&mut self) {
        self.step(None, "no node but the root is open", |tree| {
            match tree.open_nodes() {
                1 => OUT_OF_PLACE,
                _ => raw::writer_close(&mut tree.state, &mut tree.buffer),
            }
        });
    }

    /// The step that was refused, where one was. No step after it is tried.
    pub fn refused(&self) -> Option<StepRefusal> {
        self.refused
    }

    /// The file.
    ///
    /// # Errors
    ///
    /// The first step that was refused: 3 where the file would be longer than [`FILE_MOST`] or have
    /// more than [`BLOCKS_MOST`] blocks, 4 where it would be deeper than 64, else 16. A node that was
    /// not closed is 16 too. Of an error that `?` turns into a [`Refusal`] only the number is left.
    pub fn build(mut self) -> Result<Vec<u8>, StepRefusal> {
        let mut length = 0;
        self.step(None, "a node is still open", |tree| {
            raw::writer_close(&mut tree.state, &mut tree.buffer);
            let (number, place) = raw::writer_finish(&mut tree.state, &mut tree.buffer);
            length = place;
            number
        });
        match self.refused {
            Some(refused) => Err(refused),
            None => {
                self.buffer.truncate(length);
                self.buffer.shrink_to_fit();
                Ok(self.buffer)
            }
        }
    }

    /// Tries a step, where none was refused before.
    fn step(
        &mut self,
        kind: Option<Kind>,
        out_of_place: &'static str,
        step: impl FnOnce(&mut Self) -> u8,
    ) {
        if self.refused.is_some() {
            return;
        }
        self.steps += 1;
        let number = step(self);
        if number != 0 {
            self.refused = Some(StepRefusal {
                refusal: Refusal::new(number, 0),
                step: self.steps,
                kind,
                reason: self.reason(number, out_of_place),
            });
        }
    }

    /// Why a step was refused, in words; `out_of_place` is what 16 means for it.
    fn reason(&self, number: u8, out_of_place: &'static str) -> &'static str {
        let full = self.open_nodes() == 1 && self.state[BLOCKS] == BLOCKS_MOST as u64;
        match number {
            3 if full => "there would be more than 512 blocks",
            3 => "the file would be longer than 65,536 bytes",
            4 => "it would be deeper than 64",
            _ => out_of_place,
        }
    }

    fn open_nodes(&self) -> u64 {
        self.state[OPEN]
    }
}

impl Default for TreeFile {
    fn default() -> Self {
        TreeFile::new()
    }
}

impl fmt::Debug for TreeFile {
    fn fmt(&self, f: &mut fmt::Formatter<'_>) -> fmt::Result {
        f.debug_struct("TreeFile")
            .field("state", &self.state)
            .field("steps", &self.steps)
            .field("refused", &self.refused)
            .finish_non_exhaustive()
    }
}

/// Why there is no tree file: the first step of a [`TreeFile`] that was refused.
#[derive(Debug, Clone, Copy, PartialEq, Eq, Hash)]
pub struct StepRefusal {
    refusal: Refusal,
    step: usize,
    kind: Option<Kind>,
    reason: &'static str,
}

impl StepRefusal {
    /// The refusal's number: 3, 4 or 16.
    pub fn number(&self) -> u8 {
        self.refusal.number()
    }

    /// Which step it was, counted from 1: each `start`, `token` and `finish` is one, and so is `build`.
    pub fn step(&self) -> usize {
        self.step
    }

    /// The kind of the node or token that the step would have added; a `finish` and `build` have none.
    pub fn kind(&self) -> Option<Kind> {
        self.kind
    }

    /// What is wrong, in words.
    pub fn reason(&self) -> &'static str {
        self.reason
    }
}

impl fmt::Display for StepRefusal {
    fn fmt(&self, f: &mut fmt::Formatter<'_>) -> fmt::Result {
        write!(f, "step {}", self.step)?;
        if let Some(kind) = self.kind {
            write!(f, ", {kind}")?;
        }
        write!(f, ": {} (refusal {})", self.reason, self.number())
    }
}

impl Error for StepRefusal {}

/// The refusal without its step, for callers that tell of all refusals alike.
impl From<StepRefusal> for Refusal {
    fn from(refused: StepRefusal) -> Self {
        refused.refusal
    }
}
