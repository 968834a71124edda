//! Builders of rule files and tree files.
//!
//! A file is a text area, rows of 8 bytes, and a trailer of 8 bytes that says where the rows begin
//! and how many they are. [`TreeFile`] and [`TreeWriter`] stand on the library's writer.

use std::collections::BTreeMap;

use crate::FILE_MOST;

mod kind;
mod tree;

pub use kind::{Kind, UnknownKind, UnknownName};
pub use tree::{StepRefusal, TreeFile, TreeWriter};

/// What a rule says of a command or of an environment.
#[derive(Debug, Clone, Copy, PartialEq, Eq, Hash)]
#[repr(u8)]
pub enum Class {
    /// A command that takes nothing, as `\alpha`.
    Symbol,
    /// A command that takes all that follows, as `\displaystyle`.
    Greedy,
    /// Any other command.
    Command,
    /// An environment of text.
    Text,
    /// An environment of formulas.
    Math,
    /// A matrix.
    Matrix,
    /// Cases.
    Cases,
    /// A figure, with its caption.
    Figure,
    /// A table, with its columns.
    Table,
    /// A list with marks.
    Itemize,
    /// A list with numbers.
    Enumerate,
}

/// A rule file in the making; rules may come in any order.
///
/// ```
/// use zaldrume::file::{Class, RuleFile};
///
/// let rules = RuleFile::new()
///     .rule("tabular", Some("table"), Class::Table)
///     .rule("alpha", None, Class::Symbol)
///     .build()
///     .unwrap();
/// assert!(rules.starts_with(b"alphatabulartable"));
/// ```
#[derive(Debug, Clone, Default)]
pub struct RuleFile {
    rules: BTreeMap<String, (Option<String>, Class)>,
}

impl RuleFile {
    /// A file with no rules.
    pub fn new() -> Self {
        RuleFile::default()
    }

    /// Adds a rule, in the place of an earlier one with its name: what is written for the name is
    /// the alias, or the name itself where there is none.
    pub fn rule(mut self, name: &str, alias: Option<&str>, class: Class) -> Self {
        self.rules
            .insert(name.to_owned(), (alias.map(str::to_owned), class));
        self
    }

    /// The file; nothing where it has over [`FILE_MOST`] bytes.
    pub fn build(&self) -> Option<Vec<u8>> {
        let mut text = Vec::new();
        let mut rows = Vec::new();
        for (name, (alias, class)) in &self.rules {
            text.extend_from_slice(name.as_bytes());
            text.extend_from_slice(alias.as_deref().unwrap_or_default().as_bytes());
            let [a, b] = u16::try_from(name.len()).ok()?.to_le_bytes();
            let alias = alias
                .as_ref()
                .map_or(Ok(u16::MAX), |alias| alias.len().try_into());
            let [c, d] = alias.ok()?.to_le_bytes();
            rows.push([a, b, c, d, *class as u8, 0, 0, 0]);
        }
        assemble(text, &rows)
    }
}

fn assemble(text: Vec<u8>, rows: &[[u8; 8]]) -> Option<Vec<u8>> {
    let start = u32::try_from(text.len()).ok()?;
    let count = u32::try_from(rows.len()).ok()?;
    let mut file = text;
    file.extend_from_slice(rows.as_flattened());
    file.extend_from_slice(&start.to_le_bytes());
    file.extend_from_slice(&count.to_le_bytes());
    (file.len() <= FILE_MOST).then_some(file)
}

/// How many blocks a tree file has, where its rows nest.
pub(crate) fn count_blocks(tree: &[u8]) -> Option<usize> {
    let (body, trailer) = tree.split_last_chunk::<8>()?;
    let [a, b, c, d, ..] = *trailer;
    let rows = body.get(u32::from_le_bytes([a, b, c, d]) as usize..)?;
    let mut rows = rows.chunks_exact(8).skip(1);
    let mut blocks = 0;
    while let Some(&[_, token, _, _, a, b, c, d]) = rows.next() {
        blocks += 1;
        let under = u32::from_le_bytes([a, b, c, d]) as usize;
        if token == 0 && under > 0 {
            rows.nth(under - 1)?;
        }
    }
    Some(blocks)
}
