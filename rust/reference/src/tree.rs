//! The tree file: its rows parsed to a tree, and the rules on the tree's shape.

use crate::writer::Step;
use crate::{parts, Refused, BLOCKS_MOST};

/// A row lies at most so deep, the root being depth 1.
pub(crate) const DEPTH_MOST: usize = 64;

macro_rules! kinds {
    ($first:ident $($name:ident)*) => {
        /// What an element is, numbered from 1 in the order of the converter's main match.
        #[derive(Debug, Clone, Copy, PartialEq, Eq)]
        #[repr(u8)]
        pub enum Kind { $first = 1, $($name),* }

        impl Kind {
            /// Every kind, by its number less one.
            pub const ALL: [Kind; 45] = [Kind::$first, $(Kind::$name),*];
        }
    };
}

kinds! {
    TokenError ItemLR ClauseArgument ScopeRoot ItemText ItemBracket ItemParen ItemFormula ItemCurly
    ClauseLR ItemAttachComponent ClauseCommandName ItemBegin ItemEnd TokenWord TokenLBrace
    TokenRBrace TokenDollar TokenBeginMath TokenEndMath TokenComment ItemBlockComment
    TokenWhiteSpace TokenLineBreak TokenApostrophe TokenComma TokenSlash TokenCaret TokenUnderscore
    TokenHash TokenAsterisk TokenAtSign TokenDitto TokenSemicolon TokenLParen TokenRParen
    TokenLBracket TokenRBracket TokenTilde TokenAmpersand ItemNewLine TokenCommandSym ItemCmd
    ItemEnv ItemTypstCode
}

impl Kind {
    pub(crate) fn of(number: u8) -> Option<Kind> {
        Kind::ALL.get(usize::from(number).checked_sub(1)?).copied()
    }

    pub fn may_be_node(self) -> bool {
        use Kind::*;
        matches!(
            self,
            TokenError
                | ItemLR
                | ClauseArgument
                | ScopeRoot
                | ItemText
                | ItemBracket
                | ItemParen
                | ItemFormula
                | ItemCurly
                | ClauseLR
                | ItemAttachComponent
                | ItemBegin
                | ItemEnd
                | ItemBlockComment
                | ItemCmd
                | ItemEnv
                | ItemTypstCode
        )
    }

    pub fn may_be_token(self) -> bool {
        self == Kind::TokenError || !self.may_be_node()
    }

    pub fn is_trivia(self) -> bool {
        use Kind::*;
        matches!(
            self,
            TokenLineBreak | TokenWhiteSpace | TokenComment | ItemNewLine
        )
    }
}

/// A node with its children, or a token, which has none; either with its text and its row.
#[derive(Debug)]
pub struct Element<'a> {
    pub kind: Kind,
    pub row: usize,
    pub text: &'a str,
    children: Option<Vec<Element<'a>>>,
}

impl<'a> Element<'a> {
    pub fn is_token(&self) -> bool {
        self.children.is_none()
    }

    pub fn children(&self) -> &[Element<'a>] {
        self.children.as_deref().unwrap_or_default()
    }

    pub fn first_token(&self) -> Option<&Element<'a>> {
        match &self.children {
            None => Some(self),
            Some(children) => children.first()?.first_token(),
        }
    }

    pub fn last_token(&self) -> Option<&Element<'a>> {
        match &self.children {
            None => Some(self),
            Some(children) => children.last()?.last_token(),
        }
    }

    pub fn first_child_node(&self) -> Option<&Element<'a>> {
        self.children().iter().find(|child| !child.is_token())
    }

    /// The direct ClauseArguments.
    pub fn arguments(&self) -> impl Iterator<Item = &Element<'a>> {
        self.children()
            .iter()
            .filter(|child| child.kind == Kind::ClauseArgument)
    }

    /// A command's name with its backslash.
    pub fn command_name(&self) -> Option<&'a str> {
        let name = self
            .children()
            .iter()
            .find(|child| child.kind == Kind::ClauseCommandName)?;
        Some(name.text)
    }

    /// An environment's first ItemBegin.
    pub fn begin(&self) -> Option<&Element<'a>> {
        self.children()
            .iter()
            .find(|child| child.kind == Kind::ItemBegin)
    }

    /// An environment's name, not trimmed.
    pub fn environment_name(&self) -> Option<&'a str> {
        let token = self.begin()?.first_token()?;
        (token.kind == Kind::TokenCommandSym).then_some(token.text)
    }

    /// The first argument whose first child node is of a kind.
    pub fn argument_of(&self, kind: Kind) -> Option<&Element<'a>> {
        self.arguments().find(|argument| {
            argument
                .first_child_node()
                .is_some_and(|node| node.kind == kind)
        })
    }

    /// The text between the two ends, where there are two and each is a character of one byte.
    pub fn inner_text(&self) -> Option<&'a str> {
        self.text.get(1..self.text.len().checked_sub(1)?)
    }
}

/// A row as it stands in the file.
struct Row {
    kind: Kind,
    token: bool,
    size: usize,
}

impl Row {
    fn parse(row: &[u8]) -> Option<Row> {
        let kind = Kind::of(row[0])?;
        let token = match row[1] {
            0 if kind.may_be_node() => false,
            1 if kind.may_be_token() => true,
            _ => return None,
        };
        let size = u32::from_le_bytes(row[4..].try_into().ok()?) as usize;
        if row[2..4] != [0; 2] || (token && size == 0) {
            return None;
        }
        Some(Row { kind, token, size })
    }
}

/// The rows of a file that keeps the layout, its text area, and how deep the rows lie.
struct Layout<'a> {
    rows: Vec<Row>,
    area: &'a str,
    depth: usize,
}

impl<'a> Layout<'a> {
    /// Check 3.
    fn parse(file: &'a [u8]) -> Option<Self> {
        let (area, rows) = parts(file)?;
        let rows = rows
            .chunks_exact(8)
            .map(Row::parse)
            .collect::<Option<Vec<_>>>()?;
        let root = rows.first()?;
        if root.kind != Kind::ScopeRoot || root.size != rows.len() - 1 {
            return None;
        }
        let mut at = 0_usize;
        for row in rows.iter().filter(|row| row.token) {
            let text = area.get(at..at.checked_add(row.size)?)?;
            std::str::from_utf8(text).ok()?;
            at += row.size;
        }
        if at != area.len() {
            return None;
        }
        // the ends of the nodes that are open, the outermost first
        let mut open: Vec<usize> = Vec::new();
        let mut depth = 0;
        let mut blocks = 0;
        for (i, row) in rows.iter().enumerate() {
            while open.last().is_some_and(|&end| end <= i) {
                open.pop();
            }
            if open.len() == 1 {
                blocks += 1;
            }
            depth = depth.max(open.len() + 1);
            if !row.token {
                let end = (i + 1).checked_add(row.size)?;
                if open.last().is_some_and(|&outer| end > outer) {
                    return None;
                }
                open.push(end);
            }
        }
        if blocks > BLOCKS_MOST {
            return None;
        }
        let area = std::str::from_utf8(area).ok()?;
        Some(Layout { rows, area, depth })
    }

    /// The element at a row, and the text after it.
    fn element(&self, at: usize, text: &'a str) -> (Element<'a>, &'a str) {
        let row = &self.rows[at];
        if row.token {
            let (own, rest) = text.split_at(row.size);
            return (
                Element {
                    kind: row.kind,
                    row: at,
                    text: own,
                    children: None,
                },
                rest,
            );
        }
        let mut children = Vec::new();
        let mut next = at + 1;
        let mut rest = text;
        while next <= at + row.size {
            let (child, after) = self.element(next, rest);
            children.push(child);
            next += 1 + if self.rows[next].token {
                0
            } else {
                self.rows[next].size
            };
            rest = after;
        }
        let own = &text[..text.len() - rest.len()];
        (
            Element {
                kind: row.kind,
                row: at,
                text: own,
                children: Some(children),
            },
            rest,
        )
    }
}

/// The steps that write a file which passes 3 and 4: its nodes, tokens and closes in order, and the finish.
pub fn walk(file: &[u8]) -> Option<Vec<Step>> {
    let layout = Layout::parse(file).filter(|layout| layout.depth <= DEPTH_MOST)?;
    let mut steps = Vec::new();
    // how many rows are left under each open node
    let mut open: Vec<usize> = Vec::new();
    let mut rest = layout.area.as_bytes();
    for row in &layout.rows {
        if let Some(left) = open.last_mut() {
            *left -= 1;
        }
        if row.token {
            let (text, after) = rest.split_at(row.size);
            steps.push(Step::Token(row.kind as u8, text.to_vec()));
            rest = after;
        } else {
            steps.push(Step::Open(row.kind as u8));
            if let Some(left) = open.last_mut() {
                *left -= row.size;
            }
            open.push(row.size);
        }
        while open.last() == Some(&0) {
            open.pop();
            steps.push(Step::Close);
        }
    }
    steps.push(Step::Finish);
    Some(steps)
}

/// Checks 3, 4 and 5.
pub fn parse(file: &[u8]) -> Result<Element<'_>, Refused> {
    let layout = Layout::parse(file).ok_or(Refused::whole(3))?;
    if layout.depth > DEPTH_MOST {
        return Err(Refused::whole(4));
    }
    let (root, _) = layout.element(0, layout.area);
    match misshapen(&root, None) {
        Some(row) => Err(Refused::new(5, row)),
        None => Ok(root),
    }
}

/// The lowest row that breaks a rule on the tree's shape.
fn misshapen(element: &Element, parent: Option<Kind>) -> Option<usize> {
    if !well_shaped(element, parent) {
        return Some(element.row);
    }
    element
        .children()
        .iter()
        .find_map(|child| misshapen(child, Some(element.kind)))
}

fn well_shaped(element: &Element, parent: Option<Kind>) -> bool {
    match element.kind {
        Kind::TokenCommandSym => {
            matches!(parent, Some(Kind::ItemBegin | Kind::ItemEnd))
                || element.text.starts_with('\\')
        }
        Kind::ClauseLR => element
            .children()
            .first()
            .is_some_and(|first| first.is_token() && first.text.starts_with('\\')),
        Kind::ItemEnv => element.environment_name().is_some(),
        Kind::ItemCmd => match element.command_name() {
            Some("\\label") => element
                .arguments()
                .next()
                .is_some_and(|argument| argument.inner_text().is_some()),
            Some("\\includegraphics") => {
                element
                    .arguments()
                    .all(|argument| argument.first_child_node().is_some())
                    && element
                        .argument_of(Kind::ItemCurly)
                        .is_some_and(|path| path.inner_text().is_some())
                    && element
                        .argument_of(Kind::ItemBracket)
                        .is_none_or(|options| options.inner_text().is_some())
            }
            Some("\\color") => element.arguments().next().is_some(),
            Some(name) => name.starts_with('\\'),
            None => false,
        },
        _ => true,
    }
}
