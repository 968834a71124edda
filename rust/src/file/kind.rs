//! The kinds of a tree's elements.

use std::error::Error;
use std::fmt;
use std::str::FromStr;

/// What may be of a kind.
#[derive(Clone, Copy, PartialEq, Eq)]
enum Sort {
    Node,
    Token,
    Either,
}

macro_rules! kinds {
    ($($number:literal $name:ident $sort:ident;)*) => {
        /// What an element of a tree is: a node, which has children, or a token, which has a text.
        ///
        /// | number | name | node or token |
        /// |---|---|---|
        $(#[doc = concat!("| ", $number, " | `", stringify!($name), "` | ", stringify!($sort), " |")])*
        ///
        /// The names are those of the original's `SyntaxKind`; the numbers are those of a tree file.
        ///
        /// ```
        /// use zaldrume::file::Kind;
        ///
        /// let kind = Kind::try_from(15)?;
        /// assert_eq!(kind, Kind::TokenWord);
        /// assert_eq!(kind.name(), "TokenWord");
        /// assert!(kind.is_token() && !kind.is_node());
        /// assert!(Kind::try_from(46).is_err());
        ///
        /// assert_eq!("ItemCurly".parse(), Ok(Kind::ItemCurly));
        /// assert!("Curly".parse::<Kind>().is_err());
        /// # Ok::<(), zaldrume::file::UnknownKind>(())
        /// ```
        #[allow(missing_docs)]
        #[derive(Debug, Clone, Copy, PartialEq, Eq, Hash)]
        #[repr(u8)]
        pub enum Kind {
            $($name = $number,)*
        }

        impl Kind {
            /// Every kind, in the order of the numbers, which are 1 to 45.
            pub const ALL: [Kind; 45] = [$(Kind::$name,)*];

            /// Its name.
            pub fn name(self) -> &'static str {
                match self {
                    $(Kind::$name => stringify!($name),)*
                }
            }

            fn sort(self) -> Sort {
                match self {
                    $(Kind::$name => Sort::$sort,)*
                }
            }
        }
    };
}

kinds! {
    1 TokenError Either;
    2 ItemLR Node;
    3 ClauseArgument Node;
    4 ScopeRoot Node;
    5 ItemText Node;
    6 ItemBracket Node;
    7 ItemParen Node;
    8 ItemFormula Node;
    9 ItemCurly Node;
    10 ClauseLR Node;
    11 ItemAttachComponent Node;
    12 ClauseCommandName Token;
    13 ItemBegin Node;
    14 ItemEnd Node;
    15 TokenWord Token;
    16 TokenLBrace Token;
    17 TokenRBrace Token;
    18 TokenDollar Token;
    19 TokenBeginMath Token;
    20 TokenEndMath Token;
    21 TokenComment Token;
    22 ItemBlockComment Node;
    23 TokenWhiteSpace Token;
    24 TokenLineBreak Token;
    25 TokenApostrophe Token;
    26 TokenComma Token;
    27 TokenSlash Token;
    28 TokenCaret Token;
    29 TokenUnderscore Token;
    30 TokenHash Token;
    31 TokenAsterisk Token;
    32 TokenAtSign Token;
    33 TokenDitto Token;
    34 TokenSemicolon Token;
    35 TokenLParen Token;
    36 TokenRParen Token;
    37 TokenLBracket Token;
    38 TokenRBracket Token;
    39 TokenTilde Token;
    40 TokenAmpersand Token;
    41 ItemNewLine Token;
    42 TokenCommandSym Token;
    43 ItemCmd Node;
    44 ItemEnv Node;
    45 ItemTypstCode Node;
}

impl Kind {
    /// Whether a node may be of it; of `TokenError` a token may be too.
    pub fn is_node(self) -> bool {
        self.sort() != Sort::Token
    }

    /// Whether a token may be of it; of `TokenError` a node may be too.
    pub fn is_token(self) -> bool {
        self.sort() != Sort::Node
    }
}

impl fmt::Display for Kind {
    fn fmt(&self, f: &mut fmt::Formatter<'_>) -> fmt::Result {
        f.pad(self.name())
    }
}

impl TryFrom<u8> for Kind {
    type Error = UnknownKind;

    fn try_from(number: u8) -> Result<Self, UnknownKind> {
        let at = usize::from(number).checked_sub(1);
        let kind = at.and_then(|at| Kind::ALL.get(at));
        kind.copied().ok_or(UnknownKind(number))
    }
}

/// A number that no [`Kind`] has.
#[derive(Debug, Clone, Copy, PartialEq, Eq, Hash)]
pub struct UnknownKind(pub u8);

impl fmt::Display for UnknownKind {
    fn fmt(&self, f: &mut fmt::Formatter<'_>) -> fmt::Result {
        write!(f, "{} is no kind: kinds have the numbers 1 to 45", self.0)
    }
}

impl Error for UnknownKind {}

/// The kind of a name.
impl FromStr for Kind {
    type Err = UnknownName;

    fn from_str(name: &str) -> Result<Self, UnknownName> {
        let kind = Kind::ALL.into_iter().find(|kind| kind.name() == name);
        kind.ok_or_else(|| UnknownName(name.to_owned()))
    }
}

/// A name that no [`Kind`] has.
#[derive(Debug, Clone, PartialEq, Eq, Hash)]
pub struct UnknownName(pub String);

impl fmt::Display for UnknownName {
    fn fmt(&self, f: &mut fmt::Formatter<'_>) -> fmt::Result {
        write!(f, "{:?} is no kind's name", self.0)
    }
}

impl Error for UnknownName {}

#[cfg(test)]
mod tests {
    use super::*;
    use crate::raw::{self, WRITER_STATE};

    #[test]
    fn each_number_and_name_has_its_kind() {
        for (at, kind) in Kind::ALL.into_iter().enumerate() {
            assert_eq!(kind as usize, at + 1);
            assert_eq!(Kind::try_from(kind as u8), Ok(kind));
            assert_eq!(kind.to_string(), format!("{kind:?}"));
            assert_eq!(kind.name().parse(), Ok(kind));
        }
        for number in [0, 46, 255] {
            assert_eq!(Kind::try_from(number), Err(UnknownKind(number)));
        }
        for name in ["", "tokenword", "TokenWord ", "15"] {
            assert_eq!(name.parse::<Kind>(), Err(UnknownName(name.to_owned())));
        }
    }

    /// The library's answer to a step under an open root.
    fn under_root(step: impl Fn(&mut [u64], &mut [u8]) -> u8) -> u8 {
        let (mut state, mut buffer) = ([0; WRITER_STATE], [0; 100]);
        assert_eq!(raw::writer_open(&mut state, &mut buffer, 4), 0);
        step(&mut state, &mut buffer)
    }

    #[test]
    fn the_library_has_the_same_nodes_and_tokens() {
        let answer = |fits| if fits { 0 } else { 16 };
        for number in 0..=255 {
            let kind = Kind::try_from(number);
            let node = under_root(|state, buffer| raw::writer_open(state, buffer, number));
            assert_eq!(node, answer(kind.is_ok_and(Kind::is_node)), "{number}");
            let token = under_root(|state, buffer| raw::writer_token(state, buffer, number, b"a"));
            assert_eq!(token, answer(kind.is_ok_and(Kind::is_token)), "{number}");
        }
    }

    #[test]
    fn the_header_has_the_same_kinds() {
        let header = include_str!("../../../include/zaldrume.h");
        let lines = header.lines().map(str::trim_start);
        let listed = lines.filter(|line| line.starts_with("ZALDRUME_KIND_"));
        let listed: Vec<_> = listed.map(|line| line.replace([',', ' '], "")).collect();
        let expected = Kind::ALL.map(|kind| {
            let sort = match kind.sort() {
                Sort::Node => "node",
                Sort::Token => "token",
                Sort::Either => "either",
            };
            format!("ZALDRUME_KIND_{kind}={}/*{sort}*/", kind as u8)
        });
        assert_eq!(listed, expected);
    }
}
