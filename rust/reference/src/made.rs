//! Made inputs: documents like LaTeX and odd ones, rules, damaged files, ledgers from nowhere.

use crate::ledger::{Carry, Row};
use crate::tree::Kind::{self, *};
use crate::{LABEL_MOST, ROW_SIZE};

/// Numbers from a seed (SplitMix64).
#[derive(Debug, Clone)]
pub struct Random(u64);

impl Random {
    pub fn new(seed: u64) -> Self {
        Random(seed)
    }

    pub fn number(&mut self) -> u64 {
        self.0 = self.0.wrapping_add(0x9e37_79b9_7f4a_7c15);
        let mut z = self.0;
        z = (z ^ (z >> 30)).wrapping_mul(0xbf58_476d_1ce4_e5b9);
        z = (z ^ (z >> 27)).wrapping_mul(0x94d0_49bb_1331_11eb);
        z ^ (z >> 31)
    }

    /// A number below `most`, which is not 0.
    pub fn below(&mut self, most: usize) -> usize {
        (self.number() % most as u64) as usize
    }

    /// True in so many of a thousand cases.
    pub fn chance(&mut self, per_thousand: usize) -> bool {
        self.below(1000) < per_thousand
    }

    pub fn pick<'a, T>(&mut self, from: &'a [T]) -> &'a T {
        &from[self.below(from.len())]
    }

    pub fn bytes(&mut self, count: usize) -> Vec<u8> {
        (0..count).map(|_| self.number() as u8).collect()
    }
}

/// An element of a made tree.
#[derive(Debug, Clone)]
pub enum Made {
    Node(Kind, Vec<Made>),
    Token(Kind, String),
}

pub fn token(kind: Kind, text: impl Into<String>) -> Made {
    Made::Token(kind, text.into())
}

pub fn node(kind: Kind, children: Vec<Made>) -> Made {
    Made::Node(kind, children)
}

impl Made {
    /// How many bytes of a tree file it takes, those of its texts and its rows.
    pub fn size(&self) -> usize {
        8 + match self {
            Made::Token(_, text) => text.len(),
            Made::Node(_, children) => children.iter().map(Made::size).sum(),
        }
    }

    fn add_rows(&self, text: &mut Vec<u8>, rows: &mut Vec<[u8; 8]>) {
        let at = rows.len();
        let (kind, is_token, size) = match self {
            Made::Token(kind, own) => {
                text.extend_from_slice(own.as_bytes());
                rows.push([0; 8]);
                (*kind, 1, own.len())
            }
            Made::Node(kind, children) => {
                rows.push([0; 8]);
                children.iter().for_each(|child| child.add_rows(text, rows));
                (*kind, 0, rows.len() - at - 1)
            }
        };
        rows[at][0] = kind as u8;
        rows[at][1] = is_token;
        rows[at][4..].copy_from_slice(&(size as u32).to_le_bytes());
    }
}

/// The tree file of a document's blocks; it may be longer than a file may be.
pub fn tree_file(blocks: &[Made]) -> Vec<u8> {
    let mut text = Vec::new();
    let mut rows = Vec::new();
    node(ScopeRoot, blocks.to_vec()).add_rows(&mut text, &mut rows);
    assemble(text, &rows)
}

/// A rule: its name, alias and class.
pub type MadeRule = (String, Option<String>, u8);

/// The rule file of rules, which stand in the order of their names where it is to be accepted.
pub fn rule_file(rules: &[MadeRule]) -> Vec<u8> {
    let mut text = Vec::new();
    let mut rows = Vec::new();
    for (name, alias, class) in rules {
        text.extend_from_slice(name.as_bytes());
        text.extend_from_slice(alias.as_deref().unwrap_or_default().as_bytes());
        let [a, b] = (name.len() as u16).to_le_bytes();
        let alias = alias.as_ref().map_or(u16::MAX, |alias| alias.len() as u16);
        let [c, d] = alias.to_le_bytes();
        rows.push([a, b, c, d, *class, 0, 0, 0]);
    }
    assemble(text, &rows)
}

fn assemble(mut file: Vec<u8>, rows: &[[u8; 8]]) -> Vec<u8> {
    let start = file.len() as u32;
    file.extend_from_slice(rows.as_flattened());
    file.extend_from_slice(&start.to_le_bytes());
    file.extend_from_slice(&(rows.len() as u32).to_le_bytes());
    file
}

/// Names with their usual classes.
const NAMES: [(&str, u8); 43] = [
    ("", 0),
    ("alpha", 0),
    ("beta", 0),
    ("dots", 0),
    ("quad", 0),
    ("é", 0),
    ("displaystyle", 1),
    ("over", 1),
    ("rm", 1),
    ("frac", 2),
    ("sqrt", 2),
    ("textbf", 2),
    ("textit", 2),
    ("textrm", 2),
    ("substack", 2),
    ("section", 2),
    ("hline", 2),
    ("toprule", 2),
    ("midrule", 2),
    ("bottomrule", 2),
    ("caption", 2),
    ("centering", 2),
    ("color", 2),
    ("textcolor", 2),
    ("colorbox", 2),
    ("item", 2),
    ("label", 2),
    ("includegraphics", 2),
    ("array", 2),
    ("left", 2),
    ("quote", 3),
    ("abstract", 3),
    ("center", 3),
    ("equation", 4),
    ("align", 4),
    ("matrix", 5),
    ("pmatrix", 5),
    ("cases", 6),
    ("figure", 7),
    ("tabular", 8),
    ("itemize", 9),
    ("enumerate", 10),
    ("nowhere", 11),
];

const ALIASES: [&str; 9] = [
    "",
    "#x",
    "substack",
    "f",
    "mitexsqrt",
    "#text",
    "日本",
    "a b",
    "table",
];
const WORDS: [&str; 16] = [
    "a", "x", "ab", "word", "Hello", "é", "日本", "𝔸b", "0.5", ".", "..", "=", "1", "l", "|",
    "\u{1c}",
];
const SPACES: [&str; 6] = [" ", "  ", "\t", "\u{a0}", "\u{3000} ", " \u{85}"];
const BREAKS: [&str; 3] = ["\n", "\r\n", "\n\n"];
const LABELS: [&str; 10] = [
    "{a}",
    "{ eq:1 }",
    "{}",
    "{ }",
    "[x]",
    "{\u{3000}é\u{2029}}",
    "ab",
    "{x",
    "x",
    "é}",
];
const OPTIONS: [&str; 12] = [
    "[width=0.5\\textwidth]",
    "[width=1cm, height = 2cm]",
    "[height=\\textheight\\textheight,angle=3]",
    "[width]",
    "[width=]",
    "[width=a=b]",
    "[]",
    "[ , ,]",
    "[width=x\\textheight\\textwidth]",
    "[width= \u{a0}3 \\textwidth ]",
    "[height=é]",
    "[",
];
const COLUMNS: [&str; 12] = [
    "{lcr}",
    "{|l|}",
    "{|c|c||r|}",
    "{}",
    "{ lc }",
    "{\u{2003}l\u{2003}}",
    "{l c}",
    "{x}",
    "{é}",
    "l",
    "{||}",
    "[r]",
];

const ODD_TEXTS: [&str; 11] = [
    "a", "\\", "\\item", "\\label", "$", "$$", ".", "é", "quote", "[", "\u{2003}",
];

/// Tokens whose text the lexer fixes.
const FIXED: [(Kind, &str); 23] = [
    (TokenApostrophe, "'"),
    (TokenComma, ","),
    (TokenSlash, "/"),
    (TokenCaret, "^"),
    (TokenUnderscore, "_"),
    (TokenHash, "#"),
    (TokenAsterisk, "*"),
    (TokenAtSign, "@"),
    (TokenDitto, "\""),
    (TokenSemicolon, ";"),
    (TokenLParen, "("),
    (TokenRParen, ")"),
    (TokenLBracket, "["),
    (TokenRBracket, "]"),
    (TokenTilde, "~"),
    (TokenAmpersand, "&"),
    (ItemNewLine, "\\\\"),
    (TokenLBrace, "{"),
    (TokenRBrace, "}"),
    (TokenDollar, "$"),
    (TokenBeginMath, "\\["),
    (TokenEndMath, "\\]"),
    (TokenComment, "% c"),
];

/// Makes documents that are like LaTeX, with faults and odd elements among them.
#[derive(Debug, Clone)]
pub struct Maker {
    pub random: Random,
    /// How many elements in a thousand are of any kind, over anything.
    pub odd: usize,
    /// Whether nothing is made that is refused.
    pub clean: bool,
}

impl Maker {
    pub fn new(seed: u64) -> Self {
        let mut random = Random::new(seed);
        let odd = *random.pick(&[0, 0, 0, 1, 5, 40, 300]);
        let clean = odd == 0 && random.chance(600);
        Maker { random, odd, clean }
    }

    /// The usual rules with some left out, with other classes, and with any aliases.
    pub fn rules(&mut self) -> Vec<u8> {
        let mut rules = Vec::new();
        for (name, class) in NAMES {
            if self.fault(30) || class > 10 {
                continue;
            }
            let class = match self.fault(15) {
                true => self.random.below(11) as u8,
                false => class,
            };
            let alias = self
                .random
                .chance(400)
                .then(|| (*self.random.pick(&ALIASES)).to_owned());
            rules.push((name.to_owned(), alias, class));
        }
        rules.sort();
        if self.fault(6) {
            // a name twice, or two in the wrong order
            let at = self.random.below(rules.len() - 1);
            match self.random.chance(500) {
                true => rules[at] = rules[at + 1].clone(),
                false => rules.swap(at, at + 1),
            }
        }
        rule_file(&rules)
    }

    /// A fault in so many of a thousand places.
    fn fault(&mut self, per_thousand: usize) -> bool {
        !self.clean && self.random.chance(per_thousand)
    }

    /// The blocks of a document.
    pub fn blocks(&mut self, count: usize, depth: usize) -> Vec<Made> {
        (0..count).map(|_| self.block(depth)).collect()
    }

    pub fn block(&mut self, depth: usize) -> Made {
        if self.random.chance(4) {
            return self.chain();
        }
        self.element(depth)
    }

    /// One node in the other, about as deep as rows may lie.
    fn chain(&mut self) -> Made {
        let kind = *self
            .random
            .pick(&[ItemCurly, ItemText, ItemBracket, ClauseArgument]);
        let deep = 58 + self.random.below(if self.clean { 5 } else { 8 });
        (0..deep).fold(token(TokenWord, "deep"), |inner, _| node(kind, vec![inner]))
    }

    fn some(&mut self, most: usize, depth: usize) -> Vec<Made> {
        let count = self.random.below(most + 1);
        (0..count).map(|_| self.element(depth)).collect()
    }

    fn text(&mut self, kind: Kind, from: &[&str]) -> Made {
        token(kind, *self.random.pick(from))
    }

    fn word(&mut self) -> Made {
        self.text(TokenWord, &WORDS)
    }

    fn fixed(&mut self) -> Made {
        let (kind, text) = *self.random.pick(&FIXED);
        token(kind, text)
    }

    fn element(&mut self, depth: usize) -> Made {
        if self.fault(self.odd) {
            return self.odd_element(depth);
        }
        let choice = self.random.below(if depth == 0 { 12 } else { 34 });
        match choice {
            0..=3 => self.word(),
            4..=6 => self.text(TokenWhiteSpace, &SPACES),
            7..=8 => self.text(TokenLineBreak, &BREAKS),
            9..=10 => self.fixed(),
            11 => {
                let name = format!("\\{}", NAMES[self.random.below(9)].0);
                token(TokenCommandSym, name)
            }
            12..=14 => self.formula(depth - 1),
            15..=17 => self.curly(depth - 1),
            18 => self.left_right(depth - 1),
            19..=20 => self.attached(depth - 1),
            21..=24 => self.command(depth - 1),
            25..=26 => self.label(),
            27 => self.picture(depth - 1),
            28 => self.colors(depth - 1),
            29..=32 => self.environment(depth - 1),
            _ => {
                let kind = *self.random.pick(&[
                    ItemText,
                    ItemBracket,
                    ItemParen,
                    ItemTypstCode,
                    ItemBlockComment,
                ]);
                node(kind, self.some(4, depth - 1))
            }
        }
    }

    /// Any kind over anything.
    fn odd_element(&mut self, depth: usize) -> Made {
        let kind = *self.random.pick(&Kind::ALL);
        let as_token = match (kind.may_be_node(), kind.may_be_token()) {
            (true, true) => self.random.chance(500),
            (_, may_be_token) => may_be_token,
        };
        if as_token {
            // a token with no text breaks the layout
            let text = match self.random.chance(20) {
                true => "",
                false => self.random.pick(&ODD_TEXTS),
            };
            return token(kind, text);
        }
        let children = match depth {
            0 => Vec::new(),
            _ => self.some(3, depth - 1),
        };
        node(kind, children)
    }

    fn formula(&mut self, depth: usize) -> Made {
        let ends = [
            (TokenDollar, "$", TokenDollar, "$"),
            (TokenDollar, "$$", TokenDollar, "$$"),
            (TokenBeginMath, "\\(", TokenEndMath, "\\)"),
            (TokenBeginMath, "\\[", TokenEndMath, "\\]"),
        ];
        let (first, opens, mut last, mut closes) = *self.random.pick(&ends);
        if self.fault(10) {
            (_, _, last, closes) = *self.random.pick(&ends);
        }
        let mut children = vec![token(first, opens)];
        children.extend(self.some(5, depth));
        if !self.fault(10) {
            children.push(token(last, closes));
        }
        node(ItemFormula, children)
    }

    fn curly(&mut self, depth: usize) -> Made {
        let mut children = vec![token(TokenLBrace, "{")];
        children.extend(self.some(4, depth));
        children.push(token(TokenRBrace, "}"));
        node(ItemCurly, children)
    }

    /// One element in braces, like `{x}`: a token but for faults.
    fn held(&mut self) -> Made {
        let inside = self.element(0);
        node(
            ItemCurly,
            vec![token(TokenLBrace, "{"), inside, token(TokenRBrace, "}")],
        )
    }

    fn argument(&mut self, depth: usize) -> Made {
        let inner = match self.random.below(8) {
            0 => {
                let mut children = vec![token(TokenLBracket, "[")];
                children.extend(self.some(3, depth));
                children.push(token(TokenRBracket, "]"));
                vec![node(ItemBracket, children)]
            }
            1 => self.some(3, depth),
            2 => vec![self.word()],
            3..=4 => vec![self.held()],
            _ => vec![self.curly(depth)],
        };
        node(ClauseArgument, inner)
    }

    fn arguments(&mut self, most: usize, depth: usize) -> Vec<Made> {
        let count = self.random.below(most + 1);
        (0..count).map(|_| self.argument(depth)).collect()
    }

    fn named(&mut self, name: &str, mut behind: Vec<Made>) -> Made {
        let at = match self.random.chance(100) {
            true => self.random.below(behind.len() + 1),
            false => 0,
        };
        behind.insert(at, token(ClauseCommandName, format!("\\{name}")));
        node(ItemCmd, behind)
    }

    fn command(&mut self, depth: usize) -> Made {
        let name = match self.random.chance(300) {
            true => self
                .random
                .pick(&["substack", "textbf", "displaystyle", "over", "array"]),
            false => self.random.pick(&NAMES[..22]).0,
        };
        let mut behind = self.arguments(3, depth);
        if self.clean && behind.is_empty() {
            behind.push(self.argument(depth));
        }
        if self.random.chance(200) {
            let first = usize::from(self.clean);
            let at = first + self.random.below(behind.len() + 1 - first);
            behind.insert(at, self.element(depth));
        }
        self.named(name, behind)
    }

    /// An argument that is one token over and over, so that its text is what is given.
    fn plain_argument(&mut self, text: &str, outer: Option<Kind>) -> Made {
        let word = token(TokenWord, text);
        node(
            ClauseArgument,
            vec![outer.map_or(word.clone(), |kind| node(kind, vec![word]))],
        )
    }

    fn label(&mut self) -> Made {
        let text = match self.random.below(12) {
            0 => {
                let most = if self.clean { 2 } else { 3 };
                format!(
                    "{{{}}}",
                    "l".repeat(LABEL_MOST - 1 + self.random.below(most))
                )
            }
            1 => format!("{{ {} }}", "é".repeat(LABEL_MOST / 2)),
            2 if !self.clean && self.odd > 0 => (*self.random.pick(&LABELS)).to_owned(),
            _ => (*self.random.pick(&LABELS[..7])).to_owned(),
        };
        let outer = self.random.chance(500).then_some(ItemCurly);
        let argument = self.plain_argument(&text, outer);
        let command = self.named("label", vec![argument]);
        match self.random.below(3) {
            0 => command,
            _ => node(
                ItemFormula,
                vec![
                    token(TokenDollar, "$"),
                    node(ItemCurly, vec![command]),
                    token(TokenDollar, "$"),
                ],
            ),
        }
    }

    fn picture(&mut self, depth: usize) -> Made {
        let path = *self.random.pick(&["{a.png}", "{ é }", "{}", "xy"]);
        let mut arguments = vec![self.plain_argument(path, Some(ItemCurly))];
        if self.random.chance(700) {
            let most = OPTIONS.len() - usize::from(self.clean || self.odd == 0);
            let options = *self.random.pick(&OPTIONS[..most]);
            let at = self.random.below(2);
            arguments.insert(at, self.plain_argument(options, Some(ItemBracket)));
        }
        if self.fault(self.odd) {
            arguments.push(self.argument(depth));
        }
        self.named("includegraphics", arguments)
    }

    fn colors(&mut self, depth: usize) -> Made {
        let name = *self
            .random
            .pick(&["color", "color", "textcolor", "colorbox"]);
        if name != "color" {
            let mut behind = self.arguments(3, depth);
            if self.random.chance(400) {
                behind.insert(0, self.plain_argument("[rgb]", Some(ItemBracket)));
            }
            return self.named(name, behind);
        }
        let mut inside = Vec::new();
        if self.random.chance(300) {
            inside.push(self.text(TokenWhiteSpace, &SPACES));
        }
        if self.random.chance(400) {
            inside.push(token(TokenLBracket, "["));
            inside.extend(self.some(2, depth));
            if !self.random.chance(200) {
                inside.push(token(TokenRBracket, "]"));
            }
        }
        inside.extend(self.some(4, depth));
        self.named(name, vec![node(ClauseArgument, inside)])
    }

    fn left_right(&mut self, depth: usize) -> Made {
        let mut side = |name: &str| {
            let mut children = vec![token(ClauseCommandName, name)];
            match self.random.below(4) {
                0 => children.push(token(TokenWord, ".")),
                1 => children.push(token(TokenLParen, "(")),
                2 => children.extend(self.some(2, depth)),
                _ => {}
            }
            node(ClauseLR, children)
        };
        let left = side("\\left");
        let right = side("\\right");
        let mut children = vec![left];
        children.extend(self.some(3, depth));
        children.push(right);
        node(ItemLR, children)
    }

    fn attached(&mut self, depth: usize) -> Made {
        // in two of five two words, like `x^2`
        let plain = self.random.chance(400);
        let mut children = match plain {
            true => vec![self.word()],
            false => self.some(2, depth),
        };
        let (kind, text) = *self
            .random
            .pick(&[(TokenCaret, "^"), (TokenUnderscore, "_")]);
        children.push(token(kind, text));
        match plain {
            true => children.push(self.word()),
            false => children.extend(self.some(3, depth)),
        }
        node(ItemAttachComponent, children)
    }

    fn environment(&mut self, depth: usize) -> Made {
        let (name, class) = *self.random.pick(&NAMES[30..42]);
        let name = match self.fault(8) {
            true => "nowhere",
            false => name,
        };
        let mut begin = vec![token(TokenCommandSym, name)];
        let mut body = Vec::new();
        match class {
            7 => {
                body = self.some(3, depth);
                for _ in 0..self.random.below(3) {
                    let caption = *self.random.pick(&["caption", "caption", "centering"]);
                    let behind = match self.fault(20) {
                        true => Vec::new(),
                        false => vec![self.argument(depth)],
                    };
                    let at = self.random.below(body.len() + 1);
                    body.insert(at, self.named(caption, behind));
                }
            }
            8 => {
                let most = if self.fault(30) { COLUMNS.len() } else { 6 };
                let columns = *self.random.pick(&COLUMNS[..most]);
                if !self.fault(10) {
                    begin.push(self.plain_argument(columns, Some(ItemCurly)));
                }
                for _ in 0..self.random.below(9) {
                    body.push(match self.random.below(6) {
                        0 => token(TokenAmpersand, "&"),
                        1 => token(ItemNewLine, "\\\\"),
                        2 => {
                            let name =
                                *self
                                    .random
                                    .pick(&["hline", "toprule", "midrule", "bottomrule"]);
                            self.named(name, Vec::new())
                        }
                        _ => self.element(depth),
                    });
                }
            }
            9 | 10 => {
                for _ in 0..self.random.below(4) {
                    body.push(self.named("item", Vec::new()));
                    body.extend(self.some(3, depth));
                }
            }
            _ => {
                begin.extend(self.arguments(2, depth));
                body = self.some(5, depth);
            }
        }
        let mut children = vec![node(ItemBegin, begin)];
        children.extend(body);
        if !self.random.chance(50) {
            children.push(node(ItemEnd, vec![token(TokenCommandSym, name)]));
        }
        node(ItemEnv, children)
    }

    /// A few bytes changed, or the file cut or made longer.
    pub fn damage(&mut self, file: &mut Vec<u8>) {
        match self.random.below(14) {
            0 => file.truncate(self.random.below(file.len() + 1)),
            1 => file.push(self.random.number() as u8),
            2 => file.clear(),
            3 if !file.is_empty() => {
                let at = self.random.below(file.len());
                file.remove(at);
            }
            // the trailer or the last row
            4 if file.len() >= 16 => {
                let at = file.len() - 1 - self.random.below(16);
                file[at] = self.small();
            }
            // another kind in the place of a row's
            5..=9 if file.len() >= 24 => {
                let kinds: Vec<_> = (2..file.len() / 8).map(|i| file.len() - 8 * i).collect();
                if !kinds.is_empty() {
                    let at = *self.random.pick(&kinds);
                    file[at] = self.random.below(46) as u8;
                }
            }
            // another letter in the text
            10..=12 => {
                let letters: Vec<_> = (0..file.len())
                    .filter(|&at| file[at].is_ascii_graphic())
                    .collect();
                if !letters.is_empty() {
                    let at = *self.random.pick(&letters);
                    file[at] = *self.random.pick(b"\\${}[].,=|lcr ");
                }
            }
            _ => {
                for _ in 0..1 + self.random.below(3) {
                    if !file.is_empty() {
                        let at = self.random.below(file.len());
                        file[at] = self.small();
                    }
                }
            }
        }
    }

    fn small(&mut self) -> u8 {
        match self.random.below(3) {
            0 => self.random.below(4) as u8,
            1 => self.random.below(46) as u8,
            _ => self.random.number() as u8,
        }
    }

    /// A ledger that fits a count of blocks and a kept length, whatever it says.
    pub fn ledger(&mut self, blocks: usize, kept: usize) -> Vec<u8> {
        let mut ends: Vec<_> = (0..blocks).map(|_| self.random.below(kept + 1)).collect();
        ends.sort_unstable();
        if let Some(last) = ends.last_mut() {
            *last = kept;
        }
        let mut ledger = Vec::with_capacity(blocks * ROW_SIZE);
        for end in ends {
            let label = match self.random.below(4) {
                0 => Some(b"a".to_vec()),
                1 => {
                    let size = *self.random.pick(&[0, 1, 7, LABEL_MOST]);
                    Some(self.random.bytes(size))
                }
                _ => None,
            };
            let carry = Carry {
                flag: self.random.chance(300),
                label,
            };
            ledger.extend_from_slice(&Row { end, carry }.encode());
        }
        ledger
    }
}
