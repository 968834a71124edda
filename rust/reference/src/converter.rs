//! The conversion: what is written for each element, and the state that goes along.

use crate::ledger::{Carry, LABEL_MOST};
use crate::rules::{Class, Feature, Rule, Rules};
use crate::tree::{Element, Kind};
use crate::Refused;

#[derive(Debug, Clone, Copy, PartialEq, Eq)]
pub enum Mode {
    Text,
    Math,
}

#[derive(Debug, Clone, Copy, PartialEq, Eq)]
enum Env {
    None,
    Figure,
    Table,
    Itemize,
    Enumerate,
    Math,
    Matrix,
    Cases,
    SubStack,
    MathCurlyGroup,
}

impl Env {
    fn is_list(self) -> bool {
        matches!(self, Env::Itemize | Env::Enumerate)
    }
}

/// Text that is kept as far as there is room; past that only its length is counted.
#[derive(Debug)]
pub struct Output {
    pub bytes: Vec<u8>,
    pub length: usize,
    room: usize,
}

impl Output {
    pub fn new(room: usize) -> Self {
        Output {
            bytes: Vec::new(),
            length: 0,
            room,
        }
    }

    pub fn put(&mut self, text: impl AsRef<[u8]>) {
        let text = text.as_ref();
        self.length += text.len();
        if self.length <= self.room {
            self.bytes.extend_from_slice(text);
        }
    }

    fn spaces(&mut self, count: usize) {
        for _ in 0..count {
            self.put(" ");
        }
    }
}

type Done = Result<(), Refused>;

/// The converter of one document, block after block.
pub struct Converter<'a> {
    rules: &'a Rules<'a>,
    mode: Mode,
    env: Env,
    indent: usize,
    pub carry: Carry,
    pub out: Output,
}

impl<'a> Converter<'a> {
    /// A converter that stands in the root, with a carry.
    pub fn new(rules: &'a Rules<'a>, mode: Mode, carry: Carry, out: Output) -> Self {
        Converter {
            rules,
            mode,
            env: Env::None,
            indent: 0,
            carry,
            out,
        }
    }

    fn in_mode(&mut self, mode: Mode, inside: impl FnOnce(&mut Self) -> Done) -> Done {
        let before = std::mem::replace(&mut self.mode, mode);
        inside(self)?;
        self.mode = before;
        Ok(())
    }

    fn in_env(&mut self, env: Env, inside: impl FnOnce(&mut Self) -> Done) -> Done {
        let before = (self.env, self.indent);
        self.env = env;
        if env.is_list() {
            self.indent += 2;
        }
        inside(self)?;
        (self.env, self.indent) = before;
        Ok(())
    }

    fn all<'e, 't: 'e>(&mut self, elements: impl IntoIterator<Item = &'e Element<'t>>) -> Done {
        elements
            .into_iter()
            .try_for_each(|element| self.convert(element))
    }

    pub fn convert(&mut self, element: &Element) -> Done {
        use Kind::*;
        if element.kind != TokenWhiteSpace {
            self.carry.flag = false;
        }
        let fixed = match element.kind {
            TokenError | ClauseCommandName | ItemBegin | ItemEnd => {
                return Err(Refused::new(7, element.row));
            }
            ItemLR | ClauseArgument | ScopeRoot | ItemText | ItemBracket | ItemParen => {
                return self.all(element.children());
            }
            ItemFormula => return self.formula(element),
            ItemCurly => return self.curly_group(element),
            ClauseLR => return self.clause_lr(element),
            ItemAttachComponent => return self.attach_component(element),
            TokenCommandSym => return self.command_symbol(element),
            ItemCmd => return self.command(element),
            ItemEnv => return self.environment(element),
            TokenWord if self.mode == Mode::Math => {
                for c in element.text.chars() {
                    self.out.put(c.encode_utf8(&mut [0; 4]));
                    self.out.put(" ");
                }
                ""
            }
            TokenWhiteSpace => {
                let skipped = std::mem::take(&mut self.carry.flag);
                if skipped {
                    ""
                } else {
                    element.text
                }
            }
            TokenLineBreak => {
                self.out.put(element.text);
                self.out.spaces(self.indent);
                self.carry.flag = true;
                ""
            }
            TokenWord | ItemTypstCode => element.text,
            TokenLBrace | TokenRBrace | TokenDollar | TokenBeginMath | TokenEndMath
            | TokenComment | ItemBlockComment => "",
            TokenApostrophe => "'",
            TokenComma => "\\,",
            TokenSlash => "\\/",
            TokenCaret => "\\^",
            TokenUnderscore => "\\_",
            TokenHash => "\\#",
            TokenAsterisk => "\\*",
            TokenAtSign => "\\@",
            TokenDitto => "\\\"",
            TokenSemicolon => "\\;",
            TokenLParen => "\\(",
            TokenRParen => "\\)",
            TokenLBracket => "\\[",
            TokenRBracket => "\\]",
            TokenTilde if self.mode == Mode::Math => "space.nobreak ",
            TokenTilde => "\\~",
            TokenAmpersand if self.env == Env::Matrix => "zws ,",
            TokenAmpersand => "&",
            ItemNewLine => match self.env {
                Env::Matrix => "zws ;",
                Env::Cases => ",",
                Env::MathCurlyGroup => "",
                _ => "\\ ",
            },
        };
        self.out.put(fixed);
        Ok(())
    }

    /// `$x$`, `$$x$$`, `\(x\)` and `\[x\]`.
    fn formula(&mut self, element: &Element) -> Done {
        let inline = match formula_ends(element) {
            Some(("$", "$") | ("\\(", "\\)")) => true,
            Some(("$$", "$$") | ("\\[", "\\]")) => false,
            _ => return Err(Refused::new(8, element.row)),
        };
        let (before, behind) = match (self.mode, inline) {
            (Mode::Math, _) => ("", ""),
            (Mode::Text, true) => ("#math.equation(block: false, $", "$);"),
            (Mode::Text, false) => ("$ ", " $"),
        };
        self.out.put(before);
        self.in_mode(Mode::Math, |this| this.all(element.children()))?;
        self.out.put(behind);
        Ok(())
    }

    /// `{abc}`
    fn curly_group(&mut self, element: &Element) -> Done {
        use Kind::*;
        if self.mode == Mode::Text {
            return self.all(element.children());
        }
        let env = match self.env {
            Env::SubStack => Env::SubStack,
            _ => Env::MathCurlyGroup,
        };
        self.in_env(env, |this| this.all(element.children()))?;
        let blank = |child: &Element| {
            matches!(
                child.kind,
                TokenWhiteSpace | TokenLineBreak | TokenLBrace | TokenRBrace
            )
        };
        if element.children().iter().all(blank) {
            self.out.put("zws ");
        }
        Ok(())
    }

    /// `\left(` and `\right)`
    fn clause_lr(&mut self, element: &Element) -> Done {
        let [name, rest @ ..] = element.children() else {
            unreachable!("a ClauseLR has a first child")
        };
        if name.text == "\\left" {
            self.out.put("lr(");
        }
        for child in rest {
            if !(child.is_token() && child.kind == Kind::TokenWord && child.text == ".") {
                self.convert(child)?;
            }
            self.out.put(" ");
        }
        if name.text == "\\right" {
            self.out.put(")");
        }
        Ok(())
    }

    /// `x_1^2`
    fn attach_component(&mut self, element: &Element) -> Done {
        let children = element.children();
        let split = children
            .iter()
            .position(|child| matches!(child.kind, Kind::TokenUnderscore | Kind::TokenCaret));
        let (Mode::Math, Some(split)) = (self.mode, split) else {
            return self.all(children);
        };
        let (base, attached) = (&children[..split], &children[split + 1..]);
        self.all(base)?;
        if base.iter().all(|child| child.kind == Kind::TokenWhiteSpace) {
            self.out.put("zws");
        }
        self.out.put(children[split].text);
        self.out.put("(");
        self.all(attached)?;
        self.out.put(")");
        Ok(())
    }

    /// `\alpha`
    fn command_symbol(&mut self, element: &Element) -> Done {
        let name = &element.text.as_bytes()[1..];
        let rule = self
            .rules
            .command(name)
            .ok_or(Refused::new(9, element.row))?;
        self.out.put(rule.alias.unwrap_or(name));
        Ok(())
    }

    fn command(&mut self, element: &Element) -> Done {
        match bare_name(element) {
            "item" => self.item(element),
            "label" => self.label(element),
            "includegraphics" => {
                self.picture(element);
                Ok(())
            }
            "array" => Ok(()),
            "color" => self.color(element),
            "textcolor" | "colorbox" => self.colored_text(element),
            _ => self.normal_command(element),
        }
    }

    fn item(&mut self, element: &Element) -> Done {
        let mark = match self.env {
            Env::Itemize => "- ",
            Env::Enumerate => "+ ",
            _ => return Err(Refused::new(11, element.row)),
        };
        self.out.put("\n");
        self.out.spaces(self.indent - 2);
        self.out.put(mark);
        Ok(())
    }

    fn label(&mut self, element: &Element) -> Done {
        let label = element.arguments().next().and_then(Element::inner_text);
        let label = label.expect("a label has an argument with ends").trim();
        if self.env == Env::None || self.env.is_list() {
            if self.mode == Mode::Text {
                self.put_label(label.as_bytes());
            }
        } else if label.len() > LABEL_MOST {
            return Err(Refused::new(14, element.row));
        } else {
            self.carry.label = Some(label.into());
        }
        Ok(())
    }

    fn put_label(&mut self, label: &[u8]) {
        self.out.put("<");
        self.out.put(label);
        self.out.put(">");
    }

    /// `\includegraphics[width=0.5\textwidth]{example-image}`
    fn picture(&mut self, element: &Element) {
        let inner = |kind| {
            element
                .argument_of(kind)
                .and_then(Element::inner_text)
                .map(str::trim)
        };
        self.out.put("#image(");
        for option in inner(Kind::ItemBracket)
            .into_iter()
            .flat_map(|options| options.split(','))
        {
            let words: Vec<_> = option.split('=').map(str::trim).collect();
            let (key, value) = match words[..] {
                [key, value] => (key, value),
                _ => (words[0], ""),
            };
            if key != "width" && key != "height" {
                continue;
            }
            self.out.put(key);
            self.out.put(": ");
            let share = ["\\textwidth", "\\textheight"]
                .into_iter()
                .find(|end| value.ends_with(end));
            self.out
                .put(share.map_or(value, |end| value.trim_end_matches(end)));
            self.out
                .put(if share.is_some() { " * 100%, " } else { ", " });
        }
        self.out.put("\"");
        self.out
            .put(inner(Kind::ItemCurly).expect("a picture has a path"));
        self.out.put("\")");
    }

    /// `\color[rgb]{..} body`: all in its first argument.
    fn color(&mut self, element: &Element) -> Done {
        let argument = element.arguments().next().expect("a color has an argument");
        let mut rest = argument.children();
        skip_trivia(&mut rest);
        let mut model = None;
        if let Some((Kind::TokenLBracket, behind)) = first_kind(rest) {
            let end = behind
                .iter()
                .position(|child| child.kind == Kind::TokenRBracket);
            let (inside, behind) = behind.split_at(end.unwrap_or(behind.len()));
            model = Some(inside.iter().map(|child| child.text).collect::<String>());
            rest = behind.get(1..).unwrap_or_default();
            skip_trivia(&mut rest);
        }
        let body = rest.get(1..).unwrap_or_default();
        self.write_color(element, model.as_deref(), rest.first(), body)
    }

    /// `\textcolor[rgb]{..}{body}` and `\colorbox`.
    fn colored_text(&mut self, element: &Element) -> Done {
        let mut arguments = element.arguments().peekable();
        let model = arguments
            .next_if(|first| {
                first.text.len() >= 2 && first.text.starts_with('[') && first.text.ends_with(']')
            })
            .map(|first| &first.text[1..first.text.len() - 1]);
        let color = arguments.next();
        self.write_color(element, model, color, arguments)
    }

    fn write_color<'e, 't: 'e>(
        &mut self,
        command: &Element,
        model: Option<&str>,
        color: Option<&Element>,
        body: impl IntoIterator<Item = &'e Element<'t>>,
    ) -> Done {
        let rule = self.rules.command(bare_name(command).as_bytes());
        self.out
            .put(rule.and_then(|rule| rule.alias).unwrap_or(b"mitexcolor"));
        match model {
            Some(model) => self.out.put(format!("([{model}], [")),
            None => self.out.put("(none, ["),
        }
        match color {
            Some(color) => self.in_mode(Mode::Text, |this| this.convert(color))?,
            None => self.out.put("black"),
        }
        self.out.put("])[");
        let dollar = if self.mode == Mode::Math { "$" } else { "" };
        for element in body {
            self.out.put(dollar);
            self.convert(element)?;
            self.out.put(dollar);
        }
        self.out
            .put(if self.mode == Mode::Math { "]" } else { "];" });
        Ok(())
    }

    fn normal_command(&mut self, element: &Element) -> Done {
        let name = bare_name(element).as_bytes();
        let rule = self
            .rules
            .command(name)
            .ok_or(Refused::new(9, element.row))?;
        let written: &[u8] = match (self.mode, name) {
            (Mode::Text, b"textbf") => b"#strong",
            (Mode::Text, b"textit") => b"#emph",
            _ => rule.alias.unwrap_or(name),
        };
        self.out.put(written);
        if written == b"substack" {
            self.in_env(Env::SubStack, |this| {
                this.command_arguments(element, rule, written)
            })
        } else {
            self.command_arguments(element, rule, written)
        }
    }

    fn command_arguments(&mut self, element: &Element, rule: Rule, written: &[u8]) -> Done {
        let behind_name: Vec<_> = element
            .children()
            .iter()
            .filter(|child| child.kind != Kind::ClauseCommandName)
            .collect();
        match rule.class {
            Class::Plain => self.out.put(" "),
            Class::Greedy => {
                let first = behind_name.first().filter(|first| !first.is_token());
                let taken = first.ok_or(Refused::new(12, element.row))?.children();
                self.call(taken.iter().collect(), Kind::ItemCurly)?;
            }
            _ if self.mode == Mode::Math && !written.starts_with(b"#") => {
                self.call(behind_name, Kind::ClauseArgument)?;
            }
            _ => {
                for argument in element.arguments() {
                    self.out.put("[");
                    self.in_mode(Mode::Text, |this| this.convert(argument))?;
                    self.out.put("]");
                }
                self.out.put(";");
            }
        }
        Ok(())
    }

    /// `(a,b)`: a comma after each element of a kind but the last.
    fn call(&mut self, elements: Vec<&Element>, kind: Kind) -> Done {
        self.out.put("(");
        for (i, element) in elements.iter().enumerate() {
            self.convert(element)?;
            if element.kind == kind && i + 1 < elements.len() {
                self.out.put(",");
            }
        }
        self.out.put(")");
        Ok(())
    }

    fn environment(&mut self, element: &Element) -> Done {
        let name = element
            .environment_name()
            .expect("an environment has a name")
            .trim()
            .as_bytes();
        let (alias, feature) = self
            .rules
            .environment(name)
            .ok_or(Refused::new(10, element.row))?;
        let written = alias.unwrap_or(name);
        match feature {
            Feature::Itemize => return self.in_env(Env::Itemize, |this| this.body(element)),
            Feature::Enumerate => return self.in_env(Env::Enumerate, |this| this.body(element)),
            Feature::Math => self.math_environment(element, Env::Math, written)?,
            Feature::Matrix => self.math_environment(element, Env::Matrix, written)?,
            Feature::Cases => self.math_environment(element, Env::Cases, written)?,
            Feature::Figure => self.figure(element, written)?,
            Feature::Table => self.table(element, written)?,
            Feature::None => {
                self.out.put("#");
                self.out.put(written);
                self.out.put("[");
                self.in_env(Env::None, |this| this.body(element))?;
                self.out.put("];");
            }
        }
        if self.mode == Mode::Text {
            if let Some(label) = self.carry.label.take() {
                self.put_label(&label);
            }
        }
        Ok(())
    }

    /// What stands in an environment beside its begins and ends.
    fn body(&mut self, element: &Element) -> Done {
        self.all(inside(element))
    }

    /// `mat(a, b; c, d)`
    fn math_environment(&mut self, element: &Element, env: Env, written: &[u8]) -> Done {
        let (before, behind) = match self.mode {
            Mode::Text => ("$ ", " $"),
            Mode::Math => ("", ""),
        };
        self.out.put(before);
        self.out.put(written);
        self.out.put("(");
        self.in_mode(Mode::Math, |this| {
            this.in_env(env, |this| {
                let begin = element.begin().expect("an environment has a begin");
                for (i, argument) in begin.arguments().enumerate() {
                    this.out.put(format!("arg{i}: "));
                    this.convert(argument)?;
                    this.out.put(",");
                }
                this.body(element)
            })
        })?;
        self.out.put(")");
        self.out.put(behind);
        Ok(())
    }

    fn figure(&mut self, element: &Element, written: &[u8]) -> Done {
        let name_of = |child: &Element| match child.kind {
            Kind::ItemCmd => Some(bare_name(child).to_owned()),
            _ => None,
        };
        let mut caption = None;
        for child in element.children() {
            if name_of(child).as_deref() == Some("caption") {
                caption = Some(
                    child
                        .arguments()
                        .next()
                        .ok_or(Refused::new(12, child.row))?,
                );
            }
        }
        self.out.put("#");
        self.out.put(written);
        self.out.put("(");
        self.in_env(Env::Figure, |this| {
            if let Some(caption) = caption {
                this.out.put("caption: [");
                this.convert(caption)?;
                this.out.put("],");
            }
            this.out.put(")[");
            let named = |child: &Element| {
                matches!(name_of(child).as_deref(), Some("caption" | "centering"))
            };
            this.all(inside(element).filter(|child| !named(child)))
        })?;
        self.out.put("];");
        Ok(())
    }

    fn table(&mut self, element: &Element, written: &[u8]) -> Done {
        let argument = element.begin().and_then(|begin| begin.arguments().next());
        let columns = argument
            .and_then(Element::inner_text)
            .ok_or(Refused::new(12, element.row))?;
        let mut aligns = Vec::new();
        let mut lines = Vec::new();
        for letter in columns.trim().chars() {
            match letter {
                'l' => aligns.push("left, "),
                'c' => aligns.push("center, "),
                'r' => aligns.push("right, "),
                '|' => lines.push(aligns.len()),
                _ => return Err(Refused::new(13, element.row)),
            }
        }
        self.out.put("#");
        self.out.put(written);
        self.out.put(format!(
            "(stroke: none,\ncolumns: {},\nalign: (",
            aligns.len()
        ));
        aligns.iter().for_each(|align| self.out.put(align));
        self.out.put("),\n");
        for line in lines {
            self.out
                .put(format!("table.vline(stroke: .5pt, x: {line}), "));
        }
        self.out.put("\n");
        self.in_env(Env::Table, |this| this.cells(element))?;
        self.out.put(");");
        Ok(())
    }

    fn cells(&mut self, element: &Element) -> Done {
        use Kind::*;
        let mut open = false;
        for child in inside(element) {
            match (child.kind, open) {
                (TokenAmpersand, true) => self.out.put("], "),
                (TokenAmpersand, false) => self.out.put("[], "),
                (ItemNewLine, true) => self.out.put("],\n"),
                (ItemNewLine, false) => self.out.put("[],\n"),
                (TokenWhiteSpace | TokenLineBreak, false) => continue,
                (ItemCmd, false) if rule_width(child).is_some() => {
                    let width = rule_width(child).unwrap_or_default();
                    self.out.put(format!("table.hline(stroke: {width}),\n"));
                }
                _ => {
                    if !open {
                        self.out.put("[");
                        open = true;
                    }
                    self.convert(child)?;
                    continue;
                }
            }
            open = false;
        }
        if open {
            self.out.put("],\n");
        }
        Ok(())
    }
}

/// The texts of a formula's first and last token, where their kinds match.
fn formula_ends<'a>(element: &Element<'a>) -> Option<(&'a str, &'a str)> {
    let (first, last) = (element.first_token()?, element.last_token()?);
    let matching = matches!(
        (first.kind, last.kind),
        (Kind::TokenDollar, Kind::TokenDollar) | (Kind::TokenBeginMath, Kind::TokenEndMath)
    );
    matching.then_some((first.text, last.text))
}

/// A command's name without its backslash.
fn bare_name<'a>(element: &Element<'a>) -> &'a str {
    &element.command_name().expect("a command has a name")[1..]
}

/// The children of an environment but its begins and ends.
fn inside<'e, 'a>(element: &'e Element<'a>) -> impl Iterator<Item = &'e Element<'a>> {
    element
        .children()
        .iter()
        .filter(|child| !matches!(child.kind, Kind::ItemBegin | Kind::ItemEnd))
}

/// How thick a rule command of a table draws.
fn rule_width(element: &Element) -> Option<&'static str> {
    match bare_name(element) {
        "hline" | "midrule" => Some(".5pt"),
        "toprule" | "bottomrule" => Some("1pt"),
        _ => None,
    }
}

fn skip_trivia(elements: &mut &[Element]) {
    while let [first, rest @ ..] = *elements {
        if !first.kind.is_trivia() {
            break;
        }
        *elements = rest;
    }
}

/// The kind of the first element, and those after it.
fn first_kind<'e, 'a>(elements: &'e [Element<'a>]) -> Option<(Kind, &'e [Element<'a>])> {
    let (first, rest) = elements.split_first()?;
    Some((first.kind, rest))
}
