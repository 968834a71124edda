//! The rule file: what commands and environments are called in Typst.

use std::collections::HashMap;

use crate::parts;

/// An alias length that says that there is no alias.
const NO_ALIAS: usize = 65_535;

/// What a rule says of a name.
#[derive(Debug, Clone, Copy, PartialEq, Eq)]
pub enum Class {
    /// `Right` and `None`: a symbol.
    Plain,
    /// `Right` and `Greedy`: takes what follows.
    Greedy,
    /// Any other command.
    Command,
    Environment(Feature),
}

/// `ContextFeature`.
#[derive(Debug, Clone, Copy, PartialEq, Eq)]
pub enum Feature {
    None,
    Math,
    Matrix,
    Cases,
    Figure,
    Table,
    Itemize,
    Enumerate,
}

impl Class {
    fn of(number: u8) -> Option<Class> {
        Some(match number {
            0 => Class::Plain,
            1 => Class::Greedy,
            2 => Class::Command,
            3 => Class::Environment(Feature::None),
            4 => Class::Environment(Feature::Math),
            5 => Class::Environment(Feature::Matrix),
            6 => Class::Environment(Feature::Cases),
            7 => Class::Environment(Feature::Figure),
            8 => Class::Environment(Feature::Table),
            9 => Class::Environment(Feature::Itemize),
            10 => Class::Environment(Feature::Enumerate),
            _ => return None,
        })
    }
}

#[derive(Debug, Clone, Copy)]
pub struct Rule<'a> {
    pub alias: Option<&'a [u8]>,
    pub class: Class,
}

#[derive(Debug, Default)]
pub struct Rules<'a>(HashMap<&'a [u8], Rule<'a>>);

impl<'a> Rules<'a> {
    /// Check 2.
    pub fn parse(file: &'a [u8]) -> Option<Self> {
        let (mut area, rows) = parts(file)?;
        let mut rules = HashMap::with_capacity(rows.len() / 8);
        let mut last: Option<&[u8]> = None;
        for row in rows.chunks_exact(8) {
            let name = take_text(&mut area, u16::from_le_bytes([row[0], row[1]]).into())?;
            let alias = match u16::from_le_bytes([row[2], row[3]]).into() {
                NO_ALIAS => None,
                size => Some(take_text(&mut area, size)?),
            };
            let class = Class::of(row[4])?;
            if row[5..] != [0; 3] || last.is_some_and(|last| last >= name) {
                return None;
            }
            last = Some(name);
            rules.insert(name, Rule { alias, class });
        }
        area.is_empty().then_some(Rules(rules))
    }

    pub fn command(&self, name: &[u8]) -> Option<Rule<'a>> {
        let rule = *self.0.get(name)?;
        (!matches!(rule.class, Class::Environment(_))).then_some(rule)
    }

    pub fn environment(&self, name: &[u8]) -> Option<(Option<&'a [u8]>, Feature)> {
        let rule = self.0.get(name)?;
        match rule.class {
            Class::Environment(feature) => Some((rule.alias, feature)),
            _ => None,
        }
    }
}

/// The next text of an area, where it is there and UTF-8.
fn take_text<'a>(area: &mut &'a [u8], size: usize) -> Option<&'a [u8]> {
    let (text, rest) = area.split_at_checked(size)?;
    *area = rest;
    std::str::from_utf8(text).ok()?;
    Some(text)
}
