//! Convert and the changes on the caller's bytes.

use crate::converter::{Converter, Mode, Output};
use crate::ledger::{self, Carry, Row, ROW_SIZE};
use crate::rules::Rules;
use crate::tree::{self, Element};
use crate::Refused;

/// A text buffer counts as at most so many bytes.
const TEXT_MOST: usize = u32::MAX as usize;

#[derive(Debug, Clone, Copy, PartialEq, Eq)]
pub struct Converted {
    pub length: usize,
    pub blocks: usize,
}

#[derive(Debug, Clone, Copy, PartialEq, Eq)]
pub struct Edited {
    pub length: usize,
    pub growth: i64,
    pub count: usize,
}

/// Checks 1 to 5.
fn open<'a>(
    mode: u8,
    rules: &'a [u8],
    tree: &'a [u8],
) -> Result<(Mode, Rules<'a>, Element<'a>), Refused> {
    let mode = match mode {
        0 => Mode::Text,
        1 => Mode::Math,
        _ => return Err(Refused::whole(1)),
    };
    let rules = Rules::parse(rules).ok_or(Refused::whole(2))?;
    Ok((mode, rules, tree::parse(tree)?))
}

/// Checks 1 to 5 alone; the count of blocks where they pass.
pub fn check(mode: u8, rules: &[u8], tree: &[u8]) -> Result<usize, Refused> {
    let (_, _, root) = open(mode, rules, tree)?;
    Ok(root.children().len())
}

/// A tree file converted from its start.
pub fn convert(
    mode: u8,
    rules: &[u8],
    tree: &[u8],
    text: &mut [u8],
    ledger: &mut [u8],
) -> Result<Converted, Refused> {
    let (mode, rules, root) = open(mode, rules, tree)?;
    let room = text.len().min(TEXT_MOST);
    let mut converter = Converter::new(&rules, mode, Carry::default(), Output::new(room));
    let mut rows = Vec::new();
    for block in root.children() {
        converter.convert(block)?;
        rows.push(Row {
            end: converter.out.length,
            carry: converter.carry.clone(),
        });
    }
    let Output { bytes, length, .. } = converter.out;
    if length > room || rows.len() * ROW_SIZE > ledger.len() {
        return Err(Refused::whole(15));
    }
    text[..length].copy_from_slice(&bytes);
    write_rows(ledger, 0, &rows);
    Ok(Converted {
        length,
        blocks: rows.len(),
    })
}

/// One block of a kept text replaced, and those after it as far as the carry differs.
pub fn edit(
    mode: u8,
    rules: &[u8],
    tree: &[u8],
    block: usize,
    kept: usize,
    text: &mut [u8],
    ledger: &mut [u8],
) -> Result<Edited, Refused> {
    let what = What::Replace;
    change(what, mode, rules, tree, block, kept, text, ledger)
}

/// One block put in before a position, and those after it converted as far as the carry differs.
pub fn insert(
    mode: u8,
    rules: &[u8],
    tree: &[u8],
    position: usize,
    kept: usize,
    text: &mut [u8],
    ledger: &mut [u8],
) -> Result<Edited, Refused> {
    let what = What::PutIn;
    change(what, mode, rules, tree, position, kept, text, ledger)
}

/// One block taken out, and those after it converted as far as the carry differs.
pub fn remove(
    mode: u8,
    rules: &[u8],
    tree: &[u8],
    block: usize,
    kept: usize,
    text: &mut [u8],
    ledger: &mut [u8],
) -> Result<Edited, Refused> {
    let what = What::TakeOut;
    change(what, mode, rules, tree, block, kept, text, ledger)
}

/// What a change does at its place.
#[derive(Clone, Copy, PartialEq, Eq)]
enum What {
    Replace,
    PutIn,
    TakeOut,
}

impl What {
    /// How many blocks there were before, where there are so many now; nothing where the place was not there.
    fn blocks_before(self, now: usize, place: usize) -> Option<usize> {
        match self {
            What::Replace => Some(now).filter(|&before| place < before),
            What::PutIn => now.checked_sub(1).filter(|&before| place <= before),
            What::TakeOut => Some(now + 1).filter(|&before| place < before),
        }
    }

    /// How many new blocks there are at the place, which are converted whatever the carry is.
    fn new_blocks(self) -> usize {
        match self {
            What::Replace | What::PutIn => 1,
            What::TakeOut => 0,
        }
    }
}

/// Checks 1 to 6, the blocks converted as far as they have to be, 15, and then what is written.
#[allow(clippy::too_many_arguments)]
fn change(
    what: What,
    mode: u8,
    rules: &[u8],
    tree: &[u8],
    place: usize,
    kept: usize,
    text: &mut [u8],
    ledger: &mut [u8],
) -> Result<Edited, Refused> {
    let (mode, rules, root) = open(mode, rules, tree)?;
    let blocks = root.children();
    let before = what.blocks_before(blocks.len(), place);
    let before = before.ok_or(Refused::whole(6))?;
    let old = marks(text, ledger, before, kept).ok_or(Refused::whole(6))?;

    let room = text.len().min(TEXT_MOST);
    let carry = old[place].carry.clone();
    let converter = Converter::new(&rules, mode, carry, Output::new(room));
    let first = place + what.new_blocks();
    let part = redo(converter, blocks, &old, place, first)?;
    let length = part.end + (kept - part.old_end);
    if length > room || blocks.len() * ROW_SIZE > ledger.len() {
        return Err(Refused::whole(15));
    }
    text.copy_within(part.old_end..kept, part.end);
    text[old[place].end..part.end].copy_from_slice(&part.bytes);
    write_rows(ledger, place, &part.rows);
    if blocks.len() < before {
        ledger[blocks.len() * ROW_SIZE..before * ROW_SIZE].fill(0);
    }
    Ok(edited(text, length, kept, part.count))
}

/// Several blocks replaced together: text and rows are put together anew, and a block is converted
/// where it is named or begins with another carry than the kept one.
pub fn replace_all(
    mode: u8,
    rules: &[u8],
    tree: &[u8],
    named: &[usize],
    kept: usize,
    text: &mut [u8],
    ledger: &mut [u8],
) -> Result<Edited, Refused> {
    let (mode, rules, root) = open(mode, rules, tree)?;
    let blocks = root.children();
    let rising = named.windows(2).all(|pair| pair[0] < pair[1]);
    let there = named.last().is_some_and(|&last| last < blocks.len());
    if !rising || !there {
        return Err(Refused::whole(6));
    }
    let old = marks(text, ledger, blocks.len(), kept).ok_or(Refused::whole(6))?;

    let room = text.len().min(TEXT_MOST);
    let mut converter = Converter::new(&rules, mode, Carry::default(), Output::new(room));
    let mut rows = Vec::new();
    let mut count = 0;
    for (i, block) in blocks.iter().enumerate() {
        if named.contains(&i) || converter.carry != old[i].carry {
            converter.convert(block)?;
            count += 1;
        } else {
            converter.out.put(&text[old[i].end..old[i + 1].end]);
            converter.carry = old[i + 1].carry.clone();
        }
        rows.push(Row {
            end: converter.out.length,
            carry: converter.carry.clone(),
        });
    }
    let Output { bytes, length, .. } = converter.out;
    if length > room {
        return Err(Refused::whole(15));
    }
    text[..length].copy_from_slice(&bytes);
    write_rows(ledger, 0, &rows);
    Ok(edited(text, length, kept, count))
}

/// The kept rows after one for the start: `[i]` is what stood after `i` blocks. Nothing where they or the kept length do not fit.
fn marks(text: &[u8], ledger: &[u8], blocks: usize, kept: usize) -> Option<Vec<Row>> {
    let start = Row {
        end: 0,
        carry: Carry::default(),
    };
    let rows = ledger::decode(ledger, blocks, kept)?;
    (kept <= text.len()).then(|| [vec![start], rows].concat())
}

/// A change that is accepted: zeros where the text shrank, and the answer.
fn edited(text: &mut [u8], length: usize, kept: usize, count: usize) -> Edited {
    if length < kept {
        text[length..kept].fill(0);
    }
    Edited {
        length,
        growth: length as i64 - kept as i64,
        count,
    }
}

/// The part of a text that a change replaces.
struct Part {
    /// What is written there, and where it ends.
    bytes: Vec<u8>,
    end: usize,
    /// Where the part ended before.
    old_end: usize,
    /// All rows from the place on.
    rows: Vec<Row>,
    /// How many blocks were converted.
    count: usize,
}

/// Converts blocks from a place on, those before `first` in any case and then until the carry is the old one.
fn redo(
    mut converter: Converter,
    blocks: &[Element],
    old: &[Row],
    place: usize,
    first: usize,
) -> Result<Part, Refused> {
    let start = old[place].end;
    // the old marks that have as many blocks after them
    let left = |done: usize| &old[old.len() - 1 - (blocks.len() - done)..];
    let mut rows = Vec::new();
    let mut done = place;
    while done < first || (done < blocks.len() && left(done)[0].carry != converter.carry) {
        converter.convert(&blocks[done])?;
        done += 1;
        rows.push(Row {
            end: start + converter.out.length,
            carry: converter.carry.clone(),
        });
    }
    let end = start + converter.out.length;
    let old_end = left(done)[0].end;
    rows.extend(left(done)[1..].iter().map(|row| Row {
        end: row.end - old_end + end,
        carry: row.carry.clone(),
    }));
    Ok(Part {
        bytes: converter.out.bytes,
        end,
        old_end,
        rows,
        count: done - place,
    })
}

fn write_rows(ledger: &mut [u8], first: usize, rows: &[Row]) {
    for (place, row) in ledger.chunks_exact_mut(ROW_SIZE).skip(first).zip(rows) {
        place.copy_from_slice(&row.encode());
    }
}
