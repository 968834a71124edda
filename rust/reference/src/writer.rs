//! The writer of tree files: steps, their answers by RULES, section 8, and which states steps can leave.

use crate::tree::{Kind, DEPTH_MOST};
use crate::{BLOCKS_MOST, FILE_MOST};

/// A step of the writing; a kind may be any number and a text any bytes.
#[derive(Debug, Clone, PartialEq, Eq)]
pub enum Step {
    Open(u8),
    Token(u8, Vec<u8>),
    Close,
    Finish,
}

/// What the answer to a step goes by: how much was written, and how many nodes are open.
#[derive(Debug, Clone, Copy, Default, PartialEq, Eq)]
pub struct Standing {
    pub finished: bool,
    pub rows: usize,
    pub text: usize,
    pub blocks: usize,
    pub depth: usize,
}

impl Standing {
    /// The file so far, its trailer counted.
    fn size(&self) -> usize {
        self.text + 8 * self.rows + 8
    }

    /// Whether a step is in its place.
    fn in_place(&self, step: &Step) -> bool {
        if self.finished {
            return false;
        }
        let root_is_open = self.depth > 0;
        match step {
            Step::Open(kind) => match Kind::of(*kind) {
                Some(Kind::ScopeRoot) if self.rows == 0 => true,
                Some(kind) => kind.may_be_node() && root_is_open,
                None => false,
            },
            Step::Token(kind, text) => {
                let is_token = Kind::of(*kind).is_some_and(Kind::may_be_token);
                let is_text = !text.is_empty() && std::str::from_utf8(text).is_ok();
                root_is_open && is_token && is_text
            }
            Step::Close => root_is_open,
            Step::Finish => self.rows > 0 && !root_is_open,
        }
    }

    /// The answer to a step in a buffer of `room` bytes: 0, or the first refusal that holds.
    pub fn answer(&self, room: usize, step: &Step) -> u8 {
        if !self.in_place(step) {
            return 16;
        }
        let added = match step {
            Step::Open(_) => 8,
            Step::Token(_, text) => 8 + text.len(),
            Step::Close | Step::Finish => return 0,
        };
        let size = self.size() + added;
        let is_block = self.depth == 1;
        if size > FILE_MOST || (is_block && self.blocks == BLOCKS_MOST) {
            3
        } else if self.depth == DEPTH_MOST {
            4
        } else if size > room {
            15
        } else {
            0
        }
    }
}

/// A file in the making: its texts and rows, and the rows of the nodes that are open.
#[derive(Debug, Clone, Default)]
pub struct Writer {
    finished: bool,
    text: Vec<u8>,
    rows: Vec<[u8; 8]>,
    open: Vec<usize>,
    blocks: usize,
    // the buffer's length, from the first accepted step on
    room: Option<usize>,
}

impl Writer {
    pub fn standing(&self) -> Standing {
        Standing {
            finished: self.finished,
            rows: self.rows.len(),
            text: self.text.len(),
            blocks: self.blocks,
            depth: self.open.len(),
        }
    }

    /// The answer to a step; the writing goes on where it is 0.
    pub fn step(&mut self, room: usize, step: &Step) -> u8 {
        let number = match self.room {
            Some(before) if before != room => 16,
            _ => self.standing().answer(room, step),
        };
        if number == 0 {
            self.room = Some(room);
            self.take(step);
        }
        number
    }

    fn take(&mut self, step: &Step) {
        match step {
            Step::Open(kind) => {
                self.add_row(*kind, 0, 0);
                self.open.push(self.rows.len() - 1);
            }
            Step::Token(kind, text) => {
                self.add_row(*kind, 1, text.len());
                self.text.extend_from_slice(text);
            }
            Step::Close => {
                if let Some(node) = self.open.pop() {
                    let under = self.rows.len() - 1 - node;
                    self.rows[node][4..].copy_from_slice(&(under as u32).to_le_bytes());
                }
            }
            Step::Finish => self.finished = true,
        }
    }

    fn add_row(&mut self, kind: u8, mark: u8, number: usize) {
        self.blocks += usize::from(self.open.len() == 1);
        let [a, b, c, d] = (number as u32).to_le_bytes();
        self.rows.push([kind, mark, 0, 0, a, b, c, d]);
    }

    /// The file, where it is finished.
    pub fn file(&self) -> Option<Vec<u8>> {
        let mut file = self.text.clone();
        file.extend_from_slice(self.rows.as_flattened());
        file.extend_from_slice(&(self.text.len() as u32).to_le_bytes());
        file.extend_from_slice(&(self.rows.len() as u32).to_le_bytes());
        self.finished.then_some(file)
    }

    /// The numbers that the library keeps between two steps.
    pub fn numbers(&self) -> [u64; 7] {
        let standing = self.standing();
        [
            usize::from(standing.finished),
            standing.rows,
            standing.text,
            standing.blocks,
            standing.depth,
            self.open.last().copied().unwrap_or(0),
            self.room.unwrap_or(0),
        ]
        .map(|number| number as u64)
    }
}

/// What numbers stand for, where steps in a buffer of `room` bytes can have left them.
pub fn standing_of(numbers: &[u64], room: usize) -> Option<Standing> {
    let numbers = numbers.get(..7)?;
    if numbers[..6].iter().any(|&number| number > FILE_MOST as u64) {
        return None;
    }
    let [finished, rows, text, blocks, depth, inner] = std::array::from_fn(|i| numbers[i] as usize);
    let standing = Standing {
        finished: finished == 1,
        rows,
        text,
        blocks,
        depth,
    };
    if rows == 0 {
        return numbers
            .iter()
            .all(|&number| number == 0)
            .then_some(standing);
    }
    let kept = numbers[6] == room as u64 && finished <= 1 && (finished == 0 || depth == 0);
    let limits = standing.size() <= FILE_MOST.min(room) && blocks <= BLOCKS_MOST;
    (kept && limits && has_tree(&standing, inner)).then_some(standing)
}

/// Whether some tree in the making has so many rows, blocks and open nodes, the innermost of these at row `inner`, and a token if
/// it has a text.
fn has_tree(standing: &Standing, inner: usize) -> bool {
    let &Standing {
        rows,
        text,
        blocks,
        depth,
        ..
    } = standing;
    // the root and the open nodes are no tokens
    let nodes = depth.max(1);
    if rows < nodes || (text > 0 && rows == nodes) {
        return false;
    }
    // so many rows can be so many blocks
    let in_blocks = |rows: usize, blocks: usize| blocks <= rows && (blocks > 0 || rows == 0);
    match depth {
        0 | 1 => inner == 0 && in_blocks(rows - 1, blocks),
        2..=DEPTH_MOST => {
            // rows between the root and the innermost node, of which others are open
            let (Some(between), true) = (inner.checked_sub(depth - 1), inner < rows) else {
                return false;
            };
            let before = match (blocks, depth) {
                (0, _) => false,
                // they are the blocks before
                (_, 2) => in_blocks(between, blocks - 1),
                // they may lie in the open block too
                _ => blocks - 1 <= between,
            };
            before && (depth < DEPTH_MOST || inner == rows - 1)
        }
        _ => false,
    }
}

#[cfg(test)]
mod tests {
    use super::*;
    use std::collections::HashSet;

    const ROOM: usize = 8 * 6 + 8 + 2;

    /// All numbers that lists of steps leave in a small buffer.
    fn reached() -> HashSet<[u64; 7]> {
        let token = |size| Step::Token(Kind::TokenWord as u8, vec![b'a'; size]);
        let mut steps: Vec<_> = (1..ROOM).map(token).collect();
        steps.extend([Step::Open(Kind::ScopeRoot as u8), Step::Close, Step::Finish]);
        let mut reached = HashSet::from([Writer::default().numbers()]);
        let mut found = HashSet::new();
        let mut open = vec![Writer::default()];
        while let Some(writer) = open.pop() {
            for step in &steps {
                let mut next = writer.clone();
                if next.step(ROOM, step) == 0 && found.insert((next.numbers(), next.open.clone())) {
                    reached.insert(next.numbers());
                    open.push(next);
                }
            }
        }
        reached
    }

    /// Numbers below some bounds, by their index.
    fn numbers_at(mut index: u64, bounds: [u64; 6]) -> [u64; 7] {
        let mut numbers = [ROOM as u64; 7];
        for (number, bound) in numbers.iter_mut().zip(bounds) {
            *number = index % bound;
            index /= bound;
        }
        numbers
    }

    #[test]
    fn states_are_those_that_steps_leave() {
        let reached = reached();
        let bounds = [3, 8, ROOM as u64, 8, 8, 8];
        let mut count = 1;
        for index in 0..bounds.iter().product() {
            let numbers = numbers_at(index, bounds);
            let stands = standing_of(&numbers, ROOM).is_some();
            assert_eq!(stands, reached.contains(&numbers), "{numbers:?}");
            count += usize::from(stands);
        }
        assert_eq!(count, reached.len());
    }
}
