//! The static library and the reference on the same made inputs: every answer and every byte of both buffers.
//!
//! `ZALDRUME_CASES` is how many cases each test makes (1,000 where it is not set) and
//! `ZALDRUME_SEED` the first one's seed (1). A failure names the seed of its case.

mod shared;

use reference::constructs::{self, curly, environment, formula, label, line_break, space, word};
use reference::made::{rule_file, token, tree_file, Made, Maker};
use reference::{Kind, BLOCKS_MOST, FILE_MOST, ROW_SIZE};
use shared::{each_case, told, Buffers, Tally};
use zaldrume::raw::{self, Answer};

/// A change of a document: of one block, or of several together.
#[derive(Debug, Clone, Copy, PartialEq, Eq)]
enum Change {
    Edit,
    Insert,
    Remove,
    ReplaceAll,
}

impl Change {
    const ALL: [Change; 4] = [
        Change::Edit,
        Change::Insert,
        Change::Remove,
        Change::ReplaceAll,
    ];

    fn name(self) -> &'static str {
        match self {
            Change::Edit => "edit",
            Change::Insert => "insert",
            Change::Remove => "remove",
            Change::ReplaceAll => "replace all",
        }
    }

    /// How many places there are for it, in a document of so many blocks.
    fn places(self, blocks: usize) -> usize {
        match self {
            Change::Insert => blocks + 1,
            Change::Edit | Change::Remove | Change::ReplaceAll => blocks,
        }
    }

    /// Where it may be made, in a document of so many blocks.
    fn somewhere(self, maker: &mut Maker, blocks: usize) -> Vec<usize> {
        let places = self.places(blocks);
        if self == Change::ReplaceAll {
            let share = *maker.random.pick(&[10, 300, 600, 1000]);
            let mut some: Vec<_> = (0..places).collect();
            some.retain(|_| maker.random.chance(share));
            if !some.is_empty() {
                return some;
            }
        }
        vec![match maker.random.chance(300) {
            true => *maker.random.pick(&[0, places - 1]),
            false => maker.random.below(places),
        }]
    }

    /// Makes it, with blocks to put there.
    fn make(self, blocks: &mut Vec<Made>, at: &[usize], mut new: impl FnMut() -> Made) {
        match self {
            Change::Edit | Change::ReplaceAll => at.iter().for_each(|&at| blocks[at] = new()),
            Change::Insert => blocks.insert(at[0], new()),
            Change::Remove => drop(blocks.remove(at[0])),
        }
    }

    /// Names what is not there, or for several blocks a list that is none.
    fn misplace(self, maker: &mut Maker, at: &mut Vec<usize>, blocks: usize) {
        let places = self.places(blocks);
        let beyond = *maker
            .random
            .pick(&[places, places + 1, usize::MAX, 1 << 32]);
        if self != Change::ReplaceAll {
            at[0] = beyond;
            return;
        }
        let i = maker.random.below(at.len());
        match maker.random.below(7) {
            0 => at.clear(),
            1 => at.insert(i, at[i]),
            2 => at.push(at[0]),
            3 => at.push(beyond),
            4 => at[i] = beyond,
            5 => *at = (0..blocks + 1 + maker.random.below(BLOCKS_MOST)).collect(),
            _ => *at = vec![i; 1 << maker.random.below(18)],
        }
    }
}

/// A call that changes a document.
#[derive(Clone, Copy)]
struct Call<'a> {
    change: Change,
    mode: u8,
    rules: &'a [u8],
    tree: &'a [u8],
    // of one block it is the first that counts
    at: &'a [usize],
    kept: usize,
}

impl Call<'_> {
    fn library(self, Buffers { text, ledger }: &mut Buffers) -> Answer {
        let Call {
            change,
            mode,
            rules,
            tree,
            at,
            kept,
        } = self;
        match change {
            Change::Edit => raw::edit(mode, rules, tree, at[0], kept, text, ledger),
            Change::Insert => raw::insert(mode, rules, tree, at[0], kept, text, ledger),
            Change::Remove => raw::remove(mode, rules, tree, at[0], kept, text, ledger),
            Change::ReplaceAll => raw::replace_all(mode, rules, tree, at, kept, text, ledger),
        }
    }

    fn reference(self, Buffers { text, ledger }: &mut Buffers) -> Answer {
        let Call {
            change,
            mode,
            rules,
            tree,
            at,
            kept,
        } = self;
        let answer = match change {
            Change::Edit => reference::edit(mode, rules, tree, at[0], kept, text, ledger),
            Change::Insert => reference::insert(mode, rules, tree, at[0], kept, text, ledger),
            Change::Remove => reference::remove(mode, rules, tree, at[0], kept, text, ledger),
            Change::ReplaceAll => reference::replace_all(mode, rules, tree, at, kept, text, ledger),
        };
        told(answer.map(|done| Answer {
            number: 0,
            place: done.length,
            growth: done.growth,
            count: done.count,
        }))
    }

    /// The answer of both.
    fn compare(self, tally: &mut Tally, buffers: &mut Buffers) -> Answer {
        let name = self.change.name();
        tally.compare(
            name,
            buffers,
            |lent| self.library(lent),
            |lent| self.reference(lent),
        )
    }
}

fn any_mode(maker: &mut Maker) -> u8 {
    match maker.random.chance(10) {
        true => maker.random.number() as u8,
        false => maker.random.below(2) as u8,
    }
}

/// Converts in long buffers, then in buffers of just the length and in shorter ones.
fn convert_all_ways(maker: &mut Maker, tally: &mut Tally, rules: &[u8], tree: &[u8], long: usize) {
    let mode = any_mode(maker);
    let mut buffers = Buffers::any(maker, long, BLOCKS_MOST * ROW_SIZE);
    let answer = tally.convert(mode, rules, tree, &mut buffers);
    if answer.number != 0 || !maker.random.chance(300) {
        return;
    }
    let (length, rows) = (answer.place, answer.count * ROW_SIZE);
    for (text, ledger) in [
        (length, rows),
        (length.saturating_sub(1), rows),
        (length, rows.saturating_sub(1)),
    ] {
        let mut buffers = Buffers::any(maker, text, ledger);
        let short = text < length || ledger < rows;
        let answer = tally.convert(mode, rules, tree, &mut buffers);
        assert_eq!(answer.number == 15, short, "seed {}", tally.seed);
    }
}

#[test]
fn short_documents() {
    each_case("short documents", 400, |maker, tally| {
        let rules = maker.rules();
        let (count, depth) = (maker.random.below(7), maker.random.below(5));
        let tree = tree_file(&maker.blocks(count, depth));
        convert_all_ways(maker, tally, &rules, &tree, 65_536);
    });
}

#[test]
fn long_documents() {
    each_case("long documents", 10, |maker, tally| {
        maker.odd = maker.odd.min(1);
        maker.clean |= maker.random.chance(600);
        let rules = maker.rules();
        let (count, depth) = match maker.random.chance(150) {
            true => (BLOCKS_MOST - 2 + maker.random.below(5), 0),
            false => (maker.random.below(BLOCKS_MOST), maker.random.below(4)),
        };
        let mut blocks = maker.blocks(count, depth);
        // a file that is too long is of use now and then
        while !maker.random.chance(100) && tree_file(&blocks).len() > 65_536 {
            blocks.truncate(blocks.len() * 3 / 4);
        }
        convert_all_ways(maker, tally, &rules, &tree_file(&blocks), 200_000);
    });
}

#[test]
fn documents_by_construct() {
    let rules = constructs::rules(10);
    each_case("documents by construct", 1, |maker, tally| {
        for document in constructs::documents(tally.seed) {
            let mut buffers = Buffers::any(maker, 4 * FILE_MOST, BLOCKS_MOST * ROW_SIZE);
            let answer = tally.convert(0, &rules, &document.tree, &mut buffers);
            let (name, seed) = (document.name, tally.seed);
            assert_eq!(answer.number, 0, "{name} is refused, seed {seed}");
        }
    });
}

#[test]
fn damaged_files() {
    each_case("damaged files", 400, |maker, tally| {
        let mut rules = maker.rules();
        let (count, depth) = (maker.random.below(5), maker.random.below(4));
        let mut tree = tree_file(&maker.blocks(count, depth));
        match maker.random.below(4) {
            0 => maker.damage(&mut rules),
            _ => maker.damage(&mut tree),
        }
        let mut buffers = Buffers::any(maker, 20_000, 8 * ROW_SIZE);
        let mode = any_mode(maker);
        tally.convert(mode, &rules, &tree, &mut buffers);
    });
}

#[test]
fn any_bytes() {
    each_case("any bytes", 100, |maker, tally| {
        let [a, b, c, d] = [(); 4].map(|_| maker.random.below(200));
        let rules = match maker.random.chance(500) {
            true => rule_file(&[]),
            false => maker.random.bytes(a),
        };
        let tree = maker.random.bytes(b);
        let mut buffers = Buffers::any(maker, c, d);
        let mode = any_mode(maker);
        tally.convert(mode, &rules, &tree, &mut buffers);
        let kept = maker.random.below(200);
        for change in Change::ALL {
            let call = Call {
                change,
                mode,
                rules: &rules,
                tree: &tree,
                at: &[d],
                kept,
            };
            call.compare(tally, &mut buffers);
        }
    });
}

/// A document that is changed, and its buffers.
struct Run {
    mode: u8,
    rules: Vec<u8>,
    blocks: Vec<Made>,
    kept: usize,
    buffers: Buffers,
    // whether text and ledger are those of the document's conversion
    sound: bool,
}

/// What a caller wants: a change at some place, and the blocks after it.
struct Wish {
    change: Change,
    at: Vec<usize>,
    blocks: Vec<Made>,
}

impl Run {
    /// A document, converted, where it is accepted.
    fn open(
        tally: &mut Tally,
        mode: u8,
        rules: Vec<u8>,
        blocks: Vec<Made>,
        mut buffers: Buffers,
    ) -> Option<Self> {
        let answer = tally.convert(mode, &rules, &tree_file(&blocks), &mut buffers);
        (answer.number == 0).then_some(Run {
            mode,
            rules,
            blocks,
            kept: answer.place,
            buffers,
            sound: true,
        })
    }

    fn wish(&self, maker: &mut Maker) -> Wish {
        let count = self.blocks.len();
        let change = match count {
            0 => Change::Insert,
            _ => *maker.random.pick(&Change::ALL),
        };
        let at = change.somewhere(maker, count);
        let mut blocks = self.blocks.clone();
        // few of many blocks are new, so that the file is not too long
        let new = if at.len() > 10 { 300 } else { 750 };
        change.make(&mut blocks, &at, || match maker.random.chance(new) {
            false if count > 0 => maker.random.pick(&self.blocks).clone(),
            _ => {
                let depth = maker.random.below(4);
                maker.block(depth)
            }
        });
        Wish { change, at, blocks }
    }

    /// A change as a caller makes it.
    fn step(&mut self, tally: &mut Tally, Wish { change, at, blocks }: Wish) {
        let tree = tree_file(&blocks);
        let call = Call {
            change,
            mode: self.mode,
            rules: &self.rules,
            tree: &tree,
            at: &at,
            kept: self.kept,
        };
        let before = self.buffers.clone();
        let answer = call.compare(tally, &mut self.buffers);
        if self.sound {
            self.compare_from_start(tally, &tree, answer);
        }
        if self.sound && change == Change::ReplaceAll && answer.number == 0 {
            self.compare_singly(tally, before, &at, &blocks);
        }
        if answer.number == 0 {
            self.kept = answer.place;
            self.blocks = blocks;
        }
    }

    /// Blocks replaced together leave what they leave singly, where each of these is accepted too.
    fn compare_singly(&self, tally: &mut Tally, mut buffers: Buffers, at: &[usize], new: &[Made]) {
        let mut blocks = self.blocks.clone();
        let mut kept = self.kept;
        // a text on the way may be longer than both
        buffers.text.resize(buffers.text.len() + FILE_MOST, 0);
        for &at in at {
            blocks[at] = new[at].clone();
            let call = Call {
                change: Change::Edit,
                mode: self.mode,
                rules: &self.rules,
                tree: &tree_file(&blocks),
                at: &[at],
                kept,
            };
            let answer = call.library(&mut buffers);
            if answer.number != 0 {
                return;
            }
            kept = answer.place;
        }
        let (seed, rows) = (tally.seed, blocks.len() * ROW_SIZE);
        assert!(
            buffers.text[..kept] == self.buffers.text[..kept],
            "singly, text, seed {seed}"
        );
        assert!(
            buffers.ledger[..rows] == self.buffers.ledger[..rows],
            "singly, ledger, seed {seed}"
        );
        tally.count("edit singly", 0, at.len());
    }

    /// The third demand: a change answers as a conversion from the start, and leaves what that leaves.
    fn compare_from_start(&self, tally: &Tally, tree: &[u8], changed: Answer) {
        let seed = tally.seed;
        let mut text = vec![0; self.buffers.text.len()];
        let mut ledger = vec![0; self.buffers.ledger.len()];
        let whole = raw::convert(self.mode, &self.rules, tree, &mut text, &mut ledger);
        assert_eq!(
            (whole.number, whole.place),
            (changed.number, changed.place),
            "from the start, seed {seed}"
        );
        if whole.number == 0 {
            let rows = whole.count * ROW_SIZE;
            assert!(
                text[..whole.place] == self.buffers.text[..whole.place],
                "from the start, text, seed {seed}"
            );
            assert!(
                ledger[..rows] == self.buffers.ledger[..rows],
                "from the start, ledger, seed {seed}"
            );
            assert_eq!(
                changed.growth,
                whole.place as i64 - self.kept as i64,
                "growth, seed {seed}"
            );
        }
    }

    /// A call that is wrong in some way.
    fn wrong_step(&mut self, maker: &mut Maker, tally: &mut Tally) {
        let Wish {
            mut change,
            mut at,
            mut blocks,
        } = self.wish(maker);
        let mut mode = self.mode;
        let mut rules = self.rules.clone();
        let mut kept = self.kept;
        let mut damaged = false;
        match maker.random.below(12) {
            0 => mode = maker.random.number() as u8,
            1 => maker.damage(&mut rules),
            2 => damaged = true,
            3 | 4 => change.misplace(maker, &mut at, self.blocks.len()),
            5 => {
                kept = *maker.random.pick(&[
                    0,
                    kept + 1,
                    kept.wrapping_sub(1),
                    usize::MAX,
                    self.buffers.text.len() + 1,
                ])
            }
            6 => blocks.push(maker.block(2)),
            7 => drop(blocks.pop()),
            8 => blocks = self.blocks.clone(),
            9 => change = *maker.random.pick(&Change::ALL),
            // a tree that differs elsewhere
            10 => at = change.somewhere(maker, self.blocks.len()),
            _ => self.damage_ledger(maker),
        }
        let mut tree = tree_file(&blocks);
        if damaged {
            maker.damage(&mut tree);
        }
        let call = Call {
            change,
            mode,
            rules: &rules,
            tree: &tree,
            at: &at,
            kept,
        };
        let answer = call.compare(tally, &mut self.buffers);
        if answer.number == 0 {
            self.kept = answer.place;
            self.sound = false;
            self.blocks = blocks;
        }
    }

    /// Another byte in a row.
    fn damage_ledger(&mut self, maker: &mut Maker) {
        let row = maker.random.below(self.blocks.len().max(1));
        let most = *maker.random.pick(&[8, ROW_SIZE]);
        let at = row * ROW_SIZE + maker.random.below(most);
        if let Some(byte) = self.buffers.ledger.get_mut(at) {
            *byte = *maker.random.pick(&[0, 1, 2, 120, 121, 255]);
            self.sound = false;
        }
    }

    /// Leaves little room after text and rows, or none.
    fn cut(&mut self, maker: &mut Maker) {
        let Buffers { text, ledger } = &mut self.buffers;
        text.truncate(self.kept + maker.random.below(30));
        ledger.truncate(self.blocks.len() * ROW_SIZE + maker.random.below(2 * ROW_SIZE));
    }
}

/// A few blocks, at times many, or about as many as there may be.
fn any_blocks(maker: &mut Maker, few: usize) -> Vec<Made> {
    match maker.random.below(100) {
        0 => {
            (maker.odd, maker.clean) = (0, true);
            let count = BLOCKS_MOST - 2 + maker.random.below(4);
            maker.blocks(count, 0)
        }
        1..=4 => {
            let count = maker.random.below(200);
            maker.blocks(count, 2)
        }
        _ => {
            let count = maker.random.below(few);
            maker.blocks(count, 3)
        }
    }
}

#[test]
fn runs_of_changes() {
    each_case("runs of changes", 100, |maker, tally| {
        let mode = maker.random.below(2) as u8;
        maker.odd = maker.odd.min(5);
        let blocks = any_blocks(maker, 13);
        let rules = maker.rules();
        let extra = *maker
            .random
            .pick(&[0, ROW_SIZE - 1, 2 * ROW_SIZE, 16 * ROW_SIZE]);
        let size = *maker.random.pick(&[1_000, 10_000, 100_000]);
        let buffers = Buffers::any(maker, size, blocks.len() * ROW_SIZE + extra);
        let Some(mut run) = Run::open(tally, mode, rules, blocks, buffers) else {
            return;
        };
        for _ in 0..16 {
            match maker.random.below(100) {
                0..=14 => run.wrong_step(maker, tally),
                15 => run.cut(maker),
                _ => run.step(tally, run.wish(maker)),
            }
        }
    });
}

#[test]
fn ledgers_from_nowhere() {
    each_case("ledgers from nowhere", 200, |maker, tally| {
        let mode = maker.random.below(2) as u8;
        let blocks = any_blocks(maker, 11);
        let rules = maker.rules();
        let kept = match blocks.len() {
            0 if maker.random.chance(800) => 0,
            _ => maker.random.below(400),
        };
        let spare = *maker.random.pick(&[0, 3, 100, 2_000]);
        let text = maker.random.bytes(kept + spare);
        let mut ledger = maker.ledger(blocks.len(), kept);
        let spare = *maker.random.pick(&[0, ROW_SIZE - 1, ROW_SIZE, 2_000]);
        ledger.extend(maker.random.bytes(spare));
        let mut run = Run {
            mode,
            rules,
            blocks,
            kept,
            buffers: Buffers { text, ledger },
            sound: false,
        };
        for _ in 0..4 {
            run.step(tally, run.wish(maker));
        }
    });
}

/// A word of any length, white space, a label that waits, or an environment that takes it.
fn small_block(maker: &mut Maker) -> Made {
    match maker.random.below(10) {
        0..=5 => {
            let letter = char::from(b'a' + maker.random.below(26) as u8);
            let size = 1 + maker.random.below(60);
            token(Kind::TokenWord, letter.to_string().repeat(size))
        }
        6 => line_break(),
        7 => space(),
        8 => formula(vec![curly(vec![label("eq", &mut maker.random)])]),
        _ => environment("quote", None, vec![word(&mut maker.random)]),
    }
}

/// The buffers have room for the texts before and after, and then for a byte less.
#[test]
fn many_blocks_together() {
    let rules = constructs::rules(10);
    each_case("many blocks together", 10, |maker, tally| {
        let most = *maker.random.pick(&[10, 100, BLOCKS_MOST]);
        let count = 1 + maker.random.below(most);
        let blocks: Vec<_> = (0..count).map(|_| small_block(maker)).collect();
        let buffers = Buffers::any(maker, FILE_MOST, count * ROW_SIZE);
        let run = Run::open(tally, 0, rules.clone(), blocks, buffers);
        let mut run = run.expect("accepted");
        for short in [0, 0, 1, 0] {
            let change = Change::ReplaceAll;
            let at = change.somewhere(maker, count);
            let mut blocks = run.blocks.clone();
            change.make(&mut blocks, &at, || small_block(maker));
            let mut other = Buffers::any(maker, FILE_MOST, count * ROW_SIZE);
            let length = tally.convert(0, &rules, &tree_file(&blocks), &mut other);
            let room = run.kept.max(length.place - short);
            run.buffers.text.resize(room, 0xa5);
            run.step(tally, Wish { change, at, blocks });
        }
    });
}
