//! The writer of tree files: the static library and the reference on the same steps, every answer and every finished file.
//!
//! The settings are those of `compare.rs`.

mod shared;

use reference::made::{tree_file, Maker};
use reference::{standing_of, walk, Step, Writer, BLOCKS_MOST, FILE_MOST, ROW_SIZE};
use shared::{each_case, Buffers, Tally};
use zaldrume::file::Kind;
use zaldrume::raw::{self, WRITER_STATE};

const ROOT: Step = Step::Open(Kind::ScopeRoot as u8);

fn name_of(step: &Step) -> &'static str {
    match step {
        Step::Open(_) => "open",
        Step::Token(..) => "token",
        Step::Close => "close",
        Step::Finish => "finish",
    }
}

/// A step by the library: its answer, and the length that a finish gives.
fn library(state: &mut [u64], buffer: &mut [u8], step: &Step) -> (u8, usize) {
    match step {
        Step::Open(kind) => (raw::writer_open(state, buffer, *kind), 0),
        Step::Token(kind, text) => (raw::writer_token(state, buffer, *kind, text), 0),
        Step::Close => (raw::writer_close(state, buffer), 0),
        Step::Finish => raw::writer_finish(state, buffer),
    }
}

/// A state and a buffer, lent to the library step by step.
#[derive(Clone)]
struct Lent {
    state: Vec<u64>,
    buffer: Vec<u8>,
}

impl Lent {
    /// A fresh state, with numbers after it, and a buffer with anything in it.
    fn new(maker: &mut Maker, room: usize) -> Self {
        let mut state = vec![0; WRITER_STATE];
        state.extend((0..maker.random.below(3)).map(|_| maker.random.number()));
        let mut buffer = vec![maker.random.number() as u8; room];
        let other = maker.random.number() as u8;
        buffer.iter_mut().step_by(7).for_each(|byte| *byte = other);
        Lent { state, buffer }
    }

    /// A step whose answer is known; a refused one leaves all as it was.
    fn step(&mut self, step: &Step, expected: u8, tally: &mut Tally) -> usize {
        let before = self.clone();
        let (number, length) = library(&mut self.state, &mut self.buffer, step);
        let seed = tally.seed;
        let told = |text: &str| {
            let step = format!("{step:?}");
            format!("{text}, {step:.100} after {:?}, seed {seed}", before.state)
        };
        assert!(
            number == expected,
            "{}",
            told(&format!("{number} for {expected}"))
        );
        if number != 0 {
            assert!(length == 0, "{}", told("length"));
            assert!(self.state == before.state, "{}", told("state"));
            assert!(self.buffer == before.buffer, "{}", told("buffer"));
        }
        let extra = WRITER_STATE.min(before.state.len());
        assert!(
            self.state[extra..] == before.state[extra..],
            "{}",
            told("after the state")
        );
        tally.count(name_of(step), number, 1);
        length
    }
}

/// A file in the making, by library and reference.
struct Writing {
    lent: Lent,
    reference: Writer,
    accepted: Vec<Step>,
}

impl Writing {
    fn new(maker: &mut Maker, room: usize) -> Self {
        Writing {
            lent: Lent::new(maker, room),
            reference: Writer::default(),
            accepted: Vec::new(),
        }
    }

    fn step(&mut self, step: Step, tally: &mut Tally) -> u8 {
        let expected = self.reference.step(self.lent.buffer.len(), &step);
        let length = self.lent.step(&step, expected, tally);
        let seed = tally.seed;
        if expected != 0 {
            return expected;
        }
        let numbers = self.reference.numbers();
        assert_eq!(
            self.lent.state[..WRITER_STATE],
            numbers,
            "state, seed {seed}"
        );
        self.accepted.push(step);
        if let Some(file) = self.reference.file() {
            assert!(self.lent.buffer[..length] == file, "file, seed {seed}");
            self.check(&file, tally);
        }
        0
    }

    /// A step with a buffer of another length.
    fn step_elsewhere(&mut self, maker: &mut Maker, step: &Step, tally: &mut Tally) {
        let room = any_room(maker);
        let expected = self.reference.clone().step(room, step);
        let mut lent = self.lent.clone();
        lent.buffer.resize(room, 0);
        lent.step(step, expected, tally);
    }

    /// A finished file passes 3 and 4, its walk is the accepted steps, and the reference converts it alike.
    fn check(&self, file: &[u8], tally: &mut Tally) {
        let seed = tally.seed;
        assert!(
            walk(file).as_ref() == Some(&self.accepted),
            "walk, seed {seed}"
        );
        let mut maker = Maker::new(seed);
        let rules = maker.rules();
        let rows = self.reference.standing().blocks * ROW_SIZE;
        for mode in [0, 1] {
            let mut buffers = Buffers::any(&mut maker, 4 * file.len(), rows);
            let number = tally.convert(mode, &rules, file, &mut buffers).number;
            assert!(
                !matches!(number, 1 | 3 | 4),
                "refused with {number}, seed {seed}"
            );
        }
    }

    /// Closes what is open and finishes.
    fn finish(&mut self, tally: &mut Tally) {
        while self.reference.standing().depth > 0 {
            self.step(Step::Close, tally);
        }
        self.step(Step::Finish, tally);
    }

    /// How many bytes there is room for.
    fn left(&self) -> usize {
        let [_, rows, text, ..] = self.reference.numbers();
        let size = (text + 8 * rows + 8) as usize;
        FILE_MOST.min(self.lent.buffer.len()).saturating_sub(size)
    }

    /// A few steps where none may be in its place.
    fn out_of_turn(&mut self, maker: &mut Maker, tally: &mut Tally) {
        for _ in 0..maker.random.below(8) {
            self.step(any_step(maker, 100), tally);
        }
    }

    fn any_steps(&mut self, maker: &mut Maker, count: usize, tally: &mut Tally) {
        for _ in 0..count {
            let left = self.left();
            let step = any_step(maker, left);
            if maker.random.chance(10) {
                self.step_elsewhere(maker, &step, tally);
            }
            // a close or a finish of the root ends the list early
            let ends = self.reference.standing().depth <= 1 && maker.random.chance(900);
            match step {
                Step::Close | Step::Finish if ends => continue,
                step => self.step(step, tally),
            };
        }
    }
}

fn any_room(maker: &mut Maker) -> usize {
    match maker.random.below(10) {
        0 => maker.random.below(40),
        1..=4 => maker.random.below(600),
        5 => maker.random.below(10_000),
        6 => FILE_MOST - maker.random.below(3),
        7 => FILE_MOST + 1 + maker.random.below(9_000),
        _ => FILE_MOST,
    }
}

fn kind_of(maker: &mut Maker, fits: fn(Kind) -> bool) -> u8 {
    match maker.random.chance(60) {
        true => maker.random.number() as u8,
        false => {
            let kinds: Vec<_> = Kind::ALL.into_iter().filter(|&kind| fits(kind)).collect();
            *maker.random.pick(&kinds) as u8
        }
    }
}

const TEXTS: [&[u8]; 12] = [
    b"a",
    b"word",
    b"\\item",
    "é".as_bytes(),
    "日本".as_bytes(),
    "\u{10ffff}".as_bytes(),
    b"",
    b"\x80",
    b"a\xc3",
    b"\xed\xa0\x80",
    b"\xf4\x90\x80\x80",
    b"\xc0\xaf",
];

/// Some bytes, mostly a text; at times a long one, or one about as long as there is room for.
fn any_text(maker: &mut Maker, left: usize) -> Vec<u8> {
    let size = match maker.random.below(40) {
        0 => maker.random.below(FILE_MOST + 10),
        1..=3 => (left + maker.random.below(5)).saturating_sub(10),
        4..=6 => maker.random.below(60),
        _ => {
            let most = if maker.random.chance(100) {
                TEXTS.len()
            } else {
                6
            };
            return maker.random.pick(&TEXTS[..most]).to_vec();
        }
    };
    let mut text = vec![b't'; size];
    if maker.random.chance(50) {
        text.push(0xc3);
    }
    text
}

/// A step as it may come, with so many bytes left in the file.
fn any_step(maker: &mut Maker, left: usize) -> Step {
    match maker.random.below(100) {
        0..=34 => Step::Open(kind_of(maker, Kind::is_node)),
        35..=69 => Step::Token(kind_of(maker, Kind::is_token), any_text(maker, left)),
        70..=97 => Step::Close,
        _ => Step::Finish,
    }
}

#[test]
fn any_steps_in_any_buffer() {
    each_case("any steps", 200, |maker, tally| {
        let room = any_room(maker);
        let mut writing = Writing::new(maker, room);
        if maker.random.chance(100) {
            writing.out_of_turn(maker, tally);
        }
        if maker.random.chance(970) {
            writing.step(ROOT, tally);
        }
        let count = maker.random.below(80);
        writing.any_steps(maker, count, tally);
        if maker.random.chance(800) {
            writing.finish(tally);
            writing.out_of_turn(maker, tally);
        }
    });
}

/// Steps up to a limit: of blocks, of depth or of bytes.
fn near_a_limit(maker: &mut Maker) -> Vec<Step> {
    let text = Step::Open(Kind::ItemText as u8);
    let word = |size| Step::Token(Kind::TokenWord as u8, vec![b'w'; size]);
    let [blocks, depth] = [BLOCKS_MOST, 64].map(|most| most - maker.random.below(4));
    match maker.random.below(5) {
        0 => vec![word(1); blocks],
        1 => vec![vec![text, Step::Close]; blocks].concat(),
        2 => vec![text; depth - 1],
        3 => vec![word(FILE_MOST - 24 - maker.random.below(40))],
        _ => [vec![word(1); blocks - 1], vec![text; depth - 1]].concat(),
    }
}

#[test]
fn steps_at_the_limits() {
    each_case("steps at the limits", 10, |maker, tally| {
        let room = match maker.random.below(3) {
            0 => any_room(maker),
            _ => FILE_MOST,
        };
        let mut writing = Writing::new(maker, room);
        writing.step(ROOT, tally);
        for step in near_a_limit(maker) {
            writing.step(step, tally);
        }
        writing.any_steps(maker, 20, tally);
        writing.finish(tally);
    });
}

/// Rows up to the file's end: many small ones, also deep.
#[test]
fn full_files() {
    each_case("full files", 1, |maker, tally| {
        let mut writing = Writing::new(maker, FILE_MOST);
        writing.step(ROOT, tally);
        writing.step(Step::Open(Kind::ItemText as u8), tally);
        while writing.left() > 100 {
            let step = any_step(maker, 1);
            let depth = writing.reference.standing().depth;
            match step {
                Step::Token(_, text) if text.len() > 100 => continue,
                Step::Close if depth < 3 => continue,
                step => writing.step(step, tally),
            };
        }
        writing.any_steps(maker, 40, tally);
        writing.finish(tally);
    });
}

/// A file that passes 3 and 4 comes out of its own walk byte for byte.
#[test]
fn walks_of_files() {
    each_case("walks of files", 200, |maker, tally| {
        let (count, depth) = match maker.random.below(30) {
            0 => (BLOCKS_MOST - 2 + maker.random.below(4), 0),
            1 => (maker.random.below(100), 2),
            _ => (maker.random.below(8), maker.random.below(5)),
        };
        let mut file = tree_file(&maker.blocks(count, depth));
        if maker.random.chance(300) {
            maker.damage(&mut file);
        }
        let Some(steps) = walk(&file) else {
            return;
        };
        let mut writing = Writing::new(maker, file.len());
        for step in &steps {
            assert_eq!(writing.step(step.clone(), tally), 0, "seed {}", tally.seed);
        }
        assert!(writing.lent.buffer == file, "seed {}", tally.seed);
        // a byte less, and some step is refused
        let mut writing = Writing::new(maker, file.len() - 1);
        let answers: Vec<_> = steps
            .into_iter()
            .map(|step| writing.step(step, tally))
            .collect();
        assert!(answers.contains(&15), "seed {}", tally.seed);
    });
}

/// Numbers that may be a state's, or are near to some.
fn any_state(maker: &mut Maker, room: usize) -> Vec<u64> {
    let rows = 1 + maker.random.below(90) as u64;
    let mut below = |most: u64| maker.random.number() % (most + 1);
    let depth = below(rows.min(64));
    let inner = match depth {
        0 | 1 => 0,
        64 => rows - 1,
        depth => depth - 1 + below(rows - depth),
    };
    let blocks = match depth {
        0 | 1 => below(rows - 1),
        2 => below(inner),
        depth => below(inner + 2 - depth),
    };
    vec![0, rows, below(200), blocks, depth, inner, room as u64]
}

/// Damages a state or the buffer, or takes the state of an earlier time.
fn damage(maker: &mut Maker, lent: &mut Lent, earlier: &[u64]) {
    let at = maker.random.below(WRITER_STATE);
    match maker.random.below(10) {
        0 => lent.state.truncate(at),
        1 => lent.buffer.resize(any_room(maker), 0),
        2 | 3 => {
            let by = *maker.random.pick(&[1, 2, 8, 1 << 32]);
            lent.state[at] = match maker.random.chance(500) {
                true => lent.state[at].wrapping_add(by),
                false => lent.state[at].wrapping_sub(by),
            };
        }
        4 => {
            let odd = [
                0,
                1,
                2,
                63,
                64,
                65,
                511,
                512,
                513,
                8_191,
                65_536,
                1 << 61,
                u64::MAX,
            ];
            lent.state[at] = *maker.random.pick(&odd);
        }
        5 => lent.state.fill_with(|| maker.random.number()),
        6 => lent.buffer.fill_with(|| maker.random.number() as u8),
        7 | 8 => lent.state = any_state(maker, lent.buffer.len()),
        _ => lent.state = earlier.to_vec(),
    }
}

/// A step that a state allows, where steps can have left it; at times any.
fn telling_step(maker: &mut Maker, lent: &Lent) -> Step {
    match lent.state[..] {
        _ if maker.random.chance(500) => any_step(maker, 100),
        [_, 0, ..] => ROOT,
        [_, _, _, _, 0, ..] => Step::Finish,
        _ => Step::Close,
    }
}

/// The answer is 16 just where no steps can have left the state, or where the step is out of place.
#[test]
fn damaged_states() {
    each_case("damaged states", 400, |maker, tally| {
        let room = match maker.random.chance(700) {
            true => maker.random.below(2_000),
            false => any_room(maker),
        };
        let mut writing = Writing::new(maker, room);
        if maker.random.chance(950) {
            writing.step(ROOT, tally);
        }
        if maker.random.chance(200) {
            for _ in 0..60 + maker.random.below(4) {
                writing.step(Step::Open(Kind::ItemText as u8), tally);
            }
        }
        let earlier = writing.lent.state.clone();
        let count = maker.random.below(30);
        writing.any_steps(maker, count, tally);
        for _ in 0..6 {
            let mut lent = writing.lent.clone();
            damage(maker, &mut lent, &earlier);
            for _ in 0..4 {
                let step = telling_step(maker, &lent);
                let room = lent.buffer.len();
                let standing = standing_of(&lent.state, room);
                let expected = standing.map_or(16, |standing| standing.answer(room, &step));
                lent.step(&step, expected, tally);
            }
        }
    });
}
