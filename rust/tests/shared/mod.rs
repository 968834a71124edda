//! What the comparisons share.

use std::collections::BTreeMap;
use std::ops::Range;

use reference::made::Maker;
use zaldrume::raw::{self, Answer};

fn setting(name: &str, usual: u64) -> u64 {
    match std::env::var(name) {
        Ok(value) => value
            .parse()
            .unwrap_or_else(|_| panic!("{name} is no number")),
        Err(_) => usual,
    }
}

/// The seeds of a test's cases: `share` in a hundred of `ZALDRUME_CASES`, the first being `ZALDRUME_SEED`.
fn seeds(share: u64) -> Range<u64> {
    let count = (setting("ZALDRUME_CASES", 1000) * share).div_ceil(100);
    let first = setting("ZALDRUME_SEED", 1);
    first..first + count
}

/// Runs the cases of a test, `share` of them in a hundred, and prints how often each call answered each number.
pub fn each_case(name: &str, share: u64, case: impl Fn(&mut Maker, &mut Tally)) {
    let seeds = seeds(share);
    let count = seeds.end - seeds.start;
    let mut tally = Tally::default();
    for seed in seeds {
        tally.seed = seed;
        case(&mut Maker::new(seed), &mut tally);
    }
    println!(
        "{name}: {count} cases, calls by their answers (0 is accepted): {:?}",
        tally.answers
    );
}

/// The two buffers that a call is lent.
#[derive(Clone)]
pub struct Buffers {
    pub text: Vec<u8>,
    pub ledger: Vec<u8>,
}

impl Buffers {
    /// Buffers with anything in them.
    pub fn any(maker: &mut Maker, text: usize, ledger: usize) -> Self {
        let [a, b] = [maker.random.number() as u8, maker.random.number() as u8];
        let mut text = vec![a; text];
        text.iter_mut().step_by(7).for_each(|byte| *byte = b);
        let mut ledger = vec![b; ledger];
        ledger.iter_mut().step_by(5).for_each(|byte| *byte = a);
        Buffers { text, ledger }
    }

    fn assert_same(&self, other: &Buffers, what: &str, seed: u64) {
        assert!(self.text == other.text, "{what}: text, seed {seed}");
        assert!(self.ledger == other.ledger, "{what}: ledger, seed {seed}");
    }
}

pub fn told(result: Result<Answer, reference::Refused>) -> Answer {
    result.unwrap_or_else(|refused| Answer {
        number: refused.number,
        place: refused.row,
        ..Answer::default()
    })
}

/// A case's seed, and how often each call answered each number.
#[derive(Default)]
pub struct Tally {
    pub seed: u64,
    answers: BTreeMap<&'static str, BTreeMap<u8, usize>>,
}

impl Tally {
    /// So many calls more that answered a number.
    pub fn count(&mut self, name: &'static str, number: u8, more: usize) {
        let answers = self.answers.entry(name).or_default();
        *answers.entry(number).or_default() += more;
    }

    /// A call by library and reference in the same buffers: the answer is the same, and so is every byte.
    pub fn compare(
        &mut self,
        name: &'static str,
        buffers: &mut Buffers,
        library: impl FnOnce(&mut Buffers) -> Answer,
        reference: impl FnOnce(&mut Buffers) -> Answer,
    ) -> Answer {
        let before = buffers.clone();
        let mut other = buffers.clone();
        let answer = library(buffers);
        let seed = self.seed;
        assert_eq!(answer, reference(&mut other), "{name}: answer, seed {seed}");
        buffers.assert_same(&other, name, seed);
        if answer.number != 0 {
            buffers.assert_same(&before, "refused", seed);
        }
        self.count(name, answer.number, 1);
        answer
    }

    pub fn convert(
        &mut self,
        mode: u8,
        rules: &[u8],
        tree: &[u8],
        buffers: &mut Buffers,
    ) -> Answer {
        let library =
            |lent: &mut Buffers| raw::convert(mode, rules, tree, &mut lent.text, &mut lent.ledger);
        let reference = |lent: &mut Buffers| {
            let done = reference::convert(mode, rules, tree, &mut lent.text, &mut lent.ledger);
            told(done.map(|done| Answer {
                number: 0,
                place: done.length,
                growth: 0,
                count: done.blocks,
            }))
        };
        self.compare("convert", buffers, library, reference)
    }
}
