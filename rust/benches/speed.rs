//! How long conversions, changes and the writing of tree files take, beside the reference on the same inputs: `cargo bench --offline`.
//!
//! `ZALDRUME_SEED` is the seed of the documents (7 where it is not set). Every time is the least mean of a few calls, over rounds in
//! which all that a table has take turns.

use std::hint::black_box;

use reference::builder::Builder;
use reference::constructs::{
    curly, documents, environment, formula, label, least_means, mixture, rules, word, Document,
    CALLS,
};
use reference::hostile;
use reference::made::{node, token, Random};
use reference::Kind::*;
use reference::{Refused, Step, BLOCKS_MOST, FILE_MOST, ROW_SIZE};
use zaldrume::file::{Kind, TreeFile};
use zaldrume::raw::{self, Answer, WRITER_STATE};

fn micro(nanos: f64) -> String {
    format!("{:.1}", nanos / 1000.0)
}

/// A table's title, and the heads of its columns.
fn title(title: &str, columns: &str) {
    println!("\n## {title}\n\n{columns}");
    println!("{}|", "|---".repeat(columns.matches('|').count() - 1));
}

/// The means of a column for each of a count of cases: column after column has its turn, so that no case is next to itself.
fn columns<const N: usize>(cases: usize, mut call: impl FnMut(usize, usize)) -> Vec<[f64; N]> {
    let means = least_means(N * cases, |i| call(i / cases, i % cases));
    let case = |i| std::array::from_fn(|column| means[column * cases + i]);
    (0..cases).map(case).collect()
}

type Library = fn(u8, &[u8], &[u8], usize, usize, &mut [u8], &mut [u8]) -> Answer;

type Reference =
    fn(u8, &[u8], &[u8], usize, usize, &mut [u8], &mut [u8]) -> Result<reference::Edited, Refused>;

/// A change of one block, by the library and by the reference.
#[derive(Clone, Copy)]
struct Change {
    library: Library,
    reference: Reference,
}

const EDIT: Change = Change {
    library: raw::edit,
    reference: reference::edit,
};

const INSERT: Change = Change {
    library: raw::insert,
    reference: reference::insert,
};

const REMOVE: Change = Change {
    library: raw::remove,
    reference: reference::remove,
};

/// [`Buffers::library`] or [`Buffers::reference`].
type By = fn(&mut Buffers, Change, &[u8], &[u8], usize, usize) -> (usize, usize);

#[derive(Clone)]
struct Buffers {
    text: Vec<u8>,
    ledger: Vec<u8>,
}

impl Buffers {
    fn new(text: usize) -> Self {
        Buffers {
            text: vec![0; text],
            ledger: vec![0; BLOCKS_MOST * ROW_SIZE],
        }
    }

    /// The text's length.
    fn convert(&mut self, rules: &[u8], tree: &[u8]) -> usize {
        let answer = raw::convert(0, rules, tree, &mut self.text, &mut self.ledger);
        assert_eq!(answer.number, 0, "refused at {}", answer.place);
        answer.place
    }

    fn reference_convert(&mut self, rules: &[u8], tree: &[u8]) -> usize {
        let done = reference::convert(0, rules, tree, &mut self.text, &mut self.ledger);
        done.expect("accepted").length
    }

    /// A block that does not exist is refused right after the checks.
    fn check(&mut self, rules: &[u8], tree: &[u8]) {
        let Buffers { text, ledger } = self;
        let answer = raw::edit(0, rules, tree, usize::MAX, 0, text, ledger);
        assert_eq!(black_box(answer).number, 6);
    }

    /// A change by the library: the text's length, and how many blocks were converted.
    fn library(
        &mut self,
        change: Change,
        rules: &[u8],
        tree: &[u8],
        at: usize,
        kept: usize,
    ) -> (usize, usize) {
        let Buffers { text, ledger } = self;
        let answer = (change.library)(0, rules, tree, at, kept, text, ledger);
        assert_eq!(answer.number, 0, "refused at {}", answer.place);
        (answer.place, answer.count)
    }

    /// The same by the reference.
    fn reference(
        &mut self,
        change: Change,
        rules: &[u8],
        tree: &[u8],
        at: usize,
        kept: usize,
    ) -> (usize, usize) {
        let Buffers { text, ledger } = self;
        let done = (change.reference)(0, rules, tree, at, kept, text, ledger).expect("accepted");
        (done.length, done.count)
    }

    /// Several blocks replaced together, by the library.
    fn replace_all(
        &mut self,
        rules: &[u8],
        tree: &[u8],
        blocks: &[usize],
        kept: usize,
    ) -> (usize, usize) {
        let Buffers { text, ledger } = self;
        let answer = raw::replace_all(0, rules, tree, blocks, kept, text, ledger);
        assert_eq!(answer.number, 0, "refused at {}", answer.place);
        (answer.place, answer.count)
    }

    fn assert_same(&self, other: &Buffers) {
        assert!(self.text == other.text && self.ledger == other.ledger);
    }
}

/// All documents with 1,000 rules.
fn by_construct(documents: &[Document]) {
    title(
        "Conversion by construct",
        "| document | blocks | rows | text bytes | library µs | ns a row | reference µs | library / reference | checks alone µs |",
    );
    let rules = &rules(1_000);
    let mut ours = Buffers::new(4 * FILE_MOST);
    let mut theirs = ours.clone();
    let convert = |document: &Document| {
        theirs.reference_convert(rules, &document.tree);
        let length = ours.convert(rules, &document.tree);
        ours.assert_same(&theirs);
        length
    };
    let lengths: Vec<_> = documents.iter().map(convert).collect();
    let means = columns(documents.len(), |column, i| {
        let (rules, tree) = (black_box(rules), black_box(&documents[i].tree));
        match column {
            0 => assert_eq!(ours.convert(rules, tree), lengths[i]),
            1 => assert_eq!(theirs.reference_convert(rules, tree), lengths[i]),
            _ => ours.check(rules, tree),
        }
    });
    for (i, document) in documents.iter().enumerate() {
        let ([library, reference, checks], rows) = (means[i], document.rows());
        println!(
            "| {} | {} | {rows} | {} | {} | {:.1} | {} | {:.2} | {} |",
            document.name,
            document.blocks.len(),
            lengths[i],
            micro(library),
            library / rows as f64,
            micro(reference),
            library / reference,
            micro(checks),
        );
    }
}

/// All documents with few, with some and with many rules.
fn by_rules(documents: &[Document]) {
    title(
        "Conversion by the count of rules",
        "| document | blocks | library µs, 10 rules | 1,000 rules | 5,000 rules | 5,000 / 10 | checks alone µs, 10 rules | 1,000 rules | 5,000 rules |",
    );
    let rules = [10, 1_000, 5_000].map(rules);
    assert!(rules.iter().all(|file| file.len() <= FILE_MOST));
    let mut buffers = Buffers::new(4 * FILE_MOST);
    let means = columns(documents.len(), |column, i| {
        let (rules, tree) = (black_box(&rules[column % 3]), black_box(&documents[i].tree));
        match column {
            0..=2 => assert!(buffers.convert(rules, tree) > 0),
            _ => buffers.check(rules, tree),
        }
    });
    for (document, means) in documents.iter().zip(means) {
        let [few, some, many, checks_few, checks_some, checks_many] = means.map(micro);
        println!(
            "| {} | {} | {few} | {some} | {many} | {:.2} | {checks_few} | {checks_some} | {checks_many} |",
            document.name,
            document.blocks.len(),
            means[2] / means[0],
        );
    }
}

/// An edit, there and back: two trees that differ in a block.
struct Edit {
    name: String,
    block: usize,
    trees: [Vec<u8>; 2],
}

/// A document that goes back and forth between the two trees of an edit, so that each call changes something.
#[derive(Clone)]
struct Open {
    buffers: Buffers,
    kept: usize,
    turn: usize,
    count: usize,
}

impl Open {
    /// The first tree, after library and reference went there and back.
    fn new(rules: &[u8], edit: &Edit) -> Self {
        let mut buffers = Buffers::new(2 * FILE_MOST);
        let kept = buffers.convert(rules, &edit.trees[0]);
        let mut ours = Open {
            buffers,
            kept,
            turn: 0,
            count: 0,
        };
        let mut theirs = ours.clone();
        for _ in 0..2 {
            ours.edit(rules, edit, Buffers::library);
            theirs.edit(rules, edit, Buffers::reference);
            ours.buffers.assert_same(&theirs.buffers);
        }
        ours
    }

    fn edit(&mut self, rules: &[u8], edit: &Edit, by: By) {
        self.turn = 1 - self.turn;
        let (rules, tree) = (black_box(rules), black_box(&edit.trees[self.turn]));
        let answer = by(&mut self.buffers, EDIT, rules, tree, edit.block, self.kept);
        (self.kept, self.count) = answer;
    }
}

/// A word more in a block.
fn edit_of_word(document: &Document, place: &str, block: usize) -> Edit {
    let inside = vec![document.blocks[block].clone(), token(TokenWord, "another")];
    let longer = document.with(block, node(ItemText, inside));
    Edit {
        name: format!("{}, {place} block", document.name),
        block,
        trees: [document.tree.clone(), longer.tree],
    }
}

/// A label that comes and goes in a block and waits for an environment 39 blocks later.
fn edit_of_label(words: &Document) -> Edit {
    let block = 200;
    let mut random = Random::new(9);
    let quote = environment("quote", None, vec![word(&mut random)]);
    let without = words.with(block + 39, quote);
    let waiting = formula(vec![curly(vec![label("eq", &mut random)])]);
    let with = without.with(block, waiting);
    Edit {
        name: "words, a label that travels 40 blocks".to_owned(),
        block,
        trees: [without.tree, with.tree],
    }
}

/// A document in 512 blocks.
fn in_most_blocks<'a>(documents: &'a [Document], name: &str) -> &'a Document {
    let is_wanted =
        |document: &&Document| document.name == name && document.blocks.len() == BLOCKS_MOST;
    documents.iter().find(is_wanted).expect("such a document")
}

/// Edits of some documents in 512 blocks; those of one document stand apart.
fn edits_of(documents: &[Document]) -> Vec<Edit> {
    let chosen = ["words", "commands", "tables", "labels", "mixture"]
        .map(|name| in_most_blocks(documents, name));
    let mut edits = Vec::new();
    for (place, block) in [("first", 0), ("middle", 256), ("last", 511)] {
        let edit = |document| edit_of_word(document, place, block);
        edits.extend(chosen.map(edit));
    }
    edits.push(edit_of_label(chosen[0]));
    edits
}

/// With 1,000 rules.
fn edits(documents: &[Document]) {
    title(
        "Edits of one of 512 blocks",
        "| edit | blocks converted again | library µs | reference µs | library / reference | converting from the start µs | edit / from the start | checks alone µs |",
    );
    let rules = rules(1_000);
    let edits = edits_of(documents);
    let mut ours: Vec<_> = edits.iter().map(|edit| Open::new(&rules, edit)).collect();
    let mut theirs = ours.clone();
    let mut whole = Buffers::new(2 * FILE_MOST);
    let means = columns(edits.len(), |column, i| {
        let tree = black_box(&edits[i].trees[1]);
        match column {
            0 => ours[i].edit(&rules, &edits[i], Buffers::library),
            1 => theirs[i].edit(&rules, &edits[i], Buffers::reference),
            2 => assert!(whole.convert(black_box(&rules), tree) > 0),
            _ => whole.check(black_box(&rules), tree),
        }
    });
    for (i, [library, reference, start, checks]) in means.into_iter().enumerate() {
        println!(
            "| {} | {} | {} | {} | {:.2} | {} | {:.2} | {} |",
            edits[i].name,
            ours[i].count,
            micro(library),
            micro(reference),
            library / reference,
            micro(start),
            library / start,
            micro(checks),
        );
    }
}

/// As many blocks as a turn has calls, put in one after the other and taken out again: the tree with none of them, with one, with all.
struct Growth {
    place: &'static str,
    first: usize,
    trees: [Vec<u8>; CALLS + 1],
}

impl Growth {
    fn new(document: &Document, place: &'static str, first: usize) -> Self {
        let tree = |there| {
            let mut blocks = document.blocks.clone();
            blocks.drain(first + there..first + CALLS);
            Document::new(document.name, blocks).tree
        };
        Growth {
            place,
            first,
            trees: std::array::from_fn(tree),
        }
    }
}

/// A document in which some of these blocks are there.
#[derive(Clone)]
struct Growing {
    buffers: Buffers,
    kept: usize,
    there: usize,
    // the most blocks that an insertion and a removal converted
    counts: [usize; 2],
}

impl Growing {
    /// The document without them, after library and reference put them in and took them out.
    fn new(rules: &[u8], growth: &Growth) -> Self {
        let mut buffers = Buffers::new(2 * FILE_MOST);
        let kept = buffers.convert(rules, &growth.trees[0]);
        let mut ours = Growing {
            buffers,
            kept,
            there: 0,
            counts: [0; 2],
        };
        let mut theirs = ours.clone();
        for step in [Growing::insert, Growing::remove] {
            for _ in 0..CALLS {
                step(&mut ours, rules, growth, Buffers::library);
                step(&mut theirs, rules, growth, Buffers::reference);
                ours.buffers.assert_same(&theirs.buffers);
            }
        }
        ours
    }

    fn insert(&mut self, rules: &[u8], growth: &Growth, by: By) {
        let at = growth.first + self.there;
        self.there += 1;
        let count = self.change(INSERT, rules, growth, at, by);
        self.counts[0] = self.counts[0].max(count);
    }

    fn remove(&mut self, rules: &[u8], growth: &Growth, by: By) {
        self.there -= 1;
        let at = growth.first + self.there;
        let count = self.change(REMOVE, rules, growth, at, by);
        self.counts[1] = self.counts[1].max(count);
    }

    fn change(
        &mut self,
        change: Change,
        rules: &[u8],
        growth: &Growth,
        at: usize,
        by: By,
    ) -> usize {
        let (rules, tree) = (black_box(rules), black_box(&growth.trees[self.there]));
        let (kept, count) = by(&mut self.buffers, change, rules, tree, at, self.kept);
        self.kept = kept;
        count
    }
}

/// The mixture with 1,000 rules. A turn of insertions comes before one of removals.
fn insertions(documents: &[Document]) {
    title(
        "A block put into 509 to 511 and taken out again",
        "| place | blocks converted, at most | put in µs | put in / checks | blocks converted, at most | taken out µs | taken out / checks | converting from the start µs | checks alone µs |",
    );
    let rules = rules(1_000);
    let mixture = in_most_blocks(documents, "mixture");
    let places = [
        ("first", 0),
        ("middle", BLOCKS_MOST / 2),
        ("last", BLOCKS_MOST - CALLS),
    ];
    let growths = places.map(|(place, first)| Growth::new(mixture, place, first));
    let mut open = growths
        .each_ref()
        .map(|growth| Growing::new(&rules, growth));
    let mut whole = Buffers::new(2 * FILE_MOST);
    let means = columns(growths.len(), |column, i| {
        let growth = &growths[i];
        let full = black_box(&growth.trees[CALLS]);
        match column {
            0 => open[i].insert(&rules, growth, Buffers::library),
            1 => open[i].remove(&rules, growth, Buffers::library),
            2 => assert!(whole.convert(black_box(&rules), full) > 0),
            _ => whole.check(black_box(&rules), full),
        }
    });
    for (i, [put, taken, start, checks]) in means.into_iter().enumerate() {
        let [put_count, taken_count] = open[i].counts;
        println!(
            "| {} | {put_count} | {} | {:.2} | {taken_count} | {} | {:.2} | {} | {} |",
            growths[i].place,
            micro(put),
            put / checks,
            micro(taken),
            taken / checks,
            micro(start),
            micro(checks),
        );
    }
}

/// Blocks spread over a document, every other of them with a word more at the start and the others at the end: the tree after each edit, if
/// they are made singly.
struct Replacement {
    blocks: Vec<usize>,
    trees: Vec<Vec<u8>>,
}

impl Replacement {
    fn new(document: &Document, count: usize) -> Self {
        let block = |i| (2 * i + 1) * BLOCKS_MOST / (2 * count);
        let blocks: Vec<_> = (0..count).map(block).collect();
        let tree = |done| {
            let mut all = document.blocks.clone();
            for (i, &block) in blocks.iter().enumerate() {
                if (i % 2 == 0) == (i >= done) {
                    let inside = vec![token(TokenWord, "another"), all[block].clone()];
                    all[block] = node(ItemText, inside);
                }
            }
            Document::new(document.name, all).tree
        };
        Replacement {
            trees: (0..=count).map(tree).collect(),
            blocks,
        }
    }
}

/// A document that goes back and forth between the first and the last tree of a replacement.
#[derive(Clone)]
struct Replaced {
    buffers: Buffers,
    kept: usize,
    there: bool,
    count: usize,
}

impl Replaced {
    /// The first tree, after the blocks were replaced together and singly, there and back.
    fn new(rules: &[u8], replacement: &Replacement) -> Self {
        let mut buffers = Buffers::new(2 * FILE_MOST);
        let kept = buffers.convert(rules, &replacement.trees[0]);
        let mut together = Replaced {
            buffers,
            kept,
            there: false,
            count: 0,
        };
        let mut singly = together.clone();
        for _ in 0..2 {
            together.replace(rules, replacement);
            singly.edit(rules, replacement);
            let (ours, theirs) = (&together.buffers, &singly.buffers);
            assert_eq!(together.kept, singly.kept);
            assert!(ours.text[..together.kept] == theirs.text[..singly.kept]);
            assert!(ours.ledger == theirs.ledger);
        }
        together
    }

    /// All blocks together.
    fn replace(&mut self, rules: &[u8], Replacement { blocks, trees }: &Replacement) {
        self.there = !self.there;
        let tree = &trees[if self.there { blocks.len() } else { 0 }];
        let (rules, tree) = (black_box(rules), black_box(tree));
        (self.kept, self.count) = self.buffers.replace_all(rules, tree, blocks, self.kept);
    }

    /// Block by block, back in the other order.
    fn edit(&mut self, rules: &[u8], Replacement { blocks, trees }: &Replacement) {
        self.there = !self.there;
        for turn in 0..blocks.len() {
            let (i, tree) = match self.there {
                true => (turn, turn + 1),
                false => (blocks.len() - 1 - turn, blocks.len() - 1 - turn),
            };
            let (rules, tree) = (black_box(rules), black_box(&trees[tree]));
            let answer = self
                .buffers
                .library(EDIT, rules, tree, blocks[i], self.kept);
            self.kept = answer.0;
        }
    }
}

/// The mixture, a little shorter, with 1,000 rules.
fn replacements(seed: u64) {
    title(
        "Some of 512 blocks replaced together",
        "| blocks replaced | blocks converted again | together µs | singly µs | together / singly | converting from the start µs | together / from the start | checks alone µs |",
    );
    let rules = rules(1_000);
    let document = mixture(BLOCKS_MOST, FILE_MOST / 16, &mut Random::new(seed));
    let replacements = [1, 8, 64, 256].map(|count| Replacement::new(&document, count));
    let open = |replacement| Replaced::new(&rules, replacement);
    let mut together = replacements.each_ref().map(open);
    let mut singly = together.clone();
    let mut whole = Buffers::new(2 * FILE_MOST);
    let means = columns(replacements.len(), |column, i| {
        let replacement = &replacements[i];
        let tree = black_box(&replacement.trees[0]);
        match column {
            0 => together[i].replace(&rules, replacement),
            1 => singly[i].edit(&rules, replacement),
            2 => assert!(whole.convert(black_box(&rules), tree) > 0),
            _ => whole.check(black_box(&rules), tree),
        }
    });
    for (i, [all, single, start, checks]) in means.into_iter().enumerate() {
        println!(
            "| {} | {} | {} | {} | {:.3} | {} | {:.2} | {} |",
            replacements[i].blocks.len(),
            together[i].count,
            micro(all),
            micro(single),
            all / single,
            micro(start),
            all / start,
            micro(checks),
        );
    }
}

fn hostile() {
    title(
        "Hostile documents",
        "| document | rows | text bytes | library µs | checks alone µs |",
    );
    let (documents, rules) = (hostile::documents(), hostile::rules());
    let mut buffers = Buffers::new(32 * FILE_MOST);
    let mut convert = |document: &Document| buffers.convert(&rules, &document.tree);
    let lengths: Vec<_> = documents.iter().map(&mut convert).collect();
    let means = columns(documents.len(), |column, i| {
        let (rules, tree) = (black_box(&rules), black_box(&documents[i].tree));
        match column {
            0 => assert_eq!(buffers.convert(rules, tree), lengths[i]),
            _ => buffers.check(rules, tree),
        }
    });
    for (i, document) in documents.iter().enumerate() {
        let ([library, checks], rows) = (means[i].map(micro), document.rows());
        println!(
            "| {} | {rows} | {} | {library} | {checks} |",
            document.name, lengths[i]
        );
    }
}

/// The steps under the root of a file of just [`FILE_MOST`] bytes: the same ones over and over, and a last token.
fn steps_of_full_file(repeated: Vec<Step>) -> Vec<Step> {
    let size = |steps: &[Step]| -> usize {
        let bytes = |step: &Step| match step {
            Step::Open(_) => 8,
            Step::Token(_, text) => 8 + text.len(),
            Step::Close | Step::Finish => 0,
        };
        steps.iter().map(bytes).sum()
    };
    // root, one node under it, last token and trailer
    let left = FILE_MOST - 8 * 4;
    let turns = (left - 1) / size(&repeated);
    let last = left - turns * size(&repeated);
    let mut steps = vec![Step::Open(ItemText as u8)];
    steps.extend(vec![repeated; turns].concat());
    steps.push(Step::Token(TokenWord as u8, vec![b'w'; last]));
    steps.push(Step::Close);
    steps
}

fn full_files() -> [(&'static str, Vec<Step>); 4] {
    let word = |size| Step::Token(TokenWord as u8, vec![b'w'; size]);
    let open = Step::Open(ItemText as u8);
    let nodes = |depth| [vec![open.clone(); depth], vec![Step::Close; depth]].concat();
    [
        ("tokens of 1 byte", vec![word(1)]),
        ("nodes side by side", nodes(1)),
        ("nodes 60 deep", nodes(60)),
        ("tokens of 8,000 bytes", vec![word(8_000)]),
    ]
    .map(|(name, repeated)| (name, steps_of_full_file(repeated)))
}

/// The four calls, on a buffer that is there: the file's length.
fn write_by_calls(steps: &[Step], buffer: &mut [u8]) -> usize {
    let state = &mut [0; WRITER_STATE];
    let mut number = raw::writer_open(state, buffer, ScopeRoot as u8);
    for step in steps {
        number |= match step {
            Step::Open(kind) => raw::writer_open(state, buffer, *kind),
            Step::Token(kind, text) => raw::writer_token(state, buffer, *kind, text),
            Step::Close | Step::Finish => raw::writer_close(state, buffer),
        };
    }
    number |= raw::writer_close(state, buffer);
    let (finish, length) = raw::writer_finish(state, buffer);
    assert_eq!(number | finish, 0);
    length
}

/// A step as the package's builder takes it.
enum PackageStep<'a> {
    Start(Kind),
    Token(Kind, &'a str),
    Finish,
}

fn package_steps(steps: &[Step]) -> Vec<PackageStep<'_>> {
    let kind = |number| Kind::try_from(number).expect("a kind");
    let text = |bytes| std::str::from_utf8(bytes).expect("a text");
    let package_step = |step| match step {
        &Step::Open(number) => PackageStep::Start(kind(number)),
        Step::Token(number, bytes) => PackageStep::Token(kind(*number), text(bytes)),
        Step::Close | Step::Finish => PackageStep::Finish,
    };
    steps.iter().map(package_step).collect()
}

/// The package's builder, which stands on these calls.
fn write_by_package(steps: &[PackageStep]) -> Vec<u8> {
    let mut tree = TreeFile::new();
    for step in steps {
        match step {
            PackageStep::Start(kind) => tree.start(*kind),
            PackageStep::Token(kind, text) => tree.token(*kind, text),
            PackageStep::Finish => tree.finish(),
        }
    }
    tree.build().expect("accepted")
}

/// The builder that checks nothing.
fn write_unchecked(steps: &[Step]) -> Vec<u8> {
    let mut tree = Builder::default();
    for step in steps {
        match step {
            Step::Open(kind) => tree.start(*kind),
            Step::Token(kind, text) => tree.token(*kind, text),
            Step::Close | Step::Finish => tree.finish(),
        }
    }
    tree.build().expect("short enough")
}

fn writings() {
    title(
        "Tree files of 65,536 bytes, written step by step",
        "| file | steps | library µs | ns a step | by the package's builder µs | by a builder that checks nothing µs | library / that builder |",
    );
    let files = full_files();
    let packaged: Vec<_> = files
        .iter()
        .map(|(_, steps)| package_steps(steps))
        .collect();
    let mut buffer = vec![0; FILE_MOST];
    for ((_, steps), packaged) in files.iter().zip(&packaged) {
        assert_eq!(write_by_calls(steps, &mut buffer), FILE_MOST);
        assert!(buffer == write_by_package(packaged) && buffer == write_unchecked(steps));
    }
    let means = columns(files.len(), |column, i| {
        let (steps, packaged) = black_box((&files[i].1, &packaged[i]));
        let length = match column {
            0 => write_by_calls(steps, &mut buffer),
            1 => black_box(write_by_package(packaged)).len(),
            _ => black_box(write_unchecked(steps)).len(),
        };
        assert_eq!(length, FILE_MOST);
    });
    for ((name, steps), [library, package, unchecked]) in files.iter().zip(means) {
        // root, its close and the finish
        let count = steps.len() + 3;
        println!(
            "| {name} | {count} | {} | {:.1} | {} | {} | {:.2} |",
            micro(library),
            library / count as f64,
            micro(package),
            micro(unchecked),
            library / unchecked,
        );
    }
}

fn main() {
    let seed = std::env::var("ZALDRUME_SEED").map_or(7, |seed| seed.parse().expect("a number"));
    let documents = documents(seed);
    by_construct(&documents);
    by_rules(&documents);
    edits(&documents);
    insertions(&documents);
    replacements(seed);
    hostile();
    writings();
}
