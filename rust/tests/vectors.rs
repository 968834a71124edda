//! Library and reference against folders of vectors, which `ZALDRUME_VECTORS` names, with colons
//! between them; without it nothing is compared.
//!
//! A conversion case has `rules.bin`, `tree.bin`, `stdin` and `expected`; a run of changes (edits,
//! insertions, removals, several blocks replaced together) `rules.bin`, `script.txt` and, for each
//! call, its tree and both buffers after it; a list of the writer's steps `steps.txt` and, where it is
//! finished, the file or its hash.

use std::fs;
use std::path::{Path, PathBuf};

use reference::{sha256, Step, Writer, FILE_MOST};
use zaldrume::raw::{self, Answer, WRITER_STATE};

#[derive(Debug, Clone, Copy)]
enum Under {
    Library,
    Reference,
}

impl Under {
    const BOTH: [Under; 2] = [Under::Library, Under::Reference];

    /// What a conversion answers: length and blocks, or number and row.
    fn convert(
        self,
        mode: u8,
        rules: &[u8],
        tree: &[u8],
        text: &mut [u8],
        ledger: &mut [u8],
    ) -> Result<(usize, usize), (u8, usize)> {
        match self {
            Under::Library => match raw::convert(mode, rules, tree, text, ledger) {
                Answer {
                    number: 0,
                    place,
                    count,
                    ..
                } => Ok((place, count)),
                Answer { number, place, .. } => Err((number, place)),
            },
            Under::Reference => reference::convert(mode, rules, tree, text, ledger)
                .map(|done| (done.length, done.blocks))
                .map_err(|refused| (refused.number, refused.row)),
        }
    }

    /// What a change answers, by its word in a script: length, growth and count, or number and row.
    #[allow(clippy::too_many_arguments)]
    fn change(
        self,
        word: &str,
        mode: u8,
        rules: &[u8],
        tree: &[u8],
        at: &[usize],
        kept: usize,
        text: &mut [u8],
        ledger: &mut [u8],
    ) -> Result<(usize, i64, usize), (u8, usize)> {
        match self {
            Under::Library => {
                let answer = match word {
                    "edit" => raw::edit(mode, rules, tree, at[0], kept, text, ledger),
                    "insert" => raw::insert(mode, rules, tree, at[0], kept, text, ledger),
                    "remove" => raw::remove(mode, rules, tree, at[0], kept, text, ledger),
                    "replace" => raw::replace_all(mode, rules, tree, at, kept, text, ledger),
                    _ => panic!("no such call: {word}"),
                };
                match answer.number {
                    0 => Ok((answer.place, answer.growth, answer.count)),
                    number => Err((number, answer.place)),
                }
            }
            Under::Reference => {
                let answer = match word {
                    "edit" => reference::edit(mode, rules, tree, at[0], kept, text, ledger),
                    "insert" => reference::insert(mode, rules, tree, at[0], kept, text, ledger),
                    "remove" => reference::remove(mode, rules, tree, at[0], kept, text, ledger),
                    "replace" => reference::replace_all(mode, rules, tree, at, kept, text, ledger),
                    _ => panic!("no such call: {word}"),
                };
                answer
                    .map(|done| (done.length, done.growth, done.count))
                    .map_err(|refused| (refused.number, refused.row))
            }
        }
    }
}

/// The numbers of a list in a script, `none` where there are none.
fn numbers(list: &str) -> Vec<usize> {
    match list {
        "none" => Vec::new(),
        list => list.split(',').map(number).collect(),
    }
}

fn number(word: &str) -> usize {
    word.parse().expect("a number")
}

fn cases(named: impl Fn(&Path) -> bool) -> Vec<PathBuf> {
    let Some(folders) = std::env::var_os("ZALDRUME_VECTORS") else {
        println!("ZALDRUME_VECTORS is not set: nothing is compared");
        return Vec::new();
    };
    let entries =
        |folder| fs::read_dir(folder).unwrap_or_else(|e| panic!("a folder of vectors: {e}"));
    let mut found: Vec<_> = std::env::split_paths(&folders)
        .flat_map(entries)
        .map(|entry| entry.expect("an entry").path())
        .filter(|path| named(path))
        .collect();
    assert!(!found.is_empty(), "the folders have no such case");
    found.sort();
    println!("{} cases", found.len());
    found
}

fn read(folder: &Path, name: &str) -> Vec<u8> {
    fs::read(folder.join(name)).unwrap_or_else(|e| panic!("{}/{name}: {e}", folder.display()))
}

#[test]
fn conversions() {
    for case in cases(|path| path.join("expected").is_file()) {
        let [rules, tree, stdin] = ["rules.bin", "tree.bin", "stdin"]
            .map(|name| fs::read(case.join(name)).unwrap_or_default());
        let mode = match stdin.first() {
            Some(b't') => 0,
            Some(b'm') => 1,
            _ => 2,
        };
        for under in Under::BOTH {
            let mut text = vec![0; FILE_MOST];
            let mut ledger = vec![0; FILE_MOST];
            let written = match under.convert(mode, &rules, &tree, &mut text, &mut ledger) {
                Ok((length, _)) => text[..length].to_vec(),
                Err((number, row)) => format!("refused {number} at {row}\n").into_bytes(),
            };
            let expected = read(&case, "expected");
            assert!(
                written == expected,
                "{under:?}, {}: {} for {}",
                case.display(),
                written.escape_ascii(),
                expected.escape_ascii()
            );
        }
    }
}

#[test]
fn changes() {
    for case in cases(|path| path.join("script.txt").is_file()) {
        for under in Under::BOTH {
            replay(&case, under);
        }
    }
}

fn replay(case: &Path, under: Under) {
    let rules = read(case, "rules.bin");
    let script = String::from_utf8(read(case, "script.txt")).expect("a script is text");
    let before = if script.contains("convert ") {
        "before"
    } else {
        "0"
    };
    let mut text = read(case, &format!("text-{before}.bin"));
    let mut ledger = read(case, &format!("ledger-{before}.bin"));
    let mut mode = 0;
    for line in script.lines() {
        let words: Vec<_> = line.split(' ').collect();
        if words[0] == "mode" {
            mode = number(words[1]) as u8;
            continue;
        }
        let call = words[1];
        let tree = read(case, &format!("tree-{call}.bin"));
        let said = match words[0] {
            "convert" => under
                .convert(mode, &rules, &tree, &mut text, &mut ledger)
                .map(|(length, blocks)| format!("ok {length} {blocks}")),
            word => under
                .change(
                    word,
                    mode,
                    &rules,
                    &tree,
                    &numbers(words[3]),
                    number(words[5]),
                    &mut text,
                    &mut ledger,
                )
                .map(|(length, growth, count)| format!("ok {length} {growth} {count}")),
        };
        let said = said.unwrap_or_else(|(number, row)| format!("refused {number} {row}"));
        let place = format!("{under:?}, {}: {line}", case.display());
        assert!(line.ends_with(&format!(" {said}")), "{place}: {said}");
        assert!(
            text == read(case, &format!("text-{call}.bin")),
            "{place}: text"
        );
        assert!(
            ledger == read(case, &format!("ledger-{call}.bin")),
            "{place}: ledger"
        );
    }
}

/// A file in the making, by the library or by the reference.
enum Writing {
    Library([u64; WRITER_STATE], Vec<u8>),
    Reference(Writer, usize),
}

impl Writing {
    fn new(under: Under, room: usize) -> Self {
        match under {
            Under::Library => Writing::Library([0; WRITER_STATE], vec![0xa5; room]),
            Under::Reference => Writing::Reference(Writer::default(), room),
        }
    }

    /// A step's answer, and the file that a finish gives.
    fn step(&mut self, step: &Step) -> (u8, Vec<u8>) {
        match self {
            Writing::Library(state, buffer) => match step {
                Step::Open(kind) => (raw::writer_open(state, buffer, *kind), Vec::new()),
                Step::Token(kind, text) => {
                    let number = raw::writer_token(state, buffer, *kind, text);
                    (number, Vec::new())
                }
                Step::Close => (raw::writer_close(state, buffer), Vec::new()),
                Step::Finish => {
                    let (number, length) = raw::writer_finish(state, buffer);
                    (number, buffer[..length].to_vec())
                }
            },
            Writing::Reference(writer, room) => match writer.step(*room, step) {
                0 => (0, writer.file().unwrap_or_default()),
                number => (number, Vec::new()),
            },
        }
    }
}

/// A text in a list of steps: bytes in hexadecimal, `77*65513` for many, `+` between parts, `-` for none.
fn text(word: &str) -> Vec<u8> {
    let byte = |pair: &[u8]| {
        let pair = std::str::from_utf8(pair).expect("digits");
        u8::from_str_radix(pair, 16).expect("a byte")
    };
    let part = |part: &str| match part.split_once('*') {
        Some((pair, count)) => vec![byte(pair.as_bytes()); number(count)],
        None => part.as_bytes().chunks(2).map(byte).collect(),
    };
    match word {
        "-" => Vec::new(),
        word => word.split('+').flat_map(part).collect(),
    }
}

fn step(words: &str) -> Step {
    let words: Vec<_> = words.split(' ').collect();
    let kind = |word: &str| word.parse().expect("a kind");
    match words[..] {
        ["open", word] => Step::Open(kind(word)),
        ["token", word, bytes] => Step::Token(kind(word), text(bytes)),
        ["close"] => Step::Close,
        ["finish"] => Step::Finish,
        _ => panic!("no such step: {words:?}"),
    }
}

#[test]
fn steps() {
    for case in cases(|path| path.join("steps.txt").is_file()) {
        for under in Under::BOTH {
            write_file(&case, under);
        }
    }
}

fn write_file(case: &Path, under: Under) {
    let list = String::from_utf8(read(case, "steps.txt")).expect("a list of steps is text");
    let (first, list) = list.split_once('\n').expect("a first line");
    let room = first.strip_prefix("buffer ").expect("a buffer's length");
    let mut writing = Writing::new(under, number(room));
    let mut finished = None;
    for line in list.lines() {
        let (words, answer) = line.split_once(" = ").expect("an answer");
        let (answer, times) = answer.split_once(" x").unwrap_or((answer, "1"));
        let step = step(words);
        for _ in 0..number(times) {
            let (number, file) = writing.step(&step);
            let said = match step {
                Step::Finish => format!("{number} {}", file.len()),
                _ => number.to_string(),
            };
            assert_eq!(said, answer, "{under:?}, {}: {line}", case.display());
            if (number, &step) == (0, &Step::Finish) {
                finished = Some(file);
            }
        }
    }
    let place = format!("{under:?}, {}: file", case.display());
    let hash = fs::read_to_string(case.join("file.sha256")).ok();
    match hash {
        Some(hash) => {
            let written = sha256(&finished.expect("a finish"));
            assert_eq!(written, hash.trim_end(), "{place}");
        }
        None => assert!(finished == fs::read(case.join("file.bin")).ok(), "{place}"),
    }
}
