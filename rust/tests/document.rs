//! What a [`Document`] keeps, and what the refusals say.

use reference::made;
use reference::Kind::TokenWord;
use zaldrume::file::{Class, Kind, RuleFile, TreeFile};
use zaldrume::{convert, edit, replace_all, Document, Edited, Mode, Refusal};
use zaldrume::{BLOCKS_MOST, ROW_SIZE};

/// [`Document::edit`], [`Document::insert`] or [`Document::remove`].
type Change = fn(&mut Document, &[u8], usize) -> Result<Edited, Refusal>;

fn rules() -> Vec<u8> {
    RuleFile::new()
        .rule("long", Some(&"long ".repeat(2_000)), Class::Symbol)
        .rule("quote", None, Class::Text)
        .rule("tabular", Some("table"), Class::Table)
        .build()
        .expect("a short file")
}

/// A document of words, `\name` standing for a command.
fn tree(words: &[&str]) -> Vec<u8> {
    let mut tree = TreeFile::new();
    for word in words {
        let kind = match word.starts_with('\\') {
            true => Kind::TokenCommandSym,
            false => Kind::TokenWord,
        };
        tree.token(kind, word);
    }
    tree.build().expect("a short file")
}

#[test]
fn opens_and_edits() {
    let mut document = Document::open(Mode::Text, &rules(), &tree(&["a", "b", "c"])).unwrap();
    assert_eq!(document.text(), b"abc");
    let edited = document.edit(&tree(&["a", "bcd", "c"]), 1).unwrap();
    assert_eq!((edited.length, edited.growth, edited.count), (5, 2, 1));
    assert_eq!(document.text(), b"abcdc");
    let edited = document.edit(&tree(&["a", "x", "c"]), 1).unwrap();
    assert_eq!((edited.length, edited.growth), (3, -2));
    assert_eq!(document.text(), b"axc");
    let ranges: Vec<_> = document.blocks().map(|block| block.range).collect();
    assert_eq!(ranges, [0..1, 1..2, 2..3]);
}

#[test]
fn finds_room() {
    let long = ["\\long"; 40];
    let document = Document::open(Mode::Text, &rules(), &tree(&long)).unwrap();
    assert_eq!(document.text().len(), 40 * 10_000);

    let mut document = Document::open(Mode::Text, &rules(), &tree(&["a", "b"])).unwrap();
    let edited = document.edit(&tree(&["a", "\\long"]), 1).unwrap();
    assert_eq!(edited.growth, 9_999);
    assert_eq!(
        document.text(),
        ["a", &"long ".repeat(2_000)].concat().as_bytes()
    );
    let inserted = document.insert(&tree(&["\\long", "a", "\\long"]), 0);
    assert_eq!(inserted.unwrap().growth, 10_000);
    assert_eq!(document.text().len(), 20_001);

    let mut document = Document::open(Mode::Text, &rules(), &tree(&["a", "b", "c"])).unwrap();
    let replaced = document.replace_all(&tree(&["\\long", "b", "\\long"]), &[0, 2]);
    assert_eq!(replaced.unwrap().growth, 19_998);
    let long = "long ".repeat(2_000);
    assert_eq!(document.text(), [&long, "b", &long].concat().as_bytes());
}

#[test]
fn blocks_are_put_in_and_taken_out() {
    let mut document = Document::open(Mode::Text, &rules(), &tree(&["b"])).unwrap();
    for (words, position) in [
        (&["a", "b"][..], 0),
        (&["a", "b", "dd"], 2),
        (&["a", "b", "ccc", "dd"], 2),
    ] {
        let inserted = document.insert(&tree(words), position).unwrap();
        assert_eq!(inserted.growth, words[position].len() as i64);
        assert_eq!(inserted.count, 1);
        assert_eq!(document.text(), words.concat().as_bytes());
    }
    let ranges: Vec<_> = document.blocks().map(|block| block.range).collect();
    assert_eq!(ranges, [0..1, 1..2, 2..5, 5..7]);

    for (words, block, growth) in [
        (&["a", "ccc", "dd"][..], 1, -1),
        (&["a", "ccc"], 2, -2),
        (&["ccc"], 0, -1),
    ] {
        let removed = document.remove(&tree(words), block).unwrap();
        assert_eq!((removed.growth, removed.count), (growth, 0));
        assert_eq!(document.text(), words.concat().as_bytes());
        assert_eq!(document.ledger().len(), words.len() * ROW_SIZE);
    }
}

#[test]
fn from_no_block_to_the_most_and_back() {
    let mut document = Document::open(Mode::Math, &rules(), &tree(&[])).unwrap();
    let words = vec!["a"; BLOCKS_MOST];
    for count in 1..=BLOCKS_MOST {
        document.insert(&tree(&words[..count]), 0).unwrap();
    }
    assert_eq!(document.text(), "a ".repeat(BLOCKS_MOST).as_bytes());
    let one_more = made::tree_file(&vec![made::token(TokenWord, "a"); BLOCKS_MOST + 1]);
    assert_eq!(document.insert(&one_more, 0).unwrap_err().number(), 3);
    for count in (0..BLOCKS_MOST).rev() {
        document.remove(&tree(&words[..count]), count).unwrap();
    }
    assert_eq!(document.text(), b"");
    assert_eq!(document.remove(&tree(&[]), 0).unwrap_err().number(), 6);
}

#[test]
fn a_search_and_replace() {
    let words = ["the", "cat", "saw", "a", "cat", "and", "the", "cats"];
    let mut document = Document::open(Mode::Text, &rules(), &tree(&words)).unwrap();
    let blocks: Vec<_> = (0..words.len())
        .filter(|&block| words[block].contains("cat"))
        .collect();
    assert_eq!(blocks, [1, 4, 7]);
    // to a longer word, to a shorter one and back
    for other in ["mouse", "ox", "cat"] {
        let words = words.map(|word| word.replace("cat", other));
        let words = words.each_ref().map(String::as_str);
        let kept = document.text().len() as i64;
        let replaced = document.replace_all(&tree(&words), &blocks).unwrap();
        assert_eq!(document.text(), words.concat().as_bytes());
        assert_eq!(replaced.length, document.text().len());
        assert_eq!(replaced.growth, replaced.length as i64 - kept);
        assert_eq!(replaced.count, 3);
        let from_start = Document::open(Mode::Text, &rules(), &tree(&words)).unwrap();
        assert_eq!(parts(&document), parts(&from_start));
    }
}

#[test]
fn a_block_grows_where_another_makes_room() {
    let (old, new) = (["a", "b", "cdefg", "h"], ["abcde", "b", "c", "h"]);
    let rules = rules();
    let mut text = [0; 8];
    let mut ledger = [0; 4 * ROW_SIZE];
    let converted = convert(Mode::Text, &rules, &tree(&old), &mut text, &mut ledger);
    assert_eq!(converted.unwrap().length, text.len());

    // the buffer is full: block 0 alone is too long for it
    let first = tree(&[new[0], old[1], old[2], old[3]]);
    let refusal = edit(Mode::Text, &rules, &first, 0, 8, &mut text, &mut ledger).unwrap_err();
    assert_eq!(refusal.number(), 15);
    let tree = tree(&new);
    let replaced = replace_all(
        Mode::Text,
        &rules,
        &tree,
        &[0, 2],
        8,
        &mut text,
        &mut ledger,
    );
    let replaced = replaced.unwrap();
    assert_eq!(
        (replaced.length, replaced.growth, replaced.count),
        (8, 0, 2)
    );
    assert_eq!(&text, b"abcdebch");
}

#[test]
fn lists_that_are_refused() {
    let words = ["a", "b", "c"];
    let mut document = Document::open(Mode::Text, &rules(), &tree(&words)).unwrap();
    let before = document.clone();
    let many: Vec<_> = (0..100_000).collect();
    let lists: [&[usize]; 9] = [
        &[],
        &[3],
        &[0, 3],
        &[1, 1],
        &[2, 0],
        &[0, 2, 1],
        &[usize::MAX],
        &[0, 1 << 32],
        &many,
    ];
    let new = tree(&["x", "y", "z"]);
    for list in lists {
        let refusal = document.replace_all(&new, list).unwrap_err();
        assert_eq!((refusal.number(), refusal.row()), (6, 0), "{list:?}");
    }
    for (words, number, row) in [
        (&["x", "y"][..], 6, 0),
        (&["x", "y", "z", "z"], 6, 0),
        (&["x", "\\none", "\\other"], 9, 2),
    ] {
        let refusal = document.replace_all(&tree(words), &[0, 1]).unwrap_err();
        assert_eq!(
            (refusal.number(), refusal.row()),
            (number, row),
            "{words:?}"
        );
    }
    // what is wrong with the tree comes first
    let refusal = document.replace_all(b"no tree", &[]).unwrap_err();
    assert_eq!(refusal.number(), 3);
    assert_eq!(parts(&document), parts(&before));

    // each of the list is what is there
    let replaced = document.replace_all(&new, &[0, 1, 2]).unwrap();
    assert_eq!((replaced.growth, replaced.count), (0, 3));
    assert_eq!(document.text(), b"xyz");
}

/// What a document is seen to keep.
fn parts(document: &Document) -> (&[u8], &[u8]) {
    (document.text(), document.ledger())
}

#[test]
fn refused_changes_leave_it_alone() {
    let mut document = Document::open(Mode::Text, &rules(), &tree(&["a", "b"])).unwrap();
    let before = document.clone();
    let cases: [(Change, &[&str], usize, u8, usize); 12] = [
        (Document::edit, &["a", "\\none"], 1, 9, 2),
        (Document::edit, &["a", "b"], 2, 6, 0),
        (Document::edit, &["a"], 0, 6, 0),
        (Document::edit, &["a", "b", "c"], 0, 6, 0),
        (Document::insert, &["\\none", "a", "b"], 0, 9, 1),
        (Document::insert, &["a", "b", "c"], 3, 6, 0),
        (Document::insert, &["a", "b"], 0, 6, 0),
        (Document::insert, &[], 0, 6, 0),
        (Document::insert, &["a", "b", "c", "d"], 0, 6, 0),
        (Document::remove, &["a"], 2, 6, 0),
        (Document::remove, &["a", "b"], 0, 6, 0),
        (Document::remove, &[], 0, 6, 0),
    ];
    for (change, words, at, number, row) in cases {
        let refusal = change(&mut document, &tree(words), at).unwrap_err();
        assert_eq!(
            (refusal.number(), refusal.row()),
            (number, row),
            "{words:?} at {at}"
        );
        assert_eq!(parts(&document), parts(&before));
    }
    for change in [Document::edit, Document::insert, Document::remove] {
        assert_eq!(
            change(&mut document, b"no tree", 0).unwrap_err().number(),
            3
        );
    }
    assert_eq!(parts(&document), parts(&before));
    assert!(document.blocks().eq(before.blocks()));
}

/// `${\label{e}}$`: the label is held.
fn add_label(tree: &mut TreeFile) {
    tree.start(Kind::ItemFormula);
    tree.token(Kind::TokenDollar, "$");
    tree.start(Kind::ItemCurly);
    tree.start(Kind::ItemCmd);
    tree.token(Kind::ClauseCommandName, "\\label");
    tree.start(Kind::ClauseArgument);
    tree.token(Kind::TokenWord, "{e}");
    tree.finish();
    tree.finish();
    tree.finish();
    tree.token(Kind::TokenDollar, "$");
    tree.finish();
}

/// An empty `quote`, which takes a label that is held.
fn add_quote(tree: &mut TreeFile) {
    tree.start(Kind::ItemEnv);
    tree.start(Kind::ItemBegin);
    tree.token(Kind::TokenCommandSym, "quote");
    tree.finish();
    tree.finish();
}

type Add = fn(&mut TreeFile);

/// A document of such blocks.
fn built(blocks: &[Add]) -> Vec<u8> {
    let mut tree = TreeFile::new();
    blocks.iter().for_each(|add| add(&mut tree));
    tree.build().expect("a short file")
}

#[test]
fn labels_are_held() {
    let tree = built(&[add_label, add_quote]);
    let document = Document::open(Mode::Text, &rules(), &tree).unwrap();
    let labels: Vec<_> = document.blocks().map(|block| block.label).collect();
    assert_eq!(labels, [Some(&b"e"[..]), None]);
    assert!(document.text().ends_with(b"#quote[];<e>"));
}

#[test]
fn a_label_goes_where_blocks_let_it() {
    let one = built(&[add_label, add_quote]);
    let two = built(&[add_label, add_quote, add_quote]);
    let mut document = Document::open(Mode::Text, &rules(), &one).unwrap();

    // the new quote takes the label from the one after it
    let inserted = document.insert(&two, 1).unwrap();
    assert_eq!((inserted.growth, inserted.count), (9, 2));
    assert!(document.text().ends_with(b"#quote[];<e>#quote[];"));

    // the label goes back, and with its formula it goes away
    let removed = document.remove(&one, 1).unwrap();
    assert_eq!((removed.growth, removed.count), (-9, 1));
    let removed = document.remove(&built(&[add_quote]), 0).unwrap();
    assert_eq!(removed.count, 1);
    assert_eq!(document.text(), b"#quote[];");
}

/// A word.
fn add_word(tree: &mut TreeFile) {
    tree.token(Kind::TokenWord, "word");
}

#[test]
fn together_as_singly() {
    let old = [
        add_label, add_word, add_quote, add_word, add_quote, add_word,
    ];
    // the label moves on by a block and waits for the other quote
    let mut new = old;
    (new[0], new[2], new[5]) = (add_quote, add_label, add_label);
    let mut together = Document::open(Mode::Text, &rules(), &built(&old)).unwrap();
    let mut singly = together.clone();
    let replaced = together.replace_all(&built(&new), &[0, 2, 5]).unwrap();
    // 0 and 1, where a label no longer waits; 2 to 4, where it does; 5
    assert_eq!(replaced.count, 6);

    let mut between = old;
    let mut growth = 0;
    for block in [0, 2, 5] {
        between[block] = new[block];
        growth += singly.edit(&built(&between), block).unwrap().growth;
    }
    assert_eq!(replaced.growth, growth);
    assert_eq!(parts(&together), parts(&singly));
    let from_start = Document::open(Mode::Text, &rules(), &built(&new)).unwrap();
    assert_eq!(parts(&together), parts(&from_start));

    // blocks that carry what they carried stay
    new[1] = add_quote;
    new[5] = add_word;
    let replaced = together.replace_all(&built(&new), &[1, 5]).unwrap();
    assert_eq!(replaced.count, 2);
}

/// A table of one cell, with a `\\` after it or not.
fn table(new_line: bool) -> Vec<u8> {
    let mut tree = TreeFile::new();
    tree.start(Kind::ItemEnv);
    tree.start(Kind::ItemBegin);
    tree.token(Kind::TokenCommandSym, "tabular");
    tree.start(Kind::ClauseArgument);
    tree.token(Kind::TokenWord, "{l}");
    tree.finish();
    tree.finish();
    tree.token(Kind::TokenWord, "a");
    if new_line {
        tree.token(Kind::ItemNewLine, "\\\\");
    }
    tree.finish();
    tree.build().expect("a short file")
}

#[test]
fn a_last_cell_is_closed() {
    let mut document = Document::open(Mode::Text, &rules(), &table(true)).unwrap();
    let whole = document.text().to_vec();
    assert!(whole.ends_with(b"\n[a],\n);"));
    let edited = document.edit(&table(false), 0).unwrap();
    assert_eq!((edited.growth, edited.count), (0, 1));
    assert_eq!(document.text(), whole);
}

/// A document that went out of the program and came back.
fn reloaded(document: &Document) -> Document {
    let (text, ledger) = parts(document);
    let (length, blocks) = (text.len(), document.blocks().count());
    // buffers may be longer than what they hold
    let (text, ledger) = ([text, b"any"].concat(), [ledger, b"bytes"].concat());
    Document::from_parts(
        document.mode(),
        document.rules(),
        text,
        length,
        ledger,
        blocks,
    )
    .unwrap()
}

#[test]
fn parts_are_stored_and_reloaded() {
    let start = built(&[add_label, add_quote]);
    let mut kept = Document::open(Mode::Text, &rules(), &start).unwrap();
    let mut other = reloaded(&kept);
    let changes: [(Change, &[Add], usize); 5] = [
        (Document::insert, &[add_label, add_quote, add_label], 2),
        (Document::edit, &[add_label, add_label, add_label], 1),
        (Document::remove, &[add_label, add_label], 0),
        (Document::remove, &[add_label], 1),
        (Document::remove, &[], 0),
    ];
    for (change, blocks, at) in changes {
        let tree = built(blocks);
        let answer = change(&mut kept, &tree, at);
        assert!(answer.is_ok());
        assert_eq!(change(&mut other, &tree, at), answer);
        assert_eq!(parts(&other), parts(&kept));
        assert!(other.blocks().eq(kept.blocks()));
        other = reloaded(&other);
    }
}

#[test]
fn parts_that_do_not_fit() {
    let tree = built(&[add_label, add_quote]);
    let document = Document::open(Mode::Text, &rules(), &tree).unwrap();
    let number_of = |rules: &[u8], text: &[u8], length: usize, ledger: &[u8], blocks: usize| {
        let parts = (text.to_vec(), ledger.to_vec());
        let document = Document::from_parts(Mode::Text, rules, parts.0, length, parts.1, blocks);
        document.map_or_else(|refusal| refusal.number(), |_| 0)
    };
    let number = |rules: &[u8], text: &[u8], ledger: &[u8]| {
        number_of(rules, text, text.len(), ledger, ledger.len() / ROW_SIZE)
    };
    let (text, ledger) = parts(&document);
    assert_eq!(number(&rules(), text, ledger), 0);
    assert_eq!(number(b"no rules", text, ledger), 2);
    assert_eq!(number(&rules(), &text[1..], ledger), 6);
    assert_eq!(number(&rules(), text, &ledger[..ROW_SIZE]), 6);
    assert_eq!(number_of(&rules(), text, text.len() + 1, ledger, 2), 6);
    assert_eq!(number_of(&rules(), text, text.len(), ledger, 3), 6);
    assert_eq!(number_of(&rules(), text, text.len(), ledger, usize::MAX), 6);
    assert_eq!(number(&rules(), b"", b""), 0);
    assert_eq!(number(&rules(), b"a", b""), 6);
    let many = vec![0; (BLOCKS_MOST + 1) * ROW_SIZE];
    assert_eq!(number(&rules(), b"", &many[ROW_SIZE..]), 0);
    assert_eq!(number(&rules(), b"", &many), 6);
    // a length over the next one, marks, the label's length, and bytes that are to be zero
    for (at, byte) in [
        (3, 1),
        (4, 2),
        (5, 0),
        (5, 2),
        (6, 121),
        (6, 0),
        (7, 1),
        (127, 1),
    ] {
        let mut damaged = ledger.to_vec();
        damaged[at] = byte;
        assert_eq!(number(&rules(), text, &damaged), 6, "byte {at}: {byte}");
    }
}

#[test]
fn empty_parts() {
    let empty = RuleFile::new().build().unwrap();
    let none = convert(Mode::Text, &empty, &tree(&[]), &mut [], &mut []).unwrap();
    assert_eq!((none.length, none.blocks), (0, 0));
    let refusal = convert(Mode::Text, &[], &[], &mut [], &mut []).unwrap_err();
    assert_eq!(refusal.number(), 2);
    let refusal = convert(Mode::Math, &empty, &tree(&["a"]), &mut [], &mut []).unwrap_err();
    assert_eq!(refusal.number(), 15);
}

#[test]
fn refusals_in_words() {
    let refusal = Mode::try_from(7).unwrap_err();
    assert_eq!(refusal.to_string(), "the mode is neither text nor math");
    let refusal = convert(Mode::Text, &rules(), &tree(&["\\x"]), &mut [], &mut []).unwrap_err();
    assert_eq!(refusal.to_string(), "a command is not in the rules (row 1)");
}
