//! What the builders of tree files give, and what they say where they refuse.

use zaldrume::file::{Kind, StepRefusal, TreeFile, TreeWriter};
use zaldrume::{Refusal, BLOCKS_MOST, FILE_MOST};

/// What a tree's steps come to.
fn built(steps: impl FnOnce(&mut TreeFile)) -> Result<Vec<u8>, StepRefusal> {
    let mut tree = TreeFile::new();
    steps(&mut tree);
    tree.build()
}

/// The refusal of a tree's steps, in words.
fn refused(steps: impl FnOnce(&mut TreeFile)) -> String {
    built(steps).unwrap_err().to_string()
}

fn many(tree: &mut TreeFile, count: usize, step: impl Fn(&mut TreeFile)) {
    (0..count).for_each(|_| step(tree));
}

#[test]
fn bytes_of_a_file() {
    let file = built(|tree| {
        tree.token(Kind::TokenWord, "é");
        tree.start(Kind::ItemCurly);
        tree.token(Kind::TokenComma, ",");
        tree.finish();
    });
    let rows = [
        [4, 0, 0, 0, 3, 0, 0, 0],
        [15, 1, 0, 0, 2, 0, 0, 0],
        [9, 0, 0, 0, 1, 0, 0, 0],
        [26, 1, 0, 0, 1, 0, 0, 0],
        [3, 0, 0, 0, 4, 0, 0, 0],
    ];
    assert_eq!(
        file.unwrap(),
        ["é,".as_bytes(), rows.as_flattened()].concat()
    );
    let empty = [[4, 0, 0, 0, 0, 0, 0, 0], [0, 0, 0, 0, 1, 0, 0, 0]];
    assert_eq!(TreeFile::default().build().unwrap(), empty.as_flattened());
}

#[test]
fn steps_out_of_place() {
    let open = refused(|tree| tree.start(Kind::ItemCurly));
    assert_eq!(open, "step 2: a node is still open (refusal 16)");
    let surplus = refused(|tree| {
        tree.start(Kind::ItemCurly);
        tree.finish();
        tree.finish();
    });
    assert_eq!(surplus, "step 3: no node but the root is open (refusal 16)");
    let token = refused(|tree| tree.token(Kind::ItemCurly, "a"));
    assert_eq!(
        token,
        "step 1, ItemCurly: no token is of this kind (refusal 16)"
    );
    let node = refused(|tree| tree.start(Kind::TokenWord));
    assert_eq!(
        node,
        "step 1, TokenWord: no node is of this kind (refusal 16)"
    );
    let empty = refused(|tree| tree.token(Kind::TokenWord, ""));
    assert_eq!(
        empty,
        "step 1, TokenWord: a token's text is empty (refusal 16)"
    );
}

#[test]
fn limits() {
    let word = |tree: &mut TreeFile| tree.token(Kind::TokenWord, "a");
    let node = |tree: &mut TreeFile| tree.start(Kind::ItemText);
    assert!(built(|tree| many(tree, BLOCKS_MOST, word)).is_ok());
    let blocks = refused(|tree| many(tree, BLOCKS_MOST + 1, word));
    assert_eq!(
        blocks,
        "step 513, TokenWord: there would be more than 512 blocks (refusal 3)"
    );

    let deep = |depth: usize| {
        built(|tree| {
            many(tree, depth - 1, node);
            many(tree, depth - 1, TreeFile::finish);
        })
    };
    assert!(deep(64).is_ok());
    let deeper = deep(65).unwrap_err();
    assert_eq!((deeper.number(), deeper.step()), (4, 64));
    assert_eq!(deeper.reason(), "it would be deeper than 64");

    let long = |size| built(|tree| tree.token(Kind::TokenWord, &"a".repeat(size)));
    let most = FILE_MOST - 3 * 8;
    assert_eq!(long(most).unwrap().len(), FILE_MOST);
    assert_eq!(
        long(most + 1).unwrap_err().to_string(),
        "step 1, TokenWord: the file would be longer than 65,536 bytes (refusal 3)"
    );
}

#[test]
fn the_first_refusal_is_kept() {
    let mut tree = TreeFile::new();
    tree.token(Kind::TokenWord, "a");
    assert_eq!(tree.refused(), None);
    tree.token(Kind::TokenWord, "");
    tree.finish();
    tree.start(Kind::TokenDollar);
    let refused = tree.refused().unwrap();
    assert_eq!((refused.number(), refused.step()), (16, 2));
    assert_eq!(refused.kind(), Some(Kind::TokenWord));
    assert_eq!(tree.build(), Err(refused));
    assert_eq!(Refusal::from(refused).number(), 16);
}

#[test]
fn buffers_are_not_printed() {
    let mut buffer = vec![0; FILE_MOST];
    let writer = format!("{:?}", TreeWriter::new(&mut buffer));
    assert_eq!(writer, "TreeWriter { state: [0, 0, 0, 0, 0, 0, 0], .. }");
    assert!(format!("{:?}", TreeFile::new()).len() < 100);
}

#[test]
fn a_buffer_of_the_caller() {
    let mut buffer = [0xa5; 26];
    let mut writer = TreeWriter::new(&mut buffer);
    let number = |result: Result<(), Refusal>| result.unwrap_err().number();
    assert_eq!(number(writer.close()), 16);
    assert_eq!(number(writer.open(Kind::ItemCurly)), 16);
    writer.open(Kind::ScopeRoot).unwrap();
    assert_eq!(number(writer.token(Kind::TokenWord, "abc")), 15);
    writer.token(Kind::TokenWord, "ab").unwrap();
    assert_eq!(writer.finish().unwrap_err().number(), 16);
    writer.close().unwrap();
    let file = writer.finish().unwrap().to_vec();
    assert_eq!(number(writer.close()), 16);
    assert_eq!(
        file,
        built(|tree| tree.token(Kind::TokenWord, "ab")).unwrap()
    );
    assert_eq!(file, buffer);
}
