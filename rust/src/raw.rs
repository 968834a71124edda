//! The calls on plain numbers, as `include/zaldrume.h` has them: five on documents, and the four steps
//! of the writer of tree files.
//!
//! A slice passes as its first element's address and its length. The static library asks that no
//! address is null, that each part holds as many elements as is said, and that what is written
//! overlaps with nothing else: Rust's references are all of that, so these functions are safe for any
//! arguments.

/// What a call tells: a refusal's number or 0, and the numbers that go with it.
#[derive(Debug, Clone, Copy, Default, PartialEq, Eq)]
pub struct Answer {
    /// The refusal's number, 0 where there is none.
    pub number: u8,
    /// The refusal's row, else the text's length.
    pub place: usize,
    /// The new length less the old; 0 in a refusal and from [`convert`].
    pub growth: i64,
    /// The count of blocks, or of blocks converted again; 0 in a refusal.
    pub count: usize,
}

mod boundary {
    /// The functions pass alike but for what stands between the files and the buffers.
    macro_rules! functions {
        ($($name:ident($($between:ident: $type:ty),*);)*) => {
            extern "C" {
                $(pub fn $name(
                    mode: u8,
                    rules: *const u8,
                    rules_size: usize,
                    tree: *const u8,
                    tree_size: usize,
                    $($between: $type,)*
                    text: *mut u8,
                    text_size: usize,
                    ledger: *mut u8,
                    ledger_size: usize,
                    place: *mut usize,
                    growth: *mut i64,
                    count: *mut usize,
                ) -> u8;)*
            }
        };
    }

    functions! {
        zaldrume_convert();
        zaldrume_edit(block: usize, kept: usize);
        zaldrume_insert(position: usize, kept: usize);
        zaldrume_remove(block: usize, kept: usize);
        zaldrume_replace_all(blocks: *const usize, blocks_count: usize, kept: usize);
    }

    /// The steps of the writer pass alike but for what stands after the buffer.
    macro_rules! steps {
        ($($name:ident($($after:ident: $type:ty),*);)*) => {
            extern "C" {
                $(pub fn $name(
                    state: *mut u64,
                    state_count: usize,
                    buffer: *mut u8,
                    buffer_size: usize,
                    $($after: $type,)*
                ) -> u8;)*
            }
        };
    }

    steps! {
        zaldrume_writer_open(kind: u8);
        zaldrume_writer_token(kind: u8, text: *const u8, text_size: usize);
        zaldrume_writer_close();
        zaldrume_writer_finish(place: *mut usize);
    }
}

/// What a function of the library answers, given slices and what stands between them.
macro_rules! answer {
    ($name:ident: $mode:ident, $rules:ident, $tree:ident; $($between:expr),*; $text:ident, $ledger:ident) => {{
        let mut answer = Answer::default();
        // SAFETY: each pointer and length is that of a live slice, and each place that of a number;
        // those that are written are borrowed mutably, so nothing else is read or written through
        // them.
        answer.number = unsafe {
            boundary::$name(
                $mode,
                $rules.as_ptr(),
                $rules.len(),
                $tree.as_ptr(),
                $tree.len(),
                $($between,)*
                $text.as_mut_ptr(),
                $text.len(),
                $ledger.as_mut_ptr(),
                $ledger.len(),
                &mut answer.place,
                &mut answer.growth,
                &mut answer.count,
            )
        };
        answer
    }};
}

/// Convert. A mode other than 0 (text) and 1 (math) is refusal 1.
pub fn convert(mode: u8, rules: &[u8], tree: &[u8], text: &mut [u8], ledger: &mut [u8]) -> Answer {
    answer!(zaldrume_convert: mode, rules, tree; ; text, ledger)
}

/// Edit of one block. A mode other than 0 (text) and 1 (math) is refusal 1.
pub fn edit(
    mode: u8,
    rules: &[u8],
    tree: &[u8],
    block: usize,
    kept: usize,
    text: &mut [u8],
    ledger: &mut [u8],
) -> Answer {
    answer!(zaldrume_edit: mode, rules, tree; block, kept; text, ledger)
}

/// One block put in before a position. A mode other than 0 (text) and 1 (math) is refusal 1.
pub fn insert(
    mode: u8,
    rules: &[u8],
    tree: &[u8],
    position: usize,
    kept: usize,
    text: &mut [u8],
    ledger: &mut [u8],
) -> Answer {
    answer!(zaldrume_insert: mode, rules, tree; position, kept; text, ledger)
}

/// One block taken out. A mode other than 0 (text) and 1 (math) is refusal 1.
pub fn remove(
    mode: u8,
    rules: &[u8],
    tree: &[u8],
    block: usize,
    kept: usize,
    text: &mut [u8],
    ledger: &mut [u8],
) -> Answer {
    answer!(zaldrume_remove: mode, rules, tree; block, kept; text, ledger)
}

/// Several blocks replaced together. A mode other than 0 (text) and 1 (math) is refusal 1.
pub fn replace_all(
    mode: u8,
    rules: &[u8],
    tree: &[u8],
    blocks: &[usize],
    kept: usize,
    text: &mut [u8],
    ledger: &mut [u8],
) -> Answer {
    let (first, count) = (blocks.as_ptr(), blocks.len());
    answer!(zaldrume_replace_all: mode, rules, tree; first, count, kept; text, ledger)
}

/// A writer's state has so many numbers: whether it has finished, how many rows, bytes of text, blocks
/// and open nodes there are, the row of the innermost of these, and the buffer's length.
pub const WRITER_STATE: usize = 7;

/// What a step of the writer answers, given its state, its buffer and what stands after them.
macro_rules! step {
    ($name:ident: $state:ident, $buffer:ident; $($after:expr),*) => {
        // SAFETY: each pointer and length is that of a live slice, and a place that of a number; those
        // that are written are borrowed mutably, so nothing else is read or written through them.
        unsafe {
            boundary::$name(
                $state.as_mut_ptr(),
                $state.len(),
                $buffer.as_mut_ptr(),
                $buffer.len(),
                $($after),*
            )
        }
    };
}

/// Opens a node: 0 or a refusal's number. The state is zeros at the start.
///
/// The header says more of the four steps; [`TreeWriter`](crate::file::TreeWriter) keeps the state.
pub fn writer_open(state: &mut [u64], buffer: &mut [u8], kind: u8) -> u8 {
    step!(zaldrume_writer_open: state, buffer; kind)
}

/// Adds a token with its text.
pub fn writer_token(state: &mut [u64], buffer: &mut [u8], kind: u8, text: &[u8]) -> u8 {
    step!(zaldrume_writer_token: state, buffer; kind, text.as_ptr(), text.len())
}

/// Closes the innermost open node.
pub fn writer_close(state: &mut [u64], buffer: &mut [u8]) -> u8 {
    step!(zaldrume_writer_close: state, buffer;)
}

/// Finishes the file: 0 or a refusal's number, and the file's length, which is 0 in a refusal.
pub fn writer_finish(state: &mut [u64], buffer: &mut [u8]) -> (u8, usize) {
    let mut place = 0;
    let number = step!(zaldrume_writer_finish: state, buffer; &mut place);
    (number, place)
}
