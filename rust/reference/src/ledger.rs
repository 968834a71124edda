//! Ledger rows: after each block the text's length and the carry.

/// A ledger row has so many bytes.
pub const ROW_SIZE: usize = 128;

/// A held label has at most so many bytes.
pub const LABEL_MOST: usize = 120;

/// Where a row's label begins.
const LABEL_AT: usize = ROW_SIZE - LABEL_MOST;

/// What goes along from block to block: the space flag and the held label.
#[derive(Debug, Clone, Default, PartialEq, Eq)]
pub struct Carry {
    pub flag: bool,
    pub label: Option<Vec<u8>>,
}

#[derive(Debug, Clone, PartialEq, Eq)]
pub struct Row {
    pub end: usize,
    pub carry: Carry,
}

impl Row {
    /// A row that is as it has to be.
    pub fn decode(row: &[u8]) -> Option<Row> {
        let end = u32::from_le_bytes(row[..4].try_into().ok()?) as usize;
        let size = usize::from(row[6]);
        if size > LABEL_MOST || row[7] != 0 || row[LABEL_AT + size..].iter().any(|&b| b != 0) {
            return None;
        }
        let flag = match row[4] {
            0 => false,
            1 => true,
            _ => return None,
        };
        let label = match row[5] {
            0 if size == 0 => None,
            1 => Some(row[LABEL_AT..LABEL_AT + size].to_vec()),
            _ => return None,
        };
        Some(Row {
            end,
            carry: Carry { flag, label },
        })
    }

    pub fn encode(&self) -> [u8; ROW_SIZE] {
        let mut row = [0; ROW_SIZE];
        row[..4].copy_from_slice(&(self.end as u32).to_le_bytes());
        row[4] = self.carry.flag.into();
        if let Some(label) = &self.carry.label {
            row[5] = 1;
            row[6] = label.len() as u8;
            row[LABEL_AT..LABEL_AT + label.len()].copy_from_slice(label);
        }
        row
    }
}

/// The rows of a ledger that fits a count of blocks and a kept length.
pub fn decode(ledger: &[u8], blocks: usize, kept: usize) -> Option<Vec<Row>> {
    let rows = ledger.get(..blocks * ROW_SIZE)?;
    let rows = rows
        .chunks_exact(ROW_SIZE)
        .map(Row::decode)
        .collect::<Option<Vec<_>>>()?;
    let rising = rows.windows(2).all(|pair| pair[0].end <= pair[1].end);
    let last = rows.last().map_or(0, |row| row.end);
    (rising && last == kept).then_some(rows)
}

/// Whether a ledger fits a count of blocks and a kept length.
pub fn ledger_fits(ledger: &[u8], blocks: usize, kept: usize) -> bool {
    decode(ledger, blocks, kept).is_some()
}
