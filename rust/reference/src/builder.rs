//! A builder of tree files that checks nothing but the file's length: the writer's speed is measured beside it.

use crate::tree::Kind;
use crate::FILE_MOST;

/// A tree file in the making: the root is open from the start.
#[derive(Debug, Clone)]
pub struct Builder {
    text: Vec<u8>,
    rows: Vec<[u8; 8]>,
    open: Vec<usize>,
}

impl Default for Builder {
    fn default() -> Self {
        let mut tree = Builder {
            text: Vec::new(),
            rows: Vec::new(),
            open: Vec::new(),
        };
        tree.start(Kind::ScopeRoot as u8);
        tree
    }
}

impl Builder {
    pub fn start(&mut self, kind: u8) {
        self.open.push(self.rows.len());
        self.rows.push([kind, 0, 0, 0, 0, 0, 0, 0]);
    }

    pub fn token(&mut self, kind: u8, text: &[u8]) {
        self.text.extend_from_slice(text);
        let [a, b, c, d] = (text.len() as u32).to_le_bytes();
        self.rows.push([kind, 1, 0, 0, a, b, c, d]);
    }

    pub fn finish(&mut self) {
        if let Some(node) = self.open.pop() {
            let under = self.rows.len() - node - 1;
            self.rows[node][4..].copy_from_slice(&(under as u32).to_le_bytes());
        }
    }

    /// The file, with every open node closed; nothing where it is too long.
    pub fn build(mut self) -> Option<Vec<u8>> {
        while !self.open.is_empty() {
            self.finish();
        }
        let start = self.text.len() as u32;
        let mut file = self.text;
        file.extend_from_slice(self.rows.as_flattened());
        file.extend_from_slice(&start.to_le_bytes());
        file.extend_from_slice(&(self.rows.len() as u32).to_le_bytes());
        (file.len() <= FILE_MOST).then_some(file)
    }
}
