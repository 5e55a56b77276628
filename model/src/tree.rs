//! The tree over a table's entries (document 02, CR 13), with all its nodes in lists, one
//! for each height: the leaves first, the root alone at last.

use crate::sha256::{sha256, Hash};

/// Words of a hash in the stream.
pub const HASH_WORDS: usize = 8;

/// The bytes of words as they stand in a file.
fn bytes_of(words: &[u32]) -> Vec<u8> {
    words.iter().flat_map(|word| word.to_le_bytes()).collect()
}

/// A leaf, from the words of its entry.
pub fn leaf(entry: &[u32]) -> Hash {
    sha256(&[vec![0], bytes_of(entry)].concat())
}

/// The node over two children.
pub fn node(left: &Hash, right: &Hash) -> Hash {
    sha256(&[&[1][..], left, right].concat())
}

/// The words of a hash in the stream.
pub fn hash_words(hash: &Hash) -> Vec<u32> {
    let words = hash.chunks(4);
    words
        .map(|bytes| u32::from_le_bytes(bytes.try_into().expect("four bytes")))
        .collect()
}

/// The hash of eight words of the stream.
pub fn hash_of(words: &[u32]) -> Hash {
    bytes_of(words).try_into().expect("eight words")
}

/// All nodes over a table.
pub struct Tree {
    heights: Vec<Vec<Hash>>,
}

impl Tree {
    /// From the words of a table whose entries have this many each; the entries are as
    /// many as a power of two.
    pub fn over(table: &[u32], width: usize) -> Tree {
        let mut heights = vec![table.chunks(width).map(leaf).collect::<Vec<Hash>>()];
        while let Some(below) = heights.last().filter(|nodes| nodes.len() > 1) {
            let pairs = below.chunks(2).map(|pair| node(&pair[0], &pair[1]));
            heights.push(pairs.collect());
        }
        Tree { heights }
    }

    pub fn root(&self) -> Hash {
        self.heights.last().expect("a leaf")[0]
    }

    /// The siblings of a leaf and of the nodes over it, from the leaf up.
    pub fn path(&self, point: usize) -> Vec<Hash> {
        let below_root = &self.heights[..self.heights.len() - 1];
        let siblings = below_root.iter().enumerate();
        siblings
            .map(|(height, nodes)| nodes[(point >> height) ^ 1])
            .collect()
    }
}

/// The root that a path leads to from the leaf of an entry at this point.
pub fn root_over(entry: &[u32], point: usize, path: &[Hash]) -> Hash {
    let mut hash = leaf(entry);
    for (height, sibling) in path.iter().enumerate() {
        hash = match point >> height & 1 {
            0 => node(&hash, sibling),
            _ => node(sibling, &hash),
        };
    }
    hash
}
