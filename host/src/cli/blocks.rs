//! Long memories of which little is used: blocks of zeros are neither kept nor written. Memory that nobody has touched
//! takes up nothing, and so does a hole in a file.

use std::collections::{BTreeMap, BTreeSet};

/// Bytes of a block.
pub const BLOCK: usize = 64 << 10;

static ZEROS: [u8; BLOCK] = [0; BLOCK];

/// The blocks that are not all zeros, each with its place; the last one may be shorter.
pub fn filled(bytes: &[u8]) -> impl Iterator<Item = (usize, &[u8])> {
    let blocks = bytes.chunks(BLOCK).enumerate().map(|(number, block)| (number * BLOCK, block));
    blocks.filter(|(_, block)| *block != &ZEROS[..block.len()])
}

/// Makes all bytes zeros.
pub fn clear(bytes: &mut [u8]) {
    bytes.chunks_mut(BLOCK).filter(|block| **block != ZEROS[..block.len()]).for_each(|block| block.fill(0));
}

/// Filled blocks by their places, and zeros everywhere else.
#[derive(Clone, Debug, Default, PartialEq, Eq)]
pub struct Blocks(BTreeMap<usize, Vec<u8>>);

impl Blocks {
    /// Keeps these bytes, which stand at `place`.
    pub fn keep(&mut self, place: usize, bytes: &[u8]) {
        self.0.extend(filled(bytes).map(|(at, block)| (place + at, block.to_vec())));
    }

    /// Puts what is kept in its place; elsewhere there must be zeros.
    pub fn put(&self, memory: &mut [u8]) {
        for (&place, block) in &self.0 {
            memory[place..place + block.len()].copy_from_slice(block);
        }
    }

    /// The first place at which two differ that have kept bytes of the same places.
    pub fn difference(&self, other: &Blocks) -> Option<usize> {
        let both = [self, other];
        let places: BTreeSet<usize> = both.iter().flat_map(|blocks| blocks.0.keys().copied()).collect();
        places.into_iter().find_map(|place| {
            let [one, two] = both.map(|blocks| blocks.0.get(&place).map_or(&ZEROS[..], Vec::as_slice));
            one.iter().zip(two).position(|(one, two)| one != two).map(|at| place + at)
        })
    }
}

#[cfg(test)]
mod tests {
    use super::*;

    fn kept(place: usize, bytes: &[u8]) -> Blocks {
        let mut blocks = Blocks::default();
        blocks.keep(place, bytes);
        blocks
    }

    #[test]
    fn zeros_are_not_kept_and_all_else_comes_back() {
        let mut bytes = vec![0; 5 * BLOCK + 7];
        for at in [BLOCK - 1, 2 * BLOCK, 5 * BLOCK + 6] {
            bytes[at] = 9;
        }
        let places: Vec<usize> = filled(&bytes).map(|(place, _)| place).collect();
        assert_eq!(places, [0, 2 * BLOCK, 5 * BLOCK]);
        let mut memory = vec![0; 3 + bytes.len()];
        kept(3, &bytes).put(&mut memory);
        assert!(memory[..3] == [0; 3] && memory[3..] == bytes);
        assert_eq!(kept(3, &ZEROS), Blocks::default());
        clear(&mut bytes);
        assert!(bytes == vec![0; 5 * BLOCK + 7]);
    }

    #[test]
    fn the_first_difference_is_found() {
        let mut bytes = vec![0; 3 * BLOCK];
        bytes[BLOCK + 5] = 1;
        let one = kept(8, &bytes);
        assert_eq!(one.difference(&one), None);
        for (at, byte) in [(3 * BLOCK - 1, 2), (BLOCK + 9, 3), (BLOCK + 5, 0), (7, 4)] {
            bytes[at] = byte;
            let two = kept(8, &bytes);
            assert_eq!([one.difference(&two), two.difference(&one)], [Some(8 + at); 2]);
        }
    }
}
