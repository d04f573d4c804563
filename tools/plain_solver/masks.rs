//! Sets of objects, and the moves of layers, as bits.

use crate::words::Move;
use std::hash::{Hash, Hasher};

/// Bits in `W` words.
#[derive(Clone, Copy, PartialEq, Eq, Debug)]
pub struct Mask<const W: usize>([u64; W]);

impl<const W: usize> Hash for Mask<W> {
    fn hash<H: Hasher>(&self, hasher: &mut H) {
        self.0.iter().for_each(|word| hasher.write_u64(*word));
    }
}

impl<const W: usize> Mask<W> {
    pub const EMPTY: Mask<W> = Mask([0; W]);

    #[inline(always)]
    pub fn insert(&mut self, bit: usize) {
        self.0[bit / 64] |= 1 << (bit % 64);
    }

    #[inline(always)]
    pub fn and(self, other: Mask<W>) -> Mask<W> {
        Mask(std::array::from_fn(|at| self.0[at] & other.0[at]))
    }

    #[inline(always)]
    pub fn or(self, other: Mask<W>) -> Mask<W> {
        Mask(std::array::from_fn(|at| self.0[at] | other.0[at]))
    }

    #[inline(always)]
    pub fn without(self, other: Mask<W>) -> Mask<W> {
        Mask(std::array::from_fn(|at| self.0[at] & !other.0[at]))
    }

    #[inline(always)]
    pub fn is_empty(self) -> bool {
        self.0.iter().fold(0, |all, word| all | word) == 0
    }

    #[inline(always)]
    pub fn meets(self, other: Mask<W>) -> bool {
        !self.and(other).is_empty()
    }

    #[inline(always)]
    pub fn has(self, other: Mask<W>) -> bool {
        self.and(other) == other
    }

    /// The least bit that is set, which is taken out.
    #[inline(always)]
    pub fn take_first(&mut self) -> Option<usize> {
        for at in 0..W {
            if self.0[at] != 0 {
                let bit = self.0[at].trailing_zeros() as usize;
                self.0[at] &= self.0[at] - 1;
                return Some(at * 64 + bit);
            }
        }
        None
    }
}

/// How many layers a word of moves has, each with a bit for every move.
const LAYERS: usize = 12;
const MOVES: usize = 5;

/// How many words the moves of so many layers take.
pub const fn move_words(layers: usize) -> usize {
    layers.div_ceil(LAYERS)
}

/// The bit of a move of a layer.
pub fn move_bit(layer: usize, own: Move) -> usize {
    layer / LAYERS * 64 + layer % LAYERS * MOVES + own as usize
}

/// The layer and the move of a bit.
#[inline(always)]
pub fn layer_and_move(bit: usize) -> (usize, usize) {
    (bit / 64 * LAYERS + bit % 64 / MOVES, bit % 64 % MOVES)
}

/// All moves of a layer.
pub fn moves_of_layer<const M: usize>(layer: usize) -> Mask<M> {
    let mut mask = Mask::EMPTY;
    (0..MOVES).for_each(|own| mask.insert(layer / LAYERS * 64 + layer % LAYERS * MOVES + own));
    mask
}
