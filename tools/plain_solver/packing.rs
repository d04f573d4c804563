//! Boards as numbers: each content of a cell has one, as it is first met.

use crate::masks::Mask;
use crate::stage::{Goes, Stage};
use crate::states::States;
use std::collections::HashMap;
use std::hash::{BuildHasherDefault, Hash, Hasher};

/// A quick hasher of words.
#[derive(Default)]
pub struct WordHasher(u64);

impl Hasher for WordHasher {
    fn finish(&self) -> u64 {
        self.0 ^ (self.0 >> 32)
    }

    fn write(&mut self, bytes: &[u8]) {
        bytes.iter().for_each(|byte| self.write_u64(u64::from(*byte)));
    }

    #[inline(always)]
    fn write_u64(&mut self, word: u64) {
        self.0 = (self.0.rotate_left(23) ^ word).wrapping_mul(0x9e37_79b9_7f4a_7c15);
    }
}

/// How many numbers are found without a search of the table.
const LATEST: usize = 64;

/// Things with numbers, in the order in which they are met.
struct Numbered<T> {
    all: Vec<T>,
    numbers: HashMap<T, u32, BuildHasherDefault<WordHasher>>,
    /// By the end of its hash, the number of the thing that was asked for last.
    latest: [u32; LATEST],
}

impl<T: Clone + Eq + Hash> Numbered<T> {
    fn new() -> Numbered<T> {
        Numbered { all: Vec::new(), numbers: HashMap::default(), latest: [0; LATEST] }
    }

    #[inline(always)]
    fn number(&mut self, thing: &T) -> u32 {
        let mut hasher = WordHasher::default();
        thing.hash(&mut hasher);
        let end = hasher.finish() as usize % LATEST;
        let latest = self.latest[end];
        if self.all.get(latest as usize) == Some(thing) {
            return latest;
        }
        let number = self.find(thing);
        self.latest[end] = number;
        number
    }

    #[inline(never)]
    fn find(&mut self, thing: &T) -> u32 {
        match self.numbers.get(thing) {
            Some(number) => *number,
            None => self.add(thing),
        }
    }

    #[cold]
    fn add(&mut self, thing: &T) -> u32 {
        let number = self.all.len() as u32;
        self.all.push(thing.clone());
        self.numbers.insert(thing.clone(), number);
        number
    }
}

/// What a state has besides its board: where its level is, and the number of its restart board.
#[derive(Clone, Copy, PartialEq, Eq, Hash)]
struct Situation {
    goes: Goes,
    restart: u32,
}

/// The numbers of a search.
pub struct Packing<const N: usize> {
    contents: Numbered<Mask<N>>,
    situations: Numbered<Situation>,
    restart_boards: Numbered<Vec<Mask<N>>>,
    /// The number of the restart board of the state under work.
    restart: u32,
    /// How many cells a board has.
    cells: usize,
    /// The words of the state that was told last, and the bits of a number there.
    told: Vec<u64>,
    bits: usize,
}

impl<const N: usize> Packing<N> {
    /// No numbers yet, but that of the restart board.
    pub fn new(restart_board: &Vec<Mask<N>>) -> Packing<N> {
        let mut restart_boards = Numbered::new();
        let restart = restart_boards.number(restart_board);
        let (contents, situations) = (Numbered::new(), Numbered::new());
        let cells = restart_board.len();
        Packing { contents, situations, restart_boards, restart, cells, told: Vec::new(), bits: 0 }
    }

    /// Puts a whole board into the scratch of the states.
    pub fn pack_first(&mut self, states: &mut States, objects: &[Mask<N>]) {
        for (cell, content) in objects.iter().enumerate() {
            self.pack(states, cell, content);
        }
    }

    /// Puts a cell into the scratch of the states.
    #[inline(always)]
    pub fn pack(&mut self, states: &mut States, cell: usize, content: &Mask<N>) {
        states.put(cell, self.contents.number(content));
    }

    /// Puts where the level is into the scratch of the states. The restart board is then that of the state under work.
    #[inline(always)]
    pub fn pack_situation<const M: usize>(&mut self, states: &mut States, goes: Goes, stage: &mut Stage<N, M>) {
        let mut restart = self.restart;
        if stage.has_checkpoint {
            restart = self.restart_boards.number(&stage.restart_board);
            stage.restart_board.copy_from_slice(&self.restart_boards.all[self.restart as usize]);
            stage.has_checkpoint = false;
        }
        let number = self.situations.number(&Situation { goes, restart });
        states.put(self.cells, number);
    }

    /// Tells what a state has in each cell where it isn't known to be as the state that was told before.
    #[inline(always)]
    pub fn unpack(&mut self, states: &States, state: usize, mut tell: impl FnMut(usize, Mask<N>)) {
        let words = states.words(state);
        if self.bits != states.bits() {
            self.bits = states.bits();
            self.told = words.iter().map(|word| !word).collect();
        }
        let field = u64::MAX >> (64 - self.bits);
        for (at, (word, told)) in words.iter().zip(&mut self.told).enumerate() {
            let mut left = word ^ std::mem::replace(told, *word);
            while left != 0 {
                let place = left.trailing_zeros() as usize / self.bits;
                left &= !(field << (place * self.bits));
                let cell = at * 64 / self.bits + place;
                if cell < self.cells {
                    tell(cell, self.contents.all[(word >> (place * self.bits) & field) as usize]);
                }
            }
        }
    }

    /// Where the level is in a state, whose restart board the stage gets.
    #[inline(always)]
    pub fn unpack_situation<const M: usize>(&mut self, states: &States, state: usize, stage: &mut Stage<N, M>) -> Goes {
        let situation = self.situations.all[states.number(states.words(state), self.cells) as usize];
        if situation.restart != self.restart {
            self.restart = situation.restart;
            stage.restart_board.copy_from_slice(&self.restart_boards.all[self.restart as usize]);
        }
        situation.goes
    }
}
