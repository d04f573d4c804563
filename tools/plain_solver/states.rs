//! The states that a search has met, numbered as they are met. A state is a list of numbers, packed into words.

/// How many bits a number has at first.
const FIRST_BITS: usize = 8;

/// Whether a state is new, known, or one more than may be kept.
#[derive(Clone, Copy, PartialEq)]
pub enum Noted {
    New,
    Known,
    Refused,
}

pub struct States {
    /// How many numbers a state has, and how many bits each of them.
    numbers: usize,
    bits: usize,
    /// How many words a state has.
    stride: usize,
    words: Vec<u64>,
    parents: Vec<u32>,
    inputs: Vec<u8>,
    /// By its hash, the upper half of the hash of a state, and its number and one. 0 where there is none.
    table: Vec<u64>,
    /// The state that is put together.
    pub scratch: Vec<u64>,
}

#[inline(always)]
fn hash(words: &[u64]) -> u64 {
    let mut hash: u64 = 0x51_7c_c1_b7_27_22_0a_95;
    for word in words {
        hash = (hash.rotate_left(23) ^ word).wrapping_mul(0x9e37_79b9_7f4a_7c15);
    }
    hash ^ (hash >> 32)
}

impl States {
    /// No states, of so many numbers each.
    pub fn new(numbers: usize) -> States {
        let stride = numbers.div_ceil(64 / FIRST_BITS);
        States {
            numbers,
            bits: FIRST_BITS,
            stride,
            words: Vec::new(),
            parents: Vec::new(),
            inputs: Vec::new(),
            table: vec![0; 1024],
            scratch: vec![0; stride],
        }
    }

    pub fn count(&self) -> usize {
        self.parents.len()
    }

    /// The words of a state.
    pub fn words(&self, state: usize) -> &[u64] {
        &self.words[state * self.stride..(state + 1) * self.stride]
    }

    pub fn bits(&self) -> usize {
        self.bits
    }

    /// A number of the words of a state.
    #[inline(always)]
    pub fn number(&self, words: &[u64], at: usize) -> u32 {
        let bit = at * self.bits;
        (words[bit / 64] >> (bit % 64)) as u32 & (u32::MAX >> (32 - self.bits))
    }

    /// The scratch state becomes equal to a state.
    #[inline(always)]
    pub fn load(&mut self, state: usize) {
        self.scratch.copy_from_slice(&self.words[state * self.stride..(state + 1) * self.stride]);
    }

    /// Puts a number into the scratch state.
    #[inline(always)]
    pub fn put(&mut self, at: usize, number: u32) {
        while number > u32::MAX >> (32 - self.bits) {
            self.widen();
        }
        let bit = at * self.bits;
        let field = u64::from(u32::MAX >> (32 - self.bits)) << (bit % 64);
        let word = &mut self.scratch[bit / 64];
        *word = *word & !field | u64::from(number) << (bit % 64);
    }

    /// Notes the scratch state, unless it is known, with the state and the input that it was met by.
    pub fn note(&mut self, parent: usize, input: u8, limit: usize) -> Noted {
        let hash = hash(&self.scratch);
        let mut at = hash as usize & (self.table.len() - 1);
        while self.table[at] != 0 {
            let entry = self.table[at];
            if entry >> 32 == hash >> 32 && self.words((entry as u32 - 1) as usize) == &self.scratch[..] {
                return Noted::Known;
            }
            at = (at + 1) & (self.table.len() - 1);
        }
        if self.count() >= limit {
            return Noted::Refused;
        }
        self.table[at] = hash >> 32 << 32 | (self.count() as u64 + 1);
        self.words.extend_from_slice(&self.scratch);
        self.parents.push(parent as u32);
        self.inputs.push(input);
        if self.count() * 4 > self.table.len() * 3 {
            self.fill_table(self.table.len() * 2);
        }
        Noted::New
    }

    #[cold]
    fn fill_table(&mut self, size: usize) {
        self.table = vec![0; size];
        for state in 0..self.count() {
            let hash = hash(self.words(state));
            let mut at = hash as usize & (size - 1);
            while self.table[at] != 0 {
                at = (at + 1) & (size - 1);
            }
            self.table[at] = hash >> 32 << 32 | (state as u64 + 1);
        }
    }

    /// Gives each number twice as many bits.
    #[cold]
    fn widen(&mut self) {
        let numbers = |words: &[u64]| (0..self.numbers).map(|at| self.number(words, at)).collect::<Vec<u32>>();
        let all: Vec<Vec<u32>> = self.words.chunks(self.stride).chain([&self.scratch[..]]).map(numbers).collect();
        self.bits *= 2;
        self.stride = self.numbers.div_ceil(64 / self.bits);
        self.words.clear();
        for state in all {
            self.scratch = vec![0; self.stride];
            for (at, number) in state.into_iter().enumerate() {
                self.put(at, number);
            }
            self.words.extend_from_slice(&self.scratch);
        }
        self.words.truncate(self.count() * self.stride);
        self.fill_table(self.table.len());
    }

    /// The inputs by which a state was met, the first state's left out.
    pub fn inputs(&self, state: usize) -> Vec<u8> {
        let mut inputs = Vec::new();
        let mut at = state;
        while at != 0 {
            inputs.push(self.inputs[at]);
            at = self.parents[at] as usize;
        }
        inputs.reverse();
        inputs
    }
}
