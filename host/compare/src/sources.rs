//! Where questions come from: sources that are asked in turn, so that a run of any length has some of each.
use oracle::{
    published::{Bytes, Identifier},
    rng::Rng,
};

/// What questions are made of: keys that the published Rust accepts, and numbers from a seed.
pub struct Draw {
    keys: Vec<Bytes>,
    pub rng: Rng,
}

impl Draw {
    pub fn key(&mut self) -> Bytes {
        self.rng.pick(&self.keys)
    }

    /// So many random bytes.
    pub fn bytes(&mut self, length: usize) -> Vec<u8> {
        let mut out = vec![];
        while out.len() < length {
            out.extend(self.rng.bytes());
        }
        out.truncate(length);
        out
    }

    /// One of the four powers, or in one case of five any byte.
    pub fn power(&mut self) -> u8 {
        if self.rng.chance(80) {
            self.rng.pick(b"LREA")
        } else {
            self.rng.word() as u8
        }
    }
}

/// A source of questions. One that has an end is walked in strides, so that a short run sees some of every
/// part of it, and a long one all of it.
pub struct Source<T> {
    pub name: &'static str,
    /// How many questions it has; an endless one has no size.
    pub size: Option<usize>,
    pub drawn: usize,
    /// The question with an index, which an endless source does not look at.
    make: fn(Index, &mut Draw) -> T,
}

/// A prime that divides the size of no source.
const STRIDE: usize = 7919;

impl<T> Source<T> {
    /// Every index below `size`, once.
    pub fn all(name: &'static str, size: usize, make: fn(Index, &mut Draw) -> T) -> Self {
        assert!(size % STRIDE != 0, "the stride meets every index");
        Source { name, size: Some(size), drawn: 0, make }
    }

    pub fn endless(name: &'static str, make: fn(Index, &mut Draw) -> T) -> Self {
        Source { name, size: None, drawn: 0, make }
    }

    fn is_through(&self) -> bool {
        self.size == Some(self.drawn)
    }

    fn question(&mut self, draw: &mut Draw) -> T {
        let index = self.size.map_or(self.drawn, |size| self.drawn * STRIDE % size);
        self.drawn += 1;
        (self.make)(Index(index), draw)
    }
}

/// An index of a product, from which an index for one factor after the other is taken.
pub struct Index(usize);

impl Index {
    pub fn below(&mut self, size: usize) -> usize {
        let digit = self.0 % size;
        self.0 /= size;
        digit
    }

    pub fn pick<T: Copy>(&mut self, from: &[T]) -> T {
        from[self.below(from.len())]
    }
}

/// Sources in turn; one that is through is passed over. One of them has to be endless.
pub struct Turns<T> {
    pub sources: Vec<Source<T>>,
    draw: Draw,
    turn: usize,
}

impl<T> Turns<T> {
    pub fn new(sources: Vec<Source<T>>, pool: &[Identifier], seed: u64) -> Self {
        assert!(sources.iter().any(|source| source.size.is_none()));
        let keys = pool.iter().map(Identifier::to_bytes).collect();
        Turns { sources, draw: Draw { keys, rng: Rng::new(seed) }, turn: 0 }
    }

    /// Whether every source that has an end is through.
    pub fn is_through(&self) -> bool {
        self.sources.iter().all(|source| source.size.is_none() || source.is_through())
    }

    pub fn question(&mut self) -> T {
        loop {
            self.turn = (self.turn + 1) % self.sources.len();
            let source = &mut self.sources[self.turn];
            if !source.is_through() {
                return source.question(&mut self.draw);
            }
        }
    }
}
