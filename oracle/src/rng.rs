//! A small seeded generator of numbers (xoshiro256**, seeded by splitmix64).

#[derive(Clone, Debug)]
pub struct Rng {
    state: [u64; 4],
    ascii: bool,
}

impl Rng {
    pub fn new(seed: u64) -> Self {
        let mut mixed = seed;
        let mut next = || {
            mixed = mixed.wrapping_add(0x9E37_79B9_7F4A_7C15);
            let mut z = mixed;
            z = (z ^ (z >> 30)).wrapping_mul(0xBF58_476D_1CE4_E5B9);
            z = (z ^ (z >> 27)).wrapping_mul(0x94D0_49BB_1331_11EB);
            z ^ (z >> 31)
        };
        Rng {
            state: [next(), next(), next(), next()],
            ascii: false,
        }
    }

    /// For texts of ASCII alone: what is drawn is what was drawn before request
    /// W-206, so that the files of cases from then are made again.
    pub fn ascii(seed: u64) -> Self {
        Rng {
            ascii: true,
            ..Rng::new(seed)
        }
    }

    pub fn draw(&mut self) -> u64 {
        let [a, b, c, d] = self.state;
        let drawn = b.wrapping_mul(5).rotate_left(7).wrapping_mul(9);
        let (c, d) = (c ^ a, d ^ b);
        self.state = [a ^ d, b ^ c, c ^ (b << 17), d.rotate_left(45)];
        drawn
    }

    /// A number below `n`, which is not 0.
    pub fn below(&mut self, n: usize) -> usize {
        (self.draw() % n as u64) as usize
    }

    /// A number from `low` to `high`, both included.
    pub fn between(&mut self, low: usize, high: usize) -> usize {
        low + self.below(high - low + 1)
    }

    /// True in `percent` of a hundred draws.
    pub fn chance(&mut self, percent: usize) -> bool {
        self.below(100) < percent
    }

    /// Whether a text is to have other characters than ASCII's: in `percent` of a
    /// hundred draws, unless all are to be ASCII, where nothing is drawn.
    pub fn beyond_ascii(&mut self, percent: usize) -> bool {
        !self.ascii && self.chance(percent)
    }

    pub fn pick<'a, T>(&mut self, list: &'a [T]) -> &'a T {
        &list[self.below(list.len())]
    }

    /// One of these words, as a text of its own.
    pub fn word(&mut self, words: &[&str]) -> String {
        self.pick(words).to_string()
    }

    /// One of these words, or in a fifth of the draws one of the others, which are
    /// not all ASCII.
    pub fn word_or(&mut self, words: &[&str], others: &[&str]) -> String {
        match self.beyond_ascii(20) {
            true => self.word(others),
            false => self.word(words),
        }
    }

    /// Put an element at a drawn place of the list.
    pub fn insert<T>(&mut self, list: &mut Vec<T>, element: T) {
        let at = self.below(list.len() + 1);
        list.insert(at, element);
    }
}
