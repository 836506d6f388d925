//! A deterministic source of choices: the list must come out the same on
//! every machine and every run.

pub struct Generator {
    state: u64,
}

impl Generator {
    pub fn new(seed: u64) -> Self {
        assert_ne!(seed, 0, "xorshift stays at zero for ever");
        Generator { state: seed }
    }

    fn next(&mut self) -> u64 {
        self.state ^= self.state << 13;
        self.state ^= self.state >> 7;
        self.state ^= self.state << 17;
        // The low bits of a plain xorshift are weak; the product mixes them.
        self.state.wrapping_mul(0x2545_f491_4f6c_dd1d) >> 16
    }

    pub fn below(&mut self, bound: usize) -> usize {
        (self.next() % bound as u64) as usize
    }

    pub fn between(&mut self, low: usize, high: usize) -> usize {
        low + self.below(high - low + 1)
    }

    pub fn pick<T: Copy>(&mut self, choices: &[T]) -> T {
        choices[self.below(choices.len())]
    }

    pub fn word(&mut self, alphabet: &[&str], letters: usize) -> String {
        (0..letters).map(|_| self.pick(alphabet)).collect()
    }

    /// A word of the given number of bytes, or up to three more where the
    /// last character does not fit exactly.
    pub fn word_of_bytes(&mut self, alphabet: &[&str], bytes: usize) -> String {
        let mut word = String::new();
        while word.len() < bytes {
            word.push_str(self.pick(alphabet));
        }
        word
    }

    /// A piece of the row of up to `longest` characters: a delimiter that is
    /// sure to be found.  Empty only for an empty row.
    pub fn piece(&mut self, row: &str, longest: usize) -> String {
        let characters: Vec<char> = row.chars().collect();
        if characters.is_empty() {
            return String::new();
        }
        let start = self.below(characters.len());
        let most = longest.min(characters.len() - start);
        let length = self.between(1, most);
        characters[start..start + length].iter().collect()
    }
}
