//! Random numbers, bytes and texts, the same for the same start.

/// Bytes.
pub type Text = Vec<u8>;

/// The first lines, so many of them, each with its line feed.
pub fn joined(mut lines: Vec<Text>, count: usize) -> Text {
    lines.truncate(count);
    lines.push(Vec::new());
    lines.join(&b'\n')
}

/// Random numbers: xorshift64*, begun by a step of splitmix64 so that near seeds differ at once.
pub struct Rng(u64);

impl Rng {
    /// Begins with a seed.
    pub fn new(seed: u64) -> Rng {
        let mut word = seed.wrapping_add(0x9E37_79B9_7F4A_7C15);
        word = (word ^ (word >> 30)).wrapping_mul(0xBF58_476D_1CE4_E5B9);
        word = (word ^ (word >> 27)).wrapping_mul(0x94D0_49BB_1331_11EB);
        Rng((word ^ (word >> 31)).max(1))
    }

    fn next(&mut self) -> u64 {
        self.0 ^= self.0 >> 12;
        self.0 ^= self.0 << 25;
        self.0 ^= self.0 >> 27;
        self.0.wrapping_mul(0x2545_F491_4F6C_DD1D) >> 16
    }

    /// A seed for another generator.
    pub fn seed(&mut self) -> u64 {
        self.next()
    }

    /// A number from 0 to `end` - 1; `end` is not 0.
    pub fn below(&mut self, end: usize) -> usize {
        (self.next() % end as u64) as usize
    }

    /// A number from `least` to `most`.
    pub fn range(&mut self, least: usize, most: usize) -> usize {
        least + self.below(most - least + 1)
    }

    /// True in so many of a hundred cases.
    pub fn percent(&mut self, chance: usize) -> bool {
        self.below(100) < chance
    }

    /// One of a list, which is not empty.
    pub fn pick<'a, T>(&mut self, list: &'a [T]) -> &'a T {
        &list[self.below(list.len())]
    }

    /// A copy of one of some texts.
    pub fn text(&mut self, list: &[&[u8]]) -> Text {
        self.pick(list).to_vec()
    }

    /// So many of the bytes `of`.
    pub fn bytes(&mut self, length: usize, of: &[u8]) -> Text {
        (0..length).map(|_| *self.pick(of)).collect()
    }

    /// Any id bytes, `least` to `most` of them.
    pub fn id(&mut self, least: usize, most: usize) -> Text {
        let length = self.range(least, most);
        let all: Text = (0x21..=0x7E).filter(|byte| !b";,".contains(byte)).collect();
        self.bytes(length, &all)
    }

    /// A code that has its form.
    pub fn acer(&mut self) -> Text {
        let mut code = self.bytes(9, b"ABCXYZ0189");
        code.push(b'.');
        code.extend(self.bytes(2, b"ADEUZ"));
        code
    }
}
