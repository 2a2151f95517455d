//! Probes and streams: all words over a small alphabet, random ones from fixed seeds, and words that are hard
//! for scans.

/// A small generator of numbers (splitmix64), the same for the same seed everywhere.
pub struct Generator(u64);

impl Generator {
    pub fn new(seed: u64) -> Generator {
        Generator(seed)
    }

    /// A number of 64 bits.
    pub fn number(&mut self) -> u64 {
        self.0 = self.0.wrapping_add(0x9E37_79B9_7F4A_7C15);
        let mut z = self.0;
        z = (z ^ (z >> 30)).wrapping_mul(0xBF58_476D_1CE4_E5B9);
        z = (z ^ (z >> 27)).wrapping_mul(0x94D0_49BB_1331_11EB);
        z ^ (z >> 31)
    }

    /// A number from 0 to limit − 1.
    pub fn below(&mut self, limit: usize) -> usize {
        (self.number() % limit as u64) as usize
    }

    /// A number from least to most, both included.
    pub fn between(&mut self, least: usize, most: usize) -> usize {
        least + self.below(most - least + 1)
    }

    /// One of these.
    pub fn pick<T: Copy>(&mut self, these: &[T]) -> T {
        these[self.below(these.len())]
    }

    /// A word over the first bytes of the 256: as many letters as said.
    pub fn word(&mut self, letters: usize, length: usize) -> Vec<u8> {
        (0..length).map(|_| self.below(letters) as u8).collect()
    }

    /// A stretch of y, of the length said.
    pub fn stretch(&mut self, y: &[u8], length: usize) -> Vec<u8> {
        let start = self.below(y.len() - length + 1);
        y[start..start + length].to_vec()
    }

    /// A word of stretches of itself, each before what it repeats, with any letter in between.
    pub fn copied(&mut self, letters: usize, length: usize) -> Vec<u8> {
        let mut word = vec![];
        while word.len() < length {
            word.push(self.below(letters) as u8);
            let copied = self.below(word.len() + 1);
            let stretch = self.stretch(&word, copied);
            word.extend(stretch);
        }
        word.truncate(length);
        word.reverse();
        word
    }

    /// The word with as many flaws as said: letters anywhere, which may be the ones that stood there.
    pub fn flawed(&mut self, word: &[u8], letters: usize, flaws: usize) -> Vec<u8> {
        let mut flawed = word.to_vec();
        for _ in 0..flaws {
            let place = self.below(word.len());
            flawed[place] = self.below(letters) as u8;
        }
        flawed
    }
}

/// All words of this length over the letters a, b, ..
pub fn all_words(letters: usize, length: usize) -> impl Iterator<Item = Vec<u8>> {
    (0..letters.pow(length as u32)).map(move |index| {
        let mut rest = index;
        let mut word = vec![0; length];
        for letter in &mut word {
            *letter = b'a' + (rest % letters) as u8;
            rest /= letters;
        }
        word
    })
}

/// All words of these lengths over the letters a, b, ..
pub fn all_words_between(letters: usize, least: usize, most: usize) -> impl Iterator<Item = Vec<u8>> {
    (least..=most).flat_map(move |length| all_words(letters, length))
}

/// The word with another byte at this place.
pub fn with_byte(word: &[u8], place: usize, byte: u8) -> Vec<u8> {
    let mut changed = word.to_vec();
    changed[place] = byte;
    changed
}

/// The front of the word repeated for ever.
pub fn repeated(word: &[u8], length: usize) -> Vec<u8> {
    word.iter().copied().cycle().take(length).collect()
}

/// The front of the infinite Fibonacci word abaababaabaab..
pub fn fibonacci(length: usize) -> Vec<u8> {
    let (mut word, mut before) = (b"ab".to_vec(), b"a".to_vec());
    while word.len() < length {
        let next = [&word[..], &before[..]].concat();
        before = std::mem::replace(&mut word, next);
    }
    word.truncate(length);
    word
}

/// The probe a^(k−1) b a^k b, on which, repeated, the remembering scan compares most.
pub fn worst_probe(k: usize) -> Vec<u8> {
    let mut word = vec![b'a'; k - 1];
    word.push(b'b');
    word.extend(vec![b'a'; k]);
    word.push(b'b');
    word
}
