//! The 32-bit words that files are made of, and how they are read: the top four
//! bits tell the kind of a word, the other 28 are its payload. In a file each
//! word is four bytes, the most significant first.

/// The most bytes a program reads from its input; what follows is not looked at.
pub const INPUT_LIMIT: usize = 65_536;

/// The first word of every file: kind 0, edition 1.
pub const EDITION: Word = Word::new(Kind::Edition, 1);

/// The greatest payload a word can hold.
pub const PAYLOAD_MAX: u32 = (1 << 28) - 1;

/// What a word tells, in the order of the numbers that stand for it.
#[derive(Clone, Copy, Debug, PartialEq, Eq)]
pub enum Kind {
    Edition,
    /// The release tick of a cue, or the number of a released job.
    Release,
    Deadline,
    Budget,
    /// The units a cue really takes, or the ticks gone by.
    Amount,
    SetAside,
    Started,
    Resumed,
    Level,
    Bound,
    Finished,
    Cut,
    Failed,
    Code,
    Rate,
    End,
}

impl Kind {
    pub const ALL: [Kind; 16] = [
        Kind::Edition,
        Kind::Release,
        Kind::Deadline,
        Kind::Budget,
        Kind::Amount,
        Kind::SetAside,
        Kind::Started,
        Kind::Resumed,
        Kind::Level,
        Kind::Bound,
        Kind::Finished,
        Kind::Cut,
        Kind::Failed,
        Kind::Code,
        Kind::Rate,
        Kind::End,
    ];
}

#[derive(Clone, Copy, Debug, PartialEq, Eq)]
pub struct Word(pub u32);

impl Word {
    /// A word of the given kind; of the payload only 28 bits are taken.
    pub const fn new(kind: Kind, payload: u32) -> Word {
        Word((kind as u32) << 28 | payload & PAYLOAD_MAX)
    }

    pub fn kind(self) -> Kind {
        Kind::ALL[(self.0 >> 28) as usize]
    }

    pub fn payload(self) -> u32 {
        self.0 & PAYLOAD_MAX
    }
}

/// The whole words of an input, and whether bytes of one more are left over.
pub fn whole_words(bytes: &[u8]) -> (Vec<Word>, bool) {
    let looked_at = &bytes[..bytes.len().min(INPUT_LIMIT)];
    let quads = looked_at.chunks_exact(4);
    let left_over = !quads.remainder().is_empty();
    let words = quads.map(|quad| Word(u32::from_be_bytes([quad[0], quad[1], quad[2], quad[3]])));
    (words.collect(), left_over)
}

/// The bytes that a file of these words has.
pub fn file_bytes(words: &[Word]) -> Vec<u8> {
    words.iter().flat_map(|word| word.0.to_be_bytes()).collect()
}

/// Words being read in order.
pub struct Reader<'a> {
    words: &'a [Word],
    place: usize,
}

/// Why the next word is not the one that should be there.
#[derive(Clone, Copy, Debug, PartialEq, Eq)]
pub enum Unexpected {
    /// There is a word of another kind at this place.
    Wrong(usize),
    /// There are only so many words.
    Missing(usize),
}

impl<'a> Reader<'a> {
    pub fn new(words: &'a [Word]) -> Reader<'a> {
        Reader { words, place: 0 }
    }

    /// The place of the next word.
    pub fn place(&self) -> usize {
        self.place
    }

    /// The words that have not been taken.
    pub fn rest(&self) -> &'a [Word] {
        &self.words[self.place..]
    }

    /// The kind of the next word, which is not taken.
    pub fn next_kind(&self) -> Result<Kind, Unexpected> {
        match self.words.get(self.place) {
            Some(word) => Ok(word.kind()),
            None => Err(Unexpected::Missing(self.place)),
        }
    }

    /// Takes the next word, which must be of this kind, and gives its payload.
    pub fn take(&mut self, kind: Kind) -> Result<u32, Unexpected> {
        if self.next_kind()? != kind {
            return Err(Unexpected::Wrong(self.place));
        }
        let payload = self.words[self.place].payload();
        self.place += 1;
        Ok(payload)
    }

    /// Takes the edition word that every file begins with.
    pub fn take_edition(&mut self) -> Result<(), Unexpected> {
        let place = self.place;
        if self.take(Kind::Edition)? != EDITION.payload() {
            return Err(Unexpected::Wrong(place));
        }
        Ok(())
    }

    /// Takes all rates up to a word of another kind, which must be there.
    pub fn take_rates(&mut self) -> Result<Vec<u32>, Unexpected> {
        let mut rates = Vec::new();
        while self.next_kind()? == Kind::Rate {
            rates.push(self.take(Kind::Rate)?);
        }
        Ok(rates)
    }
}
