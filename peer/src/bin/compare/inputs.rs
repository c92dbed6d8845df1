//! The inputs of a contest, by number: a fixed list and then random ones, each
//! of which depends on its own number alone. Also what sheets and scripts have
//! in common: tables of rates, and the ways in which words can be damaged.

use peer::random::Random;
use peer::rates::{LEVELS_MAX, RATE_MAX};
use peer::word::{Kind, PAYLOAD_MAX, Word, file_bytes};

/// Makes one random input.
pub type MakeRandom = fn(&mut Random) -> Vec<u8>;

pub struct Inputs {
    pub fixed: Vec<Vec<u8>>,
    pub random: MakeRandom,
    /// How many random inputs there are.
    pub count: usize,
    /// The number that the first random input is made from.
    pub start: u64,
}

impl Inputs {
    pub fn len(&self) -> usize {
        self.fixed.len() + self.count
    }

    pub fn get(&self, place: usize) -> Vec<u8> {
        match self.fixed.get(place) {
            Some(input) => input.clone(),
            None => (self.random)(&mut Random::new(self.random_number(place))),
        }
    }

    /// How to name an input so that it can be found again.
    pub fn name(&self, place: usize) -> String {
        if place < self.fixed.len() {
            format!("fixed input {place}")
        } else {
            format!("random input with start {}", self.random_number(place))
        }
    }

    fn random_number(&self, place: usize) -> u64 {
        self.start.wrapping_add((place - self.fixed.len()) as u64)
    }
}

/// Payloads next to every limit that the rules set.
pub const NOTABLE_PAYLOADS: [u32; 15] = [
    0,
    1,
    2,
    16,
    64,
    1_024,
    4_095,
    4_096,
    65_535,
    65_536,
    1_000_000,
    134_217_726,
    134_217_727,
    134_217_728,
    PAYLOAD_MAX,
];

/// Every file that differs from this one by a cut, or by one word that is of
/// another kind, has a notable or neighbouring payload, is doubled or missing.
pub fn every_damage(words: &[Word]) -> Vec<Vec<u8>> {
    let whole = file_bytes(words);
    let mut files: Vec<Vec<u8>> = (0..=whole.len()).map(|end| whole[..end].to_vec()).collect();
    for place in 0..words.len() {
        for other in other_words(words[place]) {
            let mut changed = words.to_vec();
            changed[place] = other;
            files.push(file_bytes(&changed));
        }
        let mut doubled = words.to_vec();
        doubled.insert(place, words[place]);
        files.push(file_bytes(&doubled));
        let mut missing = words.to_vec();
        missing.remove(place);
        files.push(file_bytes(&missing));
    }
    files
}

fn other_words(word: Word) -> Vec<Word> {
    let payload = word.payload();
    let kinds = Kind::ALL.map(|kind| Word::new(kind, payload));
    let payloads = NOTABLE_PAYLOADS.map(|payload| Word::new(word.kind(), payload));
    let mut others = [kinds.as_slice(), payloads.as_slice()].concat();
    others.push(Word::new(word.kind(), payload.wrapping_sub(1)));
    others.push(Word::new(word.kind(), payload.wrapping_add(1)));
    others.retain(|&other| other != word);
    others
}

/// One random change to the words.
pub fn damage(words: &mut Vec<Word>, random: &mut Random) {
    let place = random.below(words.len().max(1) as u32) as usize;
    let Some(&word) = words.get(place) else {
        return;
    };
    let kind = random.pick(&Kind::ALL);
    match random.below(6) {
        0 => words[place] = Word::new(kind, word.payload()),
        1 => words[place] = Word::new(word.kind(), random.pick(&NOTABLE_PAYLOADS)),
        2 => words[place] = Word::new(word.kind(), random.below(40)),
        3 => words.insert(place, Word::new(kind, word.payload())),
        4 => words.push(Word::new(kind, random.below(8))),
        _ => drop(words.remove(place)),
    }
}

/// The bytes of the words; now and then some are cut off or added.
pub fn random_file(words: &[Word], random: &mut Random) -> Vec<u8> {
    let mut bytes = file_bytes(words);
    if random.once_in(12) {
        bytes.truncate(random.below(bytes.len() as u32 + 1) as usize);
    } else if random.once_in(12) {
        let added = random.next_number().to_be_bytes();
        bytes.extend(&added[..random.between(1, 8) as usize]);
    }
    bytes
}

/// Lists of rates of every length around the limits, good and with each place
/// spoilt in turn.
pub fn spoilt_tables() -> Vec<Vec<u32>> {
    let mut tables = Vec::new();
    for levels in [0, 1, 2, 15, 16, 17, 18, 40] {
        let rising: Vec<u32> = (0..levels).map(|level| 3 + 2 * level).collect();
        for place in 0..rising.len() {
            for rate in [0, 2 * place as u32 + 1, RATE_MAX, RATE_MAX + 1, PAYLOAD_MAX] {
                let mut rates = rising.clone();
                rates[place] = rate;
                tables.push(rates);
            }
        }
        tables.push(rising);
    }
    tables
}

/// Mostly a table; once in a while with a level too many or two that are equal.
pub fn random_rates(random: &mut Random) -> Vec<u32> {
    let levels = random.between(1, LEVELS_MAX as u32);
    let most = if random.once_in(3) { RATE_MAX } else { 60 };
    let mut rates: Vec<u32> = (0..levels).map(|_| random.between(1, most)).collect();
    rates.sort_unstable();
    if !random.once_in(40) {
        rates.dedup();
    }
    if random.once_in(60) {
        rates = (0..random.between(15, 18)).map(|level| level + 1).collect();
    }
    rates
}
