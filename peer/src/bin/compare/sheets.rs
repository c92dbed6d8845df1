//! Sheets good and bad. The fixed ones go through every damage of a few small
//! sheets and along the limits of size; the random ones mix loads, ties and
//! damages.

use peer::random::Random;
use peer::rates::RATE_MAX;
use peer::sheet::{BUDGET_MAX, CUES_MAX, Cue, DEADLINE_MAX, sheet_words};
use peer::word::{EDITION, INPUT_LIMIT, Kind, PAYLOAD_MAX, Word, file_bytes};

use crate::inputs::{
    NOTABLE_PAYLOADS, damage, every_damage, random_file, random_rates, spoilt_tables,
};

const RATES: [u32; 4] = [7, 10, 12, 14];

pub fn fixed() -> Vec<Vec<u8>> {
    [
        small_sheets()
            .iter()
            .flat_map(|sheet| every_damage(sheet))
            .collect(),
        tables(),
        extreme_cues(),
        many_cues(),
        words_after_the_end(),
        long_inputs(),
    ]
    .concat()
}

fn cue(release: u32, deadline: u32, budget: u32, units: u32) -> Cue {
    Cue {
        release,
        deadline,
        budget,
        units,
    }
}

fn small_sheets() -> [Vec<Word>; 6] {
    let six = [
        cue(0, 7, 4, 28),
        cue(6, 9, 2, 14),
        cue(3, 15, 6, 70),
        cue(10, 18, 4, 28),
        cue(20, 26, 4, 28),
        cue(11, 30, 7, 56),
    ];
    let overloaded = [cue(3, 18, 4, 0), cue(5, 12, 4, 0), cue(6, 14, 6, 0)];
    let tied = [
        cue(4, 8, 2, 1),
        cue(0, 4, 2, 1),
        cue(0, 4, 1, 1),
        cue(4, 8, 1, 1),
    ];
    let sixteen: Vec<u32> = (1..=16).collect();
    [
        sheet_words(&RATES, &six),
        sheet_words(&RATES, &overloaded),
        sheet_words(&[1, RATE_MAX], &tied),
        sheet_words(&sixteen, &[cue(0, 3, 3, 0)]),
        sheet_words(&[9], &[cue(0, 3, 4, 0)]),
        sheet_words(&[1], &[]),
    ]
}

/// Tables around the limits, before a cue and before words of all kinds.
fn tables() -> Vec<Vec<u8>> {
    let mut files = Vec::new();
    for (rates, kind) in spoilt_tables().iter().zip(Kind::ALL.into_iter().cycle()) {
        files.push(file_bytes(&sheet_words(rates, &[cue(0, 1, 1, 0)])));
        let mut words = sheet_words(rates, &[]);
        *words.last_mut().expect("a sheet has words") = Word::new(kind, 0);
        files.push(file_bytes(&words));
    }
    files
}

/// One cue with every mixture of notable numbers, and two that touch limits.
fn extreme_cues() -> Vec<Vec<u8>> {
    let mut files = Vec::new();
    for release in NOTABLE_PAYLOADS {
        for deadline in NOTABLE_PAYLOADS {
            for budget in [0, 1, BUDGET_MAX, BUDGET_MAX + 1] {
                let one = cue(release, deadline, budget, PAYLOAD_MAX);
                files.push(file_bytes(&sheet_words(&RATES, &[one])));
            }
            let two = [
                cue(release, deadline, BUDGET_MAX, 0),
                cue(0, DEADLINE_MAX, BUDGET_MAX, 0),
            ];
            files.push(file_bytes(&sheet_words(&RATES, &two)));
        }
    }
    files
}

/// Sheets around the greatest number of cues.
fn many_cues() -> Vec<Vec<u8>> {
    let mut files = Vec::new();
    for count in [
        CUES_MAX - 1,
        CUES_MAX,
        CUES_MAX + 1,
        CUES_MAX + 2,
        2 * CUES_MAX,
    ] {
        let even: Vec<Cue> = (0..count as u32).map(|n| cue(n, n + 1, 1, 0)).collect();
        let together = vec![cue(0, DEADLINE_MAX, BUDGET_MAX, 0); count];
        let late = vec![cue(DEADLINE_MAX - 1, DEADLINE_MAX, BUDGET_MAX, 0); count];
        let nested: Vec<Cue> = (0..count as u32).map(|n| cue(n, 9_000 - n, 3, 0)).collect();
        for cues in [even, together, late, nested] {
            files.push(file_bytes(&sheet_words(&RATES, &cues)));
        }
    }
    let even: Vec<Cue> = (0..=CUES_MAX as u32).map(|n| cue(n, n + 1, 1, 0)).collect();
    let words = sheet_words(&RATES, &even);
    let last_cue = words.len() - 5;
    let whole = file_bytes(&words);
    files.extend((4 * last_cue - 4..whole.len()).map(|end| whole[..end].to_vec()));
    for place in last_cue - 4..words.len() {
        for other in [Kind::Bound, Kind::Release, words[place].kind()] {
            let mut changed = words.clone();
            changed[place] = Word::new(other, 0);
            files.push(file_bytes(&changed));
        }
    }
    let mut wrong_end = sheet_words(&RATES, &even[..CUES_MAX]);
    *wrong_end.last_mut().expect("a sheet has words") = Word::new(Kind::End, CUES_MAX as u32 + 1);
    files.push(file_bytes(&wrong_end));
    files
}

/// Whole sheets followed by whole words, by parts of one, or by both.
fn words_after_the_end() -> Vec<Vec<u8>> {
    let mut files = Vec::new();
    for sheet in small_sheets() {
        for kind in Kind::ALL {
            let mut words = sheet.clone();
            words.push(Word::new(kind, 1));
            let whole = file_bytes(&words);
            for end in 4 * sheet.len() + 1..=whole.len() {
                files.push(whole[..end].to_vec());
            }
            words.push(Word::new(kind, 1));
            files.push(file_bytes(&words));
        }
        files.push(file_bytes(&[sheet.clone(), sheet].concat()));
    }
    files
}

/// Inputs as long as a program reads, and longer.
fn long_inputs() -> Vec<Vec<u8>> {
    let length = INPUT_LIMIT / 4 + 2_000;
    let repeated = |cycle: &[Word]| -> Vec<Word> {
        let repeats = cycle.iter().copied().cycle().take(length);
        std::iter::once(EDITION).chain(repeats).collect()
    };
    let rate = Word::new(Kind::Rate, 5);
    let mut good_start = sheet_words(&RATES, &[cue(0, 9, 1, 0)]);
    good_start.resize(length, Word(0));
    let mut table_ends_at_limit = repeated(&[rate]);
    table_ends_at_limit[INPUT_LIMIT / 4] = Word::new(Kind::End, 0);
    let mut table_ends_before_limit = repeated(&[rate]);
    table_ends_before_limit[INPUT_LIMIT / 4 - 1] = Word::new(Kind::End, 0);
    let wholes = [
        repeated(&[rate]),
        repeated(&[Word(0)]),
        repeated(&sheet_words(&[], &[cue(0, 9, 1, 0)])[1..5]),
        good_start,
        table_ends_at_limit,
        table_ends_before_limit,
    ];
    let mut files = Vec::new();
    for words in wholes {
        let bytes = file_bytes(&words);
        for end in [-5, -4, -3, -1, 0, 1, 2, 3, 4, 5, 4_000] {
            files.push(bytes[..INPUT_LIMIT.wrapping_add_signed(end)].to_vec());
        }
    }
    files
}

pub fn random(random: &mut Random) -> Vec<u8> {
    let mut words = if random.once_in(20) {
        random_words(random)
    } else {
        sheet_words(&random_rates(random), &random_cues(random))
    };
    if random.once_in(3) {
        for _ in 0..random.between(1, 3) {
            damage(&mut words, random);
        }
    }
    random_file(&words, random)
}

/// Hardly a sheet: the edition, and then words mostly of the kinds of a sheet.
fn random_words(random: &mut Random) -> Vec<Word> {
    let kinds = [
        Kind::Rate,
        Kind::Release,
        Kind::Deadline,
        Kind::Budget,
        Kind::Amount,
        Kind::End,
    ];
    let length = random.below(12);
    let random_word = |_| {
        let kind = if random.once_in(8) {
            random.pick(&Kind::ALL)
        } else {
            random.pick(&kinds)
        };
        Word::new(kind, random.below(9))
    };
    std::iter::once(EDITION)
        .chain((0..length).map(random_word))
        .collect()
}

/// Cues that keep the limits, at loads around the one that is just admitted.
/// In a narrow span of time releases, deadlines and ratios often tie.
fn random_cues(random: &mut Random) -> Vec<Cue> {
    let count = match random.below(200) {
        0 => random.between(1_000, CUES_MAX as u32 + 1),
        1..12 => random.below(200),
        _ => random.below(14),
    };
    let budget_max = random.pick(&[1, 2, 5, 20, BUDGET_MAX]);
    let whole_work = u64::from(count.max(1)) * u64::from(budget_max);
    let span = match random.below(5) {
        0 => u64::from(random.between(1, 6)),
        1 => u64::from(DEADLINE_MAX),
        slack => whole_work * u64::from(slack),
    };
    let span = span.clamp(1, u64::from(DEADLINE_MAX)) as u32;
    let random_cue = |_| {
        let release = random.below(span);
        let deadline = random.between(release + 1, span);
        let fitting = budget_max.min(deadline - release);
        let most = if random.once_in(30) {
            budget_max
        } else {
            fitting
        };
        cue(
            release,
            deadline,
            random.between(1, most),
            random.below(PAYLOAD_MAX),
        )
    };
    (0..count).map(random_cue).collect()
}
