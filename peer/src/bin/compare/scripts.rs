//! Scripts good and bad. The fixed ones go through every damage of a few small
//! scripts, every refusal and the limits of size; the random ones mix loads,
//! ties, early ends and damages.

use peer::random::Random;
use peer::rates::{LEVELS_MAX, RATE_MAX};
use peer::script::{Call, Script, TICKS_MAX};
use peer::sheet::{BUDGET_MAX, DEADLINE_MAX};
use peer::word::{INPUT_LIMIT, Kind, PAYLOAD_MAX, Word, file_bytes};

use crate::inputs::{
    NOTABLE_PAYLOADS, damage, every_damage, random_file, random_rates, spoilt_tables,
};

const RATES: [u32; 4] = [7, 10, 12, 14];
const FINISHED: Word = Word::new(Kind::Finished, 0);
const FAILED: Word = Word::new(Kind::Failed, 5);
const RUNNING: Word = Word::new(Kind::Edition, 0);

pub fn fixed() -> Vec<Vec<u8>> {
    [
        small_scripts()
            .iter()
            .flat_map(|script| every_damage(script))
            .collect(),
        tables(),
        extreme_releases(),
        many_pending(),
        all_budgets_used(),
        full_traces(),
        many_ticks(),
        long_inputs(),
    ]
    .concat()
}

fn release(deadline: u32, budget: u32) -> Call {
    Call::Release { deadline, budget }
}

fn script_words(rates: &[u32], calls: &[Call], tape: &[Word]) -> Vec<Word> {
    let (rates, calls, tape) = (rates.to_vec(), calls.to_vec(), tape.to_vec());
    Script { rates, calls, tape }.words()
}

fn script_file(rates: &[u32], calls: &[Call], tape: &[Word]) -> Vec<u8> {
    file_bytes(&script_words(rates, calls, tape))
}

fn small_scripts() -> [Vec<Word>; 4] {
    let cutting_in = [
        release(20, 6),
        Call::Ticks(1),
        release(9, 2),
        release(9, 3),
        Call::Ticks(2),
        release(5, 1),
        Call::Ticks(14),
    ];
    let handing_on = [
        release(10, 5),
        Call::Ticks(1),
        release(10, 2),
        release(9, 2),
        Call::Ticks(12),
    ];
    let idle_between = [Call::Ticks(2), release(7, 3), Call::Ticks(9)];
    [
        script_words(
            &RATES,
            &cutting_in,
            &[RUNNING, RUNNING, FINISHED, RUNNING, FAILED],
        ),
        script_words(&[1, RATE_MAX], &handing_on, &[FINISHED]),
        script_words(&[3], &idle_between, &[]),
        script_words(&[9], &[], &[]),
    ]
}

fn tables() -> Vec<Vec<u8>> {
    let calls = [release(3, 2), Call::Ticks(3)];
    let files = spoilt_tables().into_iter();
    files
        .map(|rates| script_file(&rates, &calls, &[]))
        .collect()
}

/// Releases with notable numbers, before and after a few ticks.
fn extreme_releases() -> Vec<Vec<u8>> {
    let mut files = Vec::new();
    for deadline in NOTABLE_PAYLOADS {
        for budget in NOTABLE_PAYLOADS {
            let calls = [
                release(deadline, budget),
                Call::Ticks(2),
                release(deadline, budget),
                release(3, 1),
                Call::Ticks(3),
            ];
            files.push(script_file(&RATES, &calls, &[]));
            files.push(script_file(
                &[RATE_MAX - 1, RATE_MAX],
                &calls,
                &[FINISHED; 2],
            ));
        }
    }
    files
}

/// As many pending jobs as there may be, and more.
fn many_pending() -> Vec<Vec<u8>> {
    let mut files = Vec::new();
    for count in [63, 64, 65, 70] {
        let alike = vec![release(99, 1); count];
        let falling: Vec<Call> = (0..count as u32)
            .map(|n| release(100 - n, 1 + n % 3))
            .collect();
        for mut calls in [alike, falling] {
            calls.extend([
                Call::Ticks(1),
                release(98, 2),
                release(97, 2),
                release(0, 2),
            ]);
            calls.push(Call::Ticks(200));
            files.push(script_file(&RATES, &calls, &[]));
            files.push(script_file(&RATES, &calls, &[FINISHED; 30]));
        }
    }
    files
}

/// So many budgets that no more are accepted, in just as many trace words as
/// that takes: most jobs are over in a tick, the last stay pending.
fn all_budgets_used() -> Vec<Vec<u8>> {
    let mut files = Vec::new();
    for last in [2_046, 2_047, 2_048, BUDGET_MAX] {
        let one = [release(DEADLINE_MAX, BUDGET_MAX), Call::Ticks(1)];
        let mut calls = one.repeat(1_990);
        calls.extend([release(DEADLINE_MAX, BUDGET_MAX); 58]);
        calls.extend([release(DEADLINE_MAX, last), release(DEADLINE_MAX, 1)]);
        calls.extend([release(DEADLINE_MAX, 2), release(0, 1), Call::Ticks(5)]);
        files.push(script_file(&[9], &calls, &[FINISHED; 1_990]));
    }
    files
}

/// Traces that run full. With each level more there is one word less, so that
/// every number of free words is met.
fn full_traces() -> Vec<Vec<u8>> {
    let mut files = Vec::new();
    let one_by_one = [release(DEADLINE_MAX, 1), Call::Ticks(2)];
    let cutting_in = [
        release(DEADLINE_MAX, 3),
        Call::Ticks(1),
        release(DEADLINE_MAX - 1, 1),
        Call::Ticks(3),
    ];
    for levels in 1..=LEVELS_MAX as u32 {
        let rates: Vec<u32> = (1..=levels).collect();
        files.push(script_file(&rates, &one_by_one.repeat(2_000), &[]));
        files.push(script_file(
            &rates,
            &one_by_one.repeat(2_000),
            &[FAILED; 2_000],
        ));
        files.push(script_file(&rates, &cutting_in.repeat(1_000), &[]));
        files.push(script_file(
            &rates,
            &cutting_in.repeat(1_000),
            &[RUNNING, FAILED].repeat(2_000),
        ));
    }
    files
}

/// As many ticks as there may be, and more.
fn many_ticks() -> Vec<Vec<u8>> {
    let ticks = |count| vec![Call::Ticks(count)];
    let jobs = [
        release(DEADLINE_MAX, BUDGET_MAX),
        release(DEADLINE_MAX, 300),
    ]
    .repeat(8);
    let mut files = Vec::new();
    for calls in [
        ticks(TICKS_MAX),
        ticks(TICKS_MAX + 1),
        ticks(PAYLOAD_MAX),
        [ticks(TICKS_MAX - 1), ticks(1), ticks(0)].concat(),
        [ticks(TICKS_MAX - 1), ticks(2), ticks(0)].concat(),
        [ticks(1), ticks(TICKS_MAX), ticks(PAYLOAD_MAX)].concat(),
        [jobs, ticks(TICKS_MAX)].concat(),
    ] {
        files.push(script_file(&[9, 14], &calls, &[]));
    }
    files
}

/// Inputs as long as a program reads, and longer.
fn long_inputs() -> Vec<Vec<u8>> {
    let mut files = Vec::new();
    for spare in -2..=2 {
        let before_tape = script_words(&RATES, &[release(20, 9), Call::Ticks(30)], &[]).len();
        let length = (INPUT_LIMIT / 4 - before_tape).wrapping_add_signed(spare);
        let tape = vec![RUNNING; length];
        let mut bytes = script_file(&RATES, &[release(20, 9), Call::Ticks(30)], &tape);
        for _ in 0..6 {
            files.push(bytes.clone());
            bytes.push(0xA0);
        }
        bytes.extend([0; 3_000]);
        files.push(bytes);
    }
    files.push(script_file(&RATES, &[Call::Ticks(0); 20_000], &[]));
    files.push(script_file(&[5; 20_000], &[], &[]));
    files
}

pub fn random(random: &mut Random) -> Vec<u8> {
    let calls = random_calls(random);
    let tape = random_tape(random);
    let mut words = script_words(&random_rates(random), &calls, &tape);
    if random.once_in(8) {
        damage(&mut words, random);
    }
    random_file(&words, random)
}

/// Calls at some load, from light to hopeless. In a narrow span of time
/// deadlines often tie.
fn random_calls(random: &mut Random) -> Vec<Call> {
    let count = match random.below(100) {
        0 => random.between(1_000, 4_000),
        1..10 => random.below(300),
        _ => random.below(50),
    };
    let span = random.pick(&[3, 8, 20, 60, 400]);
    let budget_max = random.pick(&[1, 3, 6, 15, 60]);
    let ticks_max = random.pick(&[1, 2, 5, 12]);
    let mut clock = 0;
    let mut calls = Vec::new();
    for _ in 0..count {
        if random.once_in(2) {
            let ticks = random.between(1, ticks_max);
            clock += ticks;
            calls.push(Call::Ticks(ticks));
        } else {
            let deadline = clock + random.between(1, span);
            calls.push(odd_release(deadline, random.between(1, budget_max), random));
        }
    }
    calls
}

/// Mostly this release; once in a while one with a notable number instead.
fn odd_release(deadline: u32, budget: u32, random: &mut Random) -> Call {
    match random.below(40) {
        0 => release(random.pick(&NOTABLE_PAYLOADS), budget),
        1 => release(deadline, random.pick(&NOTABLE_PAYLOADS)),
        2 => release(random.below(deadline + 1), budget),
        _ => release(deadline, budget),
    }
}

/// Answers that end a job seldom, often or always.
fn random_tape(random: &mut Random) -> Vec<Word> {
    let length = random.below(400);
    let ends_once_in = random.pick(&[1, 2, 4, 10, 50]);
    let answer = |_| {
        let payload = random.next_number() as u32;
        if !random.once_in(ends_once_in) {
            Word::new(random.pick(&Kind::ALL), payload)
        } else if random.once_in(4) {
            Word::new(Kind::Failed, payload)
        } else {
            Word::new(Kind::Finished, payload)
        }
    };
    (0..length).map(answer).collect()
}
