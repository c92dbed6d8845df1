//! The loading factor, by hand and against its definition.

use peer::loading::{loading_factor, loading_factor_by_definition};
use peer::random::Random;
use peer::sheet::{Cue, DEADLINE_MAX};

fn cue(release: u32, deadline: u32, budget: u32) -> Cue {
    Cue {
        release,
        deadline,
        budget,
        units: 0,
    }
}

fn both_say(cues: &[Cue]) -> (u32, u32, u32, u32) {
    let answer = loading_factor(cues);
    assert_eq!(answer, loading_factor_by_definition(cues), "for {cues:?}");
    answer
}

#[test]
fn worked_examples() {
    let six = [
        cue(0, 7, 4),
        cue(6, 9, 2),
        cue(3, 15, 6),
        cue(10, 18, 4),
        cue(20, 26, 4),
        cue(11, 30, 7),
    ];
    assert_eq!(both_say(&six), (27, 30, 0, 30));
    assert_eq!(
        both_say(&[cue(3, 18, 4), cue(5, 12, 4), cue(6, 14, 6)]),
        (10, 9, 5, 14)
    );
    assert_eq!(both_say(&[cue(0, 3, 3)]), (3, 3, 0, 3));
    assert_eq!(both_say(&[]), (0, 1, 0, 1));
}

#[test]
fn of_equal_ratios_the_earlier_interval_is_told() {
    assert_eq!(both_say(&[cue(10, 14, 2), cue(2, 4, 1)]), (1, 2, 2, 4));
    assert_eq!(both_say(&[cue(4, 8, 2), cue(0, 4, 2)]), (2, 4, 0, 4));
    assert_eq!(
        both_say(&[cue(0, 8, 4), cue(0, 4, 4), cue(2, 4, 1)]),
        (5, 4, 0, 4)
    );
    assert_eq!(both_say(&[cue(0, 8, 3), cue(0, 4, 3)]), (3, 4, 0, 4));
}

#[test]
fn cues_of_one_deadline_count_together() {
    assert_eq!(
        both_say(&[cue(0, 9, 1), cue(0, 9, 2), cue(3, 9, 4)]),
        (7, 9, 0, 9)
    );
    assert_eq!(
        both_say(&[cue(3, 9, 5), cue(0, 9, 1), cue(3, 9, 1)]),
        (6, 6, 3, 9)
    );
}

#[test]
fn the_greatest_numbers_fit() {
    let widest = [cue(0, DEADLINE_MAX, 65_535); 1_024];
    assert_eq!(
        loading_factor(&widest),
        (67_107_840, DEADLINE_MAX, 0, DEADLINE_MAX)
    );
    let latest = [cue(DEADLINE_MAX - 1, DEADLINE_MAX, 65_535); 1_024];
    assert_eq!(
        loading_factor(&latest),
        (67_107_840, 1, DEADLINE_MAX - 1, DEADLINE_MAX)
    );
}

/// Cues in a narrow span tie often; in a wide one hardly ever.
fn random_cues(random: &mut Random, span: u32, budget_max: u32) -> Vec<Cue> {
    let count = random.below(13);
    let random_cue = |_| {
        let release = random.below(span);
        cue(
            release,
            random.between(release + 1, span),
            random.between(1, budget_max),
        )
    };
    (0..count).map(random_cue).collect()
}

#[test]
fn both_versions_agree_on_random_cues() {
    let mut random = Random::new(1);
    for _ in 0..4_000 {
        both_say(&random_cues(&mut random, 4, 3));
        both_say(&random_cues(&mut random, 12, 2));
        both_say(&random_cues(&mut random, 60, 9));
        both_say(&random_cues(&mut random, DEADLINE_MAX, 65_535));
    }
}
