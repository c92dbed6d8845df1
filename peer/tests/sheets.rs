//! Sheets read, refused and admitted.

use peer::sheet::{Cue, Sheet, sheet_words};
use peer::sheetcheck::report;
use peer::word::{Kind, Word, file_bytes};

const SIX_CUES: &[u8] = include_bytes!("../../examples/six-cues.sheet");
const OVERLOADED: &[u8] = include_bytes!("../../examples/overloaded.sheet");
const RATES: [u32; 4] = [7, 10, 12, 14];

/// The place of the first cue word after four rates.
const FIRST_CUE: usize = 5;

fn cue(release: u32, deadline: u32, budget: u32, units: u32) -> Cue {
    Cue {
        release,
        deadline,
        budget,
        units,
    }
}

fn six_cues() -> Vec<Cue> {
    vec![
        cue(0, 7, 4, 28),
        cue(6, 9, 2, 14),
        cue(3, 15, 6, 70),
        cue(10, 18, 4, 28),
        cue(20, 26, 4, 28),
        cue(11, 30, 7, 56),
    ]
}

fn report_on_words(words: &[Word]) -> String {
    report(&file_bytes(words))
}

fn report_on_cues(cues: &[Cue]) -> String {
    report_on_words(&sheet_words(&RATES, cues))
}

/// The report on the six-cue sheet with one word exchanged.
fn report_with(place: usize, word: Word) -> String {
    let mut words = sheet_words(&RATES, &six_cues());
    words[place] = word;
    report_on_words(&words)
}

/// The report on a sheet with these rates and no cue.
fn report_on_rates(rates: &[u32]) -> String {
    report_on_words(&sheet_words(rates, &[]))
}

#[test]
fn six_cues_are_admitted() {
    assert_eq!(SIX_CUES, file_bytes(&sheet_words(&RATES, &six_cues())));
    let expected = "rates 7 10 12 14\ncues 6\nload 27 of 30 in 0 to 30\nadmitted\n";
    assert_eq!(report(SIX_CUES), expected);
}

#[test]
fn ten_ticks_in_nine_are_too_many() {
    let cues = [cue(3, 18, 4, 0), cue(5, 12, 4, 0), cue(6, 14, 6, 0)];
    assert_eq!(OVERLOADED, file_bytes(&sheet_words(&RATES, &cues)));
    let expected = "rates 7 10 12 14\ncues 3\nload 10 of 9 in 5 to 14\nsheet 13 17\n";
    assert_eq!(report(OVERLOADED), expected);
}

#[test]
fn a_budget_may_fill_its_time_but_not_pass_it() {
    let full = "rates 7 10 12 14\ncues 1\nload 3 of 3 in 0 to 3\nadmitted\n";
    let over = "rates 7 10 12 14\ncues 1\nload 4 of 3 in 0 to 3\nsheet 13 9\n";
    assert_eq!(report_on_cues(&[cue(0, 3, 3, 0)]), full);
    assert_eq!(report_on_cues(&[cue(0, 3, 4, 0)]), over);
}

#[test]
fn a_sheet_without_cues_is_admitted() {
    let expected = "rates 7 10 12 14\ncues 0\nload 0 of 1 in 0 to 1\nadmitted\n";
    assert_eq!(report_on_cues(&[]), expected);
}

#[test]
fn a_sheet_reads_back_as_it_was_written() {
    let sheet = Sheet::from_bytes(SIX_CUES).unwrap();
    assert_eq!(sheet.rates().rates(), RATES);
    assert_eq!(sheet.cues(), six_cues());
    assert_eq!(file_bytes(&sheet.words()), SIX_CUES);
    assert_eq!(sheet.words()[sheet.end_place()], Word(0xF000_0006));
}

#[test]
fn the_first_word_is_the_edition() {
    for wrong in [
        0x0000_0000,
        0x0000_0002,
        0x1000_0001,
        0x0100_0001,
        0xF000_0001,
    ] {
        assert_eq!(report_with(0, Word(wrong)), "word 9 0\n");
        assert_eq!(report_on_words(&[Word(wrong)]), "word 9 0\n");
    }
}

#[test]
fn a_cut_sheet_ends_early() {
    for length in 0..SIX_CUES.len() {
        assert_eq!(
            report(&SIX_CUES[..length]),
            format!("word 10 {}\n", length / 4)
        );
    }
}

#[test]
fn a_part_of_a_word_after_the_end_is_a_word_cut_short() {
    let mut bytes = SIX_CUES.to_vec();
    for _ in 0..3 {
        bytes.push(0xFF);
        assert_eq!(report(&bytes), "word 10 30\n");
    }
    bytes.push(0xFF);
    assert_eq!(report(&bytes), "word 9 30\n");
}

#[test]
fn an_earlier_fault_comes_before_a_part_of_a_word() {
    let mut words = sheet_words(&RATES, &six_cues());
    words[29] = Word::new(Kind::End, 5);
    let mut bytes = file_bytes(&words);
    bytes.push(0);
    assert_eq!(report(&bytes), "word 9 29\n");
}

#[test]
fn one_to_sixteen_levels_are_read() {
    let sixteen: Vec<u32> = (4_080..=4_095).collect();
    let seventeen: Vec<u32> = (4_079..=4_095).collect();
    assert!(report_on_rates(&[1]).starts_with("rates 1\ncues 0\n"));
    assert!(
        report_on_rates(&sixteen)
            .ends_with(" 4094 4095\ncues 0\nload 0 of 1 in 0 to 1\nadmitted\n")
    );
    assert_eq!(report_on_rates(&seventeen), "sheet 1 1\n");
    assert_eq!(report_on_rates(&[5; 17]), "sheet 1 1\n");
    assert_eq!(report_on_rates(&[]), "sheet 1 1\n");
}

#[test]
fn a_sheet_without_levels_is_faulty_whatever_follows() {
    for kind in Kind::ALL.into_iter().filter(|&kind| kind != Kind::Rate) {
        let words = [Word(1), Word::new(kind, 3)];
        assert_eq!(report_on_words(&words), "sheet 1 1\n");
    }
    assert_eq!(report_on_words(&[Word(1)]), "word 10 1\n");
}

#[test]
fn rates_rise_and_stay_in_range() {
    for wrong in [
        &[0][..],
        &[0, 1],
        &[4_096],
        &[7, 7],
        &[7, 10, 9],
        &[7, 10, 0],
        &[1 << 27],
    ] {
        assert_eq!(report_on_rates(wrong), "sheet 2 1\n");
    }
}

#[test]
fn a_table_is_judged_once_another_word_follows_it() {
    let mut words = vec![Word(1)];
    words.extend([Word::new(Kind::Rate, 0); 17]);
    assert_eq!(report_on_words(&words), "word 10 18\n");
    words.push(Word::new(Kind::Bound, 0));
    assert_eq!(report_on_words(&words), "sheet 1 1\n");
    words.remove(1);
    assert_eq!(report_on_words(&words), "sheet 2 1\n");
}

#[test]
fn only_a_release_or_the_end_stands_between_cues() {
    for kind in Kind::ALL {
        let after_table = report_with(FIRST_CUE, Word::new(kind, 0));
        let after_cue = report_with(FIRST_CUE + 4, Word::new(kind, 0));
        match kind {
            Kind::Release => {
                assert!(after_table.ends_with("admitted\n"));
                assert!(after_cue.ends_with("admitted\n"));
            }
            // A rate more, which does not rise.
            Kind::Rate => {
                assert_eq!(after_table, "sheet 2 1\n");
                assert_eq!(after_cue, "word 9 9\n");
            }
            // The end of a sheet without cues, which words follow; after a cue
            // it counts wrong.
            Kind::End => {
                assert_eq!(after_table, "word 9 6\n");
                assert_eq!(after_cue, "word 9 9\n");
            }
            _ => {
                assert_eq!(after_table, "word 9 5\n");
                assert_eq!(after_cue, "word 9 9\n");
            }
        }
    }
}

#[test]
fn a_word_of_a_wrong_kind_inside_a_cue_stands_at_that_word() {
    let right = [Kind::Release, Kind::Deadline, Kind::Budget, Kind::Amount];
    for (within, right) in right.into_iter().enumerate().skip(1) {
        for kind in Kind::ALL.into_iter().filter(|&kind| kind != right) {
            let place = FIRST_CUE + within;
            assert_eq!(
                report_with(place, Word::new(kind, 5)),
                format!("word 9 {place}\n")
            );
        }
    }
}

#[test]
fn budgets_keep_their_range() {
    for wrong in [0, 65_536, (1 << 28) - 1] {
        assert_eq!(
            report_with(FIRST_CUE + 6, Word::new(Kind::Budget, wrong)),
            "cue 3 9\n"
        );
    }
    for right in [1, 65_535] {
        let wide = [cue(0, 134_217_727, right, 0)];
        assert!(report_on_cues(&wide).ends_with("admitted\n"));
    }
}

#[test]
fn deadlines_come_after_the_release_and_not_too_late() {
    for wrong in [0, 5, 6, 134_217_728, (1 << 28) - 1] {
        assert_eq!(
            report_with(FIRST_CUE + 5, Word::new(Kind::Deadline, wrong)),
            "cue 4 9\n"
        );
    }
    assert_eq!(
        report_on_cues(&[cue((1 << 28) - 1, 134_217_727, 1, 0)]),
        "cue 4 5\n"
    );
    let latest = report_on_cues(&[cue(134_217_726, 134_217_727, 1, (1 << 28) - 1)]);
    assert!(latest.ends_with("load 1 of 1 in 134217726 to 134217727\nadmitted\n"));
}

#[test]
fn a_cue_is_judged_once_whole_and_its_budget_first() {
    let mut words = sheet_words(&RATES, &[cue(9, 9, 0, 0)]);
    assert_eq!(report_on_words(&words), "cue 3 5\n");
    assert_eq!(report_on_words(&words[..8]), "word 10 8\n");
    words[8] = Word::new(Kind::Code, 0);
    assert_eq!(report_on_words(&words), "word 9 8\n");
}

#[test]
fn one_cue_more_than_1024_is_too_many() {
    let even = |count: u32| -> Vec<Cue> { (0..count).map(|n| cue(n, n + 1, 1, 0)).collect() };
    assert!(report_on_cues(&even(1_024)).contains("cues 1024\nload 1 of 1 in 0 to 1\nadmitted"));
    assert_eq!(report_on_cues(&even(1_025)), "sheet 11 4101\n");
    assert_eq!(report_on_cues(&even(1_100)), "sheet 11 4101\n");
    let words = sheet_words(&RATES, &even(1_025));
    assert_eq!(report_on_words(&words[..4_104]), "word 10 4104\n");
    let mut cues = even(1_025);
    cues[1_024].deadline = 0;
    assert_eq!(report_on_cues(&cues), "cue 4 4101\n");
    cues[1_024].budget = 0;
    assert_eq!(report_on_cues(&cues), "cue 3 4101\n");
}

#[test]
fn the_end_counts_the_cues_and_nothing_follows_it() {
    for wrong in [0, 5, 7, (1 << 28) - 1] {
        assert_eq!(report_with(29, Word::new(Kind::End, wrong)), "word 9 29\n");
    }
    for kind in Kind::ALL {
        let mut words = sheet_words(&RATES, &six_cues());
        words.extend([Word::new(kind, 6); 2]);
        assert_eq!(report_on_words(&words), "word 9 30\n");
        words[29] = Word::new(Kind::End, 0);
        assert_eq!(report_on_words(&words), "word 9 29\n");
    }
}

#[test]
fn bytes_past_the_limit_are_not_looked_at() {
    let mut rates = vec![Word::new(Kind::Rate, 1); 20_000];
    rates[0] = Word(1);
    rates[16_384] = Word(0);
    assert_eq!(report_on_words(&rates), "word 10 16384\n");
    assert_eq!(report(&file_bytes(&rates)[..65_537]), "word 10 16384\n");
    rates[16_383] = Word(0);
    assert_eq!(report_on_words(&rates), "sheet 1 1\n");
}
