//! Scripts read, refused and played.

use peer::dayplay::report;
use peer::script::{Call, Script};
use peer::word::{Kind, Word, file_bytes};

const RATES: [u32; 4] = [7, 10, 12, 14];

fn release(deadline: u32, budget: u32) -> Call {
    Call::Release { deadline, budget }
}

fn script(rates: &[u32], calls: &[Call], tape: &[Word]) -> Vec<Word> {
    let (rates, calls, tape) = (rates.to_vec(), calls.to_vec(), tape.to_vec());
    Script { rates, calls, tape }.words()
}

fn report_on_words(words: &[Word]) -> String {
    report(&file_bytes(words))
}

/// The lines about calls, without the trace and the line before it.
fn lines_of_calls(calls: &[Call], tape: &[Word]) -> Vec<String> {
    let report = report_on_words(&script(&RATES, calls, tape));
    let of_calls = report.lines().take_while(|line| !line.starts_with("clock"));
    of_calls.map(String::from).collect()
}

#[test]
fn a_script_is_played_to_its_trace() {
    let calls = [
        release(20, 6),
        Call::Ticks(1),
        release(9, 2),
        release(9, 0),
        Call::Ticks(8),
    ];
    let mut tape = vec![Word::new(Kind::Edition, 0); 5];
    tape[1] = Word::new(Kind::Finished, 77);
    tape[3] = Word::new(Kind::Failed, 0xA_0009);
    let expected = "\
release 1
job 1 start level 4 bound 6 rate 14 running
release 2
refused 3 0
job 2 aside 1 start level 4 bound 3 rate 14 finished
job 1 resume level 3 bound 8 rate 12 running
job 1 rate 12 failed 9
idle
idle
idle
idle
idle
clock 9 requests 4
00000001
E0000007
E000000A
E000000C
E000000E
10000001
20000014
30000006
60000001
80000004
90000006
40000001
10000002
20000009
30000002
50000001
60000002
80000004
90000003
40000001
A0000002
70000001
80000003
90000008
40000002
C0000001
D0000009
40000005
F0000009
";
    assert_eq!(report_on_words(&script(&RATES, &calls, &tape)), expected);
}

#[test]
fn a_script_may_make_no_call() {
    let expected = "clock 0 requests 0\n00000001\nE0000009\nF0000000\n";
    assert_eq!(report_on_words(&script(&[9], &[], &[])), expected);
    assert_eq!(
        report_on_words(&script(&[9], &[Call::Ticks(0)], &[])),
        expected
    );
}

#[test]
fn a_job_whose_tape_is_empty_is_cut() {
    let lines = lines_of_calls(&[release(9, 2), Call::Ticks(2)], &[]);
    assert_eq!(
        lines[1..],
        [
            "job 1 start level 4 bound 2 rate 14 running",
            "job 1 rate 14 cut"
        ]
    );
}

#[test]
fn refusals_tell_their_numbers_and_values() {
    let mut calls = vec![Call::Ticks(1), release(0, 65_536), release(1, 9)];
    calls.push(release(134_217_728, 65_535));
    calls.extend([release(9, 1); 65]);
    let lines = lines_of_calls(&calls, &[]);
    assert_eq!(
        lines[..5],
        [
            "idle",
            "refused 3 65536",
            "refused 4 1",
            "refused 4 134217728",
            "release 1"
        ]
    );
    assert_eq!(lines[67..], ["release 64", "refused 5 64"]);
}

#[test]
fn a_full_trace_refuses_the_rest() {
    // A release and a tick that fails its job write nine words.
    let call = [release(134_217_727, 1), Call::Ticks(1)];
    let lines = lines_of_calls(&call.repeat(1_900), &[Word::new(Kind::Failed, 1); 1_900]);
    let refused = lines.iter().position(|line| line.starts_with("refused"));
    assert_eq!(refused, Some(2 * 1_819));
    assert!(lines[2 * 1_819..].iter().all(|line| line == "refused 8 8"));
}

#[test]
fn a_table_that_cannot_be_used_is_refused() {
    for (rates, line) in [
        (&[][..], "refused 1 0\n"),
        (&[5; 17], "refused 1 17\n"),
        (&[0], "refused 2 0\n"),
        (&[4_096], "refused 2 0\n"),
        (&[7, 10, 10, 9], "refused 2 2\n"),
    ] {
        assert_eq!(
            report_on_words(&script(rates, &[Call::Ticks(3)], &[])),
            line
        );
    }
}

#[test]
fn the_shape_of_a_script_is_judged_before_its_table() {
    let mut words = script(&[], &[Call::Ticks(3)], &[]);
    words.push(Word(0));
    assert_eq!(report_on_words(&words), "script 3\n");
}

#[test]
fn a_cut_script_misses_a_word() {
    let calls = [
        release(20, 6),
        Call::Ticks(1),
        release(9, 2),
        Call::Ticks(8),
    ];
    let whole = file_bytes(&script(&RATES, &calls, &[Word(0); 3]));
    for length in 0..whole.len() {
        assert_eq!(report(&whole[..length]), format!("script {}\n", length / 4));
    }
    let mut longer = whole.clone();
    for _ in 0..4 {
        longer.push(0);
        assert_eq!(report(&longer), format!("script {}\n", whole.len() / 4));
    }
}

#[test]
fn words_of_a_wrong_kind_stand_at_their_place() {
    let words = script(&[7, 10], &[release(20, 6), Call::Ticks(1)], &[]);
    for kind in Kind::ALL {
        let report_with = |place: usize| {
            let mut words = words.clone();
            words[place] = Word::new(kind, 0);
            report_on_words(&words)
        };
        assert_eq!(report_with(0), "script 0\n");
        if kind != Kind::Budget {
            assert_eq!(report_with(4), "script 4\n");
        }
        match kind {
            // Three rates, of which the last does not rise.
            Kind::Rate => assert_eq!(report_with(3), "script 4\n"),
            Kind::Deadline => assert!(report_with(3).starts_with("refused 4 0\n")),
            // After a tick word or the end, a budget cannot follow.
            Kind::Amount | Kind::End => assert_eq!(report_with(3), "script 4\n"),
            _ => assert_eq!(report_with(3), "script 3\n"),
        }
        if kind != Kind::End {
            assert_eq!(
                report_with(6),
                match kind {
                    Kind::Deadline | Kind::Amount => "script 7\n",
                    _ => "script 6\n",
                }
            );
        }
    }
}

#[test]
fn the_end_counts_the_tape() {
    let words = |counted: u32, length: usize| {
        let mut words = script(&[9], &[], &vec![Word(0); length]);
        words[2] = Word::new(Kind::End, counted);
        words
    };
    assert_eq!(report_on_words(&words(4, 3)), "script 6\n");
    assert_eq!(report_on_words(&words(2, 3)), "script 5\n");
    assert_eq!(report_on_words(&words((1 << 28) - 1, 0)), "script 3\n");
}

#[test]
fn a_million_ticks_are_the_most() {
    let calls = |last| {
        [
            Call::Ticks(1),
            Call::Ticks(999_990),
            Call::Ticks(last),
            Call::Ticks(0),
        ]
    };
    let most = report_on_words(&script(&[9], &calls(9), &[]));
    assert!(
        most.ends_with("idle\nclock 1000000 requests 0\n00000001\nE0000009\n400F4240\nF00F4240\n")
    );
    assert_eq!(
        report_on_words(&script(&[9], &calls(10), &[])),
        "script 4\n"
    );
    assert_eq!(
        report_on_words(&script(&[9], &[Call::Ticks(1 << 27)], &[])),
        "script 2\n"
    );
}

#[test]
fn bytes_past_the_limit_are_not_looked_at() {
    let mut bytes = file_bytes(&script(&[9], &[], &vec![Word(0); 16_381]));
    assert_eq!(bytes.len(), 65_536);
    bytes.extend([1; 9]);
    assert!(report(&bytes).starts_with("clock 0 requests 0\n"));
}
