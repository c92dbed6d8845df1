//! Days played call by call.

use peer::day::{BusyTick, Day, Ending, Refusal, Switch, Tick};
use peer::policy::{Floor, Least, Policy, Top};
use peer::rates::RateTable;
use peer::reference::ReferenceRun;
use peer::renderer::{Answer, Renderer, SheetRenderer, Tape};
use peer::sheet::Sheet;
use peer::word::{Kind, Word};

const SIX_CUES: &[u8] = include_bytes!("../../examples/six-cues.sheet");

/// The recorded day of the six cues.
const SIX_CUES_TRACE: &str = "\
    00000001 E0000007 E000000A E000000C E000000E 10000001 20000007 30000004 \
    60000001 80000004 90000004 40000002 A0000001 40000001 10000002 2000000F \
    30000006 60000002 80000003 9000000A 40000003 10000003 20000009 30000002 \
    50000002 60000003 80000004 90000008 40000001 A0000003 70000002 80000002 \
    9000000C 40000003 10000004 20000012 30000004 40000001 A0000002 10000005 \
    2000001E 30000007 60000004 80000003 90000010 40000003 A0000004 60000005 \
    80000003 90000017 40000005 A0000005 40000001 10000006 2000001A 30000004 \
    60000006 80000004 90000018 40000002 A0000006 F0000016";

const ROOM: usize = 16_384;

fn table(rates: &[u32]) -> RateTable {
    RateTable::new(rates.to_vec()).expect("rates of a table")
}

/// A day with top rate 14 whose renderer answers from a tape.
fn day_with_tape(tape: &[Word]) -> Day<Least, Tape> {
    day_with_room(tape, ROOM)
}

fn day_with_room(tape: &[Word], room: usize) -> Day<Least, Tape> {
    let renderer = Tape::new(tape.to_vec());
    Day::open(table(&[7, 10, 12, 14]), Least, renderer, room).expect("room to open")
}

const FINISHED: Word = Word::new(Kind::Finished, 0);
const RUNNING: Word = Word::new(Kind::Edition, 0);

fn busy(tick: Result<Tick, Refusal>) -> BusyTick {
    match tick {
        Ok(Tick::Busy(busy)) => busy,
        other => panic!("{other:?} is no busy tick"),
    }
}

#[test]
fn six_cues_give_their_trace() {
    let sheet = Sheet::from_bytes(SIX_CUES).expect("a sheet");
    let mut cues = sheet.cues().to_vec();
    cues.sort_by_key(|cue| cue.release);
    let renderer = SheetRenderer::new(sheet.cues());
    let mut day = Day::open(sheet.rates().clone(), Least, renderer, ROOM).expect("room to open");
    let mut waiting = cues.iter().peekable();
    let (mut cost, mut idle, mut busy) = (0, 0, 0);
    while day.has_pending() || waiting.peek().is_some() {
        while let Some(cue) = waiting.next_if(|cue| cue.release == day.clock()) {
            day.release(cue.deadline, cue.budget).expect("a cue taken");
        }
        match day.tick().expect("a tick taken") {
            Tick::Idle => idle += 1,
            Tick::Busy(tick) => {
                busy += 1;
                cost += tick.rate.pow(3);
            }
        }
    }
    assert_eq!((cost, idle, busy), (36_728, 2, day.requests()));
    let trace: Vec<String> = day
        .close()
        .iter()
        .map(|word| format!("{:08X}", word.0))
        .collect();
    assert_eq!(trace.join(" "), SIX_CUES_TRACE);
}

#[test]
fn six_cues_have_their_reference_ends() {
    let sheet = Sheet::from_bytes(SIX_CUES).expect("a sheet");
    let mut cues = sheet.cues().to_vec();
    cues.sort_by_key(|cue| cue.release);
    let mut reference = ReferenceRun::new();
    for clock in 0..40 {
        for cue in cues.iter().filter(|cue| cue.release == clock) {
            reference.release(cue.deadline, cue.budget);
        }
        reference.tick();
    }
    let ends: Vec<Option<u32>> = reference.jobs().iter().map(|job| job.end).collect();
    assert_eq!(ends, [4, 12, 8, 16, 27, 24].map(Some));
}

#[test]
fn the_least_level_that_is_enough_is_taken() {
    let table = table(&[7, 10, 12, 14]);
    let level = |remaining| Least.level(&table, remaining, 7);
    assert_eq!(
        [84, 85, 98, 99].map(level),
        [Some(3), Some(4), Some(4), None]
    );
    assert_eq!(level(0), Some(1));
    assert_eq!(Least.level(&table, 1, 0), None);
    assert_eq!(Least.level(&table, u32::MAX, u32::MAX), Some(1));
}

#[test]
fn a_floor_lifts_any_policy_but_not_past_the_top() {
    let table = table(&[7, 10, 12, 14]);
    let mut low = Floor {
        level: 2,
        inner: Floor {
            level: 0,
            inner: Least,
        },
    };
    assert_eq!(low.level(&table, 1, 7), Some(2));
    assert_eq!(low.level(&table, 84, 7), Some(3));
    assert_eq!(low.level(&table, 99, 7), None);
    let mut high = Floor {
        level: 9,
        inner: Least,
    };
    assert_eq!(high.level(&table, 1, 7), Some(4));
    assert_eq!(
        [98, 99].map(|units| Top.level(&table, units, 7)),
        [Some(4), None]
    );
}

#[test]
fn slack_is_handed_on_to_a_deadline_no_earlier() {
    for (deadline, bound) in [(10, 7), (11, 7), (9, 3)] {
        let mut day = day_with_tape(&[FINISHED]);
        day.release(10, 5).unwrap();
        assert_eq!(busy(day.tick()).ending, Some(Ending::Finished));
        day.release(deadline, 2).unwrap();
        let switch = busy(day.tick()).switch.expect("a switch");
        assert_eq!(switch.bound, bound, "for deadline {deadline}");
        assert!(!switch.resumed);
    }
}

#[test]
fn slack_that_has_gone_by_is_not_handed_on() {
    for (idle_ticks, bound) in [(2, 6), (3, 6), (4, 7)] {
        let mut day = day_with_tape(&[FINISHED]);
        day.release(9, 4).unwrap();
        busy(day.tick());
        for _ in 0..idle_ticks {
            assert_eq!(day.tick(), Ok(Tick::Idle));
        }
        day.release(20, 2).unwrap();
        let switch = busy(day.tick()).switch.expect("a switch");
        assert_eq!(switch.bound, bound, "after {idle_ticks} idle ticks");
    }
}

#[test]
fn a_job_cuts_in_and_puts_the_other_off() {
    let mut day = day_with_tape(&[RUNNING, FINISHED]);
    day.release(20, 6).unwrap();
    let first = busy(day.tick());
    assert_eq!((first.job, first.set_aside, first.rate), (1, None, 14));
    assert_eq!(
        first.switch,
        Some(Switch {
            resumed: false,
            level: 4,
            bound: 6
        })
    );
    day.release(9, 3).unwrap();
    let second = busy(day.tick());
    assert_eq!((second.job, second.set_aside), (2, Some(1)));
    assert_eq!(
        second.switch,
        Some(Switch {
            resumed: false,
            level: 4,
            bound: 4
        })
    );
    // Job 2 may have taken ticks 1 to 4, so that job 1 may now take till 9.
    let third = busy(day.tick());
    assert_eq!((third.job, third.set_aside), (1, None));
    assert_eq!(
        third.switch,
        Some(Switch {
            resumed: true,
            level: 2,
            bound: 9
        })
    );
}

#[test]
fn an_equal_deadline_does_not_cut_in() {
    let mut day = day_with_tape(&[]);
    day.release(20, 6).unwrap();
    busy(day.tick());
    day.release(20, 1).unwrap();
    let tick = busy(day.tick());
    assert_eq!((tick.job, tick.set_aside, tick.switch), (1, None, None));
}

#[test]
fn a_used_up_budget_cuts_a_job_that_is_still_running() {
    for (answer, ending) in [
        (RUNNING, Ending::Cut),
        (FINISHED, Ending::Finished),
        (Word::new(Kind::Failed, 65_536 + 3), Ending::Failed(3)),
    ] {
        let mut day = day_with_tape(&[RUNNING, answer]);
        day.release(9, 2).unwrap();
        assert_eq!(busy(day.tick()).ending, None);
        assert_eq!(busy(day.tick()).ending, Some(ending));
        assert_eq!(day.tick(), Ok(Tick::Idle));
        assert_eq!((day.clock(), day.requests()), (3, 2));
    }
}

#[test]
fn a_sheet_renderer_finishes_by_summed_rates() {
    let sheet = Sheet::from_bytes(SIX_CUES).expect("a sheet");
    let mut renderer = SheetRenderer::new(sheet.cues());
    // The second cue released is the third of the sheet, of 70 units.
    let answers = [30, 39, 1, 1].map(|rate| renderer.run(2, rate));
    assert_eq!(
        answers,
        [
            Answer::Running,
            Answer::Running,
            Answer::Finished,
            Answer::Finished
        ]
    );
    assert_eq!(renderer.run(0, 4_095), Answer::Running);
    assert_eq!(renderer.run(7, 4_095), Answer::Running);
    assert_eq!(renderer.requests(), 6);
}

#[test]
fn releases_are_refused_by_the_lowest_number() {
    let mut day = day_with_tape(&[]);
    day.tick().unwrap();
    assert_eq!(day.release(0, 0), Err(Refusal::Budget(0)));
    assert_eq!(day.release(0, 65_536), Err(Refusal::Budget(65_536)));
    assert_eq!(day.release(1, 1), Err(Refusal::Deadline(1)));
    assert_eq!(
        day.release(134_217_728, 1),
        Err(Refusal::Deadline(134_217_728))
    );
    assert_eq!(day.release(2, 1), Ok(1));
    assert_eq!(day.release(134_217_727, 65_535), Ok(2));
}

#[test]
fn the_64th_pending_job_is_taken_and_the_65th_is_not() {
    let mut day = day_with_tape(&[]);
    for number in 1..=64 {
        assert_eq!(day.release(100, 1), Ok(number));
    }
    assert_eq!(day.release(100, 1), Err(Refusal::Pending(64)));
    assert_eq!(day.release(0, 1), Err(Refusal::Deadline(0)));
    busy(day.tick());
    assert_eq!(day.release(100, 1), Ok(65));
}

#[test]
fn accepted_budgets_have_a_limit() {
    let mut day = day_with_room(&[FINISHED; 2_048], 1 << 20);
    for _ in 0..2_048 {
        day.release(134_217_727, 65_535).unwrap();
        busy(day.tick());
    }
    assert_eq!(
        day.release(134_217_727, 2_048),
        Err(Refusal::BudgetSum(134_215_680))
    );
    assert_eq!(day.release(134_217_727, 2_047), Ok(2_049));
    assert_eq!(
        day.release(134_217_727, 1),
        Err(Refusal::BudgetSum(134_217_727))
    );
}

#[test]
fn the_clock_has_a_limit() {
    let mut day = day_with_tape(&[]);
    for _ in 0..134_217_727 {
        assert_eq!(day.tick(), Ok(Tick::Idle));
    }
    assert_eq!(day.tick(), Err(Refusal::Clock(134_217_727)));
    assert_eq!(
        day.release(134_217_727, 1),
        Err(Refusal::Deadline(134_217_727))
    );
    assert_eq!(day.close()[5..], [Word(0x47FF_FFFF), Word(0xF7FF_FFFF)]);
}

#[test]
fn calls_want_ten_free_words_and_opening_three_more_than_levels() {
    let open = |room| Day::open(table(&[7, 14]), Least, Tape::new(vec![]), room);
    assert_eq!(open(4).err(), Some(Refusal::Room(4)));
    assert!(open(5).is_ok());
    let mut day = open(15).expect("room to open");
    assert_eq!(day.release(9, 1), Ok(1));
    assert_eq!(day.release(9, 1), Err(Refusal::Room(9)));
    assert_eq!(day.release(0, 1), Err(Refusal::Deadline(0)));
    assert_eq!(day.tick(), Err(Refusal::Room(9)));
    let trace = [
        0x0000_0001,
        0xE000_0007,
        0xE000_000E,
        0x1000_0001,
        0x2000_0009,
        0x3000_0001,
    ];
    let closed = day.close();
    assert_eq!(closed[..6], trace.map(Word));
    assert_eq!(closed[6..], [Word(0xF000_0000)]);
}
