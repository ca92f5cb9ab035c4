//! A test that can't fail is a defect: the runs must see each wrong reading of the step.

mod common;

use common::with_stack;
use harness::calls::{Calls, LIBRARY, RUST};
use harness::differ::{compare_runs, RunTally, FULL_RUNS};
use harness::reading::Reading;
use harness::step::{start, start_by, step, step_by};

/// A wrong reading of 01: one constant put the other way.
macro_rules! readings {
    ($($name:ident: $constant:ident;)*) => { $(
        struct $name;
        impl Reading for $name {
            const $constant: bool = true;
        }
    )* };
}

readings! {
    FailedMatchIsKept: FAILED_MATCH_IS_KEPT;
    AssignsItemByItem: ASSIGNS_ITEM_BY_ITEM;
    OperandsAsNeeded: OPERANDS_AS_NEEDED;
    QuotientRoundsDown: QUOTIENT_ROUNDS_DOWN;
    RemainderBy0Is0: REMAINDER_BY_0_IS_0;
    LoopChargesOnce: LOOP_CHARGES_ONCE;
    ForLeavesItsLastValue: FOR_LEAVES_ITS_LAST_VALUE;
    OffersBefore27: OFFERS_BEFORE_27;
    UnmatchedIs26: UNMATCHED_IS_26;
    UndefinedGuardFails: UNDEFINED_GUARD_FAILS;
    OneBranchWantsNoWord: ONE_BRANCH_WANTS_NO_WORD;
    NoArmsNoSubject: NO_ARMS_NO_SUBJECT;
    StoreBeforeState: STORE_BEFORE_STATE;
    OldLabelShows: OLD_LABEL_SHOWS;
    OffersInAnyOrder: OFFERS_IN_ANY_ORDER;
    LongerVectors: LONGER_VECTORS;
}

/// Cases within which each wrong reading must be seen.
const WITHIN: u64 = 20_000;

fn of<R: Reading>() -> Calls {
    Calls { start: start_by::<R>, step: step_by::<R> }
}

/// A refusal that leaves a changed slot.
fn not_restored(
    image: &[u8],
    state: u32,
    store: &mut [u8],
    script: &[u8],
    budget: u32,
    label: &mut [u8],
) -> u64 {
    let answer = step(image, state, store, script, budget, label);
    if let (21, [first, ..]) = (answer & 0xFF, store) {
        *first ^= 1;
    }
    answer
}

/// A state or a budget cut to 16 bits, as a driver might.
fn narrow_state(
    image: &[u8],
    state: u32,
    store: &mut [u8],
    script: &[u8],
    budget: u32,
    label: &mut [u8],
) -> u64 {
    step(image, state & 0xFFFF, store, script, budget, label)
}

/// Units that weren't charged.
fn wrong_units(
    image: &[u8],
    state: u32,
    store: &mut [u8],
    script: &[u8],
    budget: u32,
    label: &mut [u8],
) -> u64 {
    let answer = step(image, state, store, script, budget, label);
    answer + u64::from(answer & 0xFF == 0 && answer >> 16 & 0xFF_FFFF > 90) * (1 << 16)
}

/// A unit charged only after what would be number N at the same row.
fn before_unit<const N: u64>(
    image: &[u8],
    state: u32,
    store: &mut [u8],
    script: &[u8],
    budget: u32,
    label: &mut [u8],
) -> u64 {
    let answer = step(image, state, store, script, budget, label);
    let (mut slots, mut words) = (store.to_vec(), label.to_vec());
    let more = step(image, state, &mut slots, script, budget.saturating_add(1), &mut words);
    match answer & 0xFF == 25 && more & 0xFF == N && more >> 16 == answer >> 16 {
        true => more,
        false => answer,
    }
}

/// Variables that aren't parameters keep what the store held.
fn keeps_old(image: &[u8], params: &[u8], store: &mut [u8]) -> u64 {
    let old = store.to_vec();
    let answer = start(image, params, store);
    for (slot, old) in store.as_chunks_mut::<4>().0.iter_mut().zip(old.as_chunks::<4>().0) {
        if answer == 0 && *slot == 65_536i32.to_le_bytes() {
            *slot = *old;
        }
    }
    answer
}

#[test]
fn each_wrong_reading_is_found() {
    let wrong = [
        ("a failed match is kept", of::<FailedMatchIsKept>()),
        ("item by item", of::<AssignsItemByItem>()),
        ("and, or as needed", of::<OperandsAsNeeded>()),
        ("the quotient rounds down", of::<QuotientRoundsDown>()),
        ("the remainder by 0 is 0", of::<RemainderBy0Is0>()),
        ("a loop charges once", of::<LoopChargesOnce>()),
        ("a for leaves its last value", of::<ForLeavesItsLastValue>()),
        ("offers before 27", of::<OffersBefore27>()),
        ("unmatched is 26", of::<UnmatchedIs26>()),
        ("an undefined guard fails", of::<UndefinedGuardFails>()),
        ("one branch wants no word", of::<OneBranchWantsNoWord>()),
        ("no arms, no subject", of::<NoArmsNoSubject>()),
        ("13 before 17", of::<StoreBeforeState>()),
        ("the old label shows", of::<OldLabelShows>()),
        ("offers in any order", of::<OffersInAnyOrder>()),
        ("nine items", of::<LongerVectors>()),
        ("not restored", Calls { step: not_restored, ..RUST }),
        ("a state of 16 bits", Calls { step: narrow_state, ..RUST }),
        ("units not charged", Calls { step: wrong_units, ..RUST }),
        ("21 before the unit", Calls { step: before_unit::<21>, ..RUST }),
        ("22 before the unit", Calls { step: before_unit::<22>, ..RUST }),
        ("23 before the unit", Calls { step: before_unit::<23>, ..RUST }),
        ("24 before the unit", Calls { step: before_unit::<24>, ..RUST }),
        ("27 before the unit", Calls { step: before_unit::<27>, ..RUST }),
        ("start keeps old slots", Calls { start: keeps_old, ..RUST }),
    ];
    with_stack(move || {
        for (name, wrong) in wrong {
            let found = compare_runs(1, 0, WITHIN, [RUST, wrong]).err().map(|t| t.case);
            println!("{name}: case {found:?}");
            assert!(found.is_some(), "{name} is not seen within {WITHIN} cases");
        }
    });
}

#[test]
fn a_full_run_meets_every_number() {
    with_stack(|| {
        // Without the feature `step` the run only shows what it meets.
        let sides = [LIBRARY.unwrap_or(RUST), RUST];
        let tally = compare_runs(1, 0, FULL_RUNS, sides);
        let tally = tally.unwrap_or_else(|trouble| panic!("{}", trouble.report(1)));
        println!("{}", tally.table(&Default::default()));
        assert_eq!(tally.lacks(), Vec::<String>::new());
        assert!(tally.step[0] * 4 >= tally.step.iter().sum(), "a quarter of the steps moves");
    });
}

#[test]
fn a_run_that_met_too_little_fails() {
    let tally = RunTally { cases: FULL_RUNS, ..RunTally::default() };
    // 14 answers of start, 22 of step, and a chain of 50 moves.
    assert_eq!(tally.lacks().len(), 14 + 22 + 1);
}

#[test]
fn a_trouble_can_be_met_again_alone() {
    let sides = [Calls { step: not_restored, ..RUST }, RUST];
    let told = |first: u64, cases: u64| {
        let trouble = compare_runs(1, first, cases, sides).err().expect("a difference");
        (trouble.case, trouble.text)
    };
    let (case, text) = told(0, WITHIN);
    assert!(text.contains("step, state") && text.contains("21 at"), "{text}");
    assert_eq!(told(case, 1), (case, text));
}
