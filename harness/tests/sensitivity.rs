//! A test that can't fail is a defect: the comparison must see each wrong reading.

use harness::check::{check, check_by, Document01, Reading};
use harness::differ::{compare, Tally, FULL};
use harness::generate::Generator;
use harness::random::Random;

/// A wrong reading of 01: one constant put the other way.
macro_rules! readings {
    ($($name:ident: $constant:ident;)*) => { $(
        struct $name;
        impl Reading for $name {
            const $constant: bool = true;
        }
    )* };
}

readings! {
    GuardedArmCovers: GUARDED_ARM_COVERS;
    WhileAddsItsBody: WHILE_ADDS_ITS_BODY;
    SpeechFirst: SPEECH_BEFORE_INITIALISATION;
    HighestState: HIGHEST_STATE;
    UnreachedHasNone: UNREACHED_HAS_NONE;
    UnreachedIsJudged: UNREACHED_IS_JUDGED;
    ForEndsQuiet: FOR_ENDS_QUIET;
    JumpKeepsItsSet: JUMP_KEEPS_ITS_SET;
    LongerVectors: LONGER_VECTORS;
    ForMayReset: FOR_MAY_RESET;
    OffersInAnyOrder: OFFERS_IN_ANY_ORDER;
    TauIsQuiet: TAU_IS_QUIET;
}

type Check = fn(&[u8], &mut [u8]) -> u64;

/// Part words counted as entries.
fn part_words(image: &[u8], sets: &mut [u8]) -> u64 {
    let mut whole = sets.to_vec();
    whole.resize(sets.len().div_ceil(8) * 8, 0);
    let answer = check(image, &mut whole);
    sets.copy_from_slice(&whole[..sets.len()]);
    answer
}

/// Entries past the states emptied.
fn later_entries(image: &[u8], sets: &mut [u8]) -> u64 {
    let mut emptied = vec![0; sets.len()];
    let answer = check(image, &mut emptied);
    if answer == 0 {
        sets.copy_from_slice(&emptied);
    }
    answer
}

/// Sets left behind by a late refusal.
fn not_restored(image: &[u8], sets: &mut [u8]) -> u64 {
    let answer = check(image, sets);
    if answer & 0xFF == 12 {
        sets[0] ^= 1;
    }
    answer
}

/// The place forgotten.
fn no_place(image: &[u8], sets: &mut [u8]) -> u64 {
    check(image, sets) & 0xFF
}

#[test]
fn each_wrong_reading_is_found() {
    let wrong: [(&str, Check); 16] = [
        ("a guarded arm covers", check_by::<GuardedArmCovers>),
        ("a while adds its body", check_by::<WhileAddsItsBody>),
        ("12 before 11", check_by::<SpeechFirst>),
        ("the highest state", check_by::<HighestState>),
        ("an unreached state has no variable", check_by::<UnreachedHasNone>),
        ("an unreached state is judged", check_by::<UnreachedIsJudged>),
        ("a for entered spoken ends quiet", check_by::<ForEndsQuiet>),
        ("code after a jump keeps the jump's set", check_by::<JumpKeepsItsSet>),
        ("nine items", check_by::<LongerVectors>),
        ("a for's body may reset", check_by::<ForMayReset>),
        ("offers in any order", check_by::<OffersInAnyOrder>),
        ("tau is quiet", check_by::<TauIsQuiet>),
        ("part words", part_words),
        ("later entries", later_entries),
        ("not restored", not_restored),
        ("no place", no_place),
    ];
    for (name, wrong) in wrong {
        let found = compare(1, 0, FULL, check, wrong).err().map(|difference| difference.case);
        println!("{name}: case {found:?}");
        assert!(found.is_some(), "{name} is not seen within {FULL} cases");
    }
}

#[test]
fn the_right_reading_differs_nowhere() {
    let tally = compare(1, 0, FULL, check_by::<Document01>, harness::library::check);
    let tally = tally.unwrap_or_else(|difference| panic!("{}", difference.report(1)));
    assert_eq!(tally.lacks(), Vec::<String>::new());
    assert!(tally.answers[0] * 4 >= tally.cases, "a quarter is accepted");
    assert_eq!(missing_codes(&tally), Vec::<u16>::new());
}

/// Codes of 01's table that no accepted image had.
fn missing_codes(tally: &Tally) -> Vec<u16> {
    let ranges = [1..=2, 16..=27, 32..=35, 40..=41, 44..=60];
    let codes = ranges.into_iter().flatten();
    codes.filter(|code| tally.codes >> code & 1 == 0).collect()
}

#[test]
fn a_run_that_met_too_little_fails() {
    let tally = Tally { cases: FULL, ..Tally::default() };
    assert_eq!(tally.lacks().len(), 15);
}

#[test]
fn a_case_can_be_made_again_alone() {
    let make = |generator: &mut Generator, case: u64| {
        let mut image = Vec::new();
        generator.image(&mut Random::new(3, case), &mut image);
        image
    };
    let mut used = Generator::default();
    for case in 0..500 {
        let again = make(&mut Generator::default(), case);
        assert_eq!(make(&mut used, case), again, "case {case}");
    }
}
