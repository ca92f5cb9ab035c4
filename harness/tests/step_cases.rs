//! Steps by hand: units, words, label and store of every action kind (01, "The step").

mod common;

use common::{automaton, stepped};

/// A name, the state's row, rows from 1, store of i p b e r j, script, budget, answer.
type Case =
    (&'static str, &'static str, &'static str, &'static str, &'static str, u32, &'static str);

/// i 1, p 2, b true, e 0, r 4, j undefined.
const S: &str = "1 2 1 0 4 _";
const AMPLE: u32 = 1_000_000;

fn run(cases: &[Case]) {
    for (name, state, rows, store, script, budget, expected) in cases {
        let image = automaton(state, rows).bytes();
        let found = stepped(&image, 0, store, script, *budget);
        assert_eq!(found, *expected, "{name}");
    }
}

const SIMPLE: &[Case] = &[
    ("to 0", "1", "53,0", S, "", AMPLE, "to 0, 1u 0w, -1 0 / 1 2 1 0 4 _"),
    ("to 0, words left over", "1", "53,0", S, "7 8", AMPLE, "to 0, 1u 0w, -1 0 / 1 2 1 0 4 _"),
    ("to 0 with 1 unit", "1", "53,0", S, "", 1, "to 0, 1u 0w, -1 0 / 1 2 1 0 4 _"),
    ("to 0 with 0 units", "1", "53,0", S, "", 0, "25 at 1"),
    ("null; to 0", "3", "48; 53,0; 54,1,2", S, "", 3, "to 0, 3u 0w, -1 0 / 1 2 1 0 4 _"),
    ("null; to 0 with 2", "3", "48; 53,0; 54,1,2", S, "", 2, "25 at 2"),
    ("to 0; null", "3", "53,0; 48; 54,1,2", S, "", AMPLE, "to 0, 2u 0w, -1 0 / 1 2 1 0 4 _"),
    ("to 0; stop", "3", "53,0; 55,n; 54,1,2", S, "", AMPLE, "to 0, 2u 0w, -1 0 / 1 2 1 0 4 _"),
    ("null", "1", "48", S, "", AMPLE, "21 at 1"),
    ("null; null ends at the state's row", "3", "48; 48; 54,1,2", S, "", AMPLE, "21 at 3"),
    (
        "i := 7",
        "5",
        "2,1,7; 44,0,1,n; 49,2; 53,0; 54,3,4",
        S,
        "",
        AMPLE,
        "to 0, 3u 0w, -1 0 / 7 2 1 0 4 _",
    ),
    ("i := j", "5", "1,5; 44,0,1,n; 49,2; 53,0; 54,3,4", S, "", AMPLE, "22 at 3"),
    ("i := j with 1 unit", "5", "1,5; 44,0,1,n; 49,2; 53,0; 54,3,4", S, "", 1, "25 at 3"),
    (
        "p, r := r, p",
        "7",
        "1,1; 44,4,1,n; 1,4; 44,1,3,2; 49,4; 53,0; 54,5,6",
        S,
        "",
        AMPLE,
        "to 0, 3u 0w, -1 0 / 1 4 1 0 2 _",
    ),
    (
        "reset i, p",
        "5",
        "46,1,n; 46,0,1; 51,2; 53,0; 54,3,4",
        S,
        "",
        AMPLE,
        "to 0, 3u 0w, -1 0 / _ _ 1 0 4 _",
    ),
    (
        "reset j, which is undefined",
        "4",
        "46,5,n; 51,1; 53,0; 54,2,3",
        S,
        "",
        AMPLE,
        "to 0, 3u 0w, -1 0 / 1 2 1 0 4 _",
    ),
];

#[test]
fn simple_actions() {
    run(SIMPLE);
}

/// any i, then to 0.
const ANY: &str = "45,0,1,n; 50,1,n; 53,0; 54,2,3";
/// any e, i, then to 0.
const ANY_2: &str = "45,0,1,n; 45,3,2,1; 50,2,n; 53,0; 54,3,4";
/// any i where i <= p, then to 0.
const ANY_WHERE: &str = "45,0,1,n; 1,0; 1,1; 27,2,3; 50,1,4; 53,0; 54,5,6";
/// any i where j <= p, then to 0.
const ANY_UNDEFINED: &str = "45,0,1,n; 1,5; 1,1; 27,2,3; 50,1,4; 53,0; 54,5,6";

const CHOICES: &[Case] = &[
    ("any i", "4", ANY, S, "9 8", AMPLE, "to 0, 3u 1w, -1 0 / 9 2 1 0 4 _"),
    ("any i, lowest", "4", ANY, S, "-32768", AMPLE, "to 0, 3u 1w, -1 0 / -32768 2 1 0 4 _"),
    ("any i, highest", "4", ANY, S, "32767", AMPLE, "to 0, 3u 1w, -1 0 / 32767 2 1 0 4 _"),
    ("any i, below", "4", ANY, S, "-32769", AMPLE, "24 at 2"),
    ("any i, above", "4", ANY, S, "32768", AMPLE, "24 at 2"),
    ("any i, the mark", "4", ANY, S, "65536", AMPLE, "24 at 2"),
    ("any i, no word", "4", ANY, S, "", AMPLE, "23 at 2"),
    ("any i, the unit first", "4", ANY, S, "", 1, "25 at 2"),
    ("any e, i", "5", ANY_2, S, "2 -5", AMPLE, "to 0, 3u 2w, -1 0 / -5 2 1 2 4 _"),
    ("any e, i, one word", "5", ANY_2, S, "2", AMPLE, "23 at 3"),
    ("any e, i, judged as read", "5", ANY_2, S, "3", AMPLE, "24 at 3"),
    ("any e, i, below 0", "5", ANY_2, S, "-1 0", AMPLE, "24 at 3"),
    ("any i where", "7", ANY_WHERE, S, "2", AMPLE, "to 0, 3u 1w, -1 0 / 2 2 1 0 4 _"),
    ("any i where not", "7", ANY_WHERE, S, "3", AMPLE, "21 at 5"),
    ("any i where p undefined", "7", ANY_WHERE, "1 _ 1 0 4 _", "3", AMPLE, "22 at 5"),
    ("any i where j, no word", "7", ANY_UNDEFINED, S, "", AMPLE, "23 at 5"),
    ("any i where j, bad word", "7", ANY_UNDEFINED, S, "99999", AMPLE, "24 at 5"),
    ("any i where j", "7", ANY_UNDEFINED, S, "0", AMPLE, "22 at 5"),
    ("select, first", "5", SELECT, S, "0", AMPLE, "to 0, 2u 1w, -1 0 / 1 2 1 0 4 _"),
    ("select, second ends", "5", SELECT, S, "1", AMPLE, "21 at 5"),
    ("select, no third", "5", SELECT, S, "2", AMPLE, "24 at 5"),
    ("select, below", "5", SELECT, S, "-1", AMPLE, "24 at 5"),
    ("select, far above", "5", SELECT, S, "65536", AMPLE, "24 at 5"),
    ("select, no word", "5", SELECT, S, "", AMPLE, "23 at 5"),
    ("select, the unit first", "5", SELECT, S, "", 0, "25 at 5"),
    ("select, the branch's unit", "5", SELECT, S, "0", 1, "25 at 3"),
    ("one branch, no word", "3", "53,0; 57,1,n; 55,2", S, "", AMPLE, "23 at 3"),
    (
        "one branch, word 0",
        "3",
        "53,0; 57,1,n; 55,2",
        S,
        "0",
        AMPLE,
        "to 0, 2u 1w, -1 0 / 1 2 1 0 4 _",
    ),
    ("one branch, word 1", "3", "53,0; 57,1,n; 55,2", S, "1", AMPLE, "24 at 3"),
    ("no branches", "1", "55,n", S, "0", AMPLE, "21 at 1"),
];

/// select to 0 [] null.
const SELECT: &str = "48; 57,1,n; 53,0; 57,3,2; 55,4";

#[test]
fn any_and_select() {
    run(CHOICES);
}

/// while i <= 2 do i := i + 1; then to 0.
const WHILE: &str = "1,0; 2,1,2; 27,1,2; 1,0; 2,1,1; 20,4,5; 44,0,6,n; 49,7; 59,3,8; 53,0; 54,9,10";
/// for i in 1..3 do j := i; then to 0.
const FOR: &str = "47,0,1,3; 1,0; 44,5,2,n; 49,3; 60,1,4; 53,0; 54,5,6";

const LOOPS: &[Case] = &[
    // 54, 59, three bodies, three further tests, 53.
    ("while", "11", WHILE, "0 2 1 0 4 _", "", 9, "to 0, 9u 0w, -1 0 / 3 2 1 0 4 _"),
    ("while, no round", "11", WHILE, "5 2 1 0 4 _", "", 3, "to 0, 3u 0w, -1 0 / 5 2 1 0 4 _"),
    ("while, the body's unit", "11", WHILE, "0 2 1 0 4 _", "", 2, "25 at 8"),
    ("while, the further test's", "11", WHILE, "0 2 1 0 4 _", "", 3, "25 at 9"),
    ("while, the last test's", "11", WHILE, "0 2 1 0 4 _", "", 7, "25 at 9"),
    ("while, the jump's", "11", WHILE, "0 2 1 0 4 _", "", 8, "25 at 10"),
    ("while i undefined", "11", WHILE, "_ 2 1 0 4 _", "", AMPLE, "22 at 9"),
    ("while true do null, 3", "3", "2,0,1; 48; 59,1,2", S, "", 3, "25 at 2"),
    ("while true do null, 4", "3", "2,0,1; 48; 59,1,2", S, "", 4, "25 at 3"),
    ("while true do to 0", "3", "2,0,1; 53,0; 59,1,2", S, "", 2, "to 0, 2u 0w, -1 0 / 1 2 1 0 4 _"),
    ("while false ends", "3", "2,0,0; 53,0; 59,1,2", S, "", 1, "21 at 3"),
    ("while b do reset b: the further test", "4", "1,2; 46,2,n; 51,2; 59,1,3", S, "", 3, "22 at 4"),
    ("while b do reset b, its unit first", "4", "1,2; 46,2,n; 51,2; 59,1,3", S, "", 2, "25 at 4"),
    ("for", "7", FOR, S, "", 9, "to 0, 9u 0w, -1 0 / 4 2 1 0 4 3"),
    ("for, the further test's unit", "7", FOR, S, "", 3, "25 at 5"),
    ("for, the body's unit", "7", FOR, S, "", 2, "25 at 4"),
    ("for, its own unit", "7", FOR, S, "", 1, "25 at 5"),
    (
        "for i in 3..2",
        "5",
        "47,0,3,2; 48; 60,1,2; 53,0; 54,3,4",
        "_ 2 1 0 4 _",
        "",
        3,
        "to 0, 3u 0w, -1 0 / 3 2 1 0 4 _",
    ),
    (
        "for i in -2..-1",
        "5",
        "47,0,xFFFE,xFFFF; 48; 60,1,2; 53,0; 54,3,4",
        S,
        "",
        AMPLE,
        "to 0, 7u 0w, -1 0 / 0 2 1 0 4 _",
    ),
    (
        "for i to 32,766",
        "5",
        "47,0,32765,32766; 48; 60,1,2; 53,0; 54,3,4",
        S,
        "",
        AMPLE,
        "to 0, 7u 0w, -1 0 / 32767 2 1 0 4 _",
    ),
    (
        "for i in 32,767..-32,768",
        "5",
        "47,0,x7FFF,x8000; 48; 60,1,2; 53,0; 54,3,4",
        S,
        "",
        AMPLE,
        "to 0, 3u 0w, -1 0 / 32767 2 1 0 4 _",
    ),
    (
        "for i in 1..2 do to 0",
        "3",
        "47,0,1,2; 53,0; 60,1,2",
        S,
        "",
        2,
        "to 0, 2u 0w, -1 0 / 1 2 1 0 4 _",
    ),
    ("for i in 3..2 ends at the state's row", "3", "47,0,3,2; 53,0; 60,1,2", S, "", 9, "21 at 3"),
    ("while b do i := 1; then j := i, no round", "9", ROUNDS, "_ 2 0 0 4 _", "", AMPLE, "22 at 8"),
];

/// while b do i := 1; then j := i (01, "Tempting and wrong" 4).
const ROUNDS: &str = "1,2; 2,1,1; 44,0,2,n; 49,3; 59,1,4; 1,0; 44,5,6,n; 49,7; 54,5,8";

#[test]
fn loops() {
    run(LOOPS);
}

#[test]
fn the_whole_range_and_the_whole_budget() {
    let rows = |low: &str| format!("47,0,{low},x7FFE; 48; 60,1,2; 53,0; 54,3,4");
    let whole = automaton("5", &rows("x8000")).bytes();
    // 54, 60 and 53; for each of 65,535 values a body and a further test.
    let moved = stepped(&whole, 0, S, "", AMPLE);
    assert_eq!(moved, "to 0, 131073u 0w, -1 0 / 32767 2 1 0 4 _");
    let endless = automaton("3", "2,0,1; 48; 59,1,2").bytes();
    // Odd units are the tests', even ones the body's: a test wants the 1,000,001st.
    assert_eq!(stepped(&endless, 0, S, "", AMPLE), "25 at 3");
    assert_eq!(stepped(&endless, 0, S, "", AMPLE - 1), "25 at 2");
    assert_eq!(stepped(&endless, 0, S, "", AMPLE + 1), "20 at 0");
}
