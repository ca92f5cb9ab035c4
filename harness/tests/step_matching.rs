//! Steps by hand: communications, patterns and cases (01, "The step"; report, B.2).

mod common;

use common::{automaton, stepped};

type Case = (&'static str, &'static str, &'static str, &'static str, &'static str, &'static str);

/// i 1, p 2, b true, e 0, r 4, j undefined.
const S: &str = "1 2 1 0 4 _";
const AMPLE: u32 = 1_000_000;

fn run(cases: &[Case]) {
    for (name, state, rows, store, script, expected) in cases {
        let image = automaton(state, rows).bytes();
        assert_eq!(stepped(&image, 0, store, script, AMPLE), *expected, "{name}");
    }
}

const RECEIVE: &str = "33,0; 41,1,n; 52,1,2; 53,0; 54,3,4";
const RECEIVE_EMIT: &str = "1,0; 40,1,n; 33,0; 41,3,2; 52,1,4; 53,0; 54,5,6";
const RECEIVE_EMIT_J: &str = "1,5; 40,1,n; 33,0; 41,3,2; 52,1,4; 53,0; 54,5,6";
const EMIT_J_RECEIVE: &str = "33,0; 41,1,n; 1,5; 40,3,2; 52,1,4; 53,0; 54,5,6";
/// G ?(i where i <= p).
const RECEIVE_WHERE: &str = "33,0; 1,0; 1,1; 27,2,3; 35,1,4; 41,5,n; 52,1,6; 53,0; 54,7,8";
/// G ?(constant 1 of type 2).
const RECEIVE_1: &str = "34,2,1; 41,1,n; 52,1,2; 53,0; 54,3,4";
/// G ?i ?(any of bool).
const RECEIVE_2: &str = "32,0; 41,1,n; 33,0; 41,3,2; 52,1,4; 53,0; 54,5,6";

const COMMUNICATIONS: &[Case] = &[
    ("G", "3", "52,1,n; 53,0; 54,1,2", S, "", "to 0, 3u 0w, 1 0 / 1 2 1 0 4 _"),
    ("tau", "3", "52,0,n; 53,0; 54,1,2", S, "", "to 0, 3u 0w, 0 0 / 1 2 1 0 4 _"),
    (
        "G !p !e",
        "7",
        "1,3; 40,1,n; 1,1; 40,3,2; 52,2,4; 53,0; 54,5,6",
        S,
        "",
        "to 0, 3u 0w, 2 2 2 0 / 1 2 1 0 4 _",
    ),
    ("G ?i", "5", RECEIVE, S, "-32768", "to 0, 3u 1w, 1 1 -32768 / -32768 2 1 0 4 _"),
    ("G ?i above", "5", RECEIVE, S, "32768", "24 at 3"),
    ("G ?i without a word", "5", RECEIVE, S, "", "23 at 3"),
    ("G ?i !i", "7", RECEIVE_EMIT, S, "8", "to 0, 3u 1w, 1 2 8 8 / 8 2 1 0 4 _"),
    ("G ?i !j without a word", "7", RECEIVE_EMIT_J, S, "", "23 at 5"),
    ("G ?i !j", "7", RECEIVE_EMIT_J, S, "1", "22 at 5"),
    ("G !j ?i without a word", "7", EMIT_J_RECEIVE, S, "", "22 at 5"),
    ("G ?(i where i <= p)", "9", RECEIVE_WHERE, S, "2", "to 0, 3u 1w, 1 1 2 / 2 2 1 0 4 _"),
    ("G ?(i where i <= p) not", "9", RECEIVE_WHERE, S, "3", "21 at 7"),
    ("G ?(i where i <= p) judged first", "9", RECEIVE_WHERE, "1 _ 1 0 4 _", "40000", "24 at 7"),
    ("G ?(i where i <= p) p undefined", "9", RECEIVE_WHERE, "1 _ 1 0 4 _", "0", "22 at 7"),
    ("G ?1", "5", RECEIVE_1, S, "1", "to 0, 3u 1w, 1 1 1 / 1 2 1 0 4 _"),
    ("G ?1, another value", "5", RECEIVE_1, S, "2", "21 at 3"),
    ("G ?1, no value of the type", "5", RECEIVE_1, S, "3", "24 at 3"),
    ("G ?i ?any", "7", RECEIVE_2, S, "7 1", "to 0, 3u 2w, 1 2 7 1 / 7 2 1 0 4 _"),
    ("G ?i ?any, bool 2", "7", RECEIVE_2, S, "7 2", "24 at 5"),
    ("G ?i ?any, one word", "7", RECEIVE_2, S, "7", "23 at 5"),
];

#[test]
fn communications() {
    run(COMMUNICATIONS);
}

#[test]
fn eight_values_fill_the_label() {
    // Offers from the last one: the first emits 8, the last 1.
    let one = |rows: String, k: u16| {
        let next = if k == 1 { "n".to_string() } else { (2 * k - 2).to_string() };
        rows + &format!("2,1,{k};40,{},{next};", 2 * k - 1)
    };
    let rows = (1..=8).fold(String::new(), one) + "52,2,16; 53,0; 54,17,18";
    let image = automaton("19", &rows).bytes();
    let found = stepped(&image, 0, S, "", AMPLE);
    assert_eq!(found, "to 0, 3u 0w, 2 8 8 7 6 5 4 3 2 1 / 1 2 1 0 4 _");
}

const AFTER: &[Case] = &[
    ("G; stop", "3", "52,1,n; 55,n; 54,1,2", S, "", "26 at 2"),
    ("G; null", "3", "52,1,n; 48; 54,1,2", S, "", "26 at 3"),
    ("tau; null", "3", "52,0,n; 48; 54,1,2", S, "", "26 at 3"),
    ("G; case 1 is end", "4", "52,1,n; 2,1,1; 56,2,n; 54,1,3", S, "", "26 at 3"),
    ("G; any i where false; to 0", "7", ANY_FALSE, S, "5", "26 at 4"),
    ("G; any i where false, no word", "7", ANY_FALSE, S, "", "23 at 4"),
    ("G; case p is 3 -> to 0", "7", CASE_3, S, "", "26 at 6"),
    (
        "G; case p is 3 -> to 0, p 3",
        "7",
        CASE_3,
        "1 3 1 0 4 _",
        "",
        "to 0, 4u 0w, 1 0 / 1 3 1 0 4 _",
    ),
    ("G; G; to 0", "5", "52,1,n; 52,1,n; 54,1,2; 53,0; 54,3,4", S, "", "27 at 2"),
    ("tau; G; to 0", "5", "52,0,n; 52,1,n; 54,1,2; 53,0; 54,3,4", S, "", "27 at 2"),
    ("G; tau; to 0", "5", "52,1,n; 52,0,n; 54,1,2; 53,0; 54,3,4", S, "", "27 at 2"),
    ("G; G ?i without a word", "5", "52,1,n; 33,0; 41,2,n; 52,1,3; 54,1,4", S, "", "27 at 4"),
    ("G; G !j", "5", "52,1,n; 1,5; 40,2,n; 52,1,3; 54,1,4", S, "", "27 at 4"),
    ("while true do G", "3", "2,0,1; 52,1,n; 59,1,2", S, "", "27 at 2"),
    ("for i in 0..0 do G ends spoken", "3", "47,0,0,0; 52,1,n; 60,1,2", S, "", "26 at 3"),
    ("for i in 0..1 do G", "3", "47,0,0,1; 52,1,n; 60,1,2", S, "", "27 at 2"),
    ("G ?1 unmatched blocks quiet", "5", RECEIVE_1, S, "0", "21 at 3"),
    ("G; i := j", "5", "52,1,n; 1,5; 44,0,2,n; 49,3; 54,1,4", S, "", "22 at 4"),
    ("G; case b is true where false", "9", GUARDED, S, "", "26 at 8"),
];

const ANY_FALSE: &str = "52,1,n; 45,0,1,n; 2,0,0; 50,2,3; 54,1,4; 53,0; 54,5,6";
const CASE_3: &str = "52,1,n; 1,1; 34,1,3; 53,0; 58,3,4,n; 56,2,5; 54,1,6";
/// G; case b is (any where false) -> to 0 (01, "Tempting and wrong" 3).
const GUARDED: &str = "52,1,n; 1,2; 32,0; 2,0,0; 35,3,4; 53,0; 58,5,6,n; 56,2,7; 54,1,8";

#[test]
fn after_a_communication() {
    run(AFTER);
    let twice = automaton("5", "52,1,n; 52,1,n; 54,1,2; 53,0; 54,3,4").bytes();
    // 54, 54, 52: the unit of the second communication comes before its 27.
    assert_eq!(stepped(&twice, 0, S, "", 3), "25 at 2");
    assert_eq!(stepped(&twice, 0, S, "", 4), "27 at 2");
}

/// case p is 2 -> to 0.
const CASE: &str = "1,1; 34,1,2; 53,0; 58,2,3,n; 56,1,4";
/// case p is i -> to 0.
const BIND: &str = "1,1; 33,0; 53,0; 58,2,3,n; 56,1,4";
/// case p is (2 where j = 1) -> null | any -> to 0.
const GUARD_J: &str = "1,1; 32,1; 53,0; 58,2,3,n; 34,1,2; 1,5; 2,1,1; 25,6,7; 35,5,8; 48; \
                       58,9,10,4; 56,1,11";
/// case p is (i where i = 99) -> null | (any where i = 1) -> to 0.
const FAILED: &str = "1,1; 32,1; 1,0; 2,1,1; 25,3,4; 35,2,5; 53,0; 58,6,7,n; \
                      33,0; 1,0; 2,1,99; 25,10,11; 35,9,12; 48; 58,13,14,8; 56,1,15";
/// case p is ((any where false) where j = 1) -> null | any -> to 0.
const INNER: &str = "1,1; 32,1; 53,0; 58,2,3,n; 32,1; 2,0,0; 35,5,6; 1,5; 2,1,1; 25,8,9; \
                     35,7,10; 48; 58,11,12,4; 56,1,13";
/// case p is ((any where j = 1) where false) -> null | any -> to 0.
const OUTER: &str = "1,1; 32,1; 53,0; 58,2,3,n; 32,1; 1,5; 2,1,1; 25,6,7; 35,5,8; 2,0,0; \
                     35,9,10; 48; 58,11,12,4; 56,1,13";
/// case p is ((i where i <= 2) where 2 <= i) -> to 0.
const BOTH: &str = "1,1; 33,0; 1,0; 2,1,2; 27,3,4; 35,2,5; 2,1,2; 1,0; 27,7,8; 35,6,9; 53,0; \
                    58,10,11,n; 56,1,12";

const CASES: &[Case] = &[
    ("case p is 2", "5", CASE, S, "", "to 0, 2u 0w, -1 0 / 1 2 1 0 4 _"),
    ("case p is 2, p 3", "5", CASE, "1 3 1 0 4 _", "", "21 at 5"),
    ("case p is 2, p undefined", "5", CASE, "1 _ 1 0 4 _", "", "22 at 5"),
    ("no arms", "2", "1,1; 56,1,n", S, "", "21 at 2"),
    ("no arms, p undefined", "2", "1,1; 56,1,n", "1 _ 1 0 4 _", "", "22 at 2"),
    ("case p is i", "5", BIND, S, "", "to 0, 2u 0w, -1 0 / 2 2 1 0 4 _"),
    (
        "a guard that isn't tried",
        "12",
        GUARD_J,
        "1 3 1 0 4 _",
        "",
        "to 0, 2u 0w, -1 0 / 1 3 1 0 4 _",
    ),
    ("a guard that reads j", "12", GUARD_J, S, "", "22 at 12"),
    ("a failed match leaves i", "16", FAILED, S, "", "to 0, 2u 0w, -1 0 / 1 2 1 0 4 _"),
    ("a failed match, i as p", "16", FAILED, "2 1 1 0 4 _", "", "21 at 16"),
    ("a failed match leaves i undefined", "16", FAILED, "_ 1 1 0 4 _", "", "22 at 16"),
    ("the inner guard first", "14", INNER, S, "", "to 0, 2u 0w, -1 0 / 1 2 1 0 4 _"),
    ("the inner guard reads j", "14", OUTER, S, "", "22 at 14"),
    ("both guards", "13", BOTH, S, "", "to 0, 2u 0w, -1 0 / 2 2 1 0 4 _"),
    ("the inner fails", "13", BOTH, "1 3 1 0 4 _", "", "21 at 13"),
    ("the outer fails", "13", BOTH, "1 1 1 0 4 _", "", "21 at 13"),
    (
        "false and j = 1 reads both",
        "7",
        "2,0,0; 1,5; 2,1,1; 25,2,3; 17,1,4; 48; 59,5,6",
        S,
        "",
        "22 at 7",
    ),
    (
        "true or j = 1 reads both",
        "7",
        "2,0,1; 1,5; 2,1,1; 25,2,3; 18,1,4; 53,0; 59,5,6",
        S,
        "",
        "22 at 7",
    ),
    (
        "a negative constant",
        "5",
        "1,1; 34,1,xFFFF; 53,0; 58,2,3,n; 56,1,4",
        "1 -1 1 0 4 _",
        "",
        "to 0, 2u 0w, -1 0 / 1 -1 1 0 4 _",
    ),
];

#[test]
fn cases_and_patterns() {
    run(CASES);
}

/// Code, operands and the value that 01, "Values", gives.
const VALUES: &[(u16, i16, i16, i32)] = &[
    (20, 32767, 1, -32768),
    (20, -32768, -1, 32767),
    (21, -32768, 1, 32767),
    (21, 5, 7, -2),
    (22, 200, 200, -25536),
    (22, 32767, 32767, 1),
    (22, -32768, -32768, 0),
    (22, -32768, -1, -32768),
    (23, -7, 2, -3),
    (23, 7, -2, -3),
    (23, -7, -2, 3),
    (23, 9, 0, 0),
    (23, -32768, -1, -32768),
    (24, -7, 2, -1),
    (24, 7, -2, 1),
    (24, -7, 0, -7),
    (24, -32768, -1, 0),
    (24, -32768, 0, -32768),
];

#[test]
fn values() {
    for &(code, left, right, expected) in VALUES {
        let (x, y) = (left as u16, right as u16);
        let rows = format!("2,1,{x}; 2,1,{y}; {code},1,2; 44,0,3,n; 49,4; 53,0; 54,5,6");
        let found = stepped(&automaton("7", &rows).bytes(), 0, S, "", AMPLE);
        let moved = format!("to 0, 3u 0w, -1 0 / {expected} 2 1 0 4 _");
        assert_eq!(found, moved, "{left} {code} {right}");
    }
    for (number, negated) in [(-32768i16, -32768), (32767, -32767), (0, 0), (-5, 5)] {
        let rows = format!("2,1,{}; 19,1; 44,0,2,n; 49,3; 53,0; 54,4,5", number as u16);
        let found = stepped(&automaton("6", &rows).bytes(), 0, S, "", AMPLE);
        assert_eq!(found, format!("to 0, 3u 0w, -1 0 / {negated} 2 1 0 4 _"), "-({number})");
    }
}

#[test]
fn comparisons_and_truths() {
    let truths: &[(u16, i16, i16, bool)] = &[
        (25, 3, 3, true),
        (25, 3, -3, false),
        (26, -1, 0, true),
        (26, 0, 0, false),
        (26, 0, -32768, false),
        (27, 0, 0, true),
        (27, 1, 0, false),
    ];
    for &(code, left, right, expected) in truths {
        let (x, y) = (left as u16, right as u16);
        let rows = format!("2,1,{x}; 2,1,{y}; {code},1,2; 53,0; 59,3,4");
        let found = stepped(&automaton("5", &rows).bytes(), 0, S, "", AMPLE);
        assert_eq!(found == "21 at 5", !expected, "{left} {code} {right}: {found}");
    }
    for (code, left, right, expected) in [
        (17, 1, 1, true),
        (17, 1, 0, false),
        (17, 0, 0, false),
        (18, 0, 0, false),
        (18, 0, 1, true),
    ] {
        let rows = format!("2,0,{left}; 2,0,{right}; {code},1,2; 16,3; 16,4; 53,0; 59,5,6");
        let found = stepped(&automaton("7", &rows).bytes(), 0, S, "", AMPLE);
        assert_eq!(found == "21 at 7", !expected, "{left} {code} {right}: {found}");
    }
}
