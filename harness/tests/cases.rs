//! Cases by hand, each with its number and place, from 01, READINGS and the report.

mod common;

use common::{answers, automaton};

type Case = (&'static str, &'static str, &'static str, (u64, u64));

const OK: (u64, u64) = (0, 0);

fn run(cases: &[Case]) {
    for (name, states, rows, expected) in cases {
        let image = automaton(states, rows).bytes();
        let found = answers(&image, &mut [0xA5; 512]);
        assert_eq!(found, [*expected; 2], "{name}: Rust, then the library");
    }
}

const ROWS_MALFORMED: &[Case] = &[
    ("code 0", "1", "0", (5, 1)),
    ("code 3", "1", "3", (5, 1)),
    ("code 28", "1", "28", (5, 1)),
    ("code 31", "1", "31", (5, 1)),
    ("code 36", "1", "36", (5, 1)),
    ("code 43", "1", "43", (5, 1)),
    ("code 61", "1", "61", (5, 1)),
    ("code 48 with a high byte", "1", "x130", (5, 1)),
    ("null with a field", "1", "48,0,0,1", (5, 1)),
    ("no such variable", "1", "1,6", (5, 1)),
    ("no such type", "1", "2,3", (5, 1)),
    ("bool constant 2", "1", "2,0,2", (5, 1)),
    ("constant outside its type", "1", "34,2,3", (5, 1)),
    ("a row that names itself", "1", "16,1", (5, 1)),
    ("a row that names a higher one", "1", "16,2; 2,0,1", (5, 1)),
    ("none for a child", "1", "16,n", (5, 1)),
    ("not of an action", "1", "48; 16,1", (5, 2)),
    ("an empty vector", "1", "49,n", (5, 1)),
    ("any over assigned items", "3", "2,1,0; 44,0,1,n; 50,2,n", (5, 3)),
    ("a next of another kind", "1", "46,0,n; 2,1,0; 44,0,2,1", (5, 3)),
    ("upper literal 32,767", "1", "47,0,0,x7FFF", (5, 1)),
    ("no such gate", "1", "52,3,n", (5, 1)),
    ("no such state", "1", "53,1", (5, 1)),
    ("a then branch", "3", "48; 57,1,n; 54,1,2", (5, 3)),
    ("select with a field too many", "1", "55,n,n", (5, 1)),
    ("while none", "1", "48; 59,n,1", (5, 2)),
    ("the lowest of two", "3", "48; 48,1; 48,1", (5, 2)),
    ("5 before 6", "7", "48; 48,1", (5, 2)),
];

#[test]
fn rows_malformed() {
    run(ROWS_MALFORMED);
}

#[test]
fn lists_at_their_limits() {
    let resets = |count: u16| {
        let first = "46,0,n;".to_string();
        (2..=count).fold(first, |rows, r| rows + &format!("46,0,{};", r - 1))
    };
    let nine = resets(9) + "51,9";
    let eight = resets(8) + "51,8";
    let unowned = resets(9) + "48";
    let emits = |count: u16| {
        let one = |rows: String, k: u16| rows + &format!("2,1,0;40,{},{};", 2 * k + 1, 2 * k);
        (1..count).fold("2,1,0;40,1,n;".to_string(), one) + &format!("52,1,{};53,0;", 2 * count)
    };
    let branches = |count: u16| {
        let one = |rows: String, k: u16| rows + &format!("48;57,{},{};", 2 * k + 1, 2 * k);
        (1..count).fold("48;57,1,n;".to_string(), one) + &format!("55,{}", 2 * count)
    };
    let whole = |states: &str, rows: &str| automaton(states, rows).bytes();
    let cases = [
        ("nine items", whole("10", &nine), (5, 10)),
        ("eight items, one variable", whole("9", &eight), (9, 9)),
        ("nine items of no owner", whole("10", &unowned), (7, 9)),
        ("eight offers", whole("19", &(emits(8) + "54,17,18")), OK),
        ("nine offers", whole("21", &(emits(9) + "54,19,20")), (5, 19)),
        ("64 branches", whole("129", &branches(64)), OK),
        ("65 branches", whole("131", &branches(65)), (5, 131)),
    ];
    for (name, image, expected) in cases {
        assert_eq!(answers(&image, &mut [0; 512]), [expected; 2], "{name}");
    }
}

const ROWS_NAMED_FROM_OUTSIDE: &[Case] = &[
    ("a state's row out of range", "2", "48", (6, 0)),
    ("a state's row is no row", "1,n", "48", (6, 1)),
    ("a state's row is an expression", "0", "48", (6, 0)),
    ("a row nobody names", "1", "48; 48", (7, 2)),
    ("a row named twice by one", "2", "48; 54,1,1", (7, 1)),
    ("a row named by two states", "1,1", "48", (7, 1)),
    ("named by a row that is not named", "1", "48; 48; 54,1,2", (7, 1)),
    ("a constant that a row and the trailer name", "2", "48; 59,0,1", (7, 0)),
    ("6 before 7", "1,9", "48; 54,1,1", (6, 1)),
];

#[test]
fn rows_named_from_outside() {
    run(ROWS_NAMED_FROM_OUTSIDE);
    let mut draft = automaton("1", "48");
    draft.condition = 1;
    assert_eq!(answers(&draft.bytes(), &mut [0; 512]), [(6, 1); 2], "condition null");
    draft.condition = 2;
    assert_eq!(answers(&draft.bytes(), &mut [0; 512]), [(6, 1); 2], "condition no row");
}

const TYPING: &[Case] = &[
    ("not of an int", "4", "2,1,0; 16,1; 48; 59,2,3", (8, 2)),
    ("and of an int", "5", "2,0,0; 2,1,0; 18,1,2; 48; 59,3,4", (8, 3)),
    ("negate a bool", "4", "2,0,0; 19,1; 44,0,2,n; 49,3", (8, 2)),
    ("bool plus int", "5", "1,2; 2,1,1; 20,1,2; 44,0,3,n; 49,4", (8, 3)),
    ("remainder of bools", "5", "1,2; 1,2; 24,1,2; 44,0,3,n; 49,4", (8, 3)),
    ("equal of two types", "5", "2,1,0; 2,2,0; 25,1,2; 48; 59,3,4", (8, 3)),
    ("less of bools", "5", "1,2; 1,2; 26,1,2; 48; 59,3,4", (8, 3)),
    ("equal bools", "5", "1,2; 1,2; 25,1,2; 48; 59,3,4", OK),
    ("while of an int", "3", "2,1,1; 48; 59,1,2", (8, 3)),
    ("a bool for an int", "3", "2,0,1; 44,0,1,n; 49,2", (8, 3)),
    ("the second item", "5", "2,0,1; 44,5,1,n; 2,1,1; 44,0,3,2; 49,4", (8, 5)),
    ("any of another type", "2", "45,0,0,n; 50,1,n", (8, 2)),
    ("any where an int", "3", "45,0,1,n; 2,1,1; 50,1,2", (8, 3)),
    ("guard of an int", "5", "32,1; 2,1,1; 35,1,2; 41,3,n; 52,1,4", (8, 3)),
    ("tau with an offer", "3", "2,1,0; 40,1,n; 52,0,2", (8, 3)),
    ("an arm of another type", "5", "2,1,0; 32,0; 48; 58,2,3,n; 56,1,4", (8, 5)),
    (
        "the last arm of another type",
        "8",
        "2,1,0; 32,0; 48; 58,2,3,n; 32,1; 48; 58,5,6,4; 56,1,7",
        (8, 8),
    ),
    ("for over a bool", "3", "47,2,0,1; 48; 60,1,2", (8, 3)),
    ("8 before a lower 9", "5", "46,0,n; 46,0,1; 51,2; 2,1,1; 59,4,3", (8, 5)),
];

#[test]
fn typing() {
    run(TYPING);
    let mut draft = automaton("3", "2,1,0; 48; 59,0,2");
    draft.condition = 1;
    assert_eq!(answers(&draft.bytes(), &mut [0; 512]), [(8, 1); 2], "condition int");
}

const BINDING: &[Case] = &[
    ("reset i, i", "3", "46,0,n; 46,0,1; 51,2", (9, 3)),
    ("assign i, i", "5", "2,1,0; 44,0,1,n; 2,1,0; 44,0,3,2; 49,4", (9, 5)),
    ("any i, j, i", "4", "45,0,1,n; 45,5,1,1; 45,0,1,2; 50,3,n", (9, 4)),
    ("p, r := r, p", "5", "1,1; 44,4,1,n; 1,4; 44,1,3,2; 49,4", OK),
    ("!p ?p", "7", "33,1; 41,1,n; 1,1; 40,3,2; 52,1,4; 53,0; 54,5,6", (9, 5)),
    ("?p !p", "7", "1,1; 40,1,n; 33,1; 41,3,2; 52,1,4; 53,0; 54,5,6", OK),
    ("?i ?i", "7", "33,0; 41,1,n; 33,0; 41,3,2; 52,1,4; 53,0; 54,5,6", (9, 5)),
    (
        "?(any where b) ?b",
        "9",
        "33,2; 41,1,n; 32,0; 1,2; 35,3,4; 41,5,2; 52,1,6; 53,0; 54,7,8",
        (9, 7),
    ),
    ("?(b where b) !b", "9", "1,2; 40,1,n; 33,2; 1,2; 35,3,4; 41,5,2; 52,1,6; 53,0; 54,7,8", OK),
    ("for i: i := 0", "5", "47,0,0,1; 2,1,0; 44,0,2,n; 49,3; 60,1,4", (9, 5)),
    ("for i: reset i", "4", "47,0,0,1; 46,0,n; 51,2; 60,1,3", (9, 4)),
    ("for i: any i", "4", "47,0,0,1; 45,0,1,n; 50,2,n; 60,1,3", (9, 4)),
    ("for i: ?i; to 0", "7", "47,0,0,1; 33,0; 41,2,n; 52,1,3; 53,0; 54,4,5; 60,1,6", (9, 7)),
    ("for i: arm i", "7", "47,0,0,1; 2,1,0; 33,0; 48; 58,3,4,n; 56,2,5; 60,1,6", (9, 7)),
    ("for i: for i", "5", "47,0,0,1; 47,0,0,1; 48; 60,2,3; 60,1,4", (9, 5)),
    ("for i: to 0; reset i", "6", "47,0,0,1; 53,0; 46,0,n; 51,3; 54,2,4; 60,1,5", (9, 6)),
    ("for i: p := i", "5", "47,0,0,1; 1,0; 44,1,2,n; 49,3; 60,1,4", OK),
    ("for i: while b: for i", "7", "47,0,0,1; 1,2; 47,0,0,1; 48; 60,3,4; 59,2,5; 60,1,6", (9, 7)),
];

#[test]
fn binding() {
    run(BINDING);
    let mut draft = automaton("5", "1,0; 1,1; 25,1,2; 48; 59,0,4");
    draft.condition = 3;
    assert_eq!(answers(&draft.bytes(), &mut [0; 512]), [(9, 3); 2], "condition reads i");
    draft.rows[1].a = 4;
    assert_eq!(answers(&draft.bytes(), &mut [0; 512]), [OK; 2], "condition reads r, p");
}

const INITIALISATION: &[Case] = &[
    ("i := i", "3", "1,0; 44,0,1,n; 49,2", (11, 0)),
    ("i := p", "3", "1,1; 44,0,1,n; 49,2", OK),
    ("while true: reset p", "4", "2,0,1; 46,1,n; 51,2; 59,1,3", (11, 0)),
    ("while true: reset i", "4", "2,0,1; 46,0,n; 51,2; 59,1,3", OK),
    ("while b: reset p; to 0", "6", "1,2; 46,1,n; 51,2; 53,0; 54,3,4; 59,1,5", OK),
    ("to 0; i := j", "5", "53,0; 1,5; 44,0,2,n; 49,3; 54,1,4", OK),
    (
        "to 0; reset i; j := i",
        "8",
        "53,0; 46,0,n; 51,2; 54,1,3; 1,0; 44,5,5,n; 49,6; 54,4,7",
        (11, 0),
    ),
    ("stop; j := i", "5", "55,n; 1,0; 44,5,2,n; 49,3; 54,1,4", OK),
    ("case 1 is end; j := i", "6", "2,1,1; 56,1,n; 1,0; 44,5,3,n; 49,4; 54,2,5", OK),
    (
        "while b: i := 1; then j := i",
        "9",
        "1,2; 2,1,1; 44,0,2,n; 49,3; 59,1,4; 1,0; 44,5,6,n; 49,7; 54,5,8",
        (11, 0),
    ),
    ("for i; j := i", "7", "47,0,3,2; 48; 60,1,2; 1,0; 44,5,4,n; 49,5; 54,3,6", OK),
    ("for i: reset p", "4", "47,0,3,2; 46,1,n; 51,2; 60,1,3", (11, 0)),
    ("any i where i <= p", "5", "45,0,1,n; 1,0; 1,1; 27,2,3; 50,1,4", OK),
    ("any i where j <= p", "5", "45,0,1,n; 1,5; 1,1; 27,2,3; 50,1,4", (11, 0)),
    ("G !i; to 0", "5", "1,0; 40,1,n; 52,1,2; 53,0; 54,3,4", (11, 0)),
    (
        "G ?(i where i = j); to 0",
        "9",
        "33,0; 1,0; 1,5; 25,2,3; 35,1,4; 41,5,n; 52,1,6; 53,0; 54,7,8",
        (11, 0),
    ),
    ("case p is i -> j := i", "7", "1,1; 33,0; 1,0; 44,5,3,n; 49,4; 58,2,5,n; 56,1,6", OK),
    (
        "case p is i -> null | any -> j := i",
        "10",
        "1,1; 32,1; 1,0; 44,5,3,n; 49,4; 58,2,5,n; 33,0; 48; 58,7,8,6; 56,1,9",
        (11, 0),
    ),
    (
        "select i := 1 [] null; j := i",
        "11",
        "48; 57,1,n; 2,1,1; 44,0,3,n; 49,4; 57,5,2; 55,6; 1,0; 44,5,8,n; 49,9; \
         54,7,10",
        (11, 0),
    ),
    (
        "select i := 1 [] to 0; j := i",
        "11",
        "53,0; 57,1,n; 2,1,1; 44,0,3,n; 49,4; 57,5,2; 55,6; 1,0; 44,5,8,n; 49,9; \
         54,7,10",
        OK,
    ),
    ("an unreached state reads i", "1,4", "48; 1,0; 44,5,2,n; 49,3", OK),
    (
        "an unreached state jumps to 0 without p",
        "3,7",
        "1,1; 44,0,1,n; 49,2; 46,1,n; 51,4; 53,0; 54,5,6",
        OK,
    ),
    (
        "state 0 loses p and reads it",
        "8",
        "1,1; 44,0,1,n; 49,2; 46,1,n; 51,4; 53,0; 54,3,5; 54,7,6",
        (11, 0),
    ),
    ("a dead jump to 1, which reads i", "3,6", "53,0; 53,1; 54,1,2; 1,0; 44,5,4,n; 49,5", OK),
    ("a jump to 1, which reads i", "1,4", "53,1; 1,0; 44,5,2,n; 49,3", (11, 1)),
];

#[test]
fn initialisation() {
    run(INITIALISATION);
}

const SPEECH: &[Case] = &[
    ("G", "1", "52,1,n", (12, 0)),
    ("tau", "1", "52,0,n", (12, 0)),
    ("G; to 0", "3", "52,1,n; 53,0; 54,1,2", OK),
    ("G; G; to 0", "5", "52,1,n; 52,1,n; 54,1,2; 53,0; 54,3,4", (12, 0)),
    ("to 0; G; G", "5", "53,0; 52,1,n; 54,1,2; 52,1,n; 54,3,4", OK),
    ("stop; G", "3", "55,n; 52,1,n; 54,1,2", OK),
    ("G; stop", "3", "52,1,n; 55,n; 54,1,2", (12, 0)),
    ("G; case 1 is end", "4", "52,1,n; 2,1,1; 56,2,n; 54,1,3", (12, 0)),
    ("G; any i where true; to 0", "7", "52,1,n; 45,0,1,n; 2,0,1; 50,2,3; 54,1,4; 53,0; 54,5,6", OK),
    ("G; any i where b; to 0", "7", "52,1,n; 45,0,1,n; 1,2; 50,2,3; 54,1,4; 53,0; 54,5,6", (12, 0)),
    ("G; any i; to 0", "6", "52,1,n; 45,0,1,n; 50,2,n; 54,1,3; 53,0; 54,4,5", OK),
    ("G; while b: to 0", "5", "52,1,n; 1,2; 53,0; 59,2,3; 54,1,4", (12, 0)),
    ("while b: G", "3", "1,2; 52,1,n; 59,1,2", (12, 0)),
    ("while b: G; to 0", "5", "1,2; 52,1,n; 53,0; 54,2,3; 59,1,4", OK),
    ("for i: G", "3", "47,0,0,1; 52,1,n; 60,1,2", (12, 0)),
    ("G; for i: null; to 0", "7", "52,1,n; 47,0,0,1; 48; 60,2,3; 54,1,4; 53,0; 54,5,6", OK),
    ("G; for i: to 0", "5", "52,1,n; 47,0,0,1; 53,0; 60,2,3; 54,1,4", (12, 0)),
    ("G; for i: stop; to 0", "7", "52,1,n; 47,0,0,1; 55,n; 60,2,3; 54,1,4; 53,0; 54,5,6", (12, 0)),
    (
        "select G [] null; for i: while b: null; to 0",
        "13",
        "48; 57,1,n; 52,1,n; 57,3,2; 55,4; 47,0,0,1; 1,2; 48; 59,7,8; 60,6,9; \
         54,5,10; 53,0; 54,11,12",
        (12, 0),
    ),
    (
        "select to 0 [] null; for i: while b: null",
        "11",
        "48; 57,1,n; 53,0; 57,3,2; 55,4; 47,0,0,1; 1,2; 48; 59,7,8; 60,6,9; 54,5,10",
        OK,
    ),
    (
        "G; case b is true -> to 0",
        "7",
        "52,1,n; 1,2; 34,0,1; 53,0; 58,3,4,n; 56,2,5; 54,1,6",
        (12, 0),
    ),
    (
        "G; case b is true -> to 0 | false -> to 0",
        "10",
        "52,1,n; 1,2; 34,0,1; 53,0; 58,3,4,n; 34,0,0; 53,0; 58,6,7,5; 56,2,8; 54,1,9",
        OK,
    ),
    (
        "G; case b is true -> to 0 | any where true -> to 0",
        "12",
        "52,1,n; 1,2; 32,0; 2,0,1; 35,3,4; 53,0; 58,5,6,n; 34,0,1; 53,0; 58,8,9,7; \
         56,2,10; 54,1,11",
        (12, 0),
    ),
    ("G; case p is i -> to 0", "7", "52,1,n; 1,1; 33,0; 53,0; 58,3,4,n; 56,2,5; 54,1,6", OK),
    (
        "G; case of type 2: 0, 1",
        "10",
        "52,1,n; 2,2,0; 34,2,0; 53,0; 58,3,4,n; 34,2,1; 53,0; 58,6,7,5; 56,2,8; \
         54,1,9",
        (12, 0),
    ),
    (
        "G; case of type 2: 2, 0, 1",
        "13",
        "52,1,n; 2,2,0; 34,2,0; 53,0; 58,3,4,n; 34,2,1; 53,0; 58,6,7,5; 34,2,2; \
         53,0; 58,9,10,8; 56,2,11; 54,1,12",
        OK,
    ),
    ("select G [] null; G", "7", "48; 57,1,n; 52,1,n; 57,3,2; 55,4; 52,1,n; 54,5,6", (12, 0)),
    (
        "11 at 1 before 12 at 0",
        "5,8",
        "52,1,n; 57,1,n; 53,1; 57,3,2; 55,4; 1,0; 44,5,6,n; 49,7",
        (11, 1),
    ),
    ("12 at 0 by itself", "5,6", "52,1,n; 57,1,n; 53,1; 57,3,2; 55,4; 48", (12, 0)),
    ("an unreached state ends spoken", "1,2", "48; 52,1,n", (12, 1)),
];

#[test]
fn speech() {
    run(SPEECH);
}
