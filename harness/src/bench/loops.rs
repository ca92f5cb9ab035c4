//! Steps of about 1,000,000 units in loops.

use super::steps::Subject;
use crate::image::{rows, Draft};

/// Ints i, j, k and one state; rows after the condition as 01 writes them.
fn automaton(text: &str) -> Draft {
    let rows = rows(&format!("2,0,1;{text}"));
    let states = vec![rows.len() as u16 - 1];
    let (types, variables) = (vec![2, 0], vec![(1, 0); 3]);
    Draft { types, variables, states, rows, gates: 2, condition: 0 }
}

/// for i in 1..2470 do j := 0; while j < 100 do k := (k * 31 + i - j) remainder 1009;
/// j := j + 1.
const ARITHMETIC: &str = "47,0,1,2470; 2,1,0; 44,1,2,n; 49,3; 1,1; 2,1,100; 26,5,6; \
    1,2; 2,1,31; 22,8,9; 1,0; 20,10,11; 1,1; 21,12,13; 2,1,1009; 24,14,15; 44,2,16,n; 49,17; \
    1,1; 2,1,1; 20,19,20; 44,1,21,n; 49,22; 54,18,23; 59,7,24; 54,4,25; 60,1,26; 53,0; 54,27,28";
/// for i in 1..706 do for j in 1..706 do null.
const EMPTY: &str = "47,0,1,706; 47,1,1,706; 48; 60,2,3; 60,1,4; 53,0; 54,5,6";
/// for i in 1..6 do for j in 1..30000 do select null [] k := 1 [] any k.
const CHOICES: &str = "47,0,1,6; 47,1,1,30000; 45,2,1,n; 50,3,n; 57,4,n; 2,1,1; 44,2,6,n; 49,7; \
    57,8,5; 48; 57,10,9; 55,11; 60,2,12; 60,1,13; 53,0; 54,14,15";
/// for i in 1..11 do for j in 1..30000 do case j remainder 4 is 0 -> null
/// | (k where k <= 1) -> null | any -> k := j.
const CASES: &str = "47,0,1,11; 47,1,1,30000; 1,1; 2,1,4; 24,3,4; 32,1; 1,1; 44,2,7,n; 49,8; \
    58,6,9,n; 33,2; 1,2; 2,1,1; 27,12,13; 35,11,14; 48; 58,15,16,10; 34,1,0; 48; 58,18,19,17; \
    56,5,20; 60,2,21; 60,1,22; 53,0; 54,23,24";

/// for i in 1..16 do for j in 1..30000 do k := an expression of 31 rows.
fn expressions() -> String {
    let mut text = "47,0,1,16; 47,1,1,30000; 1,2".to_string();
    let mut last = 3;
    for level in 0..15 {
        let code = [20, 22, 21, 23, 24][level % 5];
        text += &format!("; 1,{}; {code},{last},{}", level % 2, last + 1);
        last += 2;
    }
    let [item, assign, inner, outer, jump] = [1, 2, 3, 4, 5].map(|more| last + more);
    text + &format!("; 44,2,{last},n; 49,{item}; 60,2,{assign}; 60,1,{inner}; 53,0")
        + &format!("; 54,{outer},{jump}")
}

/// One step through each kind of loop.
pub fn subjects() -> Vec<Subject> {
    let words = [0, 1, 2, 7].map(i32::to_le_bytes).concat().repeat(60_000);
    let loops = [
        ("for and while, arithmetic", ARITHMETIC.to_string(), Vec::new()),
        ("two fors, null", EMPTY.to_string(), Vec::new()),
        ("two fors, expressions of 31 rows", expressions(), Vec::new()),
        ("two fors, select and any", CHOICES.to_string(), words),
        ("two fors, case", CASES.to_string(), Vec::new()),
    ];
    let store = [1, 1, 1].map(i32::to_le_bytes).concat();
    let subject = |(name, text, script): (&'static str, String, Vec<u8>)| {
        Subject::new(name, automaton(&text).bytes(), 0, store.clone(), script)
    };
    loops.map(subject).into()
}
