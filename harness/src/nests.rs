//! The deepest images that the limits allow: each is accepted, and its state 0 moves
//! through the whole nest back to state 0.

use crate::generate::depth;
use crate::image::{limits, Draft, Row, NONE};

/// An image with the script that its step reads.
pub struct Nest {
    pub name: &'static str,
    pub image: Vec<u8>,
    pub script: Vec<u8>,
    pub rows: usize,
    pub depth: usize,
}

/// The nest that only start runs through.
pub const CONDITION: &str = "not chain in the condition";

/// The rows of an image under construction: 64 int variables, two gates.
struct Builder {
    draft: Draft,
    script: Vec<u8>,
}

/// Adds one level around a row.
type Level = fn(&mut Builder, u16) -> u16;

impl Builder {
    /// Row 0 is the condition, the constant true.
    fn new() -> Builder {
        let draft = Draft {
            types: vec![2, 0],
            variables: vec![(1, 0); 64],
            rows: vec![Row::new(2, 0, 1, 0)],
            gates: 2,
            ..Draft::default()
        };
        Builder { draft, script: Vec::new() }
    }

    fn push(&mut self, code: u16, a: u16, b: u16, c: u16) -> u16 {
        self.draft.rows.push(Row::new(code, a, b, c));
        self.draft.rows.len() as u16 - 1
    }

    fn truth(&mut self) -> u16 {
        self.push(2, 0, 1, 0)
    }

    fn word(&mut self, word: i32) {
        self.script.extend(word.to_le_bytes());
    }

    /// Levels around a row until `kept` rows are left.
    fn wrap(&mut self, inside: u16, kept: usize, level: Level) -> u16 {
        let mut row = inside;
        loop {
            let (rows, words) = (self.draft.rows.len(), self.script.len());
            let around = level(self, row);
            if self.draft.rows.len() + kept > *limits::ROWS.end() {
                self.draft.rows.truncate(rows);
                self.script.truncate(words);
                return row;
            }
            row = around;
        }
    }

    /// The row, then a jump to state 0.
    fn then_jump(&mut self, action: u16) -> u16 {
        let jump = self.push(53, 0, 0, 0);
        self.push(54, action, jump, 0)
    }

    /// "case true is pattern -> to 0" (4 rows).
    fn case_of(&mut self, pattern: u16) -> u16 {
        let (subject, jump) = (self.truth(), self.push(53, 0, 0, 0));
        let arm = self.push(58, pattern, jump, NONE);
        self.push(56, subject, arm, 0)
    }

    fn done(mut self, name: &'static str, action: u16) -> Nest {
        self.draft.states.push(action);
        let rows = self.draft.rows.len();
        let depth = depth(&self.draft.rows);
        Nest { name, image: self.draft.bytes(), script: self.script, rows, depth }
    }
}

/// Levels of one kind around "to 0".
fn actions(name: &'static str, level: Level) -> Nest {
    let mut builder = Builder::new();
    let jump = builder.push(53, 0, 0, 0);
    let action = builder.wrap(jump, 0, level);
    builder.done(name, action)
}

/// An int expression in levels around the constant 1, assigned to variable 0.
fn numbers(name: &'static str, level: Level) -> Nest {
    let mut builder = Builder::new();
    let one = builder.push(2, 1, 1, 0);
    let value = builder.wrap(one, 4, level);
    let item = builder.push(44, 0, value, NONE);
    let assign = builder.push(49, item, 0, 0);
    let action = builder.then_jump(assign);
    builder.done(name, action)
}

/// "case not … not true is any -> to 0".
fn not_subject() -> Nest {
    let mut builder = Builder::new();
    let truth = builder.truth();
    let subject = builder.wrap(truth, 4, |b, inside| b.push(16, inside, 0, 0));
    let (any, jump) = (builder.push(32, 0, 0, 0), builder.push(53, 0, 0, 0));
    let arm = builder.push(58, any, jump, NONE);
    let action = builder.push(56, subject, arm, 0);
    builder.done("not chain in a case", action)
}

/// The initial condition: an even number of nots around true.
fn not_condition() -> Nest {
    let mut builder = Builder::new();
    let jump = builder.push(53, 0, 0, 0);
    builder.draft.condition = builder.wrap(0, 0, |b, inside| {
        let not = b.push(16, inside, 0, 0);
        b.push(16, not, 0, 0)
    });
    builder.done(CONDITION, jump)
}

fn guarded(builder: &mut Builder, pattern: u16) -> u16 {
    let truth = builder.truth();
    builder.push(35, pattern, truth, 0)
}

/// "case true is ((any where true) where true) … -> to 0".
fn guards() -> Nest {
    let mut builder = Builder::new();
    let any = builder.push(32, 0, 0, 0);
    let pattern = builder.wrap(any, 4, guarded);
    let action = builder.case_of(pattern);
    builder.done("guards in a case", action)
}

/// "G ?((any where true) where true) …; to 0".
fn received_guards() -> Nest {
    let mut builder = Builder::new();
    let any = builder.push(32, 0, 0, 0);
    let pattern = builder.wrap(any, 4, guarded);
    let offer = builder.push(41, pattern, NONE, 0);
    let communicate = builder.push(52, 1, offer, 0);
    let action = builder.then_jump(communicate);
    builder.word(1);
    builder.done("guards in a receipt", action)
}

/// 64 fors, the most that distinct variables allow, around a nest of whiles.
fn fors() -> Nest {
    let mut builder = Builder::new();
    let jump = builder.push(53, 0, 0, 0);
    let whiles = builder.wrap(jump, 2 * 64, in_while);
    let action = (0..64).fold(whiles, |inside, v| {
        let range = builder.push(47, v, 0, 9);
        builder.push(60, range, inside, 0)
    });
    builder.done("64 fors around whiles", action)
}

fn in_while(builder: &mut Builder, inside: u16) -> u16 {
    let truth = builder.truth();
    builder.push(59, truth, inside, 0)
}

fn in_select(builder: &mut Builder, inside: u16) -> u16 {
    builder.word(0);
    let branch = builder.push(57, inside, NONE, 0);
    builder.push(55, branch, 0, 0)
}

fn in_case(builder: &mut Builder, inside: u16) -> u16 {
    let (subject, pattern) = (builder.truth(), builder.push(32, 0, 0, 0));
    let arm = builder.push(58, pattern, inside, NONE);
    builder.push(56, subject, arm, 0)
}

/// 64 branches, of which the last holds the nest.
fn in_last_branch(builder: &mut Builder, inside: u16) -> u16 {
    builder.word(63);
    let last = builder.push(57, inside, NONE, 0);
    let first = (0..63).fold(last, |next, _| {
        let null = builder.push(48, 0, 0, 0);
        builder.push(57, null, next, 0)
    });
    builder.push(55, first, 0, 0)
}

/// 64 arms over an int, of which the last takes everything and holds the nest.
fn in_last_arm(builder: &mut Builder, inside: u16) -> u16 {
    let any = builder.push(32, 1, 0, 0);
    let last = builder.push(58, any, inside, NONE);
    let first = (0..63).fold(last, |next, value| {
        let (pattern, null) = (builder.push(34, 1, value, 0), builder.push(48, 0, 0, 0));
        builder.push(58, pattern, null, next)
    });
    let subject = builder.push(2, 1, 99, 0);
    builder.push(56, subject, first, 0)
}

/// All of them, expressions first.
pub fn all() -> Vec<Nest> {
    vec![
        not_condition(),
        not_subject(),
        numbers("sum, nested left", |b, inside| {
            let one = b.push(2, 1, 1, 0);
            b.push(20, inside, one, 0)
        }),
        numbers("sum, nested right", |b, inside| {
            let one = b.push(2, 1, 1, 0);
            b.push(20, one, inside, 0)
        }),
        guards(),
        received_guards(),
        actions("then, nested left", |b, inside| {
            let null = b.push(48, 0, 0, 0);
            b.push(54, inside, null, 0)
        }),
        actions("then, nested right", |b, inside| {
            let null = b.push(48, 0, 0, 0);
            b.push(54, null, inside, 0)
        }),
        actions("select", in_select),
        actions("case", in_case),
        actions("while", in_while),
        fors(),
        actions("selects of 64 branches", in_last_branch),
        actions("cases of 64 arms", in_last_arm),
    ]
}
