//! Refusal 9: binding (report, A.1; 01, "Binding"), and the masks it rests on.

use super::Refusal;
use crate::image::{Image, Row, NONE};
use crate::reading::Reading;

/// The variables of a row and of the rows below it.
#[derive(Clone, Copy, Default)]
pub struct Facts {
    /// Expressions, patterns and lists: use of A.1. A case's arms: their patterns'.
    pub uses: u64,
    /// Patterns and lists: def of A.1. Actions: all they define or reset.
    pub defines: u64,
    /// A list that its owner may not have.
    clash: bool,
}

/// The masks of the rows so far, and the lowest row whose rule fails.
#[derive(Default)]
pub struct Bindings {
    pub facts: Vec<Facts>,
    failing: Option<usize>,
}

impl Bindings {
    pub fn clear(&mut self, rows: usize) {
        self.facts.clear();
        self.facts.reserve(rows);
        self.failing = None;
    }

    pub fn add<R: Reading>(&mut self, image: &Image, row: Row) {
        let r = self.facts.len();
        let own = facts_of::<R>(&self.facts, row);
        // The initial condition reads parameters only, judged at its own row.
        let condition = r == usize::from(image.condition) && own.uses & !image.parameters != 0;
        if (condition || own.clash && is_owner(row.code)) && self.failing.is_none() {
            self.failing = Some(r);
        }
        self.facts.push(own);
    }

    pub fn judge(&self) -> Result<(), Refusal> {
        self.failing.map_or(Ok(()), |r| Err(Refusal::new(9, r)))
    }
}

/// The actions at which a clash below is refused (READINGS, "Typing and binding").
fn is_owner(code: u16) -> bool {
    matches!(code, 49..=52 | 60)
}

fn facts_of<R: Reading>(facts: &[Facts], Row { code, a, b, c }: Row) -> Facts {
    let none = Facts::default();
    let at = |row: u16| {
        if row == NONE {
            none
        } else {
            facts[usize::from(row)]
        }
    };
    match code {
        1 => Facts { uses: bit(a), ..none },
        33 | 47 => Facts { defines: bit(a), ..none },
        16 | 19 | 49 => at(a),
        17 | 18 | 20..=27 | 54 => union(at(a), at(b)),
        35 => guarded(at(a), at(b)),
        40 | 41 => offer::<R>(at(a), at(b)),
        44 => item(a, at(b).uses, at(c)),
        45 => item(a, 0, at(c)),
        46 => item(a, 0, at(b)),
        50 => Facts { uses: at(b).uses & !at(a).defines, ..at(a) },
        51 if R::FOR_MAY_RESET => Facts { defines: 0, ..at(a) },
        51 | 55 => at(a),
        52 => Facts { uses: at(b).uses & !at(b).defines, ..at(b) },
        56 => union(at(a), at(b)),
        57 => union(at(a), at(b)),
        58 => {
            union(at(a), Facts { uses: at(c).uses, defines: at(b).defines | at(c).defines, ..none })
        }
        59 => Facts { uses: at(a).uses, ..at(b) },
        60 => repeated(at(a), at(b)),
        _ => none,
    }
}

/// The mask of one variable.
fn bit(variable: u16) -> u64 {
    1 << variable
}

fn union(one: Facts, other: Facts) -> Facts {
    let uses = one.uses | other.uses;
    let defines = one.defines | other.defines;
    Facts { uses, defines, clash: false }
}

/// A.1: use(P where E) is use(E) without def(P), with use(P).
fn guarded(pattern: Facts, guard: Facts) -> Facts {
    let uses = guard.uses & !pattern.defines | pattern.uses;
    Facts { uses, ..pattern }
}

/// A vector's variables are pairwise distinct.
fn item(variable: u16, uses: u64, rest: Facts) -> Facts {
    Facts {
        uses: uses | rest.uses,
        defines: bit(variable) | rest.defines,
        clash: rest.clash || rest.defines & bit(variable) != 0,
    }
}

/// No two offers define a variable; none is used left of where it is defined.
fn offer<R: Reading>(own: Facts, rest: Facts) -> Facts {
    let early = if R::OFFERS_IN_ANY_ORDER { 0 } else { own.uses };
    let clash = rest.clash || rest.defines & (own.defines | early) != 0;
    Facts { clash, ..union(own, rest) }
}

/// The body of a for may not define or reset its variable (01, "Binding").
fn repeated(range: Facts, body: Facts) -> Facts {
    let clash = range.defines & body.defines != 0;
    Facts { uses: 0, defines: range.defines | body.defines, clash }
}
