//! Refusals 5–7: each row by itself, the rows named from outside, and namings.

use super::Refusal;
use crate::image::{limits, Image, Row, NONE};
use crate::reading::Reading;

/// What a code stands for (01, "The image"); a next field wants its own kind.
#[derive(Clone, Copy, PartialEq, Eq)]
enum Kind {
    Expression,
    Pattern,
    Offer,
    Gets,
    OfType,
    Named,
    Range,
    Action,
    Branch,
    Arm,
}

/// What later rows need to know of a row that is well formed.
#[derive(Clone, Copy)]
struct Formed {
    kind: Kind,
    /// Namings, counted to 255.
    named: u8,
    /// Rows of the list that starts here.
    length: u16,
}

/// The rows judged so far.
#[derive(Default)]
pub struct Forms {
    formed: Vec<Formed>,
    /// Length of the list that the row being judged continues.
    rest: u16,
}

impl Forms {
    pub fn clear(&mut self, rows: usize) {
        self.formed.clear();
        self.formed.reserve(rows);
    }

    /// The next row: false if it is malformed.
    pub fn add<R: Reading>(&mut self, image: &Image, row: Row) -> bool {
        self.rest = 0;
        let Some(kind) = self.form::<R>(image, row) else {
            return false;
        };
        let length = self.rest + 1;
        self.formed.push(Formed { kind, named: 0, length });
        true
    }

    /// The first of 6 and 7, once all rows are there.
    pub fn judge(&mut self, image: &Image) -> Result<(), Refusal> {
        self.name_from_outside(image)?;
        match self.formed.iter().position(|row| row.named != 1) {
            Some(r) => Err(Refusal::new(7, r)),
            None => Ok(()),
        }
    }

    /// The row's kind, if code, fields, children and lists are right.
    fn form<R: Reading>(&mut self, image: &Image, Row { code, a, b, c }: Row) -> Option<Kind> {
        use Kind::*;
        let (kind, right) = match code {
            1 => (Expression, variable(image, a) && b | c == 0),
            2 => (Expression, value(image, a, b) && c == 0),
            16 | 19 => (Expression, self.child(a, Expression) && b | c == 0),
            17 | 18 | 20..=27 => (Expression, self.both(a, Expression, b, Expression) && c == 0),
            32 => (Pattern, kind_exists(image, a) && b | c == 0),
            33 => (Pattern, variable(image, a) && b | c == 0),
            34 => (Pattern, value(image, a, b) && c == 0),
            35 => (Pattern, self.both(a, Pattern, b, Expression) && c == 0),
            40 => (Offer, self.child(a, Expression) && self.next(b, Offer) && c == 0),
            41 => (Offer, self.child(a, Pattern) && self.next(b, Offer) && c == 0),
            44 => (Gets, variable(image, a) && self.child(b, Expression) && self.next(c, Gets)),
            45 => (OfType, variable(image, a) && kind_exists(image, b) && self.next(c, OfType)),
            46 => (Named, variable(image, a) && self.next(b, Named) && c == 0),
            // The upper literal is at most 32,766, as a signed number.
            47 => (Range, variable(image, a) && c != 0x7FFF),
            48 => (Action, a | b | c == 0),
            49 => (Action, self.vector::<R>(a, Gets) && b | c == 0),
            50 => (Action, self.vector::<R>(a, OfType) && self.or_none(b, Expression) && c == 0),
            51 => (Action, self.vector::<R>(a, Named) && b | c == 0),
            52 => (Action, a < image.gates && self.offers::<R>(b) && c == 0),
            53 => (Action, usize::from(a) < image.states.len() && b | c == 0),
            54 => (Action, self.both(a, Action, b, Action) && c == 0),
            55 => (Action, self.branches(a, Branch) && b | c == 0),
            56 => (Action, self.child(a, Expression) && self.branches(b, Arm) && c == 0),
            57 => (Branch, self.child(a, Action) && self.next(b, Branch) && c == 0),
            58 => (Arm, self.both(a, Pattern, b, Action) && self.next(c, Arm)),
            59 => (Action, self.both(a, Expression, b, Action) && c == 0),
            60 => (Action, self.both(a, Range, b, Action) && c == 0),
            _ => return None,
        };
        right.then_some(kind)
    }

    /// A lower row of the kind, named once more.
    fn child(&mut self, row: u16, kind: Kind) -> bool {
        match self.formed.get_mut(usize::from(row)) {
            Some(child) if child.kind == kind => {
                child.named = child.named.saturating_add(1);
                true
            }
            _ => false,
        }
    }

    fn both(&mut self, a: u16, first: Kind, b: u16, second: Kind) -> bool {
        self.child(a, first) && self.child(b, second)
    }

    fn or_none(&mut self, row: u16, kind: Kind) -> bool {
        row == NONE || self.child(row, kind)
    }

    /// A next field: the row's list is one longer than the list it names.
    fn next(&mut self, row: u16, kind: Kind) -> bool {
        if row == NONE {
            return true;
        }
        let right = self.child(row, kind);
        if right {
            self.rest = self.formed[usize::from(row)].length;
        }
        right
    }

    /// A list at its owner: too long is a fault of the owner (01, "The image").
    fn list(&mut self, row: u16, kind: Kind, limit: u16) -> bool {
        self.child(row, kind) && self.formed[usize::from(row)].length <= limit
    }

    fn vector<R: Reading>(&mut self, row: u16, kind: Kind) -> bool {
        self.list(row, kind, vector_limit::<R>())
    }

    fn offers<R: Reading>(&mut self, row: u16) -> bool {
        row == NONE || self.list(row, Kind::Offer, vector_limit::<R>())
    }

    fn branches(&mut self, row: u16, kind: Kind) -> bool {
        row == NONE || self.list(row, kind, limits::BRANCHES)
    }

    /// States name actions, the trailer an expression, at place number of states.
    fn name_from_outside(&mut self, image: &Image) -> Result<(), Refusal> {
        let states = image.states.len();
        for state in 0..states {
            if !self.child(image.action(state), Kind::Action) {
                return Err(Refusal::new(6, state));
            }
        }
        match self.child(image.condition, Kind::Expression) {
            true => Ok(()),
            false => Err(Refusal::new(6, states)),
        }
    }
}

fn variable(image: &Image, variable: u16) -> bool {
    usize::from(variable) < image.variables.len()
}

fn kind_exists(image: &Image, kind: u16) -> bool {
    usize::from(kind) < image.types.len()
}

/// A constant's value lies in its type; every 16 bits are an int.
fn value(image: &Image, kind: u16, value: u16) -> bool {
    kind_exists(image, kind) && (kind == 1 || value < image.values(kind))
}

fn vector_limit<R: Reading>() -> u16 {
    limits::VECTOR + u16::from(R::LONGER_VECTORS)
}
