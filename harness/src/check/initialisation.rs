//! Refusal 11 and the sets (report, Figures 7 and 8; 01, "Initialisation").
//!
//! What Figure 7 does to a set it does to each variable by itself, and never the
//! other way round. So a set anywhere in a state's action is known from two runs:
//! one with the state entered with no variable, and one with all of them.

use super::{first_state, Reading, Sets, FIRST_ACTION};
use crate::image::{Image, Row, NONE};
use crate::valid::{Facts, Refusal};

/// A set that depends on another one: what it is from none and from all variables.
#[derive(Clone, Copy, Default)]
struct Span {
    none: u64,
    all: u64,
}

impl Span {
    /// The set when the other one is `set`.
    fn from(self, set: u64) -> u64 {
        self.none | set & self.all
    }

    fn then(self, later: Span) -> Span {
        let none = later.from(self.none);
        let all = later.from(self.all);
        Span { none, all }
    }

    fn with(self, more: u64) -> Span {
        Span { none: self.none | more, all: self.all | more }
    }

    fn meet(self, other: Span) -> Span {
        Span { none: self.none & other.none, all: self.all & other.all }
    }
}

/// A `to` row: the set it jumps with, in terms of its state's set.
struct Jump {
    target: u16,
    span: Span,
    /// The state's next jump; NONE after the last.
    next: u16,
}

/// What a state wants of its own set.
#[derive(Clone, Copy)]
struct Demand {
    /// Variables that must be in the set.
    wanted: u64,
    /// Variables that err if they are in it: a loop loses them, or a reset before
    /// they are read. Out of it they err too if they are also wanted.
    unwanted: u64,
    first_jump: u16,
}

const IDLE: Demand = Demand { wanted: 0, unwanted: 0, first_jump: NONE };

/// What the end of an action, branch or arm has, in terms of its beginning; other
/// rows' entries are unused.
#[derive(Default)]
pub struct Ends(Vec<Span>);

impl Ends {
    pub fn make_room(&mut self, rows: usize) {
        self.0.resize(rows.max(self.0.len()), Span::default());
    }

    /// after[none] of Figure 7; a list's rows meet what follows them in the list.
    pub fn put<R: Reading>(&mut self, image: &Image, facts: &[Facts], r: usize, row: Row) {
        let Row { code, a, b, c } = row;
        let same = Span { none: 0, all: image.all };
        let dead = Span { none: image.all, ..same };
        let defines = |row: u16| facts[usize::from(row)].defines;
        let end = |row: u16| {
            if row == NONE {
                dead
            } else {
                self.0[usize::from(row)]
            }
        };
        let own = match code {
            49 | 50 => same.with(defines(a)),
            51 => Span { none: 0, all: image.all & !defines(a) },
            52 if b != NONE => same.with(defines(b)),
            53 if R::JUMP_KEEPS_ITS_SET => same,
            53 => dead,
            54 => end(a).then(end(b)),
            55 => end(a),
            56 => end(b),
            57 => end(a).meet(end(b)),
            58 => same.with(defines(a)).then(end(b)).meet(end(c)),
            59 if R::WHILE_ADDS_ITS_BODY => end(b),
            // A for is its expansion: its variable is set even after no round.
            60 => same.with(defines(a)),
            _ => same,
        };
        self.0[r] = own;
    }

    fn of(&self, row: u16) -> Span {
        self.0[usize::from(row)]
    }
}

/// The way down from the states' actions.
pub struct Walk {
    /// Per row: what it is entered with, in terms of its state's set, and the state.
    entries: Vec<(Span, u8)>,
    demands: [Demand; 64],
    jumps: Vec<Jump>,
}

impl Default for Walk {
    fn default() -> Walk {
        Walk { entries: Vec::new(), demands: [IDLE; 64], jumps: Vec::new() }
    }
}

impl Walk {
    /// The finished sets, or the lowest state that errs with them.
    pub fn judge<R: Reading>(
        &mut self,
        image: &Image,
        facts: &[Facts],
        ends: &Ends,
    ) -> Result<Sets, Refusal> {
        self.enter_states(image);
        for r in (0..image.rows.len()).rev() {
            let row = image.row(r);
            if row.code >= FIRST_ACTION {
                self.visit(facts, ends, r, row);
            }
        }
        let (masks, reached) = self.solve::<R>(image);
        first_state::<R>(image, 11, |state| {
            let demand = self.demands[state];
            let errs = demand.wanted & !masks[state] | demand.unwanted & masks[state];
            errs != 0 && (reached >> state & 1 != 0 || R::UNREACHED_IS_JUDGED)
        })?;
        Ok(Sets { masks, states: image.states.len() })
    }

    fn enter_states(&mut self, image: &Image) {
        self.jumps.clear();
        // Old entries may stay: every action row is entered before it is visited.
        let rows = image.rows.len().max(self.entries.len());
        self.entries.resize(rows, (Span::default(), 0));
        let same = Span { none: 0, all: image.all };
        for state in 0..image.states.len() {
            self.demands[state] = IDLE;
            self.enter(image.action(state), same, state as u8);
        }
    }

    fn enter(&mut self, row: u16, span: Span, state: u8) {
        if row != NONE {
            self.entries[usize::from(row)] = (span, state);
        }
    }

    /// Enters the rows below, notes what the row wants and where it jumps to.
    fn visit(&mut self, facts: &[Facts], ends: &Ends, r: usize, row: Row) {
        let Row { code, a, b, c } = row;
        let (span, state) = self.entries[r];
        match code {
            49 | 50 | 52 => self.want(facts[r].uses, span, state),
            53 => self.jump(a, span, state),
            54 => {
                self.enter(a, span, state);
                self.enter(b, span.then(ends.of(a)), state);
            }
            55 => self.enter(a, span, state),
            56 => {
                self.want(facts[r].uses, span, state);
                self.enter(b, span, state);
            }
            57 => {
                self.enter(a, span, state);
                self.enter(b, span, state);
            }
            58 => {
                self.enter(b, span.with(facts[usize::from(a)].defines), state);
                self.enter(c, span, state);
            }
            59 => {
                self.want(facts[r].uses, span, state);
                self.repeat(b, ends.of(b), span, 0, state);
            }
            60 => {
                let stepped = facts[usize::from(a)].defines;
                self.repeat(b, ends.of(b), span, stepped, state);
            }
            _ => {}
        }
    }

    /// Figure 7: what is used must be in the set here.
    fn want(&mut self, uses: u64, span: Span, state: u8) {
        let demand = &mut self.demands[usize::from(state)];
        demand.wanted |= uses & !span.none;
        demand.unwanted |= uses & !span.all;
    }

    /// A loop's body, which may lose nothing of the set the loop is entered with;
    /// `stepped` is the variable that a for's expansion assigns before and after it.
    fn repeat(&mut self, body: u16, end: Span, span: Span, stepped: u64, state: u8) {
        let before = span.with(stepped);
        let after = before.then(end).with(stepped);
        self.enter(body, before, state);
        let demand = &mut self.demands[usize::from(state)];
        demand.wanted |= before.none & !after.none;
        demand.unwanted |= before.all & !after.all;
    }

    fn jump(&mut self, target: u16, span: Span, state: u8) {
        let demand = &mut self.demands[usize::from(state)];
        let next = demand.first_jump;
        demand.first_jump = self.jumps.len() as u16;
        self.jumps.push(Jump { target, span, next });
    }

    /// Figure 8: the largest sets that fit, and the mask of the states reached.
    fn solve<R: Reading>(&self, image: &Image) -> ([u64; 64], u64) {
        let mut masks = [if R::UNREACHED_HAS_NONE { 0 } else { image.all }; 64];
        masks[0] = image.parameters;
        let mut reached = 1u64;
        let mut visited = 1u64;
        while visited != 0 {
            let state = visited.trailing_zeros() as usize;
            visited &= visited - 1;
            let mut next = self.demands[state].first_jump;
            while let Some(jump) = self.jumps.get(usize::from(next)) {
                let target = usize::from(jump.target);
                let fresh = reached >> target & 1 == 0;
                let old = if fresh { image.all } else { masks[target] };
                masks[target] = old & jump.span.from(masks[state]);
                if fresh || masks[target] != old {
                    visited |= 1 << target;
                    reached |= 1 << target;
                }
                next = jump.next;
            }
        }
        (masks, reached)
    }
}
