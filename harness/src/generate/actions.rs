//! Actions, each with what holds at its end.

use super::maker::{Flow, Maker};
use super::plan::{Lean, Slip};
use crate::image::{limits, Row, NONE};

impl Maker {
    /// An action of about `budget` rows.
    pub fn action(&mut self, budget: usize, flow: Flow) -> (u16, Flow) {
        if budget < 4 {
            return self.short(budget, flow);
        }
        match self.choice(budget) {
            0..=4 => self.sequence(budget, flow),
            5 | 6 => self.select(budget, flow),
            7..=9 => self.case(budget, flow),
            10 => self.while_loop(budget, flow),
            11 => self.for_loop(budget, flow),
            _ if budget > 20 => self.sequence(budget, flow),
            _ => self.simple(flow),
        }
    }

    /// A number for the kind of action, bent the way the plan leans.
    fn choice(&mut self, budget: usize) -> usize {
        let even = self.random.below(16);
        match self.plan.lean {
            Lean::Sequences if even > 8 => self.random.pick(&[0, 0, 7]),
            Lean::Jumps if even > 8 => 5,
            Lean::Expressions if even > 4 => 12 * usize::from(budget < 60),
            _ => even,
        }
    }

    fn dead(&self, flow: Flow) -> Flow {
        Flow { set: self.all, quiet: false, spoken: false, ..flow }
    }

    /// One to three rows.
    fn short(&mut self, budget: usize, flow: Flow) -> (u16, Flow) {
        match self.random.below(8) {
            0 => (self.push(48, 0, 0, 0), flow),
            1..=3 if !flow.stay => (self.jump(flow), self.dead(flow)),
            4 => self.stop(flow),
            _ if budget > 1 => self.simple(flow),
            _ if flow.spoken => (self.push(48, 0, 0, 0), flow),
            _ => {
                let gate = self.random.below(self.plan.gates) as u16;
                (self.push(52, gate, NONE, 0), spoken(flow))
            }
        }
    }

    /// A select without branches or a case without arms: nothing follows it.
    fn stop(&mut self, flow: Flow) -> (u16, Flow) {
        let wrong = flow.spoken && self.slip(Slip::SpokenSelect);
        if !wrong && (flow.spoken || flow.stay) {
            return (self.push(48, 0, 0, 0), flow);
        }
        let row = match self.random.one_in(2) {
            true => self.push(55, NONE, 0, 0),
            false => {
                let kind = self.any_type();
                let subject = self.expression(kind, 1, flow.set);
                self.push(56, subject, NONE, 0)
            }
        };
        (row, self.dead(flow))
    }

    fn simple(&mut self, flow: Flow) -> (u16, Flow) {
        match self.random.below(10) {
            0 | 1 => self.reset(flow),
            2 | 3 => self.any(flow),
            4..=6 if !flow.spoken || self.slip(Slip::SpokenCommunicates) => {
                let (row, defined) = self.communication(flow.set);
                (row, spoken(flow).with(defined))
            }
            _ => self.assign(flow),
        }
    }

    /// Distinct variables for a vector, none of them of a for around.
    fn vector(&mut self) -> (usize, u64) {
        let base = self.lists.len();
        let mut count = match self.random.below(12) {
            0 => usize::from(limits::VECTOR),
            _ => self.random.within(1, 3),
        };
        if self.slip(Slip::LongVector) {
            count = usize::from(limits::VECTOR) + 1;
        }
        let mut chosen = 0;
        for _ in 0..count {
            let twice = chosen != 0 && self.slip(Slip::ItemTwice);
            let from = if twice { chosen } else { self.all & !chosen & !self.fors };
            let Some(v) = self.random.bit(from) else {
                break;
            };
            chosen |= 1 << v;
            self.lists.push([v, self.draft.variables[usize::from(v)].0, 0]);
        }
        (base, chosen)
    }

    fn assign(&mut self, flow: Flow) -> (u16, Flow) {
        let (base, chosen) = self.vector();
        if chosen == 0 {
            return (self.push(48, 0, 0, 0), flow);
        }
        for i in base..self.lists.len() {
            let own = self.lists[i][1];
            let kind = if self.slip(Slip::ItemType) { self.other_type(own) } else { own };
            let size = self.small();
            self.lists[i][2] = self.expression(kind, size, flow.set);
        }
        let first = self.link(base, |[v, _, value], next| Row::new(44, v, value, next));
        (self.push(49, first, 0, 0), flow.with(chosen))
    }

    fn any(&mut self, flow: Flow) -> (u16, Flow) {
        let (base, chosen) = self.vector();
        if chosen == 0 {
            return (self.push(48, 0, 0, 0), flow);
        }
        if self.slip(Slip::ItemType) {
            self.lists[base][1] = self.other_type(self.lists[base][1]);
        }
        let condition = match self.random.below(4) {
            0 if !flow.spoken => self.expression(0, 4, flow.set | chosen),
            _ if flow.spoken && self.slip(Slip::SpokenAny) => {
                self.expression(0, 3, flow.set | chosen)
            }
            1 => self.push(2, 0, 1, 0),
            _ => NONE,
        };
        let first = self.link(base, |[v, kind, _], next| Row::new(45, v, kind, next));
        (self.push(50, first, condition, 0), flow.with(chosen))
    }

    /// In a loop what is reset is set again, since a loop may lose nothing.
    fn reset(&mut self, flow: Flow) -> (u16, Flow) {
        let (base, chosen) = self.vector();
        if chosen == 0 {
            return (self.push(48, 0, 0, 0), flow);
        }
        let first = self.link(base, |[v, _, _], next| Row::new(46, v, next, 0));
        let row = self.push(51, first, 0, 0);
        let set = flow.set & !chosen;
        if self.loops > 0 && !self.slip(Slip::LoopReset) {
            let null = self.push(48, 0, 0, 0);
            let again = self.assign_then(chosen, set, null);
            return (self.push(54, row, again, 0), flow.with(chosen));
        }
        let known = if self.slip(Slip::ReadAfterReset) { flow.set } else { set };
        (row, Flow { set: known, ..flow })
    }

    fn sequence(&mut self, budget: usize, flow: Flow) -> (u16, Flow) {
        let first = self.random.below(budget);
        let (a, between) = self.action(first, Flow { stay: true, ..flow });
        let rest = (budget - 1).saturating_sub(first);
        let (b, end) = self.action(rest, Flow { stay: flow.stay, ..between });
        (self.push(54, a, b, 0), end)
    }

    /// How many branches or arms, the limits included where there is room.
    fn branches(&mut self, budget: usize) -> usize {
        let limit = usize::from(limits::BRANCHES);
        if self.slip(Slip::LongBranches) {
            return limit + 1;
        }
        match self.random.below(6) {
            0 if budget > 2 * limit => limit,
            0 if budget > 20 => self.random.within(4, budget / 5).min(limit),
            _ => self.random.within(1, 3),
        }
    }

    fn select(&mut self, budget: usize, flow: Flow) -> (u16, Flow) {
        let count = self.branches(budget);
        let base = self.lists.len();
        let mut end = self.dead(flow);
        for _ in 0..count {
            let (row, after) = self.action((budget / count).saturating_sub(1), flow);
            end = end.join(after);
            self.lists.push([row, 0, 0]);
        }
        let first = self.link(base, |[row, _, _], next| Row::new(57, row, next, 0));
        (self.push(55, first, 0, 0), end)
    }

    fn case(&mut self, budget: usize, flow: Flow) -> (u16, Flow) {
        let kind = if self.random.one_in(2) { 0 } else { self.any_type() };
        let size = self.small();
        let subject = self.expression(kind, size, flow.set);
        let values = usize::from(self.draft.types[usize::from(kind)]);
        let base = self.lists.len();
        let lacking = flow.spoken && self.slip(Slip::SpokenCase);
        let by_values = values > 0 && values <= 64 && values * 3 <= budget + 8;
        let end = match by_values && self.random.one_in(2) {
            true => self.arms_by_value(kind, values - usize::from(lacking), budget, flow),
            false => self.arms(kind, budget, flow, lacking),
        };
        let first = self.link(base, |[pattern, row, _], next| Row::new(58, pattern, row, next));
        (self.push(56, subject, first, 0), end)
    }

    /// An arm for each value, exhaustive.
    fn arms_by_value(&mut self, kind: u16, count: usize, budget: usize, flow: Flow) -> Flow {
        let mut end = self.dead(flow);
        for value in 0..count {
            let mut pattern = self.push(34, kind, value as u16, 0);
            if flow.spoken && self.slip(Slip::SpokenGuard) {
                pattern = self.guard(pattern, flow.set);
            }
            let (row, after) = self.action((budget / count).saturating_sub(2), flow);
            end = end.join(after);
            self.lists.push([pattern, row, 0]);
        }
        end
    }

    /// Arms of any patterns; the last one takes everything unless the case may block.
    fn arms(&mut self, kind: u16, budget: usize, flow: Flow, lacking: bool) -> Flow {
        let count = self.branches(budget);
        let open = !lacking && (flow.spoken || self.random.one_in(2));
        let mut end = self.dead(flow);
        for arm in 1..=count {
            let free = self.all & !self.fors;
            let own = if self.slip(Slip::ArmType) { self.other_type(kind) } else { kind };
            let (mut pattern, defined) = match open && arm == count {
                true => self.open_pattern(own, free),
                false => self.pattern(own, flow.set, free),
            };
            if open && arm == count && flow.spoken && self.slip(Slip::SpokenGuard) {
                pattern = self.guard(pattern, flow.set);
            }
            let each = (budget / count).saturating_sub(2);
            let (row, after) = self.action(each, flow.with(defined));
            end = end.join(after);
            self.lists.push([pattern, row, 0]);
        }
        end
    }

    /// A loop's body: entered quiet only, it doesn't end spoken.
    fn body(&mut self, budget: usize, flow: Flow) -> u16 {
        self.loops += 1;
        let (row, end) = self.action(budget, Flow { stay: false, ..flow });
        let ends = end.spoken && !flow.spoken && !self.slip(Slip::LoopEndsSpoken);
        let row = if ends { self.then_jump(row, end) } else { row };
        self.loops -= 1;
        row
    }

    fn while_loop(&mut self, budget: usize, flow: Flow) -> (u16, Flow) {
        if flow.spoken && !self.slip(Slip::SpokenWhile) {
            return self.sequence(budget, flow);
        }
        let size = self.small();
        let condition = self.expression(0, size, flow.set);
        let inside = Flow { quiet: true, spoken: false, ..flow };
        let body = self.body(budget.saturating_sub(2), inside);
        (self.push(59, condition, body, 0), flow)
    }

    fn for_loop(&mut self, budget: usize, flow: Flow) -> (u16, Flow) {
        let kind = if self.slip(Slip::RangeType) { self.other_type(1) } else { 1 };
        let free = self.of_type[usize::from(kind)] & !self.fors;
        let Some(v) = self.random.bit(free) else {
            return self.sequence(budget, flow);
        };
        let low = self.random.pick(&[0, 1, 3, 0x7FFF, 0x8000, 0xFFFF]);
        let high = match self.slip(Slip::UpperLiteral) {
            true => 0x7FFF,
            false => self.random.pick(&[0, 2, 9, 0x7FFE, 0x8000, 0xFFFF]),
        };
        let range = self.push(47, v, low, high);
        let around = self.fors;
        let touched = self.slip(Slip::ForTouched);
        if !touched {
            self.fors |= 1 << v;
        }
        let inside = flow.with(1 << v);
        let mut body = self.body(budget.saturating_sub(2), inside);
        if touched {
            let touch = self.touch(v);
            body = self.push(54, body, touch, 0);
        }
        self.fors = around;
        (self.push(60, range, body, 0), inside)
    }
}

impl Maker {
    /// What the body of a for over this variable may not hold.
    fn touch(&mut self, v: u16) -> u16 {
        match self.random.below(4) {
            0 => {
                let item = self.push(46, v, NONE, 0);
                self.push(51, item, 0, 0)
            }
            1 => {
                let item = self.push(45, v, self.draft.variables[usize::from(v)].0, NONE);
                self.push(50, item, NONE, 0)
            }
            2 => {
                let (range, null) = (self.push(47, v, 0, 1), self.push(48, 0, 0, 0));
                self.push(60, range, null, 0)
            }
            _ => self.push(48, 0, 0, 0),
        }
    }
}

/// After a communication.
fn spoken(flow: Flow) -> Flow {
    let live = flow.is_live();
    Flow { quiet: false, spoken: live, ..flow }
}
