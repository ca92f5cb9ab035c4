//! Seeded images: right ones, near-misses of each rule, and damaged bytes.

mod actions;
mod damage;
mod deep;
mod edits;
mod expressions;
mod layout;
mod maker;
mod plan;
mod ring;

pub use layout::depth;
pub use plan::{Lean, Plan, Slip};

use crate::image::limits;
use crate::random::Random;
use layout::Shuffler;
use maker::Maker;

/// Makes the images of a seed one after another, in room that is used again.
pub struct Generator {
    maker: Maker,
    shuffler: Shuffler,
}

impl Default for Generator {
    fn default() -> Generator {
        let mut random = Random::new(0, 0);
        let plan = Plan::random(&mut random);
        Generator { maker: Maker::new(random, plan), shuffler: Shuffler::default() }
    }
}

impl Generator {
    /// The image of one case, in place of what `bytes` held.
    pub fn image(&mut self, random: &mut Random, bytes: &mut Vec<u8>) {
        match random.below(100) {
            0..=39 => self.automaton(random, bytes),
            40..=69 => self.slipped(random, bytes),
            70..=84 => self.edited(random, bytes),
            85..=94 => {
                self.automaton(random, bytes);
                damage::damage(bytes, random);
            }
            95 | 96 => damage::soup(bytes, random),
            97 if random.one_in(4) => self.ring(random, bytes),
            97 => self.edited(random, bytes),
            _ => damage::noise(bytes, random),
        }
    }

    /// An automaton laid out in some order, deep or of an exact size now and then.
    fn automaton(&mut self, random: &mut Random, bytes: &mut Vec<u8>) {
        let plan = Plan::random(random);
        self.draw(random, plan);
        self.maker.draft.lay_out(bytes);
    }

    /// An automaton with slips, tried until there was an occasion for one.
    fn slipped(&mut self, random: &mut Random, bytes: &mut Vec<u8>) {
        let slips = Slip::random(random);
        for _ in 0..4 {
            let mut plan = Plan { slips, ..Plan::random(random) };
            plan.rows = plan.rows.max(24);
            plan.variables = plan.variables.max(4);
            plan.gates = plan.gates.max(2);
            self.draw(random, plan);
            if self.maker.slipped {
                break;
            }
        }
        self.maker.draft.lay_out(bytes);
    }

    fn draw(&mut self, random: &mut Random, plan: Plan) {
        self.maker.make(random.clone(), plan);
        random.clone_from(&self.maker.random);
        match random.below(800) {
            0 => self.maker.deepen(*limits::ROWS.end()),
            1 => self.maker.deepen(random.within(1900, 2048)),
            2..=9 => self.maker.deepen(random.within(100, 500)),
            10 => self.pad(random, *limits::ROWS.end()),
            _ => {}
        }
        if random.one_in(2) {
            self.shuffler.shuffle(&mut self.maker.draft, random);
        }
    }

    fn pad(&mut self, random: &mut Random, rows: usize) {
        layout::pad(&mut self.maker.draft, rows, random);
    }

    /// States whose sets settle only after many rounds.
    fn ring(&mut self, random: &mut Random, bytes: &mut Vec<u8>) {
        let states = random.pick(&[2, 5, 17, 63, 64]);
        let (falling, wrong) = (random.one_in(2), random.one_in(2));
        self.maker.ring(random.clone(), states, falling, wrong);
        random.clone_from(&self.maker.random);
        self.maker.draft.lay_out(bytes);
    }

    /// A falling ring of 64 states padded to `rows` rows.
    pub fn slow(&mut self, random: &mut Random, rows: usize, bytes: &mut Vec<u8>) {
        self.maker.ring(random.clone(), 64, true, false);
        random.clone_from(&self.maker.random);
        self.pad(random, rows);
        self.maker.draft.lay_out(bytes);
    }

    fn edited(&mut self, random: &mut Random, bytes: &mut Vec<u8>) {
        let plan = Plan::random(random);
        self.draw(random, plan);
        for _ in 0..random.within(1, 2) {
            let usable = !self.maker.draft.rows.is_empty() && !self.maker.draft.states.is_empty();
            if usable && !self.maker.draft.types.is_empty() {
                edits::edit(&mut self.maker.draft, random);
            }
        }
        self.maker.draft.lay_out(bytes);
    }

    /// An automaton of a plan, padded to exactly `rows` rows if it has fewer.
    pub fn exact(&mut self, random: &mut Random, plan: Plan, rows: usize, bytes: &mut Vec<u8>) {
        self.maker.make(random.clone(), plan);
        random.clone_from(&self.maker.random);
        self.pad(random, rows);
        self.shuffler.shuffle(&mut self.maker.draft, random);
        self.maker.draft.lay_out(bytes);
    }
}
