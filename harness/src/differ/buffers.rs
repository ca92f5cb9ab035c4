//! One call's input, both sides' copies of what is lent, and the comparison.

use super::report::{decoded, hex};
use crate::calls::Calls;
use crate::valid::Rows;

/// Room for one call, used again.
#[derive(Default)]
pub struct Buffers {
    pub state: u32,
    pub budget: u32,
    pub params: Vec<u8>,
    pub store: Vec<u8>,
    pub script: Vec<u8>,
    pub label: Vec<u8>,
    /// What 1–9 know of the image's rows, for runs to learn from.
    pub judged: Rows,
    kept: Vec<u8>,
    stores: [Vec<u8>; 2],
    labels: [Vec<u8>; 2],
}

impl Buffers {
    /// The start that both sides agree on, or what they don't.
    pub fn start(&mut self, image: &[u8], sides: [Calls; 2]) -> Result<u64, String> {
        self.lend();
        self.kept.clone_from(&self.params);
        let [left, right] = &mut self.stores;
        let answers = [
            (sides[0].start)(image, &self.params, left),
            (sides[1].start)(image, &self.kept, right),
        ];
        self.judge("start", answers, self.kept == self.params)
    }

    /// The step that both sides agree on, or what they don't.
    pub fn step(&mut self, image: &[u8], sides: [Calls; 2]) -> Result<u64, String> {
        self.lend();
        self.kept.clone_from(&self.script);
        let (state, budget) = (self.state, self.budget);
        let ([left, right], [one, other]) = (&mut self.stores, &mut self.labels);
        let answers = [
            (sides[0].step)(image, state, left, &self.script, budget, one),
            (sides[1].step)(image, state, right, &self.kept, budget, other),
        ];
        self.judge("step", answers, self.kept == self.script)
    }

    /// The store after the last call, as both sides left it.
    pub fn take_store(&mut self) {
        std::mem::swap(&mut self.store, &mut self.stores[0]);
    }

    fn lend(&mut self) {
        self.stores.iter_mut().for_each(|copy| copy.clone_from(&self.store));
        self.labels.iter_mut().for_each(|copy| copy.clone_from(&self.label));
    }

    fn judge(&self, call: &str, answers: [u64; 2], read_only: bool) -> Result<u64, String> {
        let [left, right] = &self.stores;
        let [one, other] = &self.labels;
        let same = answers[0] == answers[1] && left == right && one == other;
        // A refusal changes no byte (01, "Numbers given instead").
        let kept = answers[0] & 0xFF == 0 || *left == self.store && *one == self.label;
        match same && kept && read_only {
            true => Ok(answers[0]),
            false => Err(self.told(call, answers)),
        }
    }

    /// The whole call as text, once something is wrong with it.
    #[cold]
    pub fn told(&self, call: &str, answers: [u64; 2]) -> String {
        let [left, right] = &self.stores;
        let [one, other] = &self.labels;
        let mut text = format!(
            "{call}, state {}, budget {}\nlibrary: {}\nRust: {}\n",
            self.state,
            self.budget,
            decoded(answers[0]),
            decoded(answers[1])
        );
        for (name, bytes) in [
            ("params", &self.params),
            ("script", &self.script),
            ("store before", &self.store),
            ("store by the library", left),
            ("store by Rust", right),
            ("label before", &self.label),
            ("label by the library", one),
            ("label by Rust", other),
        ] {
            text += &format!("{name} ({} bytes):\n{}", bytes.len(), hex(bytes));
        }
        text
    }
}
