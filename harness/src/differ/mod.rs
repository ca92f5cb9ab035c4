//! Two sides on the same cases: the answers and every lent byte are compared.

mod buffers;
mod chain;
mod inputs;
mod report;
mod runs;
mod sets;
mod table;

pub use inputs::{word, Learner};
pub use report::decoded;
pub use runs::{compare_runs, Trouble};
pub use sets::{compare, states, Difference, Tally, FULL};
pub use table::{RunTally, FULL_RUNS};
