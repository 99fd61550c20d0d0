//! "Numbering and recovery": the generator, the setup, and a recovery state with its steps.

mod generator;
mod marks;
mod setup;
mod state;
mod steps;

pub use generator::Generator;
pub use marks::Marks;
pub use setup::{
    full_ticks, Milliseconds, Setup, Ticks, INDIVIDUAL, LONGEST_HISTORY, MATCH, SEQUENCE, VECTOR,
};
pub use state::{Counters, State, Verdict};
