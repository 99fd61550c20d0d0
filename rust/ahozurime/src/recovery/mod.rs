//! Numbers for the frames that are sent, and for each stream that is received a state that lets each
//! number pass once.
//!
//! ```
//! use ahozurime::recovery::{Latent, Rule, Setup, State, Ticked, Usage, Verdict};
//! use ahozurime::{Milliseconds, Refusal, TicksPerSecond};
//!
//! let setup = Setup {
//!     rule: Rule::Vector,
//!     take_tagless: false,
//!     usage: Usage::Sequence,
//!     history: 4,
//!     timeout: Milliseconds(20),
//!     rate: TicksPerSecond(100),
//!     paths: 2,
//!     difference: 1,
//! };
//! let mut state = State::fresh(&setup)?;
//! for (number, verdict) in [
//!     (10, Verdict::Pass),
//!     (10, Verdict::Discard), // a repeat
//!     (12, Verdict::Pass),
//!     (11, Verdict::Pass),    // late
//!     (20, Verdict::Discard), // too far off: a rogue
//! ] {
//!     assert_eq!(state.numbered(number)?, verdict);
//! }
//! let counters = state.counters();
//! assert_eq!((counters.passed, counters.discarded), (3, 2));
//! assert_eq!((counters.order, counters.rogue, counters.lost), (2, 1, 2));
//! assert_eq!(state.latent_test()?, Latent::Ok);
//!
//! // 13 does not come. At 17 the window has left it, as it has left 7, 8 and 9, which never were.
//! for number in 14..=17 {
//!     assert_eq!(state.numbered(number)?, Verdict::Pass);
//! }
//! let counters = state.counters();
//! assert_eq!((counters.lost, counters.before_first), (4, 3));
//!
//! // Full ticks are 2: the second without a packet that passes times out.
//! assert_eq!(state.tick()?, Ticked::Tick);
//! assert_eq!(state.tick()?, Ticked::Reset);
//! assert!(state.take_any());
//! # Ok::<(), Refusal>(())
//! ```

mod generator;
mod setup;
mod state;

pub use generator::Generator;
pub use setup::{Rule, Setup, Usage};
pub use state::{Counters, Latent, State, Ticked, Verdict, MARK_WORDS, WORDS};
