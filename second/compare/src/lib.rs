//! What holds an engine against second: inputs and states to put, second's calls in the header's terms, and calls that
//! are put to both and compared whole.

#![forbid(unsafe_code)]

pub mod again;
pub mod bytes;
pub mod calls;
pub mod deliveries;
pub mod inputs;
pub mod made_up;
pub mod met;
pub mod random;
pub mod terms;
pub mod told;

pub use calls::{Engine, Lent, Sides, FAST};
pub use deliveries::{Aim, Delivery, Market, AIMS};
pub use met::Met;
pub use random::Random;
