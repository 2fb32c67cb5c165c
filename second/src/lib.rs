//! A second, independent program for one kiosk, one height and one journal,
//! written in terms of sets of messages: who said what in which round.

#![forbid(unsafe_code)]

mod again;
mod calls;
mod journal;
mod kiosk;
mod listing;
mod messages;
mod opening;
mod records;
mod refusals;
mod rules;
mod state;
pub mod weighing;

pub use calls::{create, last, open, put, put_traced, say_again, Created, Reply};
pub use journal::roomy;
pub use listing::listing;
pub use records::{Input, Output};
pub use state::{Heard, Held, Phase, State, Step, MAX_POWER, ROUNDS, SEATS, TABLE};
