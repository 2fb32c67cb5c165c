//! A market of kiosks on real files, over a simulated radio: what is in a height, how it is played, checked, told and drawn.

pub mod breaker;
pub mod checks;
pub mod counts;
pub mod drawing;
pub mod height;
pub mod kiosk;
pub mod node;
pub mod page;
pub mod pen;
pub mod radio;
pub mod story;
pub mod told;
pub mod transcript;
pub mod words;
