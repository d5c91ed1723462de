//! The independent reference program of Rutlark.
//!
//! It follows the specification's page sentence by sentence and shares nothing with the proved
//! crates: where both give the same answer, two readings of that page agree. It is plain rather
//! than fast.
//!
//! Lists and positions count from one and items from zero, as on the page.

pub mod cases;
pub mod compare;
pub mod lists;
pub mod measured;
pub mod preview;
pub mod records;
pub mod searches;
