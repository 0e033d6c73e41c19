//! Cases that aim at the thresholds: whole walls (`walls`) with liars that see everything (`liars`), single calls (`calls`) on any state (`states`) with anything
//! heard (`inboxes`), and at each of their boundaries (`boundaries`), and sheets that are refused (`refused`). A case is made from a seed. What it must answer,
//! the reference says.
pub mod boundaries;
pub mod calls;
mod inboxes;
mod liars;
#[cfg(feature = "archive")]
pub mod proved;
pub mod random;
pub mod records;
pub mod refused;
mod states;
mod values;
pub mod walls;
