//! Uploads (request 5): a set that arrives in parts is answered as judge answers for the joined
//! bytes, wherever it is cut.

mod cuts;
mod model;
mod random;
mod tally;
mod trial;

pub use cuts::{all as all_cuts, check as check_cut};
pub use random::check;
pub use tally::{Uploads, AROUND, CHANGES, CUTS, PARTS};
