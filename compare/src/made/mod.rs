//! What the comparison is run on: seeded lists, runs of another cutter, bad records and damaged texts.

pub mod cutter;
pub mod damage;
pub mod lists;
pub mod rng;
