//! Stand-in for the crate `tracing`: nothing is traced.
#![no_std]

pub use tracing_attributes::instrument;

pub struct Level;

impl Level {
    pub const TRACE: Level = Level;
}
