//! kernel/vfs: readiness.rs as it stands, and a stand-in for the path type.
#![no_std]

extern crate alloc;

include!(concat!(env!("OUT_DIR"), "/original.rs"));

pub mod path {
    use alloc::vec::Vec;

    /// Stand-in: a resolved name is its bytes, and equal when they are equal.
    #[derive(Debug, Clone, PartialEq, Eq, PartialOrd, Ord)]
    pub struct AbsoluteOwnedPath(pub Vec<u8>);
}
