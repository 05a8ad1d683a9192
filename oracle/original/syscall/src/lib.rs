//! kernel/syscall: socket.rs and access/socket.rs as they stand, and a stand-in for `CwdAccess`.
#![no_std]

extern crate alloc;

include!(concat!(env!("OUT_DIR"), "/original.rs"));

/// Stand-in: names reach the table resolved.
pub trait CwdAccess {
    fn resolve(&self, path: &str) -> kernel_vfs::path::AbsoluteOwnedPath;
}
