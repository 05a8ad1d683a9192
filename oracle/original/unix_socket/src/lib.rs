//! kernel/unix_socket: lib.rs as it stands (`c65536`), and copies made at build time in which only the
//! capacity's value differs (`c1`, `c2`, `c8`).
#![no_std]

include!(concat!(env!("OUT_DIR"), "/original.rs"));
