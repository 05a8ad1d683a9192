//! kernel/abi: errno.rs and socket.rs as they stand, and a stand-in for `PollEvents`.
#![no_std]

include!(concat!(env!("OUT_DIR"), "/original.rs"));

/// Stand-in: the three bits that readiness.rs names.
#[derive(Debug, Clone, Copy, PartialEq, Eq)]
pub struct PollEvents(u16);

impl PollEvents {
    pub const IN: Self = Self(1);
    pub const OUT: Self = Self(4);
    pub const HUP: Self = Self(16);

    pub const fn empty() -> Self {
        Self(0)
    }

    pub const fn contains(self, other: Self) -> bool {
        self.0 & other.0 == other.0
    }
}

impl core::ops::BitOrAssign for PollEvents {
    fn bitor_assign(&mut self, other: Self) {
        self.0 |= other.0;
    }
}
