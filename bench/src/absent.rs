//! In the place of the Rust original where it is not there: nothing is compared with it.

pub const THERE: bool = false;

pub struct Sockets;

impl Sockets {
    pub fn new(_pairs: usize, _kept: bool) -> Self {
        Self
    }

    pub fn socket_and_close(&self) {}
    pub fn bind_and_close(&self) {}
    pub fn connect_and_close(&self) {}
    pub fn shutdown_and_close(&self) {}
    pub fn message(&self, _bytes: &[u8], _items: &[u32], _buf: &mut [u8]) {}
    pub fn bytes(&self, _bytes: &[u8], _buf: &mut [u8]) {}
    pub fn readiness(&self) {}
}
