//! The Rust original's sockets, in the same sequences of calls.

use std::sync::Arc;

use kernel_abi::socket::ShutdownHow;
use kernel_unix_socket::c65536::{Notify, Registry, UnixSocket};
use kernel_vfs::path::AbsoluteOwnedPath;

pub const THERE: bool = true;

/// A waiter that wakes nobody: what is timed is the sockets.
#[derive(Default)]
pub struct Nobody;

impl Notify for Nobody {
    fn notify_all(&self) {}
}

type Socket = Arc<UnixSocket<Nobody, u32>>;

pub struct Sockets {
    registry: &'static Registry<Nobody, u32>,
    name: AbsoluteOwnedPath,
    listener: Option<Socket>,
    pairs: Vec<(Socket, Socket)>,
}

impl Sockets {
    /// So many connected pairs, and the listener that they came by where it is `kept`.
    pub fn new(pairs: usize, kept: bool) -> Self {
        let registry: &'static Registry<Nobody, u32> = Box::leak(Box::new(Registry::new(Nobody)));
        let name = AbsoluteOwnedPath(b"/bench".to_vec());
        let listener = UnixSocket::new(registry);
        listener.bind(name.clone()).expect("a free name");
        listener.listen(1024).expect("a bound socket");
        let mut all = Self { registry, name, listener: Some(listener), pairs: Vec::new() };
        all.pairs = (0..pairs).map(|_| all.connected()).collect();
        if !kept {
            all.listener = None;
        }
        all
    }

    fn connected(&self) -> (Socket, Socket) {
        let client = UnixSocket::new(self.registry);
        client.try_connect(&self.name).expect("a listener");
        let server = self.listener.as_ref().expect("a listener").try_accept().expect("a pending server");
        (client, server)
    }

    fn last(&self) -> &(Socket, Socket) {
        self.pairs.last().expect("a pair")
    }

    pub fn socket_and_close(&self) {
        drop(std::hint::black_box(UnixSocket::new(self.registry)));
    }

    pub fn bind_and_close(&self) {
        let socket = UnixSocket::new(self.registry);
        socket.bind(AbsoluteOwnedPath(b"/other".to_vec())).expect("a free name");
        socket.listen(1).expect("a bound socket");
    }

    pub fn connect_and_close(&self) {
        let (client, server) = self.connected();
        drop(client);
        drop(server);
    }

    pub fn shutdown_and_close(&self) {
        let (client, server) = self.connected();
        client.shutdown(ShutdownHow::Both).expect("a connected socket");
        drop(client);
        drop(server);
    }

    pub fn message(&self, bytes: &[u8], items: &[u32], buf: &mut [u8]) {
        let (client, server) = self.last();
        let sent = client.try_sendmsg(bytes, items.to_vec()).expect("room");
        let (received, got) = server.try_recvmsg(buf).expect("bytes");
        assert!(sent == bytes.len() && received == sent && got.len() == items.len());
    }

    pub fn bytes(&self, bytes: &[u8], buf: &mut [u8]) {
        let (client, server) = self.last();
        let sent = client.try_write(bytes).expect("room");
        let read = server.try_read(buf).expect("bytes");
        assert!(sent == bytes.len() && read == sent);
    }

    pub fn readiness(&self) {
        std::hint::black_box(self.last().1.readiness());
    }
}
