//! The calls of the table, by the safe face of host/, in the sequences that are timed.

use eidrovang::{Handle, Item, Shutdown, Table};

const NAME: &[u8] = b"/bench";

/// A table with connected pairs in it.
pub struct Sockets {
    pub table: Table<'static>,
    listener: Handle,
    pairs: Vec<(Handle, Handle)>,
}

impl Sockets {
    /// So many connected pairs, and the listener that they came by where it is `kept`.
    pub fn new(n: usize, c: usize, pairs: usize, kept: bool) -> Self {
        let mut table = Table::owned(n, c).expect("sizes in range");
        let listener = table.socket(1, 1, 0).expect("a slot");
        table.bind(listener, NAME).expect("a free name");
        table.listen(listener, 1024).expect("a bound socket");
        let mut all = Self { table, listener, pairs: Vec::new() };
        for _ in 0..pairs {
            let pair = all.connected();
            all.pairs.push(pair);
        }
        if !kept {
            all.close(listener);
        }
        all
    }

    fn connected(&mut self) -> (Handle, Handle) {
        let client = self.table.socket(1, 1, 0).expect("a slot");
        self.table.connect(client, NAME).expect("a listener");
        let server = self.table.accept(self.listener).expect("a pending server");
        (client, server)
    }

    fn close(&mut self, socket: Handle) {
        self.table.close(socket).expect("an open socket");
    }

    fn last(&self) -> (Handle, Handle) {
        *self.pairs.last().expect("a pair")
    }

    pub fn socket_and_close(&mut self) {
        let socket = self.table.socket(1, 1, 0).expect("a slot");
        self.close(socket);
    }

    pub fn bind_and_close(&mut self) {
        let socket = self.table.socket(1, 1, 0).expect("a slot");
        self.table.bind(socket, b"/other").expect("a free name");
        self.table.listen(socket, 1).expect("a bound socket");
        self.close(socket);
    }

    pub fn connect_and_close(&mut self) {
        let (client, server) = self.connected();
        self.close(client);
        self.close(server);
    }

    pub fn shutdown_and_close(&mut self) {
        let (client, server) = self.connected();
        self.table.shutdown(client, Shutdown::Both).expect("a connected socket");
        self.close(client);
        self.close(server);
    }

    pub fn message(&mut self, bytes: &[u8], items: &[Item], buf: &mut [u8]) {
        let (client, server) = self.last();
        let mut got = [Item(0); 16];
        let sent = self.table.sendmsg(client, bytes, items).expect("room");
        let received = self.table.recvmsg(server, buf, &mut got).expect("bytes");
        assert!(sent == bytes.len() && received.bytes == sent && received.items == items.len());
    }

    pub fn bytes(&mut self, bytes: &[u8], buf: &mut [u8]) {
        let (client, server) = self.last();
        let sent = self.table.write(client, bytes).expect("room");
        let read = self.table.read(server, buf).expect("bytes");
        assert!(sent == bytes.len() && read == sent);
    }

    pub fn readiness(&mut self) {
        std::hint::black_box(self.table.readiness(self.last().1).expect("an open socket"));
    }
}
