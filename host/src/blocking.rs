//! A host in small: one lock around the table, a condition variable for each handle and one for the
//! registry, and calls that wait. It shows all that a kernel does around the table.
//!
//! - A caller that is told [`Errno::Again`] is registered as a sleeper before the lock is given back.
//! - Every call passes its wakes on. A wake for a socket that this host has not been given yet is a
//!   pending server's: nobody can sleep on it.
//! - The table does not wake those who sleep on a handle that is closed under them: the host does. Likewise those who
//!   sleep in connect on a socket that another thread binds or connects.

use std::collections::HashMap;
use std::sync::{Arc, Condvar, Mutex, MutexGuard};

use crate::{Errno, Handle, Item, Readiness, Received, Shutdown, Table};

/// What a sleeper waits for.
#[derive(Clone, Copy, Debug, PartialEq, Eq)]
pub enum Waits {
    /// Room in a listener's queue.
    Connect,
    /// A connection.
    Accept,
    /// Bytes.
    Read,
    /// Room in the peer's inbox.
    Write,
}

struct Sleeper {
    handle: Handle,
    waits: Waits,
    /// Whom it connects to.
    name: Vec<u8>,
    woken: bool,
}

struct State {
    table: Table<'static>,
    /// One condition variable for each handle that was given out.
    sockets: HashMap<Handle, Arc<Condvar>>,
    sleepers: HashMap<u64, Sleeper>,
    next_sleeper: u64,
    releases: Vec<Item>,
}

/// A table with a lock, and calls that wait.
pub struct Host {
    state: Mutex<State>,
    registry: Condvar,
}

impl Host {
    /// A host with a fresh table of `n` slots and inboxes of `c` bytes.
    ///
    /// # Errors
    /// [`Errno::Invalid`] where `n` or `c` is out of range.
    pub fn new(n: usize, c: usize) -> Result<Self, Errno> {
        let state = State {
            table: Table::owned(n, c)?,
            sockets: HashMap::new(),
            sleepers: HashMap::new(),
            next_sleeper: 0,
            releases: Vec::new(),
        };
        Ok(Self { state: Mutex::new(state), registry: Condvar::new() })
    }

    fn lock(&self) -> MutexGuard<'_, State> {
        self.state.lock().expect("no caller panics with the lock")
    }

    /// One call on the table; its wakes are passed on and its releases kept.
    fn call<T>(&self, state: &mut State, f: impl FnOnce(&mut Table<'static>) -> Result<T, Errno>) -> Result<T, Errno> {
        let answer = f(&mut state.table);
        let State { table, sockets, sleepers, releases, .. } = state;
        releases.extend_from_slice(table.releases());
        for wake in table.wakes() {
            match wake.handle() {
                None => self.registry.notify_all(),
                Some(handle) => {
                    if let Some(socket) = sockets.get(&handle) {
                        socket.notify_all();
                    }
                }
            }
            for sleeper in sleepers.values_mut() {
                let on = if sleeper.waits == Waits::Connect { None } else { Some(sleeper.handle) };
                sleeper.woken |= on == wake.handle();
            }
        }
        answer
    }

    /// Calls until the answer is not [`Errno::Again`], asleep in between.
    fn wait<T>(
        &self,
        waits: Waits,
        handle: Handle,
        f: impl FnMut(&mut Table<'static>) -> Result<T, Errno>,
    ) -> Result<T, Errno> {
        self.wait_locked(waits, handle, &[], f).0
    }

    /// The same, and the lock is still held.
    fn wait_locked<T>(
        &self,
        waits: Waits,
        handle: Handle,
        name: &[u8],
        mut f: impl FnMut(&mut Table<'static>) -> Result<T, Errno>,
    ) -> (Result<T, Errno>, MutexGuard<'_, State>) {
        let mut state = self.lock();
        loop {
            let answer = self.call(&mut state, &mut f);
            if !matches!(answer, Err(Errno::Again)) {
                return (answer, state);
            }
            let id = state.next_sleeper;
            state.next_sleeper += 1;
            state.sleepers.insert(id, Sleeper { handle, waits, name: name.into(), woken: false });
            state = match (waits, state.sockets.get(&handle).cloned()) {
                (Waits::Connect, _) => self.registry.wait(state),
                (_, Some(socket)) => socket.wait(state),
                (_, None) => unreachable!("the table takes only handles that were given out"),
            }
            .expect("no caller panics with the lock");
            state.sleepers.remove(&id);
        }
    }

    fn given(&self, f: impl FnOnce(&mut Table<'static>) -> Result<Handle, Errno>) -> Result<Handle, Errno> {
        let mut state = self.lock();
        let handle = self.call(&mut state, f)?;
        state.sockets.insert(handle, Arc::new(Condvar::new()));
        Ok(handle)
    }

    /// [`Table::socket`].
    ///
    /// # Errors
    /// As there.
    pub fn socket(&self) -> Result<Handle, Errno> {
        self.given(|t| t.socket(1, 1, 0))
    }

    /// [`Table::bind`].
    ///
    /// # Errors
    /// As there.
    pub fn bind(&self, socket: Handle, name: &[u8]) -> Result<(), Errno> {
        let mut state = self.lock();
        self.call(&mut state, |t| t.bind(socket, name))?;
        self.wake_connecting(&mut state, socket);
        Ok(())
    }

    /// [`Table::listen`].
    ///
    /// # Errors
    /// As there.
    pub fn listen(&self, socket: Handle, backlog: u32) -> Result<(), Errno> {
        self.call(&mut self.lock(), |t| t.listen(socket, backlog))
    }

    /// [`Table::accept`], waiting for a connection.
    ///
    /// # Errors
    /// As there, but for [`Errno::Again`].
    pub fn accept(&self, socket: Handle) -> Result<Handle, Errno> {
        let (server, mut state) = self.wait_locked(Waits::Accept, socket, &[], |t| t.accept(socket));
        if let Ok(server) = server {
            state.sockets.insert(server, Arc::new(Condvar::new()));
        }
        server
    }

    /// [`Table::connect`], waiting while the listener's queue is full.
    ///
    /// # Errors
    /// As there, but for [`Errno::Again`].
    pub fn connect(&self, socket: Handle, name: &[u8]) -> Result<(), Errno> {
        let (answer, mut state) = self.wait_locked(Waits::Connect, socket, name, |t| t.connect(socket, name));
        if answer.is_ok() {
            self.wake_connecting(&mut state, socket);
        }
        answer
    }

    /// [`Table::read`], waiting for bytes.
    ///
    /// # Errors
    /// As there, but for [`Errno::Again`].
    pub fn read(&self, socket: Handle, buf: &mut [u8]) -> Result<usize, Errno> {
        self.wait(Waits::Read, socket, |t| t.read(socket, buf))
    }

    /// [`Table::recvmsg`], waiting for bytes.
    ///
    /// # Errors
    /// As there, but for [`Errno::Again`].
    pub fn recvmsg(&self, socket: Handle, buf: &mut [u8], items: &mut [Item]) -> Result<Received, Errno> {
        self.wait(Waits::Read, socket, |t| t.recvmsg(socket, buf, items))
    }

    /// [`Table::write`], waiting for room.
    ///
    /// # Errors
    /// As there, but for [`Errno::Again`].
    pub fn write(&self, socket: Handle, buf: &[u8]) -> Result<usize, Errno> {
        self.wait(Waits::Write, socket, |t| t.write(socket, buf))
    }

    /// [`Table::sendmsg`], waiting for room.
    ///
    /// # Errors
    /// As there, but for [`Errno::Again`].
    pub fn sendmsg(&self, socket: Handle, buf: &[u8], items: &[Item]) -> Result<usize, Errno> {
        self.wait(Waits::Write, socket, |t| t.sendmsg(socket, buf, items))
    }

    /// [`Table::shutdown`].
    ///
    /// # Errors
    /// As there.
    pub fn shutdown(&self, socket: Handle, how: Shutdown) -> Result<(), Errno> {
        self.call(&mut self.lock(), |t| t.shutdown(socket, how))
    }

    /// [`Table::readiness`].
    ///
    /// # Errors
    /// As there.
    pub fn readiness(&self, socket: Handle) -> Result<Readiness, Errno> {
        self.call(&mut self.lock(), |t| t.readiness(socket))
    }

    /// [`Table::close`]. Whoever sleeps on the handle wakes up and is told [`Errno::BadHandle`].
    ///
    /// # Errors
    /// As there.
    pub fn close(&self, socket: Handle) -> Result<(), Errno> {
        let mut state = self.lock();
        self.call(&mut state, |t| t.close(socket))?;
        if let Some(sleepers) = state.sockets.remove(&socket) {
            sleepers.notify_all();
            let on_it = |s: &&mut Sleeper| s.handle == socket && s.waits != Waits::Connect;
            state.sleepers.values_mut().filter(on_it).for_each(|s| s.woken = true);
        }
        self.wake_connecting(&mut state, socket);
        Ok(())
    }

    /// Wakes the other threads that sleep in connect on this socket: they sleep on the registry, and what changed is
    /// the socket.
    fn wake_connecting(&self, state: &mut State, socket: Handle) {
        for sleeper in state.sleepers.values_mut() {
            if sleeper.handle == socket && sleeper.waits == Waits::Connect {
                sleeper.woken = true;
                self.registry.notify_all();
            }
        }
    }

    /// The handles that were given out and are not closed.
    pub fn handles(&self) -> Vec<Handle> {
        let mut handles: Vec<Handle> = self.lock().sockets.keys().copied().collect();
        handles.sort();
        handles
    }

    /// The items that came back since this was last asked, in order.
    pub fn take_releases(&self) -> Vec<Item> {
        std::mem::take(&mut self.lock().releases)
    }

    /// Sleepers whom nobody has woken although their call would be answered otherwise. There are none:
    /// this is what a test asks.
    pub fn asleep_beside_work(&self) -> Vec<String> {
        let mut state = self.lock();
        let State { table, sleepers, .. } = &mut *state;
        // Connects are tried on a copy, and a refused one leaves it as it is.
        let mut copy = None;
        let mut beside = Vec::new();
        for sleeper in sleepers.values().filter(|s| !s.woken) {
            let Sleeper { handle, waits, name, .. } = sleeper;
            let Ok(ready) = table.readiness(*handle) else {
                beside.push(format!("{handle} sleeps in {waits:?}, and is closed"));
                continue;
            };
            let work = match waits {
                Waits::Accept | Waits::Read => ready.readable,
                Waits::Write => ready.writable || ready.hung_up,
                Waits::Connect => {
                    copy.get_or_insert_with(|| table.duplicate()).connect(*handle, name) != Err(Errno::Again)
                }
            };
            if work {
                beside.push(format!("{handle} sleeps in {waits:?} beside work, {ready:?}"));
            }
        }
        beside
    }

    /// The table as a text: every handle with its readiness, and who sleeps on it.
    pub fn print(&self) -> String {
        let handles = self.handles();
        let mut state = self.lock();
        let mut text = String::new();
        for handle in handles {
            let ready = state.table.readiness(handle);
            let asleep: Vec<Waits> = state.sleepers.values().filter(|s| s.handle == handle).map(|s| s.waits).collect();
            text += &format!("{handle}: {ready:?}, asleep {asleep:?}\n");
        }
        text
    }
}

#[cfg(test)]
mod tests {
    use super::*;

    /// Puts a sleeper beside what it waits for, as a host would that loses a wake.
    fn beside(host: &Host, handle: Handle, waits: Waits) -> usize {
        let sleeper = Sleeper { handle, waits, name: b"/a".into(), woken: false };
        host.lock().sleepers.insert(0, sleeper);
        let found = host.asleep_beside_work().len();
        host.lock().sleepers.clear();
        found
    }

    #[test]
    fn the_watchdog_sees_a_lost_wake() {
        let host = Host::new(6, 1).unwrap();
        let [listener, client, other] = [(); 3].map(|()| host.socket().unwrap());
        host.bind(listener, b"/a").unwrap();
        host.listen(listener, 1).unwrap();
        assert_eq!(beside(&host, listener, Waits::Accept), 0);
        assert_eq!(beside(&host, other, Waits::Connect), 1);
        host.connect(client, b"/a").unwrap();
        assert_eq!(beside(&host, listener, Waits::Accept), 1);
        assert_eq!(beside(&host, other, Waits::Connect), 0);
        let server = host.accept(listener).unwrap();
        assert_eq!((beside(&host, server, Waits::Read), beside(&host, client, Waits::Write)), (0, 1));
        host.write(client, b"x").unwrap();
        assert_eq!((beside(&host, server, Waits::Read), beside(&host, client, Waits::Write)), (1, 0));
        host.close(server).unwrap();
        assert_eq!((beside(&host, server, Waits::Read), beside(&host, client, Waits::Write)), (1, 1));
    }
}
