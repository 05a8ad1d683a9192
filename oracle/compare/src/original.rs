//! The original, one call at a time. It logs notifications and dropped items in order. Slots, handles
//! and generations, which the original does not have, are kept here as document 01 has them; so are
//! the refusals that 01 adds: 1 for handles, 16, and 17 and 2 for names outside 1 to 255 bytes.

use std::cell::RefCell;
use std::collections::VecDeque;
use std::sync::Arc;

use kernel_abi::{self as abi, Errno, ShutdownHow};
use kernel_syscall::access::{Received, SocketAccess};
use kernel_syscall::socket::sys_socket;
use kernel_vfs::Readiness;
use kernel_vfs::path::AbsoluteOwnedPath;

use crate::call::{Answer, Call};

/// The number of document 01.
pub fn number(e: Errno) -> u32 {
    match e {
        abi::EBADF => 1,
        abi::EINVAL => 2,
        abi::EADDRINUSE => 3,
        abi::EDESTADDRREQ => 4,
        abi::EISCONN => 5,
        abi::EOPNOTSUPP => 6,
        abi::ECONNREFUSED => 7,
        abi::EAGAIN => 8,
        abi::ENOTCONN => 9,
        abi::EPIPE => 10,
        abi::ENOBUFS => 11,
        abi::EAFNOSUPPORT => 12,
        abi::EMSGSIZE => 13,
        abi::EPROTOTYPE => 14,
        abi::EPROTONOSUPPORT => 15,
        other => panic!("the original answered {other:?}, which 01 does not name"),
    }
}

#[derive(Default)]
struct Log {
    /// Waiters in order of notification; 0 is the registry's.
    notified: Vec<u64>,
    dropped: Vec<u32>,
    last_waiter: u64,
}

thread_local! {
    static LOG: RefCell<Log> = RefCell::new(Log::default());
}

fn log<T>(f: impl FnOnce(&mut Log) -> T) -> T {
    LOG.with(|l| f(&mut l.borrow_mut()))
}

pub struct Waiter(u64);

impl Default for Waiter {
    fn default() -> Self {
        log(|l| {
            l.last_waiter += 1;
            Waiter(l.last_waiter)
        })
    }
}

/// An item whose drop is logged.
pub struct Item(u32);

impl Drop for Item {
    fn drop(&mut self) {
        log(|l| l.dropped.push(self.0));
    }
}

/// One build of the original.
pub trait Build: 'static {
    const CAPACITY: usize;
    type Registry: 'static;
    type Socket: 'static;

    fn registry() -> Self::Registry;
    fn socket(registry: &'static Self::Registry) -> Arc<Self::Socket>;
    fn waiter(socket: &Self::Socket) -> u64;
    fn bind(socket: &Arc<Self::Socket>, path: AbsoluteOwnedPath) -> Result<(), Errno>;
    fn listen(socket: &Self::Socket, backlog: usize) -> Result<(), Errno>;
    fn accept(socket: &Self::Socket) -> Result<Arc<Self::Socket>, Errno>;
    fn connect(socket: &Arc<Self::Socket>, path: &AbsoluteOwnedPath) -> Result<(), Errno>;
    fn read(socket: &Self::Socket, buf: &mut [u8]) -> Result<usize, Errno>;
    fn recvmsg(socket: &Self::Socket, buf: &mut [u8]) -> Result<(usize, Vec<Item>), Errno>;
    fn write(socket: &Self::Socket, buf: &[u8]) -> Result<usize, Errno>;
    fn sendmsg(socket: &Self::Socket, buf: &[u8], items: Vec<Item>) -> Result<usize, Errno>;
    fn shutdown(socket: &Self::Socket, how: ShutdownHow) -> Result<(), Errno>;
    fn readiness(socket: &Self::Socket) -> Readiness;
}

macro_rules! build {
    ($name:ident, $module:ident) => {
        impl kernel_unix_socket::$module::Notify for Waiter {
            fn notify_all(&self) {
                log(|l| l.notified.push(self.0));
            }
        }

        pub struct $name;

        impl Build for $name {
            const CAPACITY: usize = kernel_unix_socket::$module::SOCKET_BUFFER_BYTES;
            type Registry = kernel_unix_socket::$module::Registry<Waiter, Item>;
            type Socket = kernel_unix_socket::$module::UnixSocket<Waiter, Item>;

            fn registry() -> Self::Registry {
                Self::Registry::new(Waiter(0))
            }

            fn socket(registry: &'static Self::Registry) -> Arc<Self::Socket> {
                Self::Socket::new(registry)
            }

            fn waiter(socket: &Self::Socket) -> u64 {
                socket.waiters().0
            }

            fn bind(socket: &Arc<Self::Socket>, path: AbsoluteOwnedPath) -> Result<(), Errno> {
                socket.bind(path)
            }

            fn listen(socket: &Self::Socket, backlog: usize) -> Result<(), Errno> {
                socket.listen(backlog)
            }

            fn accept(socket: &Self::Socket) -> Result<Arc<Self::Socket>, Errno> {
                socket.try_accept()
            }

            fn connect(socket: &Arc<Self::Socket>, path: &AbsoluteOwnedPath) -> Result<(), Errno> {
                socket.try_connect(path)
            }

            fn read(socket: &Self::Socket, buf: &mut [u8]) -> Result<usize, Errno> {
                socket.try_read(buf)
            }

            fn recvmsg(socket: &Self::Socket, buf: &mut [u8]) -> Result<(usize, Vec<Item>), Errno> {
                socket.try_recvmsg(buf)
            }

            fn write(socket: &Self::Socket, buf: &[u8]) -> Result<usize, Errno> {
                socket.try_write(buf)
            }

            fn sendmsg(socket: &Self::Socket, buf: &[u8], items: Vec<Item>) -> Result<usize, Errno> {
                socket.try_sendmsg(buf, items)
            }

            fn shutdown(socket: &Self::Socket, how: ShutdownHow) -> Result<(), Errno> {
                socket.shutdown(how)
            }

            fn readiness(socket: &Self::Socket) -> Readiness {
                socket.readiness()
            }
        }
    };
}

build!(C1, c1);
build!(C2, c2);
build!(C8, c8);
build!(C65536, c65536);

/// The copies with a mistake, at capacity 8.
#[cfg(feature = "mistakes")]
pub use mistaken::MISTAKEN;

#[cfg(feature = "mistakes")]
mod mistaken {
    use super::*;

    macro_rules! mistaken {
        ($(($says:literal, $module:ident))*) => {
            $(pub mod $module {
                use super::*;
                build!(Mistaken, $module);
            })*
            pub const MISTAKEN: &[(&str, fn(usize) -> Box<dyn Driver>)] =
                &[$(($says, |n| Box::new(Original::<$module::Mistaken>::new(n)))),*];
        };
    }
    kernel_unix_socket::each_mistake!(mistaken);
}

/// `sys_socket` with nothing behind it: its argument checks.
struct Nothing;

impl SocketAccess for Nothing {
    type Fd = i32;

    fn socket(&self) -> i32 {
        0
    }
    fn bind(&self, _: i32, _: AbsoluteOwnedPath) -> Result<(), Errno> {
        unreachable!()
    }
    fn listen(&self, _: i32, _: usize) -> Result<(), Errno> {
        unreachable!()
    }
    fn accept(&self, _: i32) -> Result<i32, Errno> {
        unreachable!()
    }
    fn connect(&self, _: i32, _: AbsoluteOwnedPath) -> Result<(), Errno> {
        unreachable!()
    }
    fn shutdown(&self, _: i32, _: ShutdownHow) -> Result<(), Errno> {
        unreachable!()
    }
    fn sendmsg(&self, _: i32, _: &[u8], _: &[i32]) -> Result<usize, Errno> {
        unreachable!()
    }
    fn recvmsg(&self, _: i32, _: &mut [u8], _: usize) -> Result<Received<i32>, Errno> {
        unreachable!()
    }
}

/// Where a slot's socket is.
enum Place<S> {
    Free,
    /// The caller has it: this is the only `Arc`.
    Open(Arc<S>),
    /// In a listener's queue, which has the `Arc`.
    Pending,
}

/// What the books say of a socket.
enum Kind {
    Unbound,
    Bound(Vec<u8>),
    Listening { name: Vec<u8>, backlog: u32, queue: VecDeque<usize> },
    Connected,
}

struct Slot<S> {
    generation: u64,
    place: Place<S>,
    kind: Kind,
}

pub trait Driver {
    fn call(&mut self, call: &Call) -> Answer;
    fn ready(&mut self, h: u64) -> u64;
}

/// The original behind a table of n slots, if there is a build of that capacity.
pub fn driver(n: usize, c: usize) -> Option<Box<dyn Driver>> {
    Some(match c {
        C1::CAPACITY => Box::new(Original::<C1>::new(n)),
        C2::CAPACITY => Box::new(Original::<C2>::new(n)),
        C8::CAPACITY => Box::new(Original::<C8>::new(n)),
        C65536::CAPACITY => Box::new(Original::<C65536>::new(n)),
        _ => return None,
    })
}

pub const CAPACITIES: [usize; 4] = [C1::CAPACITY, C2::CAPACITY, C8::CAPACITY, C65536::CAPACITY];

pub struct Original<B: Build> {
    slots: Vec<Slot<B::Socket>>,
    registry: *mut B::Registry,
    /// The handle of each waiter from `base` on.
    handles: Vec<u64>,
    base: u64,
}

impl<B: Build> Drop for Original<B> {
    fn drop(&mut self) {
        self.slots.clear();
        // SAFETY: it came from a box, and the sockets that refer to it are gone.
        drop(unsafe { Box::from_raw(self.registry) });
        log(|l| {
            l.notified.clear();
            l.dropped.clear();
        });
    }
}

impl<B: Build> Original<B> {
    pub fn new(n: usize) -> Self {
        let slots = (0..n).map(|_| Slot { generation: 0, place: Place::Free, kind: Kind::Unbound }).collect();
        Self {
            slots,
            registry: Box::into_raw(Box::new(B::registry())),
            handles: Vec::new(),
            base: log(|l| l.last_waiter) + 1,
        }
    }

    fn handle(&self, slot: usize) -> u64 {
        self.slots[slot].generation * 65_536 + slot as u64
    }

    fn free(&self) -> Option<usize> {
        self.slots.iter().position(|s| matches!(s.place, Place::Free))
    }

    /// The lowest free slot is taken by the socket whose waiter was made last.
    fn take(&mut self, slot: usize, place: Place<B::Socket>, kind: Kind) -> u64 {
        let generation = self.slots[slot].generation + 1;
        self.slots[slot] = Slot { generation, place, kind };
        let handle = self.handle(slot);
        self.handles.push(handle);
        assert_eq!(log(|l| l.last_waiter) + 1, self.base + self.handles.len() as u64, "one waiter for each socket");
        handle
    }

    fn slot_of(&self, h: u64) -> Option<(usize, Arc<B::Socket>)> {
        let slot = (h & 0xFFFF) as usize;
        let Place::Open(socket) = &self.slots.get(slot)?.place else { return None };
        (self.handle(slot) == h).then(|| (slot, socket.clone()))
    }

    /// Whether a connect of an unbound caller would be accepted, by the books.
    fn listener(&self, name: &[u8]) -> Option<usize> {
        self.slots.iter().position(|s| {
            !matches!(s.place, Place::Free)
                && matches!(&s.kind, Kind::Listening { name: held, backlog, queue }
                    if held == name && queue.len() < *backlog as usize)
        })
    }

    fn run(&mut self, call: &Call, answer: &mut Answer) -> Result<(), u32> {
        if let Call::Socket { domain, ty, protocol } = *call {
            sys_socket(&Nothing, domain, ty, protocol).map_err(number)?;
            let slot = self.free().ok_or(16u32)?;
            // SAFETY: the registry lives until this driver is dropped, after its sockets.
            let socket = B::socket(unsafe { &*self.registry });
            answer.value = self.take(slot, Place::Open(socket), Kind::Unbound);
            return Ok(());
        }
        let (slot, socket) = self.slot_of(call.handle()).ok_or(1u32)?;
        if let Call::Bind { name, .. } | Call::Connect { name, .. } = call {
            if name.is_empty() {
                return Err(2);
            }
            if name.len() > 255 {
                return Err(17);
            }
        }
        match call {
            Call::Socket { .. } => unreachable!(),
            Call::Bind { name, .. } => {
                B::bind(&socket, AbsoluteOwnedPath(name.clone())).map_err(number)?;
                self.slots[slot].kind = Kind::Bound(name.clone());
            }
            Call::Listen { backlog, .. } => {
                B::listen(&socket, *backlog as usize).map_err(number)?;
                let kind = &mut self.slots[slot].kind;
                match kind {
                    Kind::Bound(name) => {
                        let name = std::mem::take(name);
                        *kind = Kind::Listening { name, backlog: *backlog, queue: VecDeque::new() };
                    }
                    Kind::Listening { backlog: held, .. } => *held = *backlog,
                    Kind::Unbound | Kind::Connected => panic!("listen accepted against the books"),
                }
            }
            Call::Accept { .. } => {
                let server = B::accept(&socket).map_err(number)?;
                let Kind::Listening { queue, .. } = &mut self.slots[slot].kind else {
                    panic!("accept accepted against the books")
                };
                let taken = queue.pop_front().expect("a pending server in the books");
                answer.value = self.handles[(B::waiter(&server) - self.base) as usize];
                assert_eq!(answer.value, self.handle(taken), "the oldest server");
                self.slots[taken].place = Place::Open(server);
            }
            Call::Connect { name, .. } => {
                let listener = match self.slots[slot].kind {
                    Kind::Unbound => self.listener(name),
                    _ => None,
                };
                let free = self.free();
                if listener.is_some() && free.is_none() {
                    return Err(16);
                }
                let done = B::connect(&socket, &AbsoluteOwnedPath(name.clone())).map_err(number);
                assert_eq!(done.is_ok(), listener.is_some(), "connect and the books");
                done?;
                let (listener, server) = (listener.unwrap(), free.unwrap());
                self.take(server, Place::Pending, Kind::Connected);
                self.slots[slot].kind = Kind::Connected;
                let Kind::Listening { queue, .. } = &mut self.slots[listener].kind else { unreachable!() };
                queue.push_back(server);
            }
            Call::Read { len, .. } => {
                let mut buf = vec![0; *len];
                let count = B::read(&socket, &mut buf).map_err(number)?;
                answer.value = count as u64;
                buf.truncate(count);
                answer.data = buf;
            }
            Call::Recvmsg { len, capacity, .. } => {
                let mut buf = vec![0; *len];
                let (count, mut items) = B::recvmsg(&socket, &mut buf).map_err(number)?;
                answer.value = count as u64;
                buf.truncate(count);
                answer.data = buf;
                // As kernel/boot/src/syscall/access/socket.rs does: the first fit, the rest are dropped.
                if items.len() > *capacity {
                    answer.flags = abi::MSG_CTRUNC as u32;
                }
                let rest = items.split_off(items.len().min(*capacity));
                answer.items = items.iter().map(|i| i.0).collect();
                items.into_iter().for_each(std::mem::forget);
                drop(rest);
            }
            Call::Write { data, .. } => {
                answer.value = B::write(&socket, &data.bytes()).map_err(number)? as u64;
            }
            Call::Sendmsg { data, items, .. } => {
                let given = items.list().into_iter().map(Item).collect();
                let sent = B::sendmsg(&socket, &data.bytes(), given);
                if sent.is_err() {
                    // Intended difference: the items of a refused send stay the sender's. The original
                    // was given copies, and drops them.
                    log(|l| assert_eq!(std::mem::take(&mut l.dropped), items.list(), "a refused send drops its items"));
                }
                answer.value = sent.map_err(number)? as u64;
            }
            Call::Shutdown { how, .. } => {
                let how = ShutdownHow::try_from(*how).map_err(number)?;
                B::shutdown(&socket, how).map_err(number)?;
            }
            Call::Close { .. } => {
                drop(socket);
                let closed = &mut self.slots[slot];
                let Place::Open(last) = std::mem::replace(&mut closed.place, Place::Free) else { unreachable!() };
                assert_eq!(Arc::strong_count(&last), 1, "close is the drop of the last Arc");
                drop(last);
                if let Kind::Listening { queue, .. } = std::mem::replace(&mut closed.kind, Kind::Unbound) {
                    for server in queue {
                        self.slots[server].place = Place::Free;
                    }
                }
            }
            Call::Readiness { .. } => answer.value = bits(B::readiness(&socket)),
        }
        Ok(())
    }
}

fn bits(r: Readiness) -> u64 {
    u64::from(r.readable) + 2 * u64::from(r.writable) + 4 * u64::from(r.hung_up)
}

impl<B: Build> Driver for Original<B> {
    fn call(&mut self, call: &Call) -> Answer {
        let mut answer = Answer::default();
        let done = self.run(call, &mut answer);
        let (notified, dropped) = log(|l| (std::mem::take(&mut l.notified), std::mem::take(&mut l.dropped)));
        answer.wakes =
            notified.into_iter().map(|w| if w == 0 { 0 } else { self.handles[(w - self.base) as usize] }).collect();
        answer.releases = dropped;
        if let Err(refusal) = done {
            answer.refusal = refusal;
        }
        answer
    }

    fn ready(&mut self, h: u64) -> u64 {
        let (_, socket) = self.slot_of(h).expect("an open handle");
        bits(B::readiness(&socket))
    }
}
