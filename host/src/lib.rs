//! Unix stream sockets in a table whose every answer is proved: a safe face of `include/eidrovang.h`.
//!
//! A [`Table`] stands in storage that the host lends (or, with the feature `alloc`, owns). It never
//! blocks: a call that would have to wait is refused with [`Errno::Again`], and the calls that change
//! that say whom to wake ([`Table::wakes`]). Items are tokens of the host, sent along with bytes; what
//! a call drops of them stands in [`Table::releases`].
//!
//! ```
//! # #[cfg(feature = "alloc")] {
//! use eidrovang::{Errno, Item, Table};
//!
//! let mut table = Table::owned(8, 4_096)?;
//! let listener = table.socket(1, 1, 0)?;
//! table.bind(listener, b"/run/sampler")?;
//! table.listen(listener, 4)?;
//! let client = table.socket(1, 1, 0)?;
//! table.connect(client, b"/run/sampler")?;
//! assert_eq!(table.wakes()[0].handle(), Some(listener));
//! let server = table.accept(listener)?;
//!
//! table.sendmsg(client, b"5550100", &[Item(7)])?;
//! let (mut number, mut lines) = ([0; 16], [Item(0); 2]);
//! let got = table.recvmsg(server, &mut number, &mut lines)?;
//! assert_eq!(&number[..got.bytes], b"5550100");
//! assert_eq!(&lines[..got.items], &[Item(7)]);
//! assert_eq!(table.read(server, &mut number), Err(Errno::Again));
//! # }
//! # Ok::<(), eidrovang::Errno>(())
//! ```
//!
//! Calls on one table are made one at a time, which `&mut self` sees to.
#![cfg_attr(not(feature = "std"), no_std)]
#![deny(missing_docs, unsafe_op_in_unsafe_fn)]

#[cfg(feature = "alloc")]
extern crate alloc;

pub mod abi;
#[cfg(feature = "std")]
pub mod appliance;
#[cfg(feature = "std")]
pub mod blocking;

use core::fmt;
use core::ops::{Deref, DerefMut};

/// The functions of the C interface, as `include/eidrovang.h` has them.
mod ffi {
    #[repr(C)]
    #[derive(Clone, Copy)]
    pub struct Answer {
        pub refusal: u32,
        pub flags: u32,
        pub value: u64,
        pub items: u64,
        pub wakes: u64,
        pub releases: u64,
    }

    #[repr(C)]
    #[derive(Clone, Copy)]
    pub struct Least {
        pub refusal: u32,
        pub words: u64,
        pub bytes: u64,
        pub tokens: u64,
        pub wakes: u64,
        pub releases: u64,
    }

    const _: () = assert!(size_of::<Answer>() == 40 && size_of::<Least>() == 48);
    // size_t is a usize, and a length of the least sizes fits one.
    const _: () = assert!(size_of::<usize>() == 8);

    /// Declares calls that begin with what every table call is lent.
    macro_rules! table_calls {
        ($(fn $name:ident($($arg:ident: $ty:ty),*);)*) => {
            unsafe extern "C" {
                $(pub fn $name(
                    words: *mut u64, words_len: usize, bytes: *mut u8, bytes_len: usize,
                    tokens: *mut u32, tokens_len: usize, wakes: *mut u64, wakes_len: usize,
                    releases: *mut u32, releases_len: usize, n: usize, c: usize $(, $arg: $ty)*
                ) -> Answer;)*
            }
        };
    }

    unsafe extern "C" {
        pub safe fn eid_sizes(n: usize, c: usize) -> Least;
        pub fn eid_make(
            words: *mut u64,
            words_len: usize,
            bytes: *mut u8,
            bytes_len: usize,
            tokens: *mut u32,
            tokens_len: usize,
            n: usize,
            c: usize,
        ) -> u32;
    }

    table_calls! {
        fn eid_socket(domain: i32, ty: i32, protocol: i32);
        fn eid_bind(handle: u64, name: *const u8, name_len: usize);
        fn eid_listen(handle: u64, backlog: u32);
        fn eid_accept(handle: u64);
        fn eid_connect(handle: u64, name: *const u8, name_len: usize);
        fn eid_read(handle: u64, buf: *mut u8, buf_len: usize);
        fn eid_recvmsg(handle: u64, buf: *mut u8, buf_len: usize, items: *mut u32, items_len: usize);
        fn eid_write(handle: u64, buf: *const u8, buf_len: usize);
        fn eid_sendmsg(handle: u64, buf: *const u8, buf_len: usize, items: *const u32, items_len: usize);
        fn eid_shutdown(handle: u64, how: i32);
        fn eid_close(handle: u64);
        fn eid_readiness(handle: u64);
    }
}

/// Why a call was refused. A refused call changed nothing.
#[derive(Clone, Copy, Debug, PartialEq, Eq, Hash)]
#[repr(u32)]
pub enum Errno {
    /// No socket that the caller has been given.
    BadHandle = 1,
    /// An argument that the call does not take in this state.
    Invalid = 2,
    /// The name is held by an open socket.
    AddrInUse = 3,
    /// The socket has no name to listen at.
    DestAddrRequired = 4,
    /// Already connected.
    IsConnected = 5,
    /// Not supported in this state.
    NotSupported = 6,
    /// No listening socket of that name.
    ConnRefused = 7,
    /// Not now: wait for a wake, then call again.
    Again = 8,
    /// Not connected.
    NotConnected = 9,
    /// The peer is gone, or writing was shut down.
    Pipe = 10,
    /// More than 256 items would be queued.
    NoBuffers = 11,
    /// The domain is not AF_UNIX.
    AddrFamily = 12,
    /// Too many parts.
    MessageSize = 13,
    /// The type is not SOCK_STREAM.
    ProtoType = 14,
    /// The protocol is not 0.
    ProtoNotSupported = 15,
    /// Each slot is occupied or retired.
    TableFull = 16,
    /// The name has more than 255 bytes.
    NameTooLong = 17,
    /// The storage or a list that was lent is too small.
    Short = 18,
    /// The storage is not a well-formed table of this size.
    Damaged = 19,
}

impl Errno {
    /// All of them, in the order of their numbers.
    pub const ALL: [Errno; 19] = [
        Errno::BadHandle,
        Errno::Invalid,
        Errno::AddrInUse,
        Errno::DestAddrRequired,
        Errno::IsConnected,
        Errno::NotSupported,
        Errno::ConnRefused,
        Errno::Again,
        Errno::NotConnected,
        Errno::Pipe,
        Errno::NoBuffers,
        Errno::AddrFamily,
        Errno::MessageSize,
        Errno::ProtoType,
        Errno::ProtoNotSupported,
        Errno::TableFull,
        Errno::NameTooLong,
        Errno::Short,
        Errno::Damaged,
    ];

    /// The number that the C interface answers.
    #[must_use]
    pub const fn number(self) -> u32 {
        self as u32
    }

    /// The refusal with that number; `None` for 0 and above 19.
    #[must_use]
    pub const fn of(number: u32) -> Option<Errno> {
        if number >= 1 && number <= 19 { Some(Self::ALL[number as usize - 1]) } else { None }
    }
}

impl fmt::Display for Errno {
    fn fmt(&self, f: &mut fmt::Formatter<'_>) -> fmt::Result {
        write!(f, "{self:?} ({})", self.number())
    }
}

impl core::error::Error for Errno {}

/// A refusal as the C interface answers it.
fn refused(number: u32) -> Result<(), Errno> {
    if number == 0 {
        return Ok(());
    }
    Err(Errno::of(number).expect("the library answers numbers up to 19"))
}

/// A socket of a table: its slot and the generation of that slot. A slot that is used again has
/// another generation, so an old handle is refused and never another socket.
#[derive(Clone, Copy, Debug, PartialEq, Eq, Hash, PartialOrd, Ord)]
#[repr(transparent)]
pub struct Handle(u64);

impl Handle {
    /// The handle as a number, for a host that keeps it elsewhere.
    #[must_use]
    pub const fn number(self) -> u64 {
        self.0
    }

    /// A number as a handle. Any number is safe: the table refuses what it has not given out.
    #[must_use]
    pub const fn of(number: u64) -> Self {
        Self(number)
    }

    /// The slot, 0 to N - 1 for handles of a table.
    #[must_use]
    pub const fn slot(self) -> usize {
        (self.0 & 0xFFFF) as usize
    }
}

impl fmt::Display for Handle {
    fn fmt(&self, f: &mut fmt::Formatter<'_>) -> fmt::Result {
        write!(f, "{}.{}", self.0 >> 16, self.slot())
    }
}

/// A token of the host that travels with bytes: an open file, a line. The table does not look at it.
#[derive(Clone, Copy, Debug, Default, PartialEq, Eq, Hash, PartialOrd, Ord)]
#[repr(transparent)]
pub struct Item(pub u32);

/// Whom to wake. The default, for lists to be lent, is the registry.
#[derive(Clone, Copy, Debug, Default, PartialEq, Eq)]
#[repr(transparent)]
pub struct Wake(u64);

impl Wake {
    /// Those who wait in connect.
    #[must_use]
    pub const fn is_registry(self) -> bool {
        self.0 == 0
    }

    /// The socket whose waiters are meant; `None` for the registry. It may be a server that accept has
    /// not returned yet: nobody waits on it then.
    #[must_use]
    pub const fn handle(self) -> Option<Handle> {
        if self.0 == 0 { None } else { Some(Handle(self.0)) }
    }
}

/// What a call on the socket would do now.
#[derive(Clone, Copy, Debug, Default, PartialEq, Eq)]
pub struct Readiness {
    /// A read or an accept returns at once.
    pub readable: bool,
    /// A write takes at least one byte at once.
    pub writable: bool,
    /// The peer is gone.
    pub hung_up: bool,
}

/// Which direction to shut down.
#[derive(Clone, Copy, Debug, PartialEq, Eq)]
#[repr(i32)]
pub enum Shutdown {
    /// No more is read: what is queued is dropped.
    Read = 0,
    /// No more is written.
    Write = 1,
    /// Both.
    Both = 2,
}

/// What recvmsg moved.
#[derive(Clone, Copy, Debug, PartialEq, Eq)]
pub struct Received {
    /// Bytes put into the buffer; 0 at the end of the stream.
    pub bytes: usize,
    /// Items put into the list.
    pub items: usize,
    /// There were more items than the list holds; the rest stand in the releases.
    pub truncated: bool,
}

/// The least lengths of what a table is lent.
#[derive(Clone, Copy, Debug, PartialEq, Eq)]
pub struct Sizes {
    /// Of [`Lent::words`].
    pub words: usize,
    /// Of [`Lent::bytes`].
    pub bytes: usize,
    /// Of [`Lent::tokens`].
    pub tokens: usize,
    /// Of [`Lent::wakes`].
    pub wakes: usize,
    /// Of [`Lent::releases`].
    pub releases: usize,
}

/// The least lengths for `n` slots (1 to 1,024) with inboxes of `c` bytes (1 to 65,536).
///
/// # Errors
/// [`Errno::Invalid`] out of these ranges.
pub fn sizes(n: usize, c: usize) -> Result<Sizes, Errno> {
    let least = ffi::eid_sizes(n, c);
    refused(least.refusal)?;
    Ok(Sizes {
        words: least.words as usize,
        bytes: least.bytes as usize,
        tokens: least.tokens as usize,
        wakes: least.wakes as usize,
        releases: least.releases as usize,
    })
}

impl Sizes {
    /// The same lengths where they have to be known when the host is compiled, for storage that is static.
    ///
    /// # Panics
    /// Where [`sizes`] would refuse.
    #[must_use]
    pub const fn least(n: usize, c: usize) -> Self {
        assert!(1 <= n && n <= 1_024 && 1 <= c && c <= 65_536);
        Self { words: 8 + 272 * n + n * n, bytes: (c + 255) * n, tokens: 256 * n, wakes: n + 1, releases: 256 * n }
    }
}

/// Storage for a table: all of its state stands in `words`, `bytes` and `tokens`.
#[derive(Debug)]
pub struct Lent<'a> {
    /// States, handles, totals.
    pub words: &'a mut [u64],
    /// Queued bytes and names.
    pub bytes: &'a mut [u8],
    /// Queued items.
    pub tokens: &'a mut [u32],
    /// Where calls put whom to wake.
    pub wakes: &'a mut [Wake],
    /// Where calls put what they dropped.
    pub releases: &'a mut [Item],
}

/// A slice that is lent or owned.
enum Held<'a, T> {
    Lent(&'a mut [T]),
    #[cfg(feature = "alloc")]
    Owned(alloc::boxed::Box<[T]>),
}

#[cfg(feature = "alloc")]
impl<T: Copy> Held<'_, T> {
    fn copied(&self) -> Held<'static, T> {
        Held::Owned((**self).into())
    }
}

impl<T> Deref for Held<'_, T> {
    type Target = [T];

    fn deref(&self) -> &[T] {
        match self {
            Held::Lent(slice) => slice,
            #[cfg(feature = "alloc")]
            Held::Owned(slice) => slice,
        }
    }
}

impl<T> DerefMut for Held<'_, T> {
    fn deref_mut(&mut self) -> &mut [T] {
        match self {
            Held::Lent(slice) => slice,
            #[cfg(feature = "alloc")]
            Held::Owned(slice) => slice,
        }
    }
}

/// A table of Unix stream sockets. The order of refusals in every call: a damaged table, the handle,
/// the name, then what the call says.
pub struct Table<'a> {
    words: Held<'a, u64>,
    bytes: Held<'a, u8>,
    tokens: Held<'a, u32>,
    wakes: Held<'a, Wake>,
    releases: Held<'a, Item>,
    n: usize,
    c: usize,
    woke: usize,
    released: usize,
}

/// Makes the call `$f` with what every table call is lent, and keeps its counts.
macro_rules! call {
    ($table:ident, $f:ident $(, $arg:expr)*) => {{
        // SAFETY: each pointer and length is that of a slice that lives and is not otherwise used
        // through the call; `&mut self` and the borrow rules keep them apart. `Wake` and `Item` are
        // transparent, and any number is one of them.
        let answer = unsafe {
            ffi::$f(
                $table.words.as_mut_ptr(), $table.words.len(),
                $table.bytes.as_mut_ptr(), $table.bytes.len(),
                $table.tokens.as_mut_ptr(), $table.tokens.len(),
                $table.wakes.as_mut_ptr().cast::<u64>(), $table.wakes.len(),
                $table.releases.as_mut_ptr().cast::<u32>(), $table.releases.len(),
                $table.n, $table.c $(, $arg)*
            )
        };
        $table.woke = answer.wakes as usize;
        $table.released = answer.releases as usize;
        refused(answer.refusal).map(|()| answer)
    }};
}

impl<'a> Table<'a> {
    /// A fresh table of `n` slots and inboxes of `c` bytes in lent storage, whatever stood there.
    ///
    /// ```
    /// use eidrovang::{Item, Lent, Sizes, Table, Wake};
    ///
    /// const N: usize = 4;
    /// const C: usize = 512;
    /// const LEAST: Sizes = Sizes::least(N, C);
    /// let (mut words, mut bytes, mut tokens) = ([0; LEAST.words], [0; LEAST.bytes], [0; LEAST.tokens]);
    /// let (mut wakes, mut releases) = ([Wake::default(); LEAST.wakes], [Item::default(); LEAST.releases]);
    /// let lent = Lent {
    ///     words: &mut words,
    ///     bytes: &mut bytes,
    ///     tokens: &mut tokens,
    ///     wakes: &mut wakes,
    ///     releases: &mut releases,
    /// };
    /// let mut table = Table::make(lent, N, C)?;
    /// let socket = table.socket(1, 1, 0)?;
    /// # table.close(socket)?;
    /// # Ok::<(), eidrovang::Errno>(())
    /// ```
    ///
    /// # Errors
    /// [`Errno::Invalid`] where `n` or `c` is out of range, [`Errno::Short`] where anything lent is below
    /// [`sizes`].
    pub fn make(lent: Lent<'a>, n: usize, c: usize) -> Result<Self, Errno> {
        let least = sizes(n, c)?;
        if lent.wakes.len() < least.wakes || lent.releases.len() < least.releases {
            return Err(Errno::Short);
        }
        let mut table = Self::over(lent, n, c);
        table.fresh()?;
        Ok(table)
    }

    /// The table that already stands in lent storage, as one made it before. Nothing is asked here: each
    /// call answers [`Errno::Short`] or [`Errno::Damaged`] where it is none.
    #[must_use]
    pub fn over(lent: Lent<'a>, n: usize, c: usize) -> Self {
        Self {
            words: Held::Lent(lent.words),
            bytes: Held::Lent(lent.bytes),
            tokens: Held::Lent(lent.tokens),
            wakes: Held::Lent(lent.wakes),
            releases: Held::Lent(lent.releases),
            n,
            c,
            woke: 0,
            released: 0,
        }
    }

    /// A fresh table that owns its storage.
    ///
    /// # Errors
    /// [`Errno::Invalid`] where `n` or `c` is out of range.
    #[cfg(feature = "alloc")]
    pub fn owned(n: usize, c: usize) -> Result<Table<'static>, Errno> {
        let least = sizes(n, c)?;
        let mut table = Table {
            words: Held::Owned(alloc::vec![0; least.words].into()),
            bytes: Held::Owned(alloc::vec![0; least.bytes].into()),
            tokens: Held::Owned(alloc::vec![0; least.tokens].into()),
            wakes: Held::Owned(alloc::vec![Wake::default(); least.wakes].into()),
            releases: Held::Owned(alloc::vec![Item::default(); least.releases].into()),
            n,
            c,
            woke: 0,
            released: 0,
        };
        table.fresh()?;
        Ok(table)
    }

    /// The same table in storage of its own: to try a call whose effect is not wanted.
    #[cfg(feature = "alloc")]
    #[must_use]
    pub fn duplicate(&self) -> Table<'static> {
        Table {
            words: self.words.copied(),
            bytes: self.bytes.copied(),
            tokens: self.tokens.copied(),
            wakes: self.wakes.copied(),
            releases: self.releases.copied(),
            n: self.n,
            c: self.c,
            woke: self.woke,
            released: self.released,
        }
    }

    fn fresh(&mut self) -> Result<(), Errno> {
        // SAFETY: pointers and lengths of slices that live through the call.
        refused(unsafe {
            ffi::eid_make(
                self.words.as_mut_ptr(),
                self.words.len(),
                self.bytes.as_mut_ptr(),
                self.bytes.len(),
                self.tokens.as_mut_ptr(),
                self.tokens.len(),
                self.n,
                self.c,
            )
        })
    }

    /// How many slots the table has.
    #[must_use]
    pub fn slots(&self) -> usize {
        self.n
    }

    /// How many bytes an inbox holds.
    #[must_use]
    pub fn capacity(&self) -> usize {
        self.c
    }

    /// Whom the last call wakes, in order. Empty after a refusal.
    #[must_use]
    pub fn wakes(&self) -> &[Wake] {
        &self.wakes[..self.woke]
    }

    /// What the last call dropped, in order: the host has these items back. Empty after a refusal.
    #[must_use]
    pub fn releases(&self) -> &[Item] {
        &self.releases[..self.released]
    }

    /// An unbound socket.
    ///
    /// # Errors
    /// [`Errno::AddrFamily`] unless `domain` is 1, [`Errno::ProtoType`] unless `ty` is 1,
    /// [`Errno::ProtoNotSupported`] unless `protocol` is 0, [`Errno::TableFull`].
    pub fn socket(&mut self, domain: i32, ty: i32, protocol: i32) -> Result<Handle, Errno> {
        call!(self, eid_socket, domain, ty, protocol).map(|a| Handle(a.value))
    }

    /// Gives an unbound socket a name of 1 to 255 bytes.
    ///
    /// # Errors
    /// [`Errno::Invalid`] where it is not unbound, [`Errno::AddrInUse`] where an open socket has the name.
    pub fn bind(&mut self, socket: Handle, name: &[u8]) -> Result<(), Errno> {
        call!(self, eid_bind, socket.0, name.as_ptr(), name.len()).map(drop)
    }

    /// A bound socket listens; a listening one gets another backlog.
    ///
    /// # Errors
    /// [`Errno::DestAddrRequired`] where it has no name, [`Errno::Invalid`] where it is connected.
    pub fn listen(&mut self, socket: Handle, backlog: u32) -> Result<(), Errno> {
        call!(self, eid_listen, socket.0, backlog).map(drop)
    }

    /// The oldest connection that waits, as a socket of its own.
    ///
    /// # Errors
    /// [`Errno::Invalid`] where it does not listen, [`Errno::Again`] where nothing waits.
    pub fn accept(&mut self, socket: Handle) -> Result<Handle, Errno> {
        call!(self, eid_accept, socket.0).map(|a| Handle(a.value))
    }

    /// Connects to the listening socket of that name. Who waits after [`Errno::Again`] waits on the
    /// registry.
    ///
    /// # Errors
    /// [`Errno::IsConnected`], [`Errno::NotSupported`] where it listens, [`Errno::Invalid`] where it is
    /// bound, [`Errno::ConnRefused`] where no socket listens at the name, [`Errno::Again`] where its
    /// queue is full, [`Errno::TableFull`].
    pub fn connect(&mut self, socket: Handle, name: &[u8]) -> Result<(), Errno> {
        call!(self, eid_connect, socket.0, name.as_ptr(), name.len()).map(drop)
    }

    /// Takes bytes; items at the first of them are released. 0 at the end of the stream.
    ///
    /// # Errors
    /// [`Errno::NotConnected`], [`Errno::Again`] where nothing is queued yet.
    pub fn read(&mut self, socket: Handle, buf: &mut [u8]) -> Result<usize, Errno> {
        call!(self, eid_read, socket.0, buf.as_mut_ptr(), buf.len()).map(|a| a.value as usize)
    }

    /// Takes bytes and the items at the first of them; items that do not fit are released.
    ///
    /// # Errors
    /// [`Errno::Invalid`] for an empty buffer, [`Errno::NotConnected`], [`Errno::Again`] where nothing is
    /// queued yet.
    pub fn recvmsg(&mut self, socket: Handle, buf: &mut [u8], items: &mut [Item]) -> Result<Received, Errno> {
        let answer = call!(
            self,
            eid_recvmsg,
            socket.0,
            buf.as_mut_ptr(),
            buf.len(),
            items.as_mut_ptr().cast::<u32>(),
            items.len()
        )?;
        Ok(Received { bytes: answer.value as usize, items: answer.items as usize, truncated: answer.flags == 8 })
    }

    /// Sends what fits of the bytes; how many.
    ///
    /// # Errors
    /// [`Errno::NotConnected`], [`Errno::Pipe`], [`Errno::Again`] where there is no room.
    pub fn write(&mut self, socket: Handle, buf: &[u8]) -> Result<usize, Errno> {
        call!(self, eid_write, socket.0, buf.as_ptr(), buf.len()).map(|a| a.value as usize)
    }

    /// Sends what fits of the bytes, with all items at the first of them. Items of a refused send stay
    /// the caller's; items of an accepted one, a short one too, are the table's.
    ///
    /// # Errors
    /// [`Errno::NotConnected`], [`Errno::Pipe`], [`Errno::Again`] where there is no room,
    /// [`Errno::Invalid`] for items without bytes, [`Errno::NoBuffers`] above 256 queued items.
    pub fn sendmsg(&mut self, socket: Handle, buf: &[u8], items: &[Item]) -> Result<usize, Errno> {
        call!(self, eid_sendmsg, socket.0, buf.as_ptr(), buf.len(), items.as_ptr().cast::<u32>(), items.len())
            .map(|a| a.value as usize)
    }

    /// Shuts one or both directions of a connection.
    ///
    /// # Errors
    /// [`Errno::NotConnected`].
    pub fn shutdown(&mut self, socket: Handle, how: Shutdown) -> Result<(), Errno> {
        call!(self, eid_shutdown, socket.0, how as i32).map(drop)
    }

    /// Closes a socket: its name is free, its queued items are released, connections that wait at it
    /// close too, and its handle is refused from now on.
    ///
    /// # Errors
    /// [`Errno::BadHandle`].
    pub fn close(&mut self, socket: Handle) -> Result<(), Errno> {
        call!(self, eid_close, socket.0).map(drop)
    }

    /// What calls on the socket would do now.
    ///
    /// # Errors
    /// [`Errno::BadHandle`].
    pub fn readiness(&mut self, socket: Handle) -> Result<Readiness, Errno> {
        call!(self, eid_readiness, socket.0).map(|a| Readiness {
            readable: a.value & 1 != 0,
            writable: a.value & 2 != 0,
            hung_up: a.value & 4 != 0,
        })
    }
}

/// Writes zeros into a ring, but for `held` entries from `head` on.
fn wipe_outside<T: Copy + Default>(ring: &mut [T], head: u64, held: u64) {
    let (head, held) = (head as usize, held as usize);
    let free = ring.len() - held;
    for i in 0..free {
        let at = (head + held + i) % ring.len();
        ring[at] = T::default();
    }
}

impl Table<'_> {
    /// Writes zeros over what a slot no longer holds: bytes and items that were taken, and, where it is closed or has
    /// none, its name. Calls leave these cells as they are, and no call looks at them. docs/STORAGE.md has the layout.
    ///
    /// # Errors
    /// [`Errno::Invalid`] where there is no such slot; [`Errno::Short`], [`Errno::Damaged`].
    pub fn wipe(&mut self, slot: usize) -> Result<(), Errno> {
        match call!(self, eid_readiness, 0) {
            Err(Errno::BadHandle) if slot < self.n => {}
            Err(Errno::BadHandle) | Ok(_) => return Err(Errno::Invalid),
            Err(other) => return Err(other),
        }
        let (n, c) = (self.n, self.c);
        let mut of = [0; 16];
        of.copy_from_slice(&self.words[8 + 16 * slot..24 + 16 * slot]);
        if of[1] == 0 {
            of[2..].fill(0);
        }
        let places = 8 + 16 * n + 256 * slot;
        let queue = 8 + 272 * n + n * slot;
        let name = c * n + 255 * slot;
        wipe_outside(&mut self.bytes[c * slot..c * (slot + 1)], of[9], of[10].wrapping_sub(of[11]));
        wipe_outside(&mut self.tokens[256 * slot..256 * (slot + 1)], of[12], of[13]);
        wipe_outside(&mut self.words[places..places + 256], of[12], of[13]);
        wipe_outside(&mut self.words[queue..queue + n], of[4], of[5]);
        self.bytes[name + of[2] as usize..name + 255].fill(0);
        Ok(())
    }
}

impl fmt::Debug for Table<'_> {
    fn fmt(&self, f: &mut fmt::Formatter<'_>) -> fmt::Result {
        f.debug_struct("Table").field("slots", &self.n).field("capacity", &self.c).finish_non_exhaustive()
    }
}
