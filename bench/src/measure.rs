//! What is timed, part by part.

use std::cell::RefCell;
use std::rc::Rc;

use eidrovang::{Errno, Handle, Item};

use crate::inbox::Inbox;
use crate::storage::Storage;
use crate::timing::{Contest, Pace, Who, memcpy};
use crate::{linux, original, table};

/// `SOCKET_BUFFER_BYTES` of the original.
pub const CAPACITY: usize = 65_536;
pub const SLOTS: [usize; 8] = [8, 16, 32, 64, 128, 256, 512, 1_024];
pub const SIZES: [usize; 7] = [1, 16, 256, 1_024, 4_096, 16_384, 65_536];
pub const ITEMS: [usize; 3] = [0, 1, 16];

fn bytes(size: usize) -> Vec<u8> {
    (0..size).map(|i| (i * 31 % 251) as u8).collect()
}

impl Contest {
    /// The original's hand, where it is there.
    fn with_rust(self, f: impl FnMut() + 'static) -> Self {
        if original::THERE { self.with(Who::Rust, f) } else { self }
    }
}

/// A sequence of calls that is timed as one.
#[derive(Clone, Copy, PartialEq, Eq)]
pub enum Calls {
    SocketClose,
    ConnectClose,
    Message,
    Bytes,
    Readiness,
    BindClose,
    ShutdownClose,
}

impl Calls {
    pub const ALL: [Self; 7] = [
        Self::SocketClose,
        Self::ConnectClose,
        Self::Message,
        Self::Bytes,
        Self::Readiness,
        Self::BindClose,
        Self::ShutdownClose,
    ];
    /// Those with a target.
    pub const FIVE: [Self; 5] = [Self::SocketClose, Self::ConnectClose, Self::Message, Self::Bytes, Self::Readiness];

    pub fn title(self) -> &'static str {
        match self {
            Self::SocketClose => "socket, close",
            Self::ConnectClose => "socket, connect, accept, two closes",
            Self::Message => "sendmsg, recvmsg of 16 bytes with an item",
            Self::Bytes => "write, read of 16 bytes",
            Self::Readiness => "readiness",
            Self::BindClose => "socket, bind, listen, close",
            Self::ShutdownClose => "socket, connect, accept, shutdown, two closes",
        }
    }

    /// How many calls on the table it makes, and so how many checks.
    pub fn count(self) -> usize {
        match self {
            Self::Readiness => 1,
            Self::SocketClose | Self::Message | Self::Bytes => 2,
            Self::BindClose => 4,
            Self::ConnectClose => 5,
            Self::ShutdownClose => 6,
        }
    }

    /// In a table of `n` slots with `pairs` connected pairs, and a listener or none.
    fn contest(self, n: usize, pairs: usize, listener: bool, linux: Rc<linux::Sockets>) -> Contest {
        let mut ours = table::Sockets::new(n, CAPACITY, pairs, listener);
        let rust = original::Sockets::new(pairs, listener);
        let mut checked = Storage::connected(n, CAPACITY, pairs, 0);
        let c = Contest::new().with(Who::Check, move || checked.check());
        let small = *b"sixteen bytes ..";
        let (mut a, mut b, mut k) = ([0; 16], [0; 16], [0; 16]);
        match self {
            Self::SocketClose => {
                c.with(Who::Ours, move || ours.socket_and_close()).with_rust(move || rust.socket_and_close())
            }
            Self::ConnectClose => c
                .with(Who::Ours, move || ours.connect_and_close())
                .with_rust(move || rust.connect_and_close())
                .with(Who::Linux, move || linux.pair_and_close()),
            Self::Message => c
                .with(Who::Ours, move || ours.message(&small, &[Item(7)], &mut a))
                .with_rust(move || rust.message(&small, &[7], &mut b))
                .with(Who::Linux, move || linux.message(&small, 1, &mut k)),
            Self::Bytes => c
                .with(Who::Ours, move || ours.bytes(&small, &mut a))
                .with_rust(move || rust.bytes(&small, &mut b))
                .with(Who::Linux, move || linux.bytes(&small, &mut k)),
            Self::Readiness => c
                .with(Who::Ours, move || ours.readiness())
                .with_rust(move || rust.readiness())
                .with(Who::Linux, move || linux.readiness()),
            Self::BindClose => {
                c.with(Who::Ours, move || ours.bind_and_close()).with_rust(move || rust.bind_and_close())
            }
            Self::ShutdownClose => {
                c.with(Who::Ours, move || ours.shutdown_and_close()).with_rust(move || rust.shutdown_and_close())
            }
        }
    }
}

/// The calls at N = 8, the table otherwise empty.
pub fn calls(pace: Pace) -> Vec<(Calls, Contest)> {
    let linux = Rc::new(linux::Sockets::new(1));
    let mut rows: Vec<_> = Calls::ALL
        .into_iter()
        .map(|calls| {
            let pairs = usize::from(matches!(calls, Calls::Message | Calls::Bytes | Calls::Readiness));
            let listener = matches!(calls, Calls::ConnectClose | Calls::ShutdownClose);
            (calls, calls.contest(8, pairs, listener, linux.clone()))
        })
        .collect();
    pace.run(rows.iter_mut().map(|row| &mut row.1));
    rows
}

/// A message of so many bytes and items there and back, N = 8. Without items it is write and read.
pub struct Size {
    pub bytes: usize,
    pub items: usize,
    pub contest: Contest,
}

fn message(size: usize, items: usize) -> Contest {
    let source: Rc<[u8]> = bytes(size).into();
    let buffers = || (source.clone(), vec![0; size]);
    let mut ours = table::Sockets::new(8, CAPACITY, 1, false);
    let rust = original::Sockets::new(1, false);
    let linux = linux::Sockets::new(1);
    let (from, mut to) = buffers();
    let (rust_from, mut rust_to) = buffers();
    let (linux_from, mut linux_to) = buffers();
    if items == 0 {
        let ((copied, mut copy), mut between) = (buffers(), vec![0; size]);
        return Contest::new()
            .with(Who::Ours, move || ours.bytes(&from, &mut to))
            .with_rust(move || rust.bytes(&rust_from, &mut rust_to))
            .with(Who::Linux, move || linux.bytes(&linux_from, &mut linux_to))
            .with(Who::Memcpy, move || {
                memcpy(&copied, &mut between);
                memcpy(&between, &mut copy);
            });
    }
    let (tokens, rust_tokens) = (vec![Item(7); items], vec![7; items]);
    Contest::new()
        .with(Who::Ours, move || ours.message(&from, &tokens, &mut to))
        .with_rust(move || rust.message(&rust_from, &rust_tokens, &mut rust_to))
        .with(Who::Linux, move || linux.message(&linux_from, items, &mut linux_to))
}

pub fn sizes(pace: Pace) -> Vec<Size> {
    let mut rows = Vec::new();
    for items in ITEMS {
        for bytes in SIZES {
            rows.push(Size { bytes, items, contest: message(bytes, items) });
        }
    }
    pace.run(rows.iter_mut().map(|row| &mut row.contest));
    rows
}

/// 64 KiB through write and read, against memcpy from the source to the receiver's ring and from there to the
/// destination: the same three buffers.
pub fn copies(pace: Pace) -> Contest {
    let mut storage = Storage::connected(8, CAPACITY, 1, 0);
    storage.ring(1).fill(0);
    let (client, server) = (Handle::of(65_536), Handle::of(65_537));
    let all = Rc::new(RefCell::new((storage, bytes(CAPACITY), vec![0; CAPACITY])));
    let same = all.clone();
    let mut contest = Contest::new()
        .with(Who::Ours, move || {
            let (storage, source, destination) = &mut *all.borrow_mut();
            let mut table = storage.table();
            assert!(table.write(client, source) == Ok(CAPACITY));
            assert!(table.read(server, destination) == Ok(CAPACITY));
        })
        .with(Who::Memcpy, move || {
            let (storage, source, destination) = &mut *same.borrow_mut();
            memcpy(source, storage.ring(1));
            memcpy(storage.ring(1), destination);
        });
    pace.run([&mut contest]);
    contest
}

/// The calls in a table of n slots that is full but for three.
pub struct Growth {
    pub n: usize,
    pub open: usize,
    pub contests: Vec<(Calls, Contest)>,
}

pub fn growth(pace: Pace) -> Vec<Growth> {
    let mut rows: Vec<_> = SLOTS
        .into_iter()
        .map(|n| {
            let pairs = (n - 3) / 2;
            let linux = Rc::new(linux::Sockets::new(pairs));
            let contest = |calls: Calls| (calls, calls.contest(n, pairs, true, linux.clone()));
            Growth { n, open: 1 + 2 * pairs, contests: Calls::FIVE.map(contest).into() }
        })
        .collect();
    pace.run(rows.iter_mut().flat_map(|row| &mut row.contests).map(|one| &mut one.1));
    rows
}

/// The check by itself, over tables of n slots.
pub struct Check {
    pub n: usize,
    pub closed: Contest,
    /// Every slot connected, its inbox empty.
    pub connected: Contest,
    /// 256 items in every inbox.
    pub items: Contest,
}

fn check_of(mut storage: Storage) -> Contest {
    Contest::new().with(Who::Ours, move || storage.check())
}

pub fn checks(pace: Pace) -> Vec<Check> {
    let mut rows: Vec<_> = SLOTS
        .into_iter()
        .map(|n| Check {
            n,
            closed: check_of(Storage::new(n, CAPACITY)),
            connected: check_of(Storage::connected(n, CAPACITY, n / 2, 0)),
            items: check_of(Storage::connected(n, CAPACITY, n / 2, 256)),
        })
        .collect();
    pace.run(rows.iter_mut().flat_map(|row| [&mut row.closed, &mut row.connected, &mut row.items]));
    rows
}

/// The check over a table of 1,024 slots with names in it, and the calls that then take longest.
pub struct Named {
    pub title: &'static str,
    /// Microseconds.
    pub target: Option<f64>,
    pub contest: Contest,
}

/// 255 bytes that differ in the first eight.
fn early(i: usize) -> Vec<u8> {
    format!("{i:08}{:/<247}", "").into_bytes()
}

/// 255 bytes that differ in the last two.
fn late(i: usize) -> Vec<u8> {
    let mut name = vec![b'/'; 255];
    name[253..].copy_from_slice(&(i as u16).to_be_bytes());
    name
}

pub fn names(pace: Pace) -> Vec<Named> {
    let check = |title, target, count, name: fn(usize) -> Vec<u8>| Named {
        title,
        target,
        contest: check_of(Storage::named(1_024, CAPACITY, (0..count).map(name))),
    };
    let mut rows = vec![
        check("128 names that differ in length", Some(20.0), 128, |i| vec![b'/'; i + 1]),
        check("128 names of 255 bytes that differ in the first 8", Some(20.0), 128, early),
        check("1,024 names of 255 bytes that differ in the first 8", None, 1_024, early),
        check("1,024 names of 255 bytes that differ in the last 2", None, 1_024, late),
        Named { title: "the worst call: bind, the name in use, 1,023 such names", target: None, contest: worst_call() },
    ];
    pace.run(rows.iter_mut().map(|row| &mut row.contest));
    rows
}

/// A refused bind leaves the table as it is, so that it can be made again; it compares its name with all others
/// after the check has compared each of these with all before it.
fn worst_call() -> Contest {
    let mut storage = Storage::named(1_024, CAPACITY, (0..1_023).map(late));
    let socket = storage.table().socket(1, 1, 0).expect("the last slot");
    let name = late(1_022);
    Contest::new().with(Who::Ours, move || {
        assert!(storage.table().bind(socket, &name) == Err(Errno::AddrInUse));
    })
}

/// One inbox by itself, without a table.
pub struct Alone {
    pub title: &'static str,
    pub other: Who,
    pub target: f64,
    pub contest: Contest,
}

pub fn inbox(pace: Pace) -> Vec<Alone> {
    let mut rows = vec![
        Alone { title: "64 KiB, ring straight", other: Who::Memcpy, target: 1.15, contest: ring(0) },
        Alone { title: "64 KiB, ring wrapped at its middle", other: Who::Memcpy, target: 1.15, contest: ring(32_768) },
        Alone { title: "16 bytes with one item", other: Who::Rust, target: 0.5, contest: small_message() },
    ];
    pace.run(rows.iter_mut().map(|row| &mut row.contest));
    rows
}

fn ring(head: u64) -> Contest {
    let all = Rc::new(RefCell::new((Inbox::new(CAPACITY, head), bytes(CAPACITY), vec![0; CAPACITY])));
    let same = all.clone();
    Contest::new()
        .with(Who::Ours, move || {
            let (inbox, source, destination) = &mut *all.borrow_mut();
            inbox.push(source, &[]);
            inbox.take(destination, &mut []);
        })
        .with(Who::Memcpy, move || {
            let (inbox, source, destination) = &mut *same.borrow_mut();
            memcpy(source, &mut inbox.ring);
            memcpy(&inbox.ring, destination);
        })
}

fn small_message() -> Contest {
    let source = *b"sixteen bytes ..";
    let mut inbox = Inbox::new(CAPACITY, 0);
    let rust = original::Sockets::new(1, false);
    let (mut ours, mut theirs) = ([0; 16], [0; 16]);
    Contest::new()
        .with(Who::Ours, move || {
            let mut items = [0];
            inbox.push(&source, &[7]);
            inbox.take(&mut ours, &mut items);
            assert!(items == [7] && ours == source);
        })
        .with_rust(move || rust.message(&source, &[7], &mut theirs))
}
