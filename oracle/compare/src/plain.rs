//! The functions without a table: addresses, UTF-8, control bytes, message headers. A question, our
//! answer, the original's answer, and the list of intended differences.

use std::fmt::{self, Display, Formatter};

use crate::call::{hex, unhex};
use crate::library as ours;

/// A question; `room` is the length of what is lent for the answer.
#[derive(Clone, Debug, PartialEq)]
pub enum Ask {
    Utf8(Vec<u8>),
    PathOf(Vec<u8>),
    NewAddress { path: Vec<u8>, room: usize },
    AddressLen(Vec<u8>),
    Align(u64),
    Len(u64),
    Space(u64),
    RightsSpace(u64),
    Rights(u64),
    RightsCount { len: u64, level: i32, ty: i32, control_len: u64 },
    IovecCount(Vec<u8>),
    ControlLen(Vec<u8>),
    How(i32),
    Parse { control: Vec<u8>, room: usize },
    Capacity(u64),
    Encode { fds: Vec<i32>, room: usize },
    SendControl { flags: i32, control: Vec<u8>, room: usize },
    RecvCapacity { flags: i32, controllen: u64 },
}

/// The refusal, the numbers, and what was written (`FILL` where nothing was).
#[derive(Clone, Debug, Default, PartialEq)]
pub struct Reply {
    pub refusal: u64,
    pub numbers: Vec<u64>,
    pub bytes: Vec<u8>,
}

const FILL: u8 = 0xA5;
const FILL_FD: i32 = i32::from_ne_bytes([FILL; 4]);

fn fds_bytes(fds: &[i32]) -> Vec<u8> {
    fds.iter().flat_map(|fd| fd.to_le_bytes()).collect()
}

fn numbered(n: ours::Number) -> Reply {
    Reply { refusal: n.refusal.into(), numbers: vec![n.value], bytes: Vec::new() }
}

/// Our side.
pub fn library(ask: &Ask) -> Reply {
    match ask {
        Ask::Utf8(bytes) => Reply { numbers: vec![ours::is_utf8(bytes).into()], ..Reply::default() },
        Ask::PathOf(addr) => {
            let p = ours::address_path(addr);
            Reply { refusal: p.refusal.into(), numbers: vec![p.start as u64, p.length as u64], bytes: Vec::new() }
        }
        Ask::NewAddress { path, room } => {
            let mut addr = vec![FILL; *room];
            let refusal = ours::address_new(path, &mut addr);
            Reply { refusal: refusal.into(), numbers: Vec::new(), bytes: addr }
        }
        Ask::AddressLen(addr) => numbered(ours::address_len(addr)),
        Ask::Align(n) => numbered(ours::cmsg_align(*n)),
        Ask::Len(n) => numbered(ours::cmsg_len(*n)),
        Ask::Space(n) => numbered(ours::cmsg_space(*n)),
        Ask::RightsSpace(n) => numbered(ours::scm_rights_space(*n)),
        Ask::Rights(n) => {
            let h = ours::scm_rights(*n);
            let numbers = vec![h.len, h.level as u32 as u64, h.ty as u32 as u64];
            Reply { refusal: h.refusal.into(), numbers, bytes: Vec::new() }
        }
        &Ask::RightsCount { len, level, ty, control_len } => {
            numbered(ours::scm_rights_count(len, level, ty, control_len))
        }
        Ask::IovecCount(hdr) => numbered(ours::iovec_count(hdr)),
        Ask::ControlLen(hdr) => numbered(ours::control_len(hdr)),
        Ask::How(how) => numbered(ours::shutdown_how(*how)),
        Ask::Parse { control, room } => {
            let mut fds = vec![FILL_FD; *room];
            let n = ours::parse_scm_rights(control, &mut fds);
            Reply { bytes: fds_bytes(&fds), ..numbered(n) }
        }
        Ask::Capacity(n) => Reply { numbers: vec![ours::scm_rights_capacity(*n)], ..Reply::default() },
        Ask::Encode { fds, room } => {
            let mut control = vec![FILL; *room];
            let n = ours::encode_scm_rights(fds, &mut control);
            Reply { bytes: control, ..numbered(n) }
        }
        Ask::SendControl { flags, control, room } => {
            let mut fds = vec![FILL_FD; *room];
            let n = ours::sendmsg_control(*flags, control, &mut fds);
            Reply { bytes: fds_bytes(&fds), ..numbered(n) }
        }
        Ask::RecvCapacity { flags, controllen } => numbered(ours::recvmsg_capacity(*flags, *controllen)),
    }
}

impl Display for Ask {
    fn fmt(&self, f: &mut Formatter<'_>) -> fmt::Result {
        match self {
            Ask::Utf8(b) => write!(f, "utf8 {}", hex(b)),
            Ask::PathOf(b) => write!(f, "path_of {}", hex(b)),
            Ask::NewAddress { path, room } => write!(f, "new_address {} {room}", hex(path)),
            Ask::AddressLen(b) => write!(f, "address_len {}", hex(b)),
            Ask::Align(n) => write!(f, "align {n}"),
            Ask::Len(n) => write!(f, "len {n}"),
            Ask::Space(n) => write!(f, "space {n}"),
            Ask::RightsSpace(n) => write!(f, "scm_rights_space {n}"),
            Ask::Rights(n) => write!(f, "scm_rights {n}"),
            Ask::RightsCount { len, level, ty, control_len } => {
                write!(f, "scm_rights_count {len} {level} {ty} {control_len}")
            }
            Ask::IovecCount(b) => write!(f, "iovec_count {}", hex(b)),
            Ask::ControlLen(b) => write!(f, "control_len {}", hex(b)),
            Ask::How(n) => write!(f, "how {n}"),
            Ask::Parse { control, room } => write!(f, "parse {} {room}", hex(control)),
            Ask::Capacity(n) => write!(f, "capacity {n}"),
            Ask::Encode { fds, room } => write!(f, "encode {} {room}", hex(&fds_bytes(fds))),
            Ask::SendControl { flags, control, room } => write!(f, "sendmsg_control {flags} {} {room}", hex(control)),
            Ask::RecvCapacity { flags, controllen } => write!(f, "recvmsg_capacity {flags} {controllen}"),
        }
    }
}

impl Display for Reply {
    fn fmt(&self, f: &mut Formatter<'_>) -> fmt::Result {
        write!(f, "{}", self.refusal)?;
        for n in &self.numbers {
            write!(f, " {n}")?;
        }
        if !self.bytes.is_empty() {
            write!(f, " bytes {}", hex(&self.bytes))?;
        }
        Ok(())
    }
}

/// Reads a question as it is written.
pub fn parse(text: &str) -> Option<Ask> {
    let words: Vec<&str> = text.split_whitespace().collect();
    let (&name, rest) = words.split_first()?;
    Some(match (name, rest) {
        ("utf8", [b]) => Ask::Utf8(unhex(b)?),
        ("path_of", [b]) => Ask::PathOf(unhex(b)?),
        ("new_address", [p, room]) => Ask::NewAddress { path: unhex(p)?, room: room.parse().ok()? },
        ("address_len", [b]) => Ask::AddressLen(unhex(b)?),
        ("align", [n]) => Ask::Align(n.parse().ok()?),
        ("len", [n]) => Ask::Len(n.parse().ok()?),
        ("space", [n]) => Ask::Space(n.parse().ok()?),
        ("scm_rights_space", [n]) => Ask::RightsSpace(n.parse().ok()?),
        ("scm_rights", [n]) => Ask::Rights(n.parse().ok()?),
        ("scm_rights_count", [len, level, ty, control_len]) => Ask::RightsCount {
            len: len.parse().ok()?,
            level: level.parse().ok()?,
            ty: ty.parse().ok()?,
            control_len: control_len.parse().ok()?,
        },
        ("iovec_count", [b]) => Ask::IovecCount(unhex(b)?),
        ("control_len", [b]) => Ask::ControlLen(unhex(b)?),
        ("how", [n]) => Ask::How(n.parse().ok()?),
        ("parse", [c, room]) => Ask::Parse { control: unhex(c)?, room: room.parse().ok()? },
        ("capacity", [n]) => Ask::Capacity(n.parse().ok()?),
        ("encode", [fds, room]) => {
            let bytes = unhex(fds)?;
            let fds = bytes.as_chunks::<4>().0.iter().map(|b| i32::from_le_bytes(*b)).collect();
            Ask::Encode { fds, room: room.parse().ok()? }
        }
        ("sendmsg_control", [flags, c, room]) => {
            Ask::SendControl { flags: flags.parse().ok()?, control: unhex(c)?, room: room.parse().ok()? }
        }
        ("recvmsg_capacity", [flags, n]) => {
            Ask::RecvCapacity { flags: flags.parse().ok()?, controllen: n.parse().ok()? }
        }
        _ => return None,
    })
}

/// The intended differences between the original and document 01 (docs/DIFFERENCES.md). There is no
/// other place where the original's answer is not taken as it is, but for the items of a refused send
/// (original.rs) and what 01 adds to the table.
#[derive(Clone, Copy, Debug, PartialEq)]
pub enum Intended {
    /// `align(2^64 - 8)`: the exact value fits; the original traps.
    AlignTop,
    /// A value above 2^64 - 1 is 2; the original traps.
    Overflow,
    /// More descriptors than the control bytes hold are 18; the original asserts.
    EncoderRoom,
    /// A descriptor list that is too short is 18; the original allocates.
    ListRoom,
    /// Bad UTF-8 to the address writer is 2; the original takes a `&str`.
    WriterUtf8,
    /// An address or message header of too few bytes is 18; the original has structs.
    StructRoom,
}

pub const INTENDED: [(Intended, &str); 6] = [
    (Intended::AlignTop, "align at 2^64 - 8 traps in the original, exact here"),
    (Intended::Overflow, "a size above 2^64 - 1 traps in the original, 2 here"),
    (Intended::EncoderRoom, "more descriptors than fit: an assertion in the original, 18 here"),
    (Intended::ListRoom, "a descriptor list too short: the original allocates, 18 here"),
    (Intended::WriterUtf8, "bad UTF-8 to the address writer: no such &str, 2 here"),
    (Intended::StructRoom, "too few bytes for an address or header: structs in the original, 18 here"),
];

#[cfg(original)]
pub use against::{original, quiet};

#[cfg(original)]
mod against {
    use std::panic::catch_unwind;

    use kernel_abi::{CmsgHdr, Errno, MsgHdr, SUN_PATH_MAX, ShutdownHow, SockAddrUn};
    use kernel_syscall::access::{Received, SocketAccess};
    use kernel_syscall::socket as sys;
    use kernel_vfs::path::AbsoluteOwnedPath;

    use super::{Ask, FILL, FILL_FD, Intended, Reply, fds_bytes};
    use crate::original::number;

    /// The traps of the original are answers here: their messages are not printed.
    pub fn quiet<T>(f: impl FnOnce() -> T) -> T {
        let hook = std::panic::take_hook();
        std::panic::set_hook(Box::new(|_| {}));
        let t = f();
        std::panic::set_hook(hook);
        t
    }

    fn refused(e: Errno, numbers: usize) -> Reply {
        refusal(number(e).into(), numbers)
    }

    fn refusal(refusal: u64, numbers: usize) -> Reply {
        Reply { refusal, numbers: vec![0; numbers], bytes: Vec::new() }
    }

    fn value(v: usize) -> Reply {
        Reply { refusal: 0, numbers: vec![v as u64], bytes: Vec::new() }
    }

    /// A size, or what 01 says where the original traps.
    fn size(top: bool, f: impl Fn() -> usize + std::panic::UnwindSafe) -> (Reply, Option<Intended>) {
        match catch_unwind(f) {
            Ok(v) => (value(v), None),
            Err(_) if top => (value(usize::MAX - 7), Some(Intended::AlignTop)),
            Err(_) => (refusal(2, 1), Some(Intended::Overflow)),
        }
    }

    fn header(bytes: &[u8]) -> MsgHdr {
        assert!(bytes.len() >= size_of::<MsgHdr>());
        // SAFETY: enough bytes, and any bytes are a `MsgHdr`.
        unsafe { bytes.as_ptr().cast::<MsgHdr>().read_unaligned() }
    }

    /// Descriptors into a lent list.
    fn listed(parsed: Result<Vec<i32>, Errno>, room: usize) -> (Reply, Option<Intended>) {
        let mut list = vec![FILL_FD; room];
        let (mut reply, intended) = match parsed {
            Err(e) => (refused(e, 1), None),
            Ok(fds) if fds.len() > room => (refusal(18, 1), Some(Intended::ListRoom)),
            Ok(fds) => {
                list[..fds.len()].copy_from_slice(&fds);
                (value(fds.len()), None)
            }
        };
        reply.bytes = fds_bytes(&list);
        (reply, intended)
    }

    /// Takes what `sys_sendmsg` and `sys_recvmsg` hand on.
    #[derive(Default)]
    struct Taker {
        fds: std::cell::RefCell<Vec<i32>>,
        capacity: std::cell::Cell<usize>,
    }

    impl SocketAccess for Taker {
        type Fd = i32;

        fn socket(&self) -> i32 {
            unreachable!()
        }
        fn bind(&self, _: i32, _: AbsoluteOwnedPath) -> Result<(), Errno> {
            unreachable!()
        }
        fn listen(&self, _: i32, _: usize) -> Result<(), Errno> {
            unreachable!()
        }
        fn accept(&self, _: i32) -> Result<i32, Errno> {
            unreachable!()
        }
        fn connect(&self, _: i32, _: AbsoluteOwnedPath) -> Result<(), Errno> {
            unreachable!()
        }
        fn shutdown(&self, _: i32, _: ShutdownHow) -> Result<(), Errno> {
            unreachable!()
        }
        fn sendmsg(&self, _: i32, _: &[u8], fds: &[i32]) -> Result<usize, Errno> {
            self.fds.replace(fds.to_vec());
            Ok(0)
        }
        fn recvmsg(&self, _: i32, _: &mut [u8], max_fds: usize) -> Result<Received<i32>, Errno> {
            self.capacity.set(max_fds);
            Ok(Received { len: 0, fds: Vec::new(), truncated: false })
        }
    }

    /// The original's answer, in document 01's numbers.
    pub fn original(ask: &Ask) -> (Reply, Option<Intended>) {
        match ask {
            Ask::Utf8(bytes) => {
                (Reply { numbers: vec![core::str::from_utf8(bytes).is_ok().into()], ..Reply::default() }, None)
            }
            Ask::PathOf(addr) => match SockAddrUn::path_of(addr) {
                Err(e) => (refused(e, 2), None),
                Ok(path) => {
                    let start = path.as_ptr() as usize - addr.as_ptr() as usize;
                    (Reply { numbers: vec![start as u64, path.len() as u64], ..Reply::default() }, None)
                }
            },
            Ask::NewAddress { path, room } => {
                let bytes = vec![FILL; *room];
                let unwritten = |no, why| (Reply { refusal: no, numbers: Vec::new(), bytes: bytes.clone() }, why);
                if *room < 2 + SUN_PATH_MAX {
                    return unwritten(18, Some(Intended::StructRoom));
                }
                let Ok(text) = core::str::from_utf8(path) else {
                    // 01 asks for the length first.
                    return unwritten(if path.len() > 107 { 17 } else { 2 }, Some(Intended::WriterUtf8));
                };
                let Some(addr) = SockAddrUn::new(text) else { return unwritten(17, None) };
                let mut bytes = bytes;
                bytes[..2].copy_from_slice(&addr.sun_family.to_ne_bytes());
                bytes[2..110].copy_from_slice(&addr.sun_path);
                (Reply { refusal: 0, numbers: Vec::new(), bytes }, None)
            }
            Ask::AddressLen(addr) => {
                let Some(bytes) = addr.get(..110) else { return (refusal(18, 1), Some(Intended::StructRoom)) };
                let sun_path = bytes[2..].try_into().unwrap();
                let addr = SockAddrUn { sun_family: u16::from_ne_bytes([bytes[0], bytes[1]]), sun_path };
                (value(addr.len() as usize), None)
            }
            &Ask::Align(n) => size(n == u64::MAX - 7, move || CmsgHdr::align(n as usize)),
            &Ask::Len(n) => size(false, move || CmsgHdr::len(n as usize)),
            &Ask::Space(n) => size(false, move || CmsgHdr::space(n as usize)),
            &Ask::RightsSpace(n) => size(false, move || CmsgHdr::scm_rights_space(n as usize)),
            &Ask::Rights(n) => match catch_unwind(|| CmsgHdr::scm_rights(n as usize)) {
                Ok(h) => {
                    let numbers = vec![h.cmsg_len as u64, h.cmsg_level as u32 as u64, h.cmsg_type as u32 as u64];
                    (Reply { refusal: 0, numbers, bytes: Vec::new() }, None)
                }
                Err(_) => (refusal(2, 3), Some(Intended::Overflow)),
            },
            &Ask::RightsCount { len, level, ty, control_len } => {
                let hdr = CmsgHdr { cmsg_len: len as usize, cmsg_level: level, cmsg_type: ty };
                // The original's `None` is its caller's EINVAL.
                (hdr.scm_rights_count(control_len as usize).map_or_else(|| refusal(2, 1), value), None)
            }
            Ask::IovecCount(hdr) if hdr.len() < 56 => (refusal(18, 1), Some(Intended::StructRoom)),
            Ask::ControlLen(hdr) if hdr.len() < 56 => (refusal(18, 1), Some(Intended::StructRoom)),
            Ask::IovecCount(hdr) => (header(hdr).iovec_count().map_or_else(|e| refused(e, 1), value), None),
            Ask::ControlLen(hdr) => (header(hdr).control_len().map_or_else(|e| refused(e, 1), value), None),
            Ask::How(how) => (ShutdownHow::try_from(*how).map_or_else(|e| refused(e, 1), |h| value(h as usize)), None),
            Ask::Parse { control, room } => listed(sys::ask_parse(control), *room),
            Ask::Capacity(n) => (value(sys::ask_capacity(*n as usize)), None),
            Ask::Encode { fds, room } => {
                let encoded = catch_unwind(|| {
                    let mut control = vec![FILL; *room];
                    let len = sys::ask_encode(fds, &mut control);
                    Reply { bytes: control, ..value(len) }
                });
                match encoded {
                    Ok(reply) => (reply, None),
                    Err(_) => (Reply { bytes: vec![FILL; *room], ..refusal(18, 1) }, Some(Intended::EncoderRoom)),
                }
            }
            Ask::SendControl { flags, control, room } => {
                let taker = Taker::default();
                let sent = sys::sys_sendmsg(&taker, 0, *flags, &[], control);
                listed(sent.map(|_| taker.fds.take()), *room)
            }
            Ask::RecvCapacity { flags, controllen } => {
                if *flags == 0 && *controllen > 1 << 20 {
                    // No buffer of that length: the function behind it is asked.
                    return (value(sys::ask_capacity(*controllen as usize)), None);
                }
                let taker = Taker::default();
                let mut control = vec![0; (*controllen).min(1 << 20) as usize];
                let got = sys::sys_recvmsg(&taker, 0, *flags, &mut [], &mut control);
                (got.map_or_else(|e| refused(e, 1), |_| value(taker.capacity.get())), None)
            }
        }
    }
}
