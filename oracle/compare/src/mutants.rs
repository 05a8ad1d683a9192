//! Wrong answers, put between the library and the comparison: each must be seen. They stand for the
//! mistakes that 01 names as traps, and for a mistake in each answer, wake, release and count.

use crate::call::{Answer, Call};
use crate::plain::{Ask, Reply};

pub type Change = fn(&Call, &mut Answer);

fn swap(a: &mut Answer, from: u32, to: u32) {
    if a.refusal == from {
        a.refusal = to;
    }
}

/// "What is wrong", the calls that it is about, the change of their answers.
macro_rules! wrong {
    ($($says:literal, $($call:pat_param)|+, $a:ident => $do:expr;)*) => {
        pub const MUTANTS: &[(&str, Change)] = &[
            $(($says, |call: &Call, $a: &mut Answer| if matches!(call, $($call)|+) { $do }),)*
        ];
    };
}

wrong! {
    "a closed or foreign handle is accepted", _, a => swap(a, 1, 0);
    "socket: no slot is 8", Call::Socket { .. }, a => swap(a, 16, 8);
    "socket: the type is asked before the domain", Call::Socket { ty: 0 | 2 | 5 | 65_537, .. }, a => swap(a, 12, 14);
    "socket: the next generation", Call::Socket { .. }, a => if a.refusal == 0 { a.value += 65_536 };
    "socket: another slot", Call::Socket { .. }, a => if a.refusal == 0 { a.value += 1 };
    "socket: wakes the registry", Call::Socket { .. }, a => if a.refusal == 0 { a.wakes.push(0) };
    "bind: a held name is 2", Call::Bind { .. }, a => swap(a, 3, 2);
    "bind: wakes the registry", Call::Bind { .. }, a => if a.refusal == 0 { a.wakes.push(0) };
    "bind: a long name is 2", Call::Bind { .. }, a => swap(a, 17, 2);
    "listen: unbound is 2", Call::Listen { .. }, a => swap(a, 4, 2);
    "listen: connected is 9", Call::Listen { .. }, a => swap(a, 2, 9);
    "listen: wakes for any backlog", Call::Listen { .. }, a => if a.refusal == 0 && a.wakes.is_empty() { a.wakes.push(0) };
    "listen: a larger backlog wakes nobody", Call::Listen { .. }, a => a.wakes.clear();
    "accept: nothing pending is 2", Call::Accept { .. }, a => swap(a, 8, 2);
    "accept: wakes nobody", Call::Accept { .. }, a => a.wakes.clear();
    "accept: another generation", Call::Accept { .. }, a => if a.refusal == 0 { a.value += 65_536 };
    "connect: connected is 2", Call::Connect { .. }, a => swap(a, 5, 2);
    "connect: listening is 5", Call::Connect { .. }, a => swap(a, 6, 5);
    "connect: bound is 6", Call::Connect { .. }, a => swap(a, 2, 6);
    "connect: no listener is 8", Call::Connect { .. }, a => swap(a, 7, 8);
    "connect: a full queue is 7", Call::Connect { .. }, a => swap(a, 8, 7);
    "connect: no slot is 8", Call::Connect { .. }, a => swap(a, 16, 8);
    "connect: wakes the caller first", Call::Connect { .. }, a => a.wakes.reverse();
    "connect: does not wake the caller", Call::Connect { .. }, a => a.wakes.truncate(1);
    "connect: wakes the registry", Call::Connect { .. }, a => if a.refusal == 0 { a.wakes.push(0) };
    "read: the end of the stream is 8", Call::Read { .. }, a => if a.refusal == 0 && a.value == 0 && a.wakes.is_empty() { a.refusal = 8 };
    "read: an empty inbox is the end", Call::Read { .. }, a => swap(a, 8, 0);
    "read: not connected is 10", Call::Read { .. }, a => swap(a, 9, 10);
    "read: releases nothing", Call::Read { .. }, a => a.releases.clear();
    "read: releases the last first", Call::Read { .. }, a => a.releases.reverse();
    "read: hands the items over", Call::Read { .. }, a => a.items = std::mem::take(&mut a.releases);
    "read or recvmsg: a wrong last byte", Call::Read { .. } | Call::Recvmsg { .. }, a => if let Some(b) = a.data.last_mut() { *b ^= 1 };
    "read: 0 bytes wake nobody", Call::Read { .. }, a => if a.value == 0 { a.wakes.clear() };
    "read or recvmsg: one byte less is told", Call::Read { .. } | Call::Recvmsg { .. }, a => a.value -= u64::from(a.value > 3);
    "recvmsg: wakes nobody", Call::Recvmsg { .. }, a => a.wakes.clear();
    "recvmsg: an empty buffer is 9", Call::Recvmsg { .. }, a => swap(a, 2, 9);
    "recvmsg: the last item first", Call::Recvmsg { .. }, a => a.items.reverse();
    "recvmsg: loses the last item", Call::Recvmsg { .. }, a => a.items.truncate(a.items.len().saturating_sub(1));
    "recvmsg: no flag", Call::Recvmsg { .. }, a => a.flags = 0;
    "recvmsg: a flag where the list is just full", Call::Recvmsg { capacity: 1 | 2 | 5 | 16, .. }, a => if matches!(a.items.len(), 1 | 2 | 5 | 16) { a.flags = 8 };
    "recvmsg: the rest is not released", Call::Recvmsg { .. }, a => a.releases.clear();
    "recvmsg: the rest is released backwards", Call::Recvmsg { .. }, a => a.releases.reverse();
    "send: all bytes are told, not those that fit", Call::Write { .. } | Call::Sendmsg { .. }, a => if a.refusal == 0 && a.value > 4 { a.value += 1 };
    "send: a broken pipe is 8", Call::Write { .. } | Call::Sendmsg { .. }, a => swap(a, 10, 8);
    "send: no room is 10", Call::Write { .. } | Call::Sendmsg { .. }, a => swap(a, 8, 10);
    "send: no room is 0 bytes", Call::Write { .. } | Call::Sendmsg { .. }, a => swap(a, 8, 0);
    "send: too many items is 8", Call::Sendmsg { .. }, a => swap(a, 11, 8);
    "send: items without bytes is 11", Call::Sendmsg { .. }, a => swap(a, 2, 11);
    "send: nothing sent wakes nobody", Call::Write { .. } | Call::Sendmsg { .. }, a => if a.value == 0 { a.wakes.clear() };
    "send: wakes the sender", Call::Write { .. } | Call::Sendmsg { .. }, a => if a.refusal == 0 { a.wakes.push(65_536) };
    "send: a refused send releases its items", Call::Sendmsg { .. }, a => if a.refusal == 9 { a.releases.push(1) };
    "shutdown: a bad number is 9", Call::Shutdown { .. }, a => swap(a, 2, 9);
    "shutdown: wakes the peer first", Call::Shutdown { .. }, a => a.wakes.reverse();
    "shutdown: wakes only itself", Call::Shutdown { .. }, a => a.wakes.truncate(1);
    "shutdown: releases nothing", Call::Shutdown { .. }, a => a.releases.clear();
    "close: the registry is not woken", Call::Close { .. }, a => a.wakes.retain(|&w| w != 0);
    "close: the peer is not woken", Call::Close { .. }, a => a.wakes.retain(|&w| w == 0);
    "close: clients of pending servers backwards", Call::Close { .. }, a => if a.wakes.len() > 2 { a.wakes[1..].reverse() };
    "close: releases backwards", Call::Close { .. }, a => a.releases.reverse();
    "close: releases the last item twice", Call::Close { .. }, a => if let Some(&t) = a.releases.last() { a.releases.push(t) };
    "readiness: hung up is not readable", Call::Readiness { .. }, a => if a.value == 5 { a.value = 4 };
    "readiness: hung up is not told", Call::Readiness { .. }, a => a.value &= 3;
    "readiness: never writable", Call::Readiness { .. }, a => a.value &= 5;
    "readiness: writable beside a full inbox", Call::Readiness { .. }, a => if a.value == 1 { a.value = 3 };
}

pub type PlainChange = fn(&Ask, &mut Reply);

pub const PLAIN_MUTANTS: &[(&str, PlainChange)] = &[
    ("UTF-8: surrogates pass", |ask, r| {
        if let Ask::Utf8(b) = ask
            && b.starts_with(&[0xED, 0xA0])
        {
            r.numbers[0] = 1
        }
    }),
    ("UTF-8: overlong pairs pass", |ask, r| {
        if let Ask::Utf8(b) = ask
            && matches!(b[..], [0xC1, 0x80..=0xBF])
        {
            r.numbers[0] = 1
        }
    }),
    ("UTF-8: above 10FFFF passes", |ask, r| {
        if let Ask::Utf8(b) = ask
            && matches!(b[..], [0xF4, 0x90, 0x80..=0xBF, 0x80..=0xBF])
        {
            r.numbers[0] = 1
        }
    }),
    ("path_of: an empty path passes", |ask, r| {
        if let Ask::PathOf(b) = ask
            && b[..] == [1, 0]
        {
            r.refusal = 0
        }
    }),
    ("path_of: the family after the path", |ask, r| {
        if let Ask::PathOf(_) = ask
            && r.refusal == 12
        {
            r.refusal = 2
        }
    }),
    ("path_of: the whole address", |ask, r| {
        if let Ask::PathOf(_) = ask
            && r.refusal == 0
        {
            r.numbers[0] = 0
        }
    }),
    ("new: 108 bytes of path pass", |ask, r| {
        if let Ask::NewAddress { path, .. } = ask
            && path.len() == 108
            && r.refusal == 17
        {
            r.refusal = 0
        }
    }),
    ("new: keeps what stood after the path", |ask, r| {
        if let Ask::NewAddress { path, .. } = ask
            && r.refusal == 0
            && path.len() < 107
        {
            r.bytes[109] = 0xA5
        }
    }),
    ("new: writes beyond 110", |ask, r| {
        if let Ask::NewAddress { .. } = ask
            && r.refusal == 0
            && r.bytes.len() > 110
        {
            r.bytes[110] = 0
        }
    }),
    ("len: a full path is 110", |ask, r| {
        if let Ask::AddressLen(_) = ask
            && r.numbers[0] == 111
        {
            r.numbers[0] = 110
        }
    }),
    ("align: 2^64 - 8 is 2", |ask, r| {
        if *ask == Ask::Align(u64::MAX - 7) {
            *r = Reply { refusal: 2, numbers: vec![0], bytes: Vec::new() }
        }
    }),
    ("align: a multiple of 8 goes up", |ask, r| {
        if let Ask::Align(n) = ask
            && r.refusal == 0
            && n % 8 == 0
        {
            r.numbers[0] += 8
        }
    }),
    ("space: wraps", |ask, r| {
        if let Ask::Space(_) = ask
            && r.refusal == 2
        {
            r.refusal = 0
        }
    }),
    ("scm_rights_space: wraps", |ask, r| {
        if let Ask::RightsSpace(_) = ask
            && r.refusal == 2
        {
            r.refusal = 0
        }
    }),
    ("scm_rights: wraps", |ask, r| {
        if let Ask::Rights(_) = ask
            && r.refusal == 2
        {
            r.refusal = 0
        }
    }),
    ("scm_rights: the padding is counted", |ask, r| {
        if let Ask::Rights(n) = ask
            && r.refusal == 0
            && n % 2 == 1
        {
            r.numbers[0] += 4
        }
    }),
    ("scm_rights_count: a length beyond the buffer passes", |ask, r| {
        if let Ask::RightsCount { len, level: 1, ty: 1, control_len } = ask
            && control_len.checked_add(1) == Some(*len)
            && r.refusal == 2
        {
            r.refusal = 0
        }
    }),
    ("iovec: 17 passes", |ask, r| {
        if let Ask::IovecCount(_) = ask
            && r.refusal == 13
        {
            *r = Reply { refusal: 0, numbers: vec![17], bytes: Vec::new() }
        }
    }),
    ("iovec: the name's length is not asked", |ask, r| {
        if let Ask::IovecCount(h) = ask
            && r.refusal == 2
            && h[..8] == [0; 8]
        {
            r.refusal = 0
        }
    }),
    ("control length: 80 is 2", |ask, r| {
        if let Ask::ControlLen(_) = ask
            && r.numbers[0] == 80
        {
            *r = Reply { refusal: 2, numbers: vec![0], bytes: Vec::new() }
        }
    }),
    ("how: 3 passes", |ask, r| {
        if *ask == Ask::How(3) {
            *r = Reply { refusal: 0, numbers: vec![3], bytes: Vec::new() }
        }
    }),
    ("parse: a header's length of 15 passes", |ask, r| {
        if let Ask::Parse { control, .. } = ask
            && control.len() > 15
            && control[..8] == [15, 0, 0, 0, 0, 0, 0, 0]
        {
            r.refusal = 0
        }
    }),
    ("parse: the length is narrowed first", |ask, r| {
        if let Ask::Parse { control, .. } = ask
            && control.len() > 16
            && control[..8] == [16, 0, 0, 0, 1, 0, 0, 0]
        {
            r.refusal = 0
        }
    }),
    ("parse: the type is not asked", |ask, r| {
        if let Ask::Parse { control, .. } = ask
            && control.len() > 16
            && control[12] == 2
            && control[8] == 1
        {
            r.refusal = 0
        }
    }),
    ("parse: a short list is filled", |ask, r| {
        if let Ask::Parse { .. } = ask
            && r.refusal == 18
        {
            r.refusal = 0
        }
    }),
    ("capacity: one more", |ask, r| {
        if let Ask::Capacity(n) = ask
            && n % 4 == 3
        {
            r.numbers[0] += 1
        }
    }),
    ("encode: the padding is written", |ask, r| {
        if let Ask::Encode { fds, .. } = ask
            && fds.len() % 2 == 1
            && r.bytes.len() >= 20 + 4 * fds.len()
        {
            r.bytes[16 + 4 * fds.len()] = 0
        }
    }),
    ("encode: the padding is not told", |ask, r| {
        if let Ask::Encode { fds, .. } = ask
            && fds.len() % 2 == 1
        {
            r.numbers[0] = r.numbers[0].min(16 + 4 * fds.len() as u64)
        }
    }),
    ("encode: none answers 16", |ask, r| {
        if let Ask::Encode { fds, room } = ask
            && fds.is_empty()
            && *room > 15
        {
            r.numbers[0] = 16
        }
    }),
    ("sendmsg: flags after the control bytes", |ask, r| {
        if let Ask::SendControl { control, .. } = ask
            && r.refusal == 6
            && (1..16).contains(&control.len())
        {
            r.refusal = 2
        }
    }),
    ("recvmsg: flags are not asked", |ask, r| {
        if let Ask::RecvCapacity { flags, .. } = ask
            && *flags != 0
        {
            r.refusal = 0
        }
    }),
];
