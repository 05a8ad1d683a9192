//! Our side: the functions of include/eidrovang.h, and a table whose every call is looked at from
//! outside: what was lent beyond a count, and on a refusal all of it, is as it was.

#[repr(C)]
#[derive(Clone, Copy, Debug, PartialEq, Eq)]
pub struct Number {
    pub refusal: u32,
    pub value: u64,
}

#[repr(C)]
#[derive(Clone, Copy, Debug, PartialEq, Eq)]
pub struct Path {
    pub refusal: u32,
    pub start: usize,
    pub length: usize,
}

#[repr(C)]
#[derive(Clone, Copy, Debug, PartialEq, Eq)]
pub struct Header {
    pub refusal: u32,
    pub level: i32,
    pub ty: i32,
    pub len: u64,
}

unsafe extern "C" {
    fn eid_is_utf8(bytes: *const u8, len: usize) -> bool;
    fn eid_address_new(path: *const u8, path_len: usize, addr: *mut u8, addr_len: usize) -> u32;
    fn eid_address_len(addr: *const u8, addr_len: usize) -> Number;
    fn eid_address_path(addr: *const u8, addr_len: usize) -> Path;
    fn eid_cmsg_align(len: u64) -> Number;
    fn eid_cmsg_len(data_len: u64) -> Number;
    fn eid_cmsg_space(data_len: u64) -> Number;
    fn eid_scm_rights_space(fd_count: u64) -> Number;
    fn eid_scm_rights(fd_count: u64) -> Header;
    fn eid_scm_rights_count(len: u64, level: i32, ty: i32, control_len: u64) -> Number;
    fn eid_iovec_count(hdr: *const u8, hdr_len: usize) -> Number;
    fn eid_control_len(hdr: *const u8, hdr_len: usize) -> Number;
    fn eid_shutdown_how(how: i32) -> Number;
    fn eid_parse_scm_rights(control: *const u8, control_len: usize, fds: *mut i32, fds_len: usize) -> Number;
    fn eid_scm_rights_capacity(controllen: u64) -> u64;
    fn eid_encode_scm_rights(fds: *const i32, fds_len: usize, control: *mut u8, control_len: usize) -> Number;
    fn eid_sendmsg_control(flags: i32, control: *const u8, control_len: usize, fds: *mut i32, fds_len: usize)
    -> Number;
    fn eid_recvmsg_capacity(flags: i32, controllen: u64) -> Number;
}

// SAFETY of all that follows: pointers and lengths are those of slices that live through the call.

pub fn is_utf8(bytes: &[u8]) -> bool {
    unsafe { eid_is_utf8(bytes.as_ptr(), bytes.len()) }
}

pub fn address_new(path: &[u8], addr: &mut [u8]) -> u32 {
    unsafe { eid_address_new(path.as_ptr(), path.len(), addr.as_mut_ptr(), addr.len()) }
}

pub fn address_len(addr: &[u8]) -> Number {
    unsafe { eid_address_len(addr.as_ptr(), addr.len()) }
}

pub fn address_path(addr: &[u8]) -> Path {
    unsafe { eid_address_path(addr.as_ptr(), addr.len()) }
}

pub fn cmsg_align(len: u64) -> Number {
    unsafe { eid_cmsg_align(len) }
}

pub fn cmsg_len(len: u64) -> Number {
    unsafe { eid_cmsg_len(len) }
}

pub fn cmsg_space(len: u64) -> Number {
    unsafe { eid_cmsg_space(len) }
}

pub fn scm_rights_space(count: u64) -> Number {
    unsafe { eid_scm_rights_space(count) }
}

pub fn scm_rights(count: u64) -> Header {
    unsafe { eid_scm_rights(count) }
}

pub fn scm_rights_count(len: u64, level: i32, ty: i32, control_len: u64) -> Number {
    unsafe { eid_scm_rights_count(len, level, ty, control_len) }
}

pub fn iovec_count(hdr: &[u8]) -> Number {
    unsafe { eid_iovec_count(hdr.as_ptr(), hdr.len()) }
}

pub fn control_len(hdr: &[u8]) -> Number {
    unsafe { eid_control_len(hdr.as_ptr(), hdr.len()) }
}

pub fn shutdown_how(how: i32) -> Number {
    unsafe { eid_shutdown_how(how) }
}

pub fn parse_scm_rights(control: &[u8], fds: &mut [i32]) -> Number {
    unsafe { eid_parse_scm_rights(control.as_ptr(), control.len(), fds.as_mut_ptr(), fds.len()) }
}

pub fn scm_rights_capacity(controllen: u64) -> u64 {
    unsafe { eid_scm_rights_capacity(controllen) }
}

pub fn encode_scm_rights(fds: &[i32], control: &mut [u8]) -> Number {
    unsafe { eid_encode_scm_rights(fds.as_ptr(), fds.len(), control.as_mut_ptr(), control.len()) }
}

pub fn sendmsg_control(flags: i32, control: &[u8], fds: &mut [i32]) -> Number {
    unsafe { eid_sendmsg_control(flags, control.as_ptr(), control.len(), fds.as_mut_ptr(), fds.len()) }
}

pub fn recvmsg_capacity(flags: i32, controllen: u64) -> Number {
    unsafe { eid_recvmsg_capacity(flags, controllen) }
}

#[cfg(table_calls)]
pub use table::Table;

#[cfg(table_calls)]
mod table {
    use crate::call::{Answer, Call};

    #[repr(C)]
    #[derive(Clone, Copy, Default)]
    struct RawAnswer {
        refusal: u32,
        flags: u32,
        value: u64,
        items: u64,
        wakes: u64,
        releases: u64,
    }

    #[repr(C)]
    struct Least {
        refusal: u32,
        words: u64,
        bytes: u64,
        tokens: u64,
        wakes: u64,
        releases: u64,
    }

    /// Declares calls that begin with what every table call is lent.
    macro_rules! table_calls {
        ($($name:ident($($arg:ident: $ty:ty),*);)*) => {
            unsafe extern "C" {
                $(fn $name(
                    words: *mut u64, words_len: usize, bytes: *mut u8, bytes_len: usize, tokens: *mut u32,
                    tokens_len: usize, wakes: *mut u64, wakes_len: usize, releases: *mut u32,
                    releases_len: usize, n: usize, c: usize $(, $arg: $ty)*
                ) -> RawAnswer;)*
            }
        };
    }

    unsafe extern "C" {
        fn eid_sizes(n: usize, c: usize) -> Least;
        fn eid_make(
            words: *mut u64,
            words_len: usize,
            bytes: *mut u8,
            bytes_len: usize,
            tokens: *mut u32,
            tokens_len: usize,
            n: usize,
            c: usize,
        ) -> u32;
    }

    table_calls! {
        eid_socket(domain: i32, ty: i32, protocol: i32);
        eid_bind(h: u64, name: *const u8, name_len: usize);
        eid_listen(h: u64, backlog: u32);
        eid_accept(h: u64);
        eid_connect(h: u64, name: *const u8, name_len: usize);
        eid_read(h: u64, buf: *mut u8, buf_len: usize);
        eid_recvmsg(h: u64, buf: *mut u8, buf_len: usize, items: *mut u32, items_len: usize);
        eid_write(h: u64, buf: *const u8, buf_len: usize);
        eid_sendmsg(h: u64, buf: *const u8, buf_len: usize, items: *const u32, items_len: usize);
        eid_shutdown(h: u64, how: i32);
        eid_close(h: u64);
        eid_readiness(h: u64);
    }

    const WAKE: u64 = 0xAAAA_5555_AAAA_5555;
    const TOKEN: u32 = 0xAAAA_5555;
    const BYTE: u8 = 0xA5;
    /// Cells lent beyond the least size.
    const BEYOND: usize = 3;

    /// What all of a table's state stands in.
    #[derive(Clone, PartialEq)]
    pub struct Storage {
        pub words: Vec<u64>,
        pub bytes: Vec<u8>,
        pub tokens: Vec<u32>,
    }

    impl Storage {
        pub fn make(&mut self, n: usize, c: usize) -> u32 {
            unsafe {
                eid_make(
                    self.words.as_mut_ptr(),
                    self.words.len(),
                    self.bytes.as_mut_ptr(),
                    self.bytes.len(),
                    self.tokens.as_mut_ptr(),
                    self.tokens.len(),
                    n,
                    c,
                )
            }
        }
    }

    pub struct Table {
        pub n: usize,
        pub c: usize,
        pub storage: Storage,
        pub least: [usize; 3],
        pub wakes: Vec<u64>,
        pub releases: Vec<u32>,
        buf: Vec<u8>,
        items: Vec<u32>,
        calls: u64,
        /// Every how many calls all that is lent is looked at.
        pub look: u64,
    }

    impl Table {
        pub fn new(n: usize, c: usize) -> Self {
            let least = unsafe { eid_sizes(n, c) };
            assert_eq!(least.refusal, 0, "eid_sizes({n}, {c})");
            let sizes = [least.words as usize, least.bytes as usize, least.tokens as usize];
            // Old numbers stand in it: making must not care.
            let old = |i: usize| (i as u64 ^ 0x5DEE_CE66).wrapping_mul(0x9E37_79B9_7F4A_7C15);
            let mut storage = Storage {
                words: (0..sizes[0]).map(old).collect(),
                bytes: (0..sizes[1]).map(|i| (i * 7) as u8).collect(),
                tokens: (0..sizes[2]).map(|i| old(i) as u32).collect(),
            };
            storage.words.extend([WAKE; BEYOND]);
            storage.bytes.extend([BYTE; BEYOND]);
            storage.tokens.extend([TOKEN; BEYOND]);
            assert_eq!(storage.make(n, c), 0, "eid_make({n}, {c})");
            Self {
                n,
                c,
                storage,
                least: sizes,
                wakes: vec![WAKE; least.wakes as usize + BEYOND],
                releases: vec![TOKEN; least.releases as usize + BEYOND],
                buf: Vec::new(),
                items: Vec::new(),
                calls: 0,
                look: 16,
            }
        }

        /// A copy of the storage, to come back to.
        pub fn keep(&self) -> Storage {
            self.storage.clone()
        }

        pub fn back(&mut self, kept: &Storage) {
            self.storage.clone_from(kept);
        }

        fn raw(&mut self, call: &Call) -> RawAnswer {
            macro_rules! lent {
                ($f:ident $(, $arg:expr)*) => {
                    unsafe {
                        $f(
                            self.storage.words.as_mut_ptr(), self.storage.words.len(),
                            self.storage.bytes.as_mut_ptr(), self.storage.bytes.len(),
                            self.storage.tokens.as_mut_ptr(), self.storage.tokens.len(),
                            self.wakes.as_mut_ptr(), self.wakes.len(),
                            self.releases.as_mut_ptr(), self.releases.len(),
                            self.n, self.c $(, $arg)*
                        )
                    }
                };
            }
            match call {
                Call::Socket { domain, ty, protocol } => lent!(eid_socket, *domain, *ty, *protocol),
                Call::Bind { h, name } => lent!(eid_bind, *h, name.as_ptr(), name.len()),
                Call::Listen { h, backlog } => lent!(eid_listen, *h, *backlog),
                Call::Accept { h } => lent!(eid_accept, *h),
                Call::Connect { h, name } => lent!(eid_connect, *h, name.as_ptr(), name.len()),
                Call::Read { h, .. } => lent!(eid_read, *h, self.buf.as_mut_ptr(), self.buf.len()),
                Call::Recvmsg { h, .. } => lent!(
                    eid_recvmsg,
                    *h,
                    self.buf.as_mut_ptr(),
                    self.buf.len(),
                    self.items.as_mut_ptr(),
                    self.items.len()
                ),
                Call::Write { h, data } => {
                    let data = data.bytes();
                    lent!(eid_write, *h, data.as_ptr(), data.len())
                }
                Call::Sendmsg { h, data, items } => {
                    let (data, items) = (data.bytes(), items.list());
                    lent!(eid_sendmsg, *h, data.as_ptr(), data.len(), items.as_ptr(), items.len())
                }
                Call::Shutdown { h, how } => lent!(eid_shutdown, *h, *how),
                Call::Close { h } => lent!(eid_close, *h),
                Call::Readiness { h } => lent!(eid_readiness, *h),
            }
        }

        /// One call; what it may not have touched is looked at.
        pub fn call(&mut self, call: &Call) -> Result<Answer, String> {
            self.calls += 1;
            let look = self.calls.is_multiple_of(self.look);
            let before = look.then(|| self.storage.clone());
            let (len, capacity) = match *call {
                Call::Read { len, .. } => (len, 0),
                Call::Recvmsg { len, capacity, .. } => (len, capacity),
                _ => (0, 0),
            };
            self.buf.clear();
            self.buf.resize(len, BYTE);
            self.items.clear();
            self.items.resize(capacity, TOKEN);
            let raw = self.raw(call);
            let (wakes, releases, items) = (raw.wakes as usize, raw.releases as usize, raw.items as usize);
            if wakes > self.n + 1 || releases > 256 * self.n || items > capacity {
                return Err("a count above what its list holds".into());
            }
            let drains = matches!(call, Call::Read { .. } | Call::Recvmsg { .. });
            let moved = if drains { raw.value as usize } else { 0 };
            if moved > len {
                return Err("more bytes than the buffer holds".into());
            }
            let answer = Answer {
                refusal: raw.refusal,
                flags: raw.flags,
                value: raw.value,
                data: self.buf[..moved].to_vec(),
                items: self.items[..items].to_vec(),
                wakes: self.wakes[..wakes].to_vec(),
                releases: self.releases[..releases].to_vec(),
            };
            if raw.refusal > 19 {
                return Err(format!("{} is no number of 01", raw.refusal));
            }
            if raw.refusal != 0 && answer != Answer::refused(raw.refusal) {
                return Err("a refusal with other numbers beside it".into());
            }
            if self.buf[moved..].iter().any(|&b| b != BYTE) || self.items[items..].iter().any(|&t| t != TOKEN) {
                return Err("the buffer or the item list beyond the count is touched".into());
            }
            self.wakes[..wakes].fill(WAKE);
            self.releases[..releases].fill(TOKEN);
            if let Some(before) = before {
                self.looked(raw.refusal, &before)?;
            }
            Ok(answer)
        }

        fn looked(&self, refusal: u32, before: &Storage) -> Result<(), String> {
            if self.wakes.iter().any(|&w| w != WAKE) || self.releases.iter().any(|&t| t != TOKEN) {
                return Err("the wake or release list beyond the count is touched".into());
            }
            if refusal != 0 && self.storage != *before {
                return Err("a refusal that changed the storage".into());
            }
            let s = &self.storage;
            let [words, bytes, tokens] = self.least;
            if s.words[words..].iter().any(|&w| w != WAKE)
                || s.bytes[bytes..].iter().any(|&b| b != BYTE)
                || s.tokens[tokens..].iter().any(|&t| t != TOKEN)
            {
                return Err("storage beyond the least size is touched".into());
            }
            Ok(())
        }

        /// The readiness of a socket.
        pub fn ready(&mut self, h: u64) -> Result<u64, String> {
            let a = self.call(&Call::Readiness { h })?;
            if a.refusal != 0 {
                Err(format!("readiness of an open socket refused with {}", a.refusal))
            } else {
                Ok(a.value)
            }
        }
    }

    impl Table {
        /// The refusal alone, for tables whose answers are no table's.
        pub fn refusal(&mut self, call: &Call) -> u32 {
            let (len, capacity) = match *call {
                Call::Read { len, .. } => (len, 0),
                Call::Recvmsg { len, capacity, .. } => (len, capacity),
                _ => (0, 0),
            };
            self.buf.clear();
            self.buf.resize(len, BYTE);
            self.items.clear();
            self.items.resize(capacity, TOKEN);
            self.raw(call).refusal
        }
    }
}
