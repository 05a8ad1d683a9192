//! The kernel's own Unix stream sockets: socketpair, write, read, sendmsg and recvmsg with SCM_RIGHTS.

use std::fs::File;
use std::os::fd::AsRawFd;
use std::ptr::null;

const AF_UNIX: i32 = 1;
const SOCK_STREAM: i32 = 1;
const SOL_SOCKET: i32 = 1;
const SCM_RIGHTS: i32 = 1;
const MSG_DONTWAIT: i32 = 0x40;
const POLLIN: i16 = 1;
const POLLOUT: i16 = 4;
const RLIMIT_NOFILE: i32 = 7;
/// The greatest number of descriptors that a message carries here.
const MOST: usize = 16;

#[repr(C)]
struct Iovec {
    base: *mut u8,
    len: usize,
}

#[repr(C)]
struct Msghdr {
    name: *const u8,
    name_len: u32,
    iov: *mut Iovec,
    iov_len: usize,
    control: *mut u64,
    control_len: usize,
    flags: i32,
}

/// Room for a control header and [`MOST`] descriptors.
type Control = [u64; 2 + MOST / 2];

#[repr(C)]
struct Pollfd {
    fd: i32,
    events: i16,
    revents: i16,
}

#[repr(C)]
struct Rlimit {
    now: u64,
    most: u64,
}

unsafe extern "C" {
    fn socketpair(domain: i32, ty: i32, protocol: i32, fds: *mut i32) -> i32;
    fn close(fd: i32) -> i32;
    fn read(fd: i32, buf: *mut u8, len: usize) -> isize;
    fn write(fd: i32, buf: *const u8, len: usize) -> isize;
    fn sendmsg(fd: i32, msg: *const Msghdr, flags: i32) -> isize;
    fn recvmsg(fd: i32, msg: *mut Msghdr, flags: i32) -> isize;
    fn poll(fds: *mut Pollfd, count: u64, timeout: i32) -> i32;
    fn getrlimit(which: i32, limit: *mut Rlimit) -> i32;
    fn setrlimit(which: i32, limit: *const Rlimit) -> i32;
}

/// Lets this program have as many descriptors open as it may.
pub fn raise_limit() {
    let mut limit = Rlimit { now: 0, most: 0 };
    // SAFETY: the limit lives through both calls.
    unsafe {
        if getrlimit(RLIMIT_NOFILE, &mut limit) == 0 {
            limit.now = limit.most;
            setrlimit(RLIMIT_NOFILE, &limit);
        }
    }
}

fn connected() -> [i32; 2] {
    let mut fds = [0; 2];
    // SAFETY: room for two descriptors.
    assert!(
        unsafe { socketpair(AF_UNIX, SOCK_STREAM, 0, fds.as_mut_ptr()) } == 0,
        "a pair of the kernel's sockets (ulimit -n)"
    );
    fds
}

fn close_both(fds: [i32; 2]) {
    for fd in fds {
        // SAFETY: a descriptor of ours.
        unsafe { close(fd) };
    }
}

/// A pair that is used, among others that are open.
pub struct Sockets {
    client: i32,
    server: i32,
    all: Vec<[i32; 2]>,
    sent: File,
}

impl Sockets {
    pub fn new(pairs: usize) -> Self {
        let all: Vec<_> = (0..pairs).map(|_| connected()).collect();
        let [client, server] = all[pairs - 1];
        Self { client, server, all, sent: File::open("/dev/null").expect("/dev/null") }
    }

    pub fn pair_and_close(&self) {
        close_both(connected());
    }

    pub fn readiness(&self) {
        let mut asked = Pollfd { fd: self.server, events: POLLIN | POLLOUT, revents: 0 };
        // SAFETY: one entry.
        let ready = unsafe { poll(&mut asked, 1, 0) };
        assert!(ready == 1 && asked.revents == POLLOUT);
    }

    /// Bytes through write and read, the latter as often as it takes.
    pub fn bytes(&self, bytes: &[u8], buf: &mut [u8]) {
        // SAFETY: pointer and length of a slice.
        let sent = unsafe { write(self.client, bytes.as_ptr(), bytes.len()) };
        assert!(sent == bytes.len() as isize, "room");
        let mut got = 0;
        while got < bytes.len() {
            let rest = &mut buf[got..];
            // SAFETY: as above.
            let more = unsafe { read(self.server, rest.as_mut_ptr(), rest.len()) };
            assert!(more > 0, "bytes");
            got += more as usize;
        }
    }

    /// Bytes with so many descriptors, received as often as it takes; those that arrive are closed.
    pub fn message(&self, bytes: &[u8], count: usize, buf: &mut [u8]) {
        let len = 16 + 4 * count;
        let mut control: Control = [0; 10];
        control[0] = len as u64;
        control[1] = SOL_SOCKET as u64 | (SCM_RIGHTS as u64) << 32;
        for i in 0..count {
            control[2 + i / 2] |= u64::from(self.sent.as_raw_fd() as u32) << (32 * (i % 2));
        }
        let mut part = Iovec { base: bytes.as_ptr().cast_mut(), len: bytes.len() };
        // SAFETY: sendmsg only reads the bytes; the message points at what lives here.
        let sent = unsafe { sendmsg(self.client, &header(&mut part, &mut control, len), MSG_DONTWAIT) };
        assert!(sent == bytes.len() as isize, "room");
        let (mut got, mut received) = (0, 0);
        while got < bytes.len() {
            let rest = &mut buf[got..];
            let mut part = Iovec { base: rest.as_mut_ptr(), len: rest.len() };
            let mut control: Control = [0; 10];
            let mut message = header(&mut part, &mut control, size_of::<Control>());
            // SAFETY: the message points at what lives here and is used by nothing else.
            let more = unsafe { recvmsg(self.server, &mut message, MSG_DONTWAIT) };
            assert!(more > 0, "bytes");
            got += more as usize;
            if message.control_len > 0 {
                received += close_received(&control);
            }
        }
        assert!(received == count, "all descriptors");
    }
}

fn header(part: &mut Iovec, control: &mut Control, control_len: usize) -> Msghdr {
    Msghdr { name: null(), name_len: 0, iov: part, iov_len: 1, control: control.as_mut_ptr(), control_len, flags: 0 }
}

/// Closes the descriptors of a received control message; how many.
fn close_received(control: &Control) -> usize {
    let count = (control[0] as usize - 16) / 4;
    for i in 0..count {
        // SAFETY: a descriptor that was just received.
        unsafe { close((control[2 + i / 2] >> (32 * (i % 2))) as i32) };
    }
    count
}

impl Drop for Sockets {
    fn drop(&mut self) {
        self.all.drain(..).for_each(close_both);
    }
}
