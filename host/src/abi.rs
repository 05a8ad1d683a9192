//! What a host asks before it calls the table: addresses, message headers, control bytes. Plain
//! functions of bytes; none needs a table.

use crate::{Errno, Shutdown, refused};

mod ffi {
    use super::Descriptor;

    #[repr(C)]
    #[derive(Clone, Copy)]
    pub struct Number {
        pub refusal: u32,
        pub value: u64,
    }

    #[repr(C)]
    #[derive(Clone, Copy)]
    pub struct Path {
        pub refusal: u32,
        pub start: usize,
        pub length: usize,
    }

    #[repr(C)]
    #[derive(Clone, Copy)]
    pub struct Header {
        pub refusal: u32,
        pub level: i32,
        pub ty: i32,
        pub len: u64,
    }

    const _: () = assert!(size_of::<Number>() == 16 && size_of::<Path>() == 24 && size_of::<Header>() == 24);

    unsafe extern "C" {
        pub fn eid_is_utf8(bytes: *const u8, len: usize) -> bool;
        pub fn eid_address_new(path: *const u8, path_len: usize, addr: *mut u8, addr_len: usize) -> u32;
        pub fn eid_address_len(addr: *const u8, addr_len: usize) -> Number;
        pub fn eid_address_path(addr: *const u8, addr_len: usize) -> Path;
        pub safe fn eid_cmsg_align(len: u64) -> Number;
        pub safe fn eid_cmsg_len(data_len: u64) -> Number;
        pub safe fn eid_cmsg_space(data_len: u64) -> Number;
        pub safe fn eid_scm_rights_space(fd_count: u64) -> Number;
        pub safe fn eid_scm_rights(fd_count: u64) -> Header;
        pub safe fn eid_scm_rights_count(len: u64, level: i32, ty: i32, control_len: u64) -> Number;
        pub fn eid_iovec_count(hdr: *const u8, hdr_len: usize) -> Number;
        pub fn eid_control_len(hdr: *const u8, hdr_len: usize) -> Number;
        pub safe fn eid_shutdown_how(how: i32) -> Number;
        pub fn eid_parse_scm_rights(
            control: *const u8,
            control_len: usize,
            fds: *mut Descriptor,
            fds_len: usize,
        ) -> Number;
        pub fn eid_encode_scm_rights(
            fds: *const Descriptor,
            fds_len: usize,
            control: *mut u8,
            control_len: usize,
        ) -> Number;
        pub safe fn eid_scm_rights_capacity(controllen: u64) -> u64;
        pub fn eid_sendmsg_control(
            flags: i32,
            control: *const u8,
            control_len: usize,
            fds: *mut Descriptor,
            fds_len: usize,
        ) -> Number;
        pub safe fn eid_recvmsg_capacity(flags: i32, controllen: u64) -> Number;
    }
}

// SAFETY of every call below: its pointers and lengths are those of slices that live through the call.

fn number(n: ffi::Number) -> Result<u64, Errno> {
    refused(n.refusal).map(|()| n.value)
}

/// A descriptor number of the caller's process, as control bytes carry it.
#[derive(Clone, Copy, Debug, Default, PartialEq, Eq, Hash, PartialOrd, Ord)]
#[repr(transparent)]
pub struct Descriptor(pub i32);

/// Bytes of an address.
pub const ADDRESS_BYTES: usize = 110;

/// Whether the bytes are UTF-8 (RFC 3629).
#[must_use]
pub fn is_utf8(bytes: &[u8]) -> bool {
    unsafe { ffi::eid_is_utf8(bytes.as_ptr(), bytes.len()) }
}

/// Writes the address of a path into the first [`ADDRESS_BYTES`] of `addr`; bytes beyond stay.
///
/// # Errors
/// [`Errno::Short`] for a shorter `addr`, [`Errno::NameTooLong`] above 107 bytes of path,
/// [`Errno::Invalid`] where it is not UTF-8.
pub fn address_new(path: &[u8], addr: &mut [u8]) -> Result<(), Errno> {
    refused(unsafe { ffi::eid_address_new(path.as_ptr(), path.len(), addr.as_mut_ptr(), addr.len()) })
}

/// How many bytes of an address are looked at: the family, the path and its zero.
///
/// # Errors
/// [`Errno::Short`] below [`ADDRESS_BYTES`].
pub fn address_len(addr: &[u8]) -> Result<u64, Errno> {
    number(unsafe { ffi::eid_address_len(addr.as_ptr(), addr.len()) })
}

/// The path in an address: after the family, up to the first zero.
///
/// # Errors
/// [`Errno::Invalid`] below 2 bytes, for an empty path and for one that is not UTF-8;
/// [`Errno::AddrFamily`] where the family is not AF_UNIX.
pub fn path_of(addr: &[u8]) -> Result<&[u8], Errno> {
    let path = unsafe { ffi::eid_address_path(addr.as_ptr(), addr.len()) };
    refused(path.refusal)?;
    Ok(&addr[path.start..path.start + path.length])
}

/// `CMSG_ALIGN`: up to a multiple of 8.
///
/// # Errors
/// [`Errno::Invalid`] where the value passes 2^64 - 1.
pub fn align(len: u64) -> Result<u64, Errno> {
    number(ffi::eid_cmsg_align(len))
}

/// `CMSG_LEN`: header and data.
///
/// # Errors
/// [`Errno::Invalid`] where the value passes 2^64 - 1.
pub fn len(data_len: u64) -> Result<u64, Errno> {
    number(ffi::eid_cmsg_len(data_len))
}

/// `CMSG_SPACE`: header and padded data.
///
/// # Errors
/// [`Errno::Invalid`] where the value passes 2^64 - 1.
pub fn space(data_len: u64) -> Result<u64, Errno> {
    number(ffi::eid_cmsg_space(data_len))
}

/// The control bytes that so many descriptors take.
///
/// # Errors
/// [`Errno::Invalid`] where the value passes 2^64 - 1.
pub fn scm_rights_space(fd_count: u64) -> Result<u64, Errno> {
    number(ffi::eid_scm_rights_space(fd_count))
}

/// The header of a control message.
#[derive(Clone, Copy, Debug, PartialEq, Eq)]
pub struct CmsgHdr {
    /// Header and data together.
    pub len: u64,
    /// 1: SOL_SOCKET.
    pub level: i32,
    /// 1: SCM_RIGHTS.
    pub ty: i32,
}

impl CmsgHdr {
    /// The header that goes before so many descriptors.
    ///
    /// # Errors
    /// [`Errno::Invalid`] where its length passes 2^64 - 1.
    pub fn scm_rights(fd_count: u64) -> Result<Self, Errno> {
        let header = ffi::eid_scm_rights(fd_count);
        refused(header.refusal)?;
        Ok(Self { len: header.len, level: header.level, ty: header.ty })
    }

    /// How many descriptors it announces in a control buffer of `control_len` bytes.
    ///
    /// # Errors
    /// [`Errno::Invalid`] for another level or type, a length beyond the buffer or below 16, or data that
    /// is not whole descriptors.
    pub fn scm_rights_count(self, control_len: u64) -> Result<u64, Errno> {
        number(ffi::eid_scm_rights_count(self.len, self.level, self.ty, control_len))
    }
}

/// How many parts the buffer of a message header (56 bytes) has.
///
/// # Errors
/// [`Errno::Short`] below 56 bytes, [`Errno::Invalid`] with a name, [`Errno::MessageSize`] above 16.
pub fn iovec_count(hdr: &[u8]) -> Result<u64, Errno> {
    number(unsafe { ffi::eid_iovec_count(hdr.as_ptr(), hdr.len()) })
}

/// How many control bytes a message header (56 bytes) has.
///
/// # Errors
/// [`Errno::Short`] below 56 bytes, [`Errno::Invalid`] above 80.
pub fn control_len(hdr: &[u8]) -> Result<u64, Errno> {
    number(unsafe { ffi::eid_control_len(hdr.as_ptr(), hdr.len()) })
}

impl TryFrom<i32> for Shutdown {
    type Error = Errno;

    fn try_from(how: i32) -> Result<Self, Errno> {
        Ok(match number(ffi::eid_shutdown_how(how))? {
            0 => Shutdown::Read,
            1 => Shutdown::Write,
            _ => Shutdown::Both,
        })
    }
}

/// The descriptors in control bytes, into `fds`; how many.
///
/// # Errors
/// [`Errno::Invalid`] for control bytes that are no SCM_RIGHTS message, then [`Errno::Short`] where `fds`
/// holds fewer.
pub fn parse_scm_rights(control: &[u8], fds: &mut [Descriptor]) -> Result<usize, Errno> {
    let n = unsafe { ffi::eid_parse_scm_rights(control.as_ptr(), control.len(), fds.as_mut_ptr(), fds.len()) };
    number(n).map(|n| n as usize)
}

/// Writes descriptors as control bytes; how many bytes of `control` to hand over.
///
/// # Errors
/// [`Errno::Short`] where `control` holds fewer.
pub fn encode_scm_rights(fds: &[Descriptor], control: &mut [u8]) -> Result<usize, Errno> {
    let n = unsafe { ffi::eid_encode_scm_rights(fds.as_ptr(), fds.len(), control.as_mut_ptr(), control.len()) };
    number(n).map(|n| n as usize)
}

/// How many descriptors fit into so many control bytes.
#[must_use]
pub fn scm_rights_capacity(controllen: u64) -> u64 {
    ffi::eid_scm_rights_capacity(controllen)
}

/// What sendmsg asks before the table call: its flags, then its control bytes.
///
/// # Errors
/// [`Errno::NotSupported`] for flags other than 0, then as [`parse_scm_rights`].
pub fn sendmsg_control(flags: i32, control: &[u8], fds: &mut [Descriptor]) -> Result<usize, Errno> {
    let n = unsafe { ffi::eid_sendmsg_control(flags, control.as_ptr(), control.len(), fds.as_mut_ptr(), fds.len()) };
    number(n).map(|n| n as usize)
}

/// What recvmsg asks before the table call: its flags; how many descriptors its control bytes hold.
///
/// # Errors
/// [`Errno::NotSupported`] for flags other than 0.
pub fn recvmsg_capacity(flags: i32, controllen: u64) -> Result<u64, Errno> {
    number(ffi::eid_recvmsg_capacity(flags, controllen))
}
