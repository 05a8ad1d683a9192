//! Addresses, message headers and control bytes, by the lines of the rules.

use eidrovang::abi::{self, CmsgHdr, Descriptor};
use eidrovang::{Errno, Shutdown};

#[test]
fn addresses() {
    assert_eq!(abi::path_of(&[1, 0, b'/', b'a', 0, b'b']), Ok(&b"/a"[..]));
    assert_eq!(abi::path_of(&[1, 0]), Err(Errno::Invalid));
    assert_eq!(abi::path_of(&[2, 0, b'a']), Err(Errno::AddrFamily));
    assert_eq!(abi::path_of(&[1, 0, 0xC0, 0x80]), Err(Errno::Invalid));
    assert_eq!(abi::path_of(&[]), Err(Errno::Invalid));
    let mut addr = [0xFF; 112];
    assert_eq!(abi::address_new(b"/a", &mut addr[..109]), Err(Errno::Short));
    assert_eq!(abi::address_new(&[b'p'; 108], &mut addr), Err(Errno::NameTooLong));
    assert_eq!(abi::address_new(&[0xFF], &mut addr), Err(Errno::Invalid));
    assert_eq!(addr, [0xFF; 112]);
    abi::address_new(&[b'p'; 107], &mut addr).unwrap();
    assert_eq!((abi::address_len(&addr), abi::path_of(&addr)), (Ok(110), Ok(&[b'p'; 107][..])));
    abi::address_new("/grüße".as_bytes(), &mut addr).unwrap();
    assert_eq!(abi::path_of(&addr), Ok("/grüße".as_bytes()));
    assert_eq!((addr[109], addr[110]), (0, 0xFF));
    assert_eq!(abi::address_len(&addr[..109]), Err(Errno::Short));
    assert_eq!(abi::address_len(&[b'p'; 110]), Ok(111));
    assert!(abi::is_utf8("ü".as_bytes()) && abi::is_utf8(&[]) && !abi::is_utf8(&[0xED, 0xA0, 0x80]));
}

#[test]
fn sizes() {
    assert_eq!((abi::align(0), abi::align(1), abi::align(8)), (Ok(0), Ok(8), Ok(8)));
    assert_eq!(abi::align(u64::MAX - 7), Ok(u64::MAX - 7));
    assert_eq!(abi::align(u64::MAX - 6), Err(Errno::Invalid));
    assert_eq!((abi::len(4), abi::space(4)), (Ok(20), Ok(24)));
    assert_eq!(abi::len(u64::MAX - 15), Err(Errno::Invalid));
    assert_eq!((abi::scm_rights_space(16), abi::scm_rights_space(1 << 62)), (Ok(80), Err(Errno::Invalid)));
    let header = CmsgHdr::scm_rights(3).unwrap();
    assert_eq!(header, CmsgHdr { len: 28, level: 1, ty: 1 });
    assert_eq!((header.scm_rights_count(28), header.scm_rights_count(27)), (Ok(3), Err(Errno::Invalid)));
    assert_eq!(CmsgHdr { ty: 2, ..header }.scm_rights_count(28), Err(Errno::Invalid));
    assert_eq!((abi::scm_rights_capacity(15), abi::scm_rights_capacity(27)), (0, 2));
}

#[test]
fn headers() {
    let mut hdr = [0; 56];
    hdr[24] = 16;
    hdr[40] = 80;
    assert_eq!((abi::iovec_count(&hdr), abi::control_len(&hdr)), (Ok(16), Ok(80)));
    hdr[24] = 17;
    hdr[40] = 81;
    assert_eq!((abi::iovec_count(&hdr), abi::control_len(&hdr)), (Err(Errno::MessageSize), Err(Errno::Invalid)));
    hdr[8] = 1;
    assert_eq!(abi::iovec_count(&hdr), Err(Errno::Invalid));
    assert_eq!((abi::iovec_count(&hdr[..55]), abi::control_len(&hdr[..55])), (Err(Errno::Short), Err(Errno::Short)));
    assert_eq!((Shutdown::try_from(2), Shutdown::try_from(3)), (Ok(Shutdown::Both), Err(Errno::Invalid)));
}

#[test]
fn control_bytes() {
    for (room, answer) in [(19, Err(Errno::Short)), (20, Ok(20)), (24, Ok(24)), (32, Ok(24))] {
        assert_eq!(abi::encode_scm_rights(&[Descriptor(3)], &mut vec![0; room]), answer);
    }
    let fds = [Descriptor(3), Descriptor(-1), Descriptor(i32::MAX)];
    let mut control = [0xFF; 32];
    assert_eq!(abi::encode_scm_rights(&fds, &mut control), Ok(32));
    let mut back = [Descriptor(9); 4];
    assert_eq!(abi::parse_scm_rights(&control, &mut back), Ok(3));
    assert_eq!((&back[..3], back[3]), (&fds[..], Descriptor(9)));
    assert_eq!(abi::parse_scm_rights(&control, &mut back[..2]), Err(Errno::Short));
    assert_eq!(abi::parse_scm_rights(&[], &mut []), Ok(0));
    assert_eq!(abi::sendmsg_control(1, &[1], &mut back), Err(Errno::NotSupported));
    assert_eq!(abi::sendmsg_control(0, &[1], &mut back), Err(Errno::Invalid));
    assert_eq!((abi::recvmsg_capacity(0, 24), abi::recvmsg_capacity(1, 24)), (Ok(2), Err(Errno::NotSupported)));
    let mut control = [0; 24];
    (control[8], control[12]) = (1, 1);
    for (len, answer) in [(15, Err(Errno::Invalid)), (16, Ok(0)), (17, Err(Errno::Invalid))] {
        control[0] = len;
        assert_eq!(abi::parse_scm_rights(&control, &mut back), answer);
    }
}
