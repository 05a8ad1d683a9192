//! The safe face of the table: each call, and what is lent.

use eidrovang::{Errno, Handle, Item, Lent, Readiness, Received, Shutdown, Sizes, Table, Wake, sizes};

/// A listener, a client and the server that accept returned.
fn connected(table: &mut Table<'_>) -> (Handle, Handle, Handle) {
    let listener = table.socket(1, 1, 0).unwrap();
    table.bind(listener, b"/a").unwrap();
    table.listen(listener, 2).unwrap();
    let client = table.socket(1, 1, 0).unwrap();
    table.connect(client, b"/a").unwrap();
    let server = table.accept(listener).unwrap();
    (listener, client, server)
}

fn woken(table: &Table<'_>) -> Vec<Option<Handle>> {
    table.wakes().iter().map(|w| w.handle()).collect()
}

#[test]
fn numbers() {
    for (i, e) in Errno::ALL.into_iter().enumerate() {
        assert_eq!(e.number() as usize, i + 1);
        assert_eq!(Errno::of(e.number()), Some(e));
    }
    assert_eq!(Errno::of(0), None);
    assert_eq!(Errno::of(20), None);
}

#[test]
fn sizes_in_range() {
    for (n, c) in [(0, 8), (1_025, 8), (1, 0), (1, 65_537), (usize::MAX, 1), (1, usize::MAX)] {
        assert_eq!(sizes(n, c), Err(Errno::Invalid));
        assert_eq!(Table::owned(n, c).err(), Some(Errno::Invalid));
    }
    for n in 1..=1_024 {
        for c in [1, 2, 8, 4_095, 65_535, 65_536] {
            let s = sizes(n, c).unwrap();
            assert!(8 * s.words + s.bytes + 4 * s.tokens <= n * (c + 65_536) + 65_536);
            assert_eq!((s.wakes, s.releases), (n + 1, 256 * n));
            assert_eq!(s, Sizes::least(n, c));
        }
    }
}

#[test]
fn lent_storage() {
    let Sizes { words, bytes, tokens, wakes, releases } = sizes(3, 8).unwrap();
    let mut w = vec![u64::MAX; words];
    let mut b = vec![0xFF; bytes];
    let mut t = vec![7; tokens];
    let mut woke = vec![Wake::default(); wakes];
    let mut back = vec![Item(9); releases];
    macro_rules! lent {
        ($cut:ident) => {{
            let mut lent = Lent { words: &mut w, bytes: &mut b, tokens: &mut t, wakes: &mut woke, releases: &mut back };
            let shorter = lent.$cut.len() - 1;
            lent.$cut = &mut lent.$cut[..shorter];
            Table::make(lent, 3, 8).err()
        }};
    }
    assert_eq!(lent!(words), Some(Errno::Short));
    assert_eq!(lent!(bytes), Some(Errno::Short));
    assert_eq!(lent!(tokens), Some(Errno::Short));
    assert_eq!(lent!(wakes), Some(Errno::Short));
    assert_eq!(lent!(releases), Some(Errno::Short));
    macro_rules! whole {
        () => {
            Lent { words: &mut w, bytes: &mut b, tokens: &mut t, wakes: &mut woke, releases: &mut back }
        };
    }
    assert_eq!(Table::over(whole!(), 3, 8).socket(1, 1, 0), Err(Errno::Damaged));
    let mut table = Table::make(whole!(), 3, 8).unwrap();
    let (_, client, server) = connected(&mut table);
    assert_eq!(table.write(client, b"hello"), Ok(5));
    // The state stands in the lent storage alone.
    let mut table = Table::over(whole!(), 3, 8);
    let mut buf = [0; 8];
    assert_eq!(table.read(server, &mut buf), Ok(5));
    assert_eq!(&buf[..5], b"hello");
    assert_eq!(Table::over(whole!(), 2, 8).socket(1, 1, 0), Err(Errno::Damaged));
    assert_eq!(Table::over(whole!(), 3, 9).socket(1, 1, 0), Err(Errno::Short));
}

#[test]
fn arguments_of_socket() {
    let mut table = Table::owned(1, 1).unwrap();
    assert_eq!(table.socket(2, 2, 2), Err(Errno::AddrFamily));
    assert_eq!(table.socket(1, 65_537, 2), Err(Errno::ProtoType));
    assert_eq!(table.socket(1, 1, 2), Err(Errno::ProtoNotSupported));
    let socket = table.socket(1, 1, 0).unwrap();
    assert_eq!((socket.number(), socket.slot()), (65_536, 0));
    assert_eq!(table.socket(1, 1, 0), Err(Errno::TableFull));
    table.close(socket).unwrap();
    assert_eq!(table.close(socket), Err(Errno::BadHandle));
    assert_eq!(table.socket(1, 1, 0).map(Handle::number), Ok(2 * 65_536));
    assert_eq!(table.readiness(Handle::of(u64::MAX)), Err(Errno::BadHandle));
}

#[test]
fn names() {
    let mut table = Table::owned(4, 8).unwrap();
    let a = table.socket(1, 1, 0).unwrap();
    let b = table.socket(1, 1, 0).unwrap();
    assert_eq!(table.bind(a, b""), Err(Errno::Invalid));
    assert_eq!(table.bind(a, &[1; 256]), Err(Errno::NameTooLong));
    assert_eq!(table.listen(a, 1), Err(Errno::DestAddrRequired));
    table.bind(a, &[0; 255]).unwrap();
    assert_eq!(table.bind(a, b"/b"), Err(Errno::Invalid));
    assert_eq!(table.bind(b, &[0; 255]), Err(Errno::AddrInUse));
    assert_eq!(table.connect(b, &[0; 255]), Err(Errno::ConnRefused));
    assert_eq!(table.connect(a, b"/b"), Err(Errno::Invalid));
    table.listen(a, 0).unwrap();
    assert_eq!(table.wakes(), []);
    assert_eq!(table.connect(b, &[0; 255]), Err(Errno::Again));
    table.listen(a, 1).unwrap();
    assert_eq!(woken(&table), [None]);
    assert!(table.wakes()[0].is_registry());
    table.connect(b, &[0; 255]).unwrap();
    assert_eq!(woken(&table), [Some(a), Some(b)]);
    assert_eq!(table.connect(b, b"/b"), Err(Errno::IsConnected));
    assert_eq!(table.connect(a, b"/b"), Err(Errno::NotSupported));
    assert_eq!(table.listen(b, 1), Err(Errno::Invalid));
    assert_eq!(table.readiness(a), Ok(Readiness { readable: true, ..Readiness::default() }));
    assert_eq!(table.accept(b), Err(Errno::Invalid));
    table.accept(a).unwrap();
    assert_eq!(table.accept(a), Err(Errno::Again));
    assert_eq!((table.wakes(), table.releases()), (&[][..], &[][..]));
}

#[test]
fn bytes_and_items() {
    let mut table = Table::owned(3, 8).unwrap();
    let (_, client, server) = connected(&mut table);
    let (mut buf, mut items) = ([0; 10], [Item(0); 2]);
    assert_eq!(table.recvmsg(server, &mut [], &mut items), Err(Errno::Invalid));
    assert_eq!(table.recvmsg(server, &mut buf, &mut items), Err(Errno::Again));
    assert_eq!(table.sendmsg(client, b"ab", &[Item(5)]), Ok(2));
    assert_eq!(woken(&table), [Some(server)]);
    assert_eq!(table.sendmsg(client, b"cd", &[Item(6), Item(7), Item(8)]), Ok(2));
    assert_eq!(table.recvmsg(server, &mut buf, &mut items), Ok(Received { bytes: 2, items: 1, truncated: false }));
    assert_eq!((&buf[..2], items[0]), (&b"ab"[..], Item(5)));
    assert_eq!(table.recvmsg(server, &mut buf, &mut items), Ok(Received { bytes: 2, items: 2, truncated: true }));
    assert_eq!((items, table.releases()), ([Item(6), Item(7)], &[Item(8)][..]));
    assert_eq!(table.sendmsg(client, b"", &[Item(9)]), Err(Errno::Invalid));
    assert_eq!(table.sendmsg(client, b"ef", &[Item(9)]), Ok(2));
    assert_eq!(table.read(server, &mut []), Ok(0));
    assert_eq!((table.releases(), woken(&table)), (&[Item(9)][..], vec![Some(client)]));
    assert_eq!(table.write(client, b"123456789"), Ok(6));
    assert_eq!(table.write(client, b""), Err(Errno::Again));
    assert_eq!(table.readiness(client), Ok(Readiness::default()));
    assert_eq!(table.sendmsg(server, b"x", &[Item(1); 257]), Err(Errno::NoBuffers));
    assert_eq!(table.sendmsg(server, b"x", &[Item(1); 256]), Ok(1));
    assert_eq!(table.write(server, b"y"), Ok(1));
    assert_eq!(table.sendmsg(server, b"z", &[Item(2)]), Err(Errno::NoBuffers));
}

#[test]
fn ends() {
    let mut table = Table::owned(6, 8).unwrap();
    let (listener, client, server) = connected(&mut table);
    assert_eq!(table.shutdown(listener, Shutdown::Both), Err(Errno::NotConnected));
    table.sendmsg(client, b"ab", &[Item(1)]).unwrap();
    table.shutdown(server, Shutdown::Read).unwrap();
    assert_eq!((woken(&table), table.releases()), (vec![Some(server), Some(client)], &[Item(1)][..]));
    assert_eq!(table.write(client, b"x"), Err(Errno::Pipe));
    assert_eq!(table.read(server, &mut [0; 4]), Ok(0));
    table.shutdown(server, Shutdown::Write).unwrap();
    assert_eq!(table.write(server, b"x"), Err(Errno::Pipe));
    table.close(server).unwrap();
    assert_eq!(woken(&table), [Some(client)]);
    assert_eq!(table.readiness(client), Ok(Readiness { readable: true, writable: false, hung_up: true }));
    // A pending server closes with its listener.
    let other = table.socket(1, 1, 0).unwrap();
    table.connect(other, b"/a").unwrap();
    table.sendmsg(other, b"x", &[Item(3), Item(4)]).unwrap();
    let pending = table.wakes()[0].handle().unwrap();
    assert_eq!(table.readiness(pending), Err(Errno::BadHandle));
    table.close(listener).unwrap();
    assert_eq!((woken(&table), table.releases()), (vec![None, Some(other)], &[Item(3), Item(4)][..]));
    assert_eq!(table.read(other, &mut [0; 4]), Ok(0));
}

#[test]
fn what_is_gone_can_be_wiped() {
    let (n, c) = (4, 8);
    let Sizes { words, bytes, tokens, wakes, releases } = sizes(n, c).unwrap();
    let (mut w, mut b, mut t) = (vec![0; words], vec![0; bytes], vec![0; tokens]);
    let (mut woke, mut back) = (vec![Wake::default(); wakes], vec![Item(0); releases]);
    let lent = Lent { words: &mut w, bytes: &mut b, tokens: &mut t, wakes: &mut woke, releases: &mut back };
    let mut table = Table::make(lent, n, c).unwrap();
    let (listener, client, server) = connected(&mut table);
    let mut buf = [0; 8];
    table.sendmsg(client, b"secret", &[Item(77)]).unwrap();
    table.recvmsg(server, &mut buf, &mut [Item(0)]).unwrap();
    table.sendmsg(client, b"queued", &[Item(78)]).unwrap();
    table.sendmsg(server, b"answer", &[Item(79)]).unwrap();
    table.close(client).unwrap();
    let pending = table.socket(1, 1, 0).unwrap();
    table.connect(pending, b"/a").unwrap();
    for slot in 0..n {
        table.wipe(slot).unwrap();
    }
    assert_eq!((table.wipe(n), table.wakes()), (Err(Errno::Invalid), &[][..]));
    // What is held is as it was.
    assert_eq!((table.read(server, &mut buf), &buf[..6], table.releases()), (Ok(6), &b"queued"[..], &[Item(78)][..]));
    let last = table.accept(listener).unwrap();
    table.write(pending, b"12345678").unwrap();
    assert_eq!(table.read(last, &mut buf), Ok(8));
    for socket in [listener, server, pending, last] {
        table.close(socket).unwrap();
    }
    for slot in 0..n {
        table.wipe(slot).unwrap();
    }
    assert_eq!(table.socket(1, 1, 0).map(Handle::slot), Ok(0));
    drop(table);
    assert!(b.iter().all(|&byte| byte == 0) && t.iter().all(|&item| item == 0));
    w[0] = 9;
    let lent = Lent { words: &mut w, bytes: &mut b, tokens: &mut t, wakes: &mut woke, releases: &mut back };
    assert_eq!(Table::over(lent, n, c).wipe(0), Err(Errno::Damaged));
}

#[test]
fn a_duplicate_goes_its_own_way() {
    let mut table = Table::owned(3, 8).unwrap();
    let (_, client, server) = connected(&mut table);
    table.write(client, b"hello").unwrap();
    let mut copy = table.duplicate();
    assert_eq!(woken(&copy), [Some(server)]);
    let mut buf = [0; 8];
    assert_eq!((copy.read(server, &mut buf), copy.read(server, &mut buf)), (Ok(5), Err(Errno::Again)));
    assert_eq!((table.read(server, &mut buf), &buf[..5]), (Ok(5), &b"hello"[..]));
}

#[test]
fn the_largest_table() {
    let mut table = Table::owned(1_024, 65_536).unwrap();
    let (_, client, server) = connected(&mut table);
    let data: Vec<u8> = (0..65_537u32).map(|i| (i % 251) as u8).collect();
    assert_eq!(table.write(client, &data), Ok(65_536));
    assert_eq!(table.write(client, b""), Err(Errno::Again));
    let mut got = vec![0; 70_000];
    assert_eq!(table.read(server, &mut got), Ok(65_536));
    assert_eq!(got[..65_536], data[..65_536]);
}
