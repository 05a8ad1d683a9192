//! How much stack a call takes, measured: the stack below is painted, the call is made, and what is no longer
//! painted was used. `cargo test --release --test stack -- --nocapture` prints it call by call.

use std::hint::black_box;
use std::mem::MaybeUninit;

use eidrovang::{Errno, Item, Shutdown, Table};

/// docs/HOST.md says so.
const MOST: usize = 1_024;

const PAINT: u64 = 0x5AFE_57AC_C0FF_EE00;
const DEPTH: usize = 65_536;
/// Between the painter's own frame and the call's.
const GAP: usize = 4_096;

#[inline(never)]
fn paint(low: *mut u64, words: usize) {
    for i in 0..words {
        // SAFETY: see `depth`.
        unsafe { low.add(i).write_volatile(PAINT) };
    }
}

#[inline(never)]
fn beyond_a_gap(f: &mut dyn FnMut()) {
    let mut gap = MaybeUninit::<[u8; GAP]>::uninit();
    black_box(gap.as_mut_ptr());
    f();
    black_box(gap.as_mut_ptr());
}

/// How far below this frame `f` wrote.
#[inline(never)]
fn depth(f: &mut dyn FnMut()) -> usize {
    let mark = black_box(0u64);
    let here = (&raw const mark).expose_provenance();
    let low = std::ptr::with_exposed_provenance_mut::<u64>(here - DEPTH);
    // SAFETY: the thread has a megabyte of stack. What is painted lies below this frame and the painter's, where no
    // value lives yet, and is read before anything else can use it.
    paint(low, (DEPTH - GAP / 2) / 8);
    beyond_a_gap(f);
    let clean = (0..DEPTH / 8).take_while(|&i| unsafe { low.add(i).read_volatile() } == PAINT).count();
    DEPTH - 8 * clean
}

fn used(mut f: impl FnMut()) -> usize {
    depth(&mut f) - depth(&mut || ())
}

fn measured() -> Vec<(&'static str, usize)> {
    let mut table = Table::owned(8, 16).unwrap();
    let mut all = Vec::new();
    macro_rules! took {
        ($name:literal, $call:expr) => {{
            let mut answer = None;
            all.push(($name, used(|| answer = Some($call))));
            answer.unwrap()
        }};
    }
    let listener = took!("socket", table.socket(1, 1, 0)).unwrap();
    took!("bind", table.bind(listener, &[b'/'; 255])).unwrap();
    took!("bind, refused", table.bind(listener, b"/a")).unwrap_err();
    took!("listen", table.listen(listener, 2)).unwrap();
    let client = table.socket(1, 1, 0).unwrap();
    took!("connect", table.connect(client, &[b'/'; 255])).unwrap();
    let server = took!("accept", table.accept(listener)).unwrap();
    took!("accept, nothing waits", table.accept(listener)).unwrap_err();
    // The caller's buffers are no part of it.
    let (mut buf, mut items, sent) = ([0; 12], [Item(0); 100], [Item(1); 257]);
    // Twice, so that the second goes round the end of the ring.
    for _ in 0..2 {
        took!("write", table.write(client, &[1; 12])).unwrap();
        took!("read", table.read(server, &mut buf)).unwrap();
        took!("sendmsg", table.sendmsg(client, &[1; 12], &sent[..200])).unwrap();
        took!("recvmsg", table.recvmsg(server, &mut buf, &mut items)).unwrap();
    }
    took!("sendmsg, too many items", table.sendmsg(client, &[1], &sent)).unwrap_err();
    took!("recvmsg, nothing queued", table.recvmsg(server, &mut buf, &mut [])).unwrap_err();
    table.sendmsg(client, &[1; 12], &[Item(1); 256]).unwrap();
    took!("readiness", table.readiness(server)).unwrap();
    took!("shutdown", table.shutdown(server, Shutdown::Both)).unwrap();
    table.sendmsg(client, &[1], &[]).unwrap_err();
    let other = table.socket(1, 1, 0).unwrap();
    table.connect(other, &[b'/'; 255]).unwrap();
    table.sendmsg(other, &[1; 16], &[Item(1); 256]).unwrap();
    took!("close of a listener", table.close(listener)).unwrap();
    took!("close", table.close(server)).unwrap();
    assert_eq!(took!("close, refused", table.close(server)), Err(Errno::BadHandle));
    took!("making", Table::owned(8, 16).map(drop)).unwrap();
    all
}

#[test]
fn a_call_takes_little() {
    let thread = std::thread::Builder::new().stack_size(1 << 20).spawn(measured).unwrap();
    let mut all = thread.join().unwrap();
    all.sort_by_key(|one| std::cmp::Reverse(one.1));
    println!("{} bytes of stack at most, the Rust wrapper included; the most of each:", all[0].1);
    for (i, (name, bytes)) in all.iter().enumerate() {
        if !all[..i].iter().any(|before| before.0 == *name) {
            println!("  {bytes:5}  {name}");
        }
    }
    // Without optimization the wrapper is most of it.
    assert!(cfg!(debug_assertions) || all[0].1 <= MOST, "{all:?}");
}
