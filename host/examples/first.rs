//! A first look at the table: the lines that README.md of the repository shows.

use eidrovang::{Errno, Item, Table};

fn main() -> Result<(), Errno> {
    let mut table = Table::owned(8, 4_096)?;
    let listener = table.socket(1, 1, 0)?;
    table.bind(listener, b"/run/sampler")?;
    table.listen(listener, 4)?;

    let client = table.socket(1, 1, 0)?;
    table.connect(client, b"/run/sampler")?;
    assert_eq!(table.wakes()[0].handle(), Some(listener)); // whom the host wakes
    let server = table.accept(listener)?;

    table.sendmsg(client, b"5550100", &[Item(7)])?; // bytes, and what the host attaches to them
    let (mut number, mut lines) = ([0; 16], [Item(0); 2]);
    let got = table.recvmsg(server, &mut number, &mut lines)?;
    assert_eq!((&number[..got.bytes], &lines[..got.items]), (&b"5550100"[..], &[Item(7)][..]));
    assert_eq!(table.read(server, &mut number), Err(Errno::Again)); // the host lets the caller sleep
    Ok(())
}

#[test]
fn it_runs() {
    main().unwrap();
}

/// README.md, where it stands beside this crate, shows these lines and no others.
#[test]
fn readme_shows_it() {
    let Ok(readme) = std::fs::read_to_string(concat!(env!("CARGO_MANIFEST_DIR"), "/../README.md")) else { return };
    let Some((_, after)) = readme.split_once("```rust\n") else { return };
    let (shown, _) = after.split_once("```").expect("the end of the block");
    let here = include_str!("first.rs");
    for line in shown.lines().map(str::trim).filter(|line| !line.is_empty()) {
        assert!(here.contains(line), "README.md shows {line:?}, which examples/first.rs has not");
    }
}
