include!("../original/locate.rs");

// Links libeidrovang.a from EIDROVANG_LIB_DIR (without it target/native of the repository), and sees
// whether the table's calls are in it.
fn main() {
    original();
    println!("cargo::rustc-check-cfg=cfg(table_calls)");
    println!("cargo::rerun-if-env-changed=EIDROVANG_LIB_DIR");
    let folder = match env::var_os("EIDROVANG_LIB_DIR") {
        Some(named) => PathBuf::from(named),
        None => repository().join("target/native"),
    };
    let archive = folder.join("libeidrovang.a");
    println!("cargo::rerun-if-changed={}", archive.display());
    let Ok(bytes) = fs::read(&archive) else {
        println!("cargo::error=no archive {}", archive.display());
        return;
    };
    if bytes.windows(12).any(|w| w == b"eid_recvmsg\0") {
        println!("cargo::rustc-cfg=table_calls");
    }
    println!("cargo::rustc-link-search=native={}", folder.display());
    println!("cargo::rustc-link-lib=static=eidrovang");
    println!("cargo::rustc-env=EIDROVANG_ARCHIVE={}", archive.display());
    println!("cargo::rustc-env=EIDROVANG_ANSWERS={}", repository().join("crates/replay/stdin").display());
    write("");
}
