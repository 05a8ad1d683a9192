// Links the archive of crate bench_exports, and sees whether the original is there: EIDROVANG_RUST
// names its folder, without it ../shared/docs/src beside the repository.
use std::path::PathBuf;
use std::{env, fs};

fn main() {
    let here = PathBuf::from(env::var_os("CARGO_MANIFEST_DIR").unwrap());
    let repository = here.parent().unwrap();
    let archive = repository.join("target/native/libbench_exports.a");
    println!("cargo::rustc-link-search=native={}", archive.parent().unwrap().display());
    println!("cargo::rustc-link-lib=static=bench_exports");
    println!("cargo::rerun-if-changed={}", archive.display());

    // Whether the archive has the check by itself.
    println!("cargo::rustc-check-cfg=cfg(check_alone)");
    let symbol = b"bench_check";
    if fs::read(&archive).is_ok_and(|bytes| bytes.windows(symbol.len()).any(|part| part == symbol)) {
        println!("cargo::rustc-cfg=check_alone");
    }

    println!("cargo::rustc-check-cfg=cfg(original)");
    println!("cargo::rerun-if-env-changed=EIDROVANG_RUST");
    let original = match env::var_os("EIDROVANG_RUST") {
        Some(folder) => PathBuf::from(folder),
        None => repository.parent().unwrap().join("shared/docs/src"),
    };
    let file = original.join("kernel/unix_socket/src/lib.rs");
    println!("cargo::rerun-if-changed={}", file.display());
    if file.is_file() {
        println!("cargo::rustc-cfg=original");
    }
}
