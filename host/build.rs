// Links libeidrovang.a from EIDROVANG_LIB_DIR, without it from target/native of the repository.

use std::env;
use std::path::PathBuf;

fn main() {
    println!("cargo::rerun-if-env-changed=EIDROVANG_LIB_DIR");
    let folder = match env::var_os("EIDROVANG_LIB_DIR") {
        Some(named) => PathBuf::from(named),
        None => PathBuf::from(env::var_os("CARGO_MANIFEST_DIR").unwrap()).join("../target/native"),
    };
    println!("cargo::rerun-if-changed={}", folder.join("libeidrovang.a").display());
    println!("cargo::rustc-link-search=native={}", folder.display());
    println!("cargo::rustc-link-lib=static=eidrovang");
}
