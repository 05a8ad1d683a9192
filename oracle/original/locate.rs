// Shared by the build scripts: where the original stands. EIDROVANG_RUST names the folder; without it
// the folder is ../shared/docs/src beside the repository. Its files are compiled where they stand.

use std::env;
use std::fmt::Write as _;
use std::fs;
use std::path::PathBuf;

const FILES: [&str; 6] = [
    "kernel/unix_socket/src/lib.rs",
    "kernel/abi/src/errno.rs",
    "kernel/abi/src/socket.rs",
    "kernel/vfs/src/readiness.rs",
    "kernel/syscall/src/socket.rs",
    "kernel/syscall/src/access/socket.rs",
];

fn repository() -> PathBuf {
    let here = PathBuf::from(env::var_os("CARGO_MANIFEST_DIR").unwrap());
    let oracle = here.ancestors().find(|a| a.ends_with("oracle")).unwrap();
    oracle.parent().unwrap().to_path_buf()
}

/// The folder, where every file of the original is in it; sets cfg `original` then.
fn original() -> Option<PathBuf> {
    println!("cargo::rustc-check-cfg=cfg(original)");
    println!("cargo::rerun-if-env-changed=EIDROVANG_RUST");
    let folder = match env::var_os("EIDROVANG_RUST") {
        Some(named) => PathBuf::from(named),
        None => repository().parent().unwrap().join("shared/docs/src"),
    };
    let folder = fs::canonicalize(&folder).unwrap_or(folder);
    println!("cargo::rustc-env=EIDROVANG_RUST_FOLDER={}", folder.display());
    for file in FILES {
        println!("cargo::rerun-if-changed={}", folder.join(file).display());
        if !folder.join(file).is_file() {
            println!("cargo::rustc-env=EIDROVANG_RUST_MISSING={file}");
            return None;
        }
    }
    println!("cargo::rustc-cfg=original");
    Some(folder)
}

/// Writes OUT_DIR/original.rs, which the crate includes.
fn write(text: &str) {
    let out = PathBuf::from(env::var_os("OUT_DIR").unwrap());
    fs::write(out.join("original.rs"), text).unwrap();
}

/// `pub mod name;` at the original's own file.
#[allow(dead_code)]
fn module(text: &mut String, name: &str, file: &std::path::Path) {
    writeln!(text, "#[path = {:?}]\n#[allow(unused_attributes, unused, dead_code)]\npub mod {name};", file).unwrap();
}
