include!("../locate.rs");

fn main() {
    let mut text = String::new();
    if let Some(folder) = original() {
        // Included, not a module of its own, so that `asked` reaches the private functions.
        let socket = folder.join("kernel/syscall/src/socket.rs");
        writeln!(
            text,
            "#[allow(unused_imports)]\npub mod socket {{\ninclude!({socket:?});\ninclude!(\"asked.rs\");\n}}"
        )
        .unwrap();
        let asked = repository().join("oracle/original/syscall/src/asked.rs");
        println!("cargo::rerun-if-changed={}", asked.display());
        text = text.replace("\"asked.rs\"", &format!("{asked:?}"));
        text.push_str("pub mod access {\n");
        module(&mut text, "socket", &folder.join("kernel/syscall/src/access/socket.rs"));
        text.push_str("pub use socket::*;\npub use crate::CwdAccess;\n}\n");
    }
    write(&text);
}
