include!("../locate.rs");

fn main() {
    let mut text = String::new();
    if let Some(folder) = original() {
        module(&mut text, "errno", &folder.join("kernel/abi/src/errno.rs"));
        module(&mut text, "socket", &folder.join("kernel/abi/src/socket.rs"));
        text.push_str("pub use errno::*;\npub use socket::*;\n");
    }
    write(&text);
}
