include!("../locate.rs");

fn main() {
    let mut text = String::new();
    if let Some(folder) = original() {
        module(&mut text, "readiness", &folder.join("kernel/vfs/src/readiness.rs"));
        text.push_str("pub use readiness::*;\n");
    }
    write(&text);
}
