include!("../locate.rs");
include!("mistakes.rs");

const CAPACITY: &str = "pub const SOCKET_BUFFER_BYTES: usize = 64 * 1024;";

fn main() {
    println!("cargo::rerun-if-changed=mistakes.rs");
    let mut text = String::new();
    if let Some(folder) = original() {
        let file = folder.join("kernel/unix_socket/src/lib.rs");
        module(&mut text, "c65536", &file);
        let source = fs::read_to_string(&file).unwrap();
        // Only the capacity's value differs.
        for c in [1, 2, 8] {
            copy(&mut text, &format!("c{c}"), &capacity(&source, c));
        }
        if env::var_os("CARGO_FEATURE_MISTAKES").is_some() {
            let source = capacity(&source, 8);
            for (i, (_, right, wrong)) in MISTAKES.iter().enumerate() {
                assert_eq!(source.matches(right).count(), 1, "mistake {i}: {right}");
                copy(&mut text, &format!("m{i}"), &source.replacen(right, wrong, 1));
            }
            text.push_str("#[macro_export]\nmacro_rules! each_mistake { ($m:ident) => { $m! {");
            for (i, (says, ..)) in MISTAKES.iter().enumerate() {
                write!(text, "({says:?}, m{i}) ").unwrap();
            }
            text.push_str("} } }\n");
        }
    }
    write(&text);
}

fn capacity(source: &str, c: usize) -> String {
    assert_eq!(source.matches(CAPACITY).count(), 1, "the capacity's line");
    source.replacen(CAPACITY, &format!("pub const SOCKET_BUFFER_BYTES: usize = {c};"), 1)
}

fn copy(text: &mut String, name: &str, source: &str) {
    let out = PathBuf::from(env::var_os("OUT_DIR").unwrap()).join(format!("{name}.rs"));
    fs::write(&out, source).unwrap();
    module(text, name, &out);
}
