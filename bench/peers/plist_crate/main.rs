//! plist_crate IN OUT: reads a property list with the Rust crate `plist`, and writes a binary one.

fn main() -> Result<(), plist::Error> {
    let words: Vec<String> = std::env::args().collect();
    plist::Value::from_file(&words[1])?.to_file_binary(&words[2])
}
