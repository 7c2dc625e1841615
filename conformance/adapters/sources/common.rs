//! What both programs print: a name as JSON, in which each character is a byte.

pub fn quoted(name: &[u8]) -> String {
    let mut made = String::from("\"");
    for &byte in name {
        if (0x20..0x7f).contains(&byte) && byte != b'"' && byte != b'\\' {
            made.push(byte as char);
        } else {
            made.push_str(&format!("\\u{:04x}", byte));
        }
    }
    made.push('"');
    made
}

/// The file whose path is the first argument; or the version is printed.
pub fn input(version: &str) -> Vec<u8> {
    let path = std::env::args().nth(1).unwrap_or_default();
    if path.starts_with('-') {
        println!("{}", version);
        std::process::exit(0);
    }
    std::fs::read(path).expect("the file can be read")
}

/// Ends with status 1.
pub fn refuse(why: impl std::fmt::Display) -> ! {
    eprintln!("{}", why);
    std::process::exit(1)
}
