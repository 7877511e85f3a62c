//! A file's name as text.

use std::ffi::OsStr;
use std::os::unix::ffi::OsStrExt;

/// The name on one line: control characters, and bytes that are no UTF-8, are written as `\xNN`.
pub fn shown(name: impl AsRef<OsStr>) -> String {
    let mut text = String::new();
    for chunk in name.as_ref().as_bytes().utf8_chunks() {
        for letter in chunk.valid().chars() {
            if letter.is_control() {
                let mut bytes = [0; 4];
                escape(&mut text, letter.encode_utf8(&mut bytes).as_bytes());
            } else {
                text.push(letter);
            }
        }
        escape(&mut text, chunk.invalid());
    }
    text
}

fn escape(text: &mut String, bytes: &[u8]) {
    for byte in bytes {
        text.push_str(&format!("\\x{byte:02x}"));
    }
}

#[cfg(test)]
mod tests {
    use super::{shown, OsStr, OsStrExt};

    #[test]
    fn a_name_stays_on_its_line() {
        let of = |bytes| shown(OsStr::from_bytes(bytes));
        assert_eq!(of(b"flight 7.jp2"), "flight 7.jp2");
        assert_eq!(of("Höhe.j2k".as_bytes()), "Höhe.j2k");
        assert_eq!(of(b"a\nend.j2k"), "a\\x0aend.j2k");
        assert_eq!(of(b"\xff.j2k"), "\\xff.j2k");
        assert_eq!(of(b"\x1b[31m"), "\\x1b[31m");
    }
}
