// SPDX-License-Identifier: BSD-2-Clause OR GPL-2.0-or-later
//! Values of properties in words.

use crate::tables::Tables;

/// How much of a value or a list is shown.
const MOST_BYTES: usize = 32;
const MOST_NAMES: usize = 8;

/// `1 byte`, `2 bytes`
pub fn counted(number: usize, thing: &str) -> String {
    match number {
        1 => format!("1 {thing}"),
        _ => format!("{number} {thing}s"),
    }
}

/// The number that at most eight bytes make, the first one highest.
pub fn number(bytes: &[u8]) -> u64 {
    bytes
        .iter()
        .fold(0, |high, &low| high << 8 | u64::from(low))
}

/// The cell that a property holds, or that it is not one cell.
pub fn one_cell(tables: &Tables, property: u32) -> Result<u32, String> {
    let value = tables.value(property);
    match <[u8; 4]>::try_from(value) {
        Ok(bytes) => Ok(u32::from_be_bytes(bytes)),
        Err(_) => {
            let name = tables.property_name(property);
            Err(format!(
                "{name} has {}, not 4",
                counted(value.len(), "byte")
            ))
        }
    }
}

/// A name as it is, or in quotes where it has a character that dtc does not allow, such as a blank at its end.
fn quoted(name: &str) -> String {
    let allowed = |letter: char| letter.is_ascii_alphanumeric() || ",._+*#?@-".contains(letter);
    if name.chars().all(allowed) {
        name.to_string()
    } else {
        format!("\"{name}\"")
    }
}

/// `a, b, c`, and how many more.
pub fn listed(names: &[String]) -> String {
    let shown = names.len().min(MOST_NAMES);
    let list: Vec<String> = names[..shown].iter().map(|name| quoted(name)).collect();
    let list = list.join(", ");
    match names.len() - shown {
        0 => list,
        more => format!("{list} and {more} more"),
    }
}

/// The strings of a value, each with its zero byte, as a source has them; a quote inside could be taken for an end.
fn strings(value: &[u8]) -> Option<String> {
    let text = std::str::from_utf8(value.strip_suffix(&[0])?).ok()?;
    let parts: Vec<&str> = text.split('\0').collect();
    let plain = |letter: char| !letter.is_control() && letter != '"';
    let readable = |part: &&str| !part.is_empty() && part.chars().all(plain);
    if !parts.iter().all(readable) {
        return None;
    }
    Some(format!("\"{}\"", parts.join("\", \"")))
}

/// Bytes as a source has them.
fn bytes(value: &[u8]) -> String {
    let bytes: Vec<String> = value.iter().map(|byte| format!("{byte:02x}")).collect();
    format!("[{}]", bytes.join(" "))
}

/// A value that should be a string.
pub fn shown(value: &[u8]) -> String {
    match (value.len(), strings(value)) {
        (0, _) => "empty".to_string(),
        (length, _) if length > MOST_BYTES => format!("{length} bytes long"),
        (_, Some(strings)) => strings,
        (_, None) if value.ends_with(&[0]) => format!("{}, which is no plain string", bytes(value)),
        (_, None) => format!("{}, without a final zero byte", bytes(value)),
    }
}

#[cfg(test)]
mod tests {
    use super::*;

    #[test]
    fn strings_and_bytes() {
        assert_eq!(shown(b""), "empty");
        assert_eq!(shown(b"cpux\0"), "\"cpux\"");
        assert_eq!(shown(b"cpu\0cpu\0"), "\"cpu\", \"cpu\"");
        assert_eq!(shown(b"cpu"), "[63 70 75], without a final zero byte");
        assert_eq!(
            shown(b"cpu\0\0"),
            "[63 70 75 00 00], which is no plain string"
        );
        assert_eq!(shown(b"\n\0"), "[0a 00], which is no plain string");
        assert_eq!(shown(b"\xff\0"), "[ff 00], which is no plain string");
        assert_eq!(shown(b"a\"\0"), "[61 22 00], which is no plain string");
        assert_eq!(shown(&[b'a'; 33]), "33 bytes long");
    }

    #[test]
    fn counts_and_lists() {
        assert_eq!(counted(0, "byte"), "0 bytes");
        assert_eq!(counted(1, "byte"), "1 byte");
        let names: Vec<String> = (0..10).map(|n| n.to_string()).collect();
        assert_eq!(listed(&names[..1]), "0");
        assert_eq!(listed(&names[..8]), "0, 1, 2, 3, 4, 5, 6, 7");
        assert_eq!(listed(&names), "0, 1, 2, 3, 4, 5, 6, 7 and 2 more");
        let odd = ["reg ", "linux,x", "a, b"].map(String::from);
        assert_eq!(listed(&odd), "\"reg \", linux,x, \"a, b\"");
    }

    #[test]
    fn numbers() {
        assert_eq!(number(&[]), 0);
        assert_eq!(number(&[0, 0, 0, 1, 0x80, 0, 0, 2]), 0x1_8000_0002);
    }
}
