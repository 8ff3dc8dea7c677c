// SPDX-License-Identifier: BSD-2-Clause OR GPL-2.0-or-later
//! Names are bytes of a blob. They become characters here, and these are escaped once: where they are printed.

use std::fmt::Write;

/// The characters of a name. One that is not UTF-8 has a character for each byte, with the byte's number.
pub fn characters(bytes: &[u8]) -> String {
    match std::str::from_utf8(bytes) {
        Ok(text) => text.to_string(),
        Err(_) => bytes.iter().map(|&byte| char::from(byte)).collect(),
    }
}

/// For people: no character that a terminal would act on or not show.
pub fn for_terminal(text: &str) -> String {
    let mut shown = String::with_capacity(text.len());
    for character in text.chars() {
        match character {
            '"' | '\'' => shown.push(character),
            c => shown.extend(c.escape_debug()),
        }
    }
    shown
}

/// A JSON string with its quotes.
pub fn for_json(text: &str) -> String {
    let mut quoted = String::from("\"");
    for character in text.chars() {
        match character {
            '"' | '\\' => quoted.extend(['\\', character]),
            c if c.is_control() => {
                write!(quoted, "\\u{:04x}", c as u32).expect("strings can be written to");
            }
            c => quoted.push(c),
        }
    }
    quoted + "\""
}

/// A value among commas, as RFC 4180 has it: in quotes if need be, with each quote inside doubled.
pub fn for_commas(value: &str) -> String {
    if value.contains([',', '"', '\n', '\r']) {
        format!("\"{}\"", value.replace('"', "\"\""))
    } else {
        value.to_string()
    }
}

#[cfg(test)]
mod tests {
    use super::*;

    #[test]
    fn bytes_to_characters() {
        assert_eq!(characters(b"cpu@0"), "cpu@0");
        assert_eq!(characters("cpu@\u{e9}".as_bytes()), "cpu@\u{e9}");
        assert_eq!(characters(b"cpu@\xe9\xc3\xa9"), "cpu@\u{e9}\u{c3}\u{a9}");
        assert_eq!(characters(b"\n\\\x00"), "\n\\\0");
    }

    #[test]
    fn terminals() {
        assert_eq!(for_terminal("cpu@0 is \"it's\""), "cpu@0 is \"it's\"");
        assert_eq!(for_terminal("a\nb\\c\x1b[0m"), "a\\nb\\\\c\\u{1b}[0m");
        assert_eq!(for_terminal("\u{9b}\u{202e}"), "\\u{9b}\\u{202e}");
    }

    #[test]
    fn json_strings() {
        assert_eq!(for_json("cpu@0"), "\"cpu@0\"");
        assert_eq!(for_json("a\"\\\n"), "\"a\\\"\\\\\\u000a\"");
        assert_eq!(for_json("\u{7f}\u{9b}\u{e9}"), "\"\\u007f\\u009b\u{e9}\"");
    }

    #[test]
    fn values_among_commas() {
        assert_eq!(for_commas("cpu@0"), "cpu@0");
        assert_eq!(for_commas("cpu@0,1"), "\"cpu@0,1\"");
        assert_eq!(for_commas("cpu@\""), "\"cpu@\"\"\"");
        assert_eq!(for_commas("\",\""), "\"\"\",\"\"\"");
        assert_eq!(for_commas("a\nb\r"), "\"a\nb\r\"");
        assert_eq!(for_commas("a\\b c"), "a\\b c");
    }
}
