// SPDX-License-Identifier: BSD-2-Clause OR GPL-2.0-or-later
//! Tells a source from other files by how it begins.

/// What a source begins with: its version, or a file that has it.
const STARTS: [&[u8]; 2] = [b"/dts-v1/", b"/include/"];

/// What follows an end mark, nothing where it is missing.
fn behind<'a>(bytes: &'a [u8], end: &[u8]) -> &'a [u8] {
    let at = bytes.windows(end.len()).position(|window| window == end);
    at.map_or(&[], |at| &bytes[at + end.len()..])
}

/// Leaves out white space, comments and the line markers of a preprocessor, or nothing where none stands here.
fn skipped(bytes: &[u8]) -> &[u8] {
    match bytes {
        [first, rest @ ..] if first.is_ascii_whitespace() => rest,
        [b'/', b'*', rest @ ..] => behind(rest, b"*/"),
        [b'/', b'/', rest @ ..] | [b'#', rest @ ..] => behind(rest, b"\n"),
        _ => bytes,
    }
}

/// Whether these bytes begin a source.
pub fn is_source(bytes: &[u8]) -> bool {
    let mut rest = bytes;
    loop {
        let next = skipped(rest);
        if next.len() == rest.len() {
            return STARTS.iter().any(|start| rest.starts_with(start));
        }
        rest = next;
    }
}

#[cfg(test)]
mod tests {
    use super::*;

    #[test]
    fn sources() {
        for text in [
            "/dts-v1/;",
            "/dts-v1/",
            " \t\r\n/dts-v1/;\n/ {};",
            "/* a * / b\n*//dts-v1/;",
            "/**//***//dts-v1/ ;",
            "// SPDX-License-Identifier: GPL-2.0\n/*\n */\n\n/dts-v1/;",
            "# 1 \"board.dts\"\n# 1 \"<built-in>\"\n/dts-v1/;",
            "#include <dt-bindings/x.h>\n/dts-v1/;",
            "/include/ \"common.dtsi\"",
        ] {
            assert!(is_source(text.as_bytes()), "{text}");
        }
    }

    #[test]
    fn other_files() {
        for text in [
            "",
            "/",
            "/dts-v1",
            "x /dts-v1/;",
            "/ /dts-v1/;",
            "/* /dts-v1/;",
            "/*/ /dts-v1/;",
            "// /dts-v1/;",
            "#!/bin/sh\necho",
            "\0/dts-v1/;",
            "\u{feff}/dts-v1/;",
            "/dts-v2/;",
        ] {
            assert!(!is_source(text.as_bytes()), "{text}");
        }
        assert!(!is_source(&[0xD0, 0x0D, 0xFE, 0xED]));
    }
}
