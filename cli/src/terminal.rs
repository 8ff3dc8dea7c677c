// SPDX-License-Identifier: BSD-2-Clause OR GPL-2.0-or-later
//! Whether standard output shows box-drawing lines.

use std::env;
use std::ffi::OsString;
use std::os::raw::c_int;

const STANDARD_OUTPUT: c_int = 1;

extern "C" {
    fn isatty(descriptor: c_int) -> c_int;
}

/// As `std::io::IsTerminal` says it in newer versions of Rust.
fn is_terminal() -> bool {
    // SAFETY: isatty takes any number, and touches no memory of the program.
    unsafe { isatty(STANDARD_OUTPUT) == 1 }
}

/// Whether a locale as in `en_GB.UTF-8@euro` has UTF-8.
fn has_utf8(locale: &str) -> bool {
    let without_modifier = locale.split('@').next().unwrap_or("");
    let codeset = without_modifier.split_once('.').map(|(_, codeset)| codeset);
    let codeset = codeset.unwrap_or("").to_ascii_lowercase();
    codeset == "utf-8" || codeset == "utf8"
}

/// The first variable that is set and not empty tells the locale.
fn locale_has_utf8(variable: impl Fn(&str) -> Option<OsString>) -> bool {
    let mut values = ["LC_ALL", "LC_CTYPE", "LANG"]
        .into_iter()
        .filter_map(variable);
    let locale = values.find(|value| !value.is_empty()).unwrap_or_default();
    has_utf8(&locale.to_string_lossy())
}

/// A terminal, and a locale with UTF-8.
pub fn shows_lines() -> bool {
    is_terminal() && locale_has_utf8(|name| env::var_os(name))
}

#[cfg(test)]
mod tests {
    use super::*;

    #[test]
    fn locales() {
        for locale in ["C.UTF-8", "en_GB.utf8", "de_DE.UTF-8@euro", "x.Utf-8"] {
            assert!(has_utf8(locale), "{locale}");
        }
        for locale in [
            "",
            "C",
            "POSIX",
            "en_GB",
            "en_GB.ISO-8859-1",
            "UTF-8",
            "C.UTF-16",
            "a@b.utf8",
        ] {
            assert!(!has_utf8(locale), "{locale}");
        }
    }

    #[test]
    fn first_variable_counts() {
        let with = |values: [Option<&str>; 3]| {
            locale_has_utf8(|name| {
                let at = ["LC_ALL", "LC_CTYPE", "LANG"]
                    .iter()
                    .position(|n| *n == name);
                values[at.unwrap()].map(OsString::from)
            })
        };
        let (utf8, c) = (Some("C.UTF-8"), Some("C"));
        assert!(with([utf8, c, c]) && with([None, utf8, c]) && with([None, None, utf8]));
        assert!(with([Some(""), Some(""), utf8]) && with([Some(""), utf8, c]));
        assert!(!with([c, utf8, utf8]) && !with([None, c, utf8]) && !with([None; 3]));
    }
}
