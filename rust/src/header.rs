// SPDX-License-Identifier: BSD-2-Clause OR GPL-2.0-or-later
//! What include/sunderwath.h says, for the tests that compare this crate with it.

use std::collections::BTreeMap;
use std::string::String;
use std::vec::Vec;

const HEADER: &str = include_str!("../../include/sunderwath.h");

/// The macros without their prefix, each with its text; those without a text are left out.
fn macros() -> BTreeMap<&'static str, &'static str> {
    let defined = HEADER
        .lines()
        .filter_map(|line| line.strip_prefix("#define SUNDERWATH_"));
    let parts = defined.filter_map(|line| line.split_once(' '));
    let bare = |text: &'static str| text.split("/*").next().unwrap_or(text).trim();
    parts.map(|(name, text)| (name, bare(text))).collect()
}

/// The value of a number, of a macro, or of `a * b` or `a << b`.
fn value(macros: &BTreeMap<&str, &str>, text: &str) -> u64 {
    let text = text.trim_start_matches('(').trim_end_matches(')');
    if let Some((left, right)) = text.split_once(" * ") {
        return value(macros, left) * value(macros, right);
    }
    if let Some((left, right)) = text.split_once(" << ") {
        return value(macros, left) << value(macros, right);
    }
    if let Some(name) = text.strip_prefix("SUNDERWATH_") {
        return value(macros, macros[name]);
    }
    let number = text.trim_end_matches('u');
    let read = match number.strip_prefix("0x") {
        Some(digits) => u64::from_str_radix(digits, 16),
        None => number.parse(),
    };
    read.unwrap_or_else(|_| panic!("a number: {text}"))
}

/// The macros with their values, but for those of the stack and of the version.
pub fn constants() -> BTreeMap<&'static str, u64> {
    let macros = macros();
    let other = |name: &str| name.contains("STACK_BYTES") || name.starts_with("VERSION");
    let names = macros.keys().copied().filter(|name| !other(name));
    names
        .map(|name| (name, value(&macros, macros[name])))
        .collect()
}

/// An enumerator: its number, its name without the prefix, and the comment before it in one line.
pub struct Enumerator {
    pub number: u32,
    pub name: &'static str,
    pub comment: String,
}

/// The comment that a text ends in, in one line.
fn last_comment(text: &str) -> String {
    let comment = text.rsplit("/*").next().unwrap_or("");
    let words: Vec<&str> = comment
        .split_whitespace()
        .filter(|word| !["*", "*/"].contains(word))
        .collect();
    words.join(" ")
}

/// The enumerators, 0 too, in the order of the header.
pub fn enumerators() -> Vec<Enumerator> {
    let (_, rest) = HEADER.split_once("enum sunderwath_number {\n").expect("it");
    let (body, _) = rest.split_once("\n};\n").expect("its end");
    let mut from = 0;
    let mut found = Vec::new();
    for (at, _) in body.match_indices(" = ") {
        let (before, after) = (&body[from..at], &body[at + 3..]);
        let (comment, name) = before.rsplit_once("SUNDERWATH_").expect("the prefix");
        let digits = after.split([',', '\n']).next().unwrap_or(after);
        found.push(Enumerator {
            number: digits.parse().expect("a number"),
            name,
            comment: last_comment(comment),
        });
        from = at + 3;
    }
    found
}
