// SPDX-License-Identifier: BSD-2-Clause OR GPL-2.0-or-later
//! The header's enumeration and the texts of include/sunderwath_text.c have the same numbers, and every other number is unknown. The
//! header's board numbers are those of the program.

use std::collections::BTreeMap;
use sunderwath::texts as check_and_sentence;
use sunderwath::Kind;
use sunderwath_cli::kind::Wording;

const HEADER: &str = include_str!("../../include/sunderwath.h");
const TEXTS: &str = include_str!("../../include/sunderwath_text.c");

/// What stands between two texts, the first one in the source.
fn between<'a>(source: &'a str, start: &str, end: &str) -> &'a str {
    let (_, rest) = source.split_once(start).expect(start);
    rest.split_once(end).expect(end).0
}

/// The enumerators by number, each without the prefix.
fn enumerators() -> BTreeMap<u32, &'static str> {
    let body = between(HEADER, "enum sunderwath_number {\n", "\n};\n");
    let entries = body
        .lines()
        .filter_map(|line| line.trim().split_once(" = "));
    let pairs = entries.map(|(name, number)| {
        let number = number.trim_end_matches(',').parse();
        let name = name.strip_prefix("SUNDERWATH_");
        (number.expect("a number"), name.expect("the prefix"))
    });
    let pairs: Vec<(u32, &str)> = pairs.collect();
    let map = BTreeMap::from_iter(pairs.iter().copied());
    assert_eq!(map.len(), pairs.len(), "two enumerators with one number");
    map
}

/// What a macro of the header stands for, without its comment.
fn defined(name: &str) -> &'static str {
    let rest = between(HEADER, &format!("#define SUNDERWATH_{name} "), "\n");
    rest.split("/*")
        .next()
        .expect("there is a first part")
        .trim()
}

#[test]
fn board_numbers() {
    for kind in Kind::ALL {
        let name = kind.name().to_uppercase();
        assert_eq!(defined(&name), kind.number().to_string());
    }
    let sentence = check_and_sentence(1).1;
    for kind in Kind::ALL {
        let number = kind.number().to_string();
        let mut words = sentence.split([' ', ',']);
        assert!(words.any(|word| word == number), "{sentence}");
    }
}

/// The lines of the table: enumerator without the prefix, check name, sentence.
fn lines() -> Vec<[String; 3]> {
    let body = between(TEXTS, "messages[] = {\n", "\n};\n");
    let line = |line: &str| {
        let line = line.trim().trim_end_matches(',');
        let line = line.strip_prefix("{ SUNDERWATH_")?.strip_suffix("\" }")?;
        let (name, texts) = line.split_once(", \"")?;
        let (check, sentence) = texts.split_once("\", \"")?;
        Some([name, check, sentence].map(|text| text.replace("\\\"", "\"")))
    };
    body.lines()
        .map(|text| line(text).unwrap_or_else(|| panic!("{text}")))
        .collect()
}

/// What the compiled functions answer to small numbers and to the largest.
#[test]
fn known_exactly_when_in_the_header() {
    let enumerators = enumerators();
    for number in (0..=300).chain([u32::MAX]) {
        let (check, sentence) = check_and_sentence(number);
        match enumerators.get(&number) {
            Some(name) => assert_eq!(check, name.to_lowercase(), "{number}"),
            None => assert_eq!(check, "unknown_number", "{number}"),
        }
        let unknown = sentence == "unknown number";
        assert_eq!(unknown, !enumerators.contains_key(&number), "{number}");
    }
}

#[test]
fn numbers_of_the_papers() {
    let numbers: Vec<u32> = enumerators().into_keys().collect();
    let wanted: Vec<u32> = (0..=40).filter(|&n| n != 14).chain([49]).collect();
    assert_eq!(numbers, wanted);
}

/// No line of the table is hidden by another one, and none is missing.
#[test]
fn each_line_is_what_its_number_answers() {
    let lines = lines();
    let enumerators = enumerators();
    assert_eq!(lines.len(), enumerators.len());
    for (number, name) in enumerators {
        let mut found = lines.iter().filter(|line| line[0] == name);
        let [_, check, sentence] = found.next().expect(name);
        assert!(found.next().is_none(), "{name} stands there twice");
        assert_eq!(check_and_sentence(number), (&check[..], &sentence[..]));
    }
}

/// Names are plain, sentences are one line without a full stop, and no two are the same.
#[test]
fn texts_are_plain_and_distinct() {
    let lines = lines();
    for (at, [_, check, sentence]) in lines.iter().enumerate() {
        let plain = |byte: u8| byte.is_ascii_lowercase() || byte == b'_';
        assert!(check.bytes().all(plain) && check.len() < 24, "{check}");
        let printed = |byte: u8| byte == b' ' || byte.is_ascii_graphic();
        assert!(sentence.bytes().all(printed), "{sentence}");
        assert!((1..96).contains(&sentence.len()), "{sentence}");
        let full_stop = sentence.ends_with('.') && !sentence.ends_with("...");
        assert!(!full_stop, "{sentence}");
        let same = |line: &[String; 3]| line[1] == *check || line[2] == *sentence;
        assert!(!lines[..at].iter().any(same), "{check}");
    }
}
