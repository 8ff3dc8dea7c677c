// SPDX-License-Identifier: BSD-2-Clause OR GPL-2.0-or-later
//! Takes the arguments apart, as getopt_long does: bundles of short options, long options with or without `=`, `--`.
//! What an option means, and whether it has a value, is known elsewhere.

use std::ffi::{OsStr, OsString};
use std::os::unix::ffi::{OsStrExt, OsStringExt};
use std::str;

#[derive(Debug, PartialEq, Eq)]
pub enum Argument {
    /// An option by its name, as in `-w` or `--width`.
    Option(String),
    Operand(OsString),
}

/// What is left of the argument that the last option stood in.
#[derive(Debug)]
enum Rest {
    Nothing,
    /// Behind a short option: its value, or more of them.
    Bundle(Vec<u8>),
    /// Behind the `=` of a long option, which has this name.
    Value(String, Vec<u8>),
}

pub struct Arguments<I> {
    arguments: I,
    rest: Rest,
    /// Behind `--`, where all are operands.
    ended: bool,
}

/// The bytes of the first character, or of all that follows where that is not UTF-8.
fn first_length(bytes: &[u8]) -> usize {
    let whole = |&length: &usize| str::from_utf8(bytes.get(..length).unwrap_or(b"\xff")).is_ok();
    (1..=4).find(whole).unwrap_or(bytes.len())
}

fn lossy(bytes: &[u8]) -> String {
    OsStr::from_bytes(bytes).to_string_lossy().into_owned()
}

impl<I: Iterator<Item = OsString>> Arguments<I> {
    pub fn new(arguments: I) -> Self {
        Arguments {
            arguments,
            rest: Rest::Nothing,
            ended: false,
        }
    }

    /// The first short option of a bundle; the others are kept.
    fn short(&mut self, mut bundle: Vec<u8>) -> Argument {
        let others = bundle.split_off(first_length(&bundle));
        if !others.is_empty() {
            self.rest = Rest::Bundle(others);
        }
        Argument::Option(format!("-{}", lossy(&bundle)))
    }

    fn long(&mut self, option: &[u8]) -> Argument {
        let mut parts = option.splitn(2, |&byte| byte == b'=');
        let name = lossy(parts.next().unwrap_or_default());
        if let Some(value) = parts.next() {
            self.rest = Rest::Value(name.clone(), value.to_vec());
        }
        Argument::Option(name)
    }

    /// An argument that no option has taken as its value.
    fn whole(&mut self, argument: OsString) -> Option<Argument> {
        let bytes = argument.as_bytes();
        Some(match bytes {
            _ if self.ended => Argument::Operand(argument),
            b"--" => {
                self.ended = true;
                let operand = self.arguments.next()?;
                Argument::Operand(operand)
            }
            [b'-', b'-', ..] => self.long(bytes),
            [b'-', bundle @ ..] if !bundle.is_empty() => self.short(bundle.to_vec()),
            _ => Argument::Operand(argument),
        })
    }

    /// The next option or operand. A value that the last option did not ask for is an error.
    pub fn take(&mut self) -> Result<Option<Argument>, String> {
        match std::mem::replace(&mut self.rest, Rest::Nothing) {
            Rest::Bundle(bundle) => Ok(Some(self.short(bundle))),
            Rest::Value(name, _) => Err(format!("option '{name}' takes no value")),
            Rest::Nothing => Ok(match self.arguments.next() {
                Some(argument) => self.whole(argument),
                None => None,
            }),
        }
    }

    /// The value of the last option, where it stands in the same argument.
    pub fn own_value(&mut self) -> Option<OsString> {
        match std::mem::replace(&mut self.rest, Rest::Nothing) {
            Rest::Nothing => None,
            Rest::Bundle(value) | Rest::Value(_, value) => Some(OsString::from_vec(value)),
        }
    }

    /// The value of the last option, there or in the next argument, whatever that is.
    pub fn value(&mut self, option: &str) -> Result<OsString, String> {
        let own = self.own_value();
        own.or_else(|| self.arguments.next())
            .ok_or_else(|| format!("option '{option}' needs a value"))
    }
}

#[cfg(test)]
mod tests {
    use super::*;

    /// The options and operands of arguments in which `-w` and `--width` have values.
    fn taken(arguments: &[&[u8]]) -> Result<Vec<String>, String> {
        let arguments = arguments
            .iter()
            .map(|bytes| OsString::from_vec(bytes.to_vec()));
        let mut arguments = Arguments::new(arguments);
        let mut found = Vec::new();
        while let Some(argument) = arguments.take()? {
            found.push(match argument {
                Argument::Operand(operand) => format!("<{}>", operand.to_string_lossy()),
                Argument::Option(option) if option == "-w" || option == "--width" => {
                    let value = arguments.value(&option)?;
                    format!("{option} {}", value.to_string_lossy())
                }
                Argument::Option(option) => option,
            });
        }
        Ok(found)
    }

    fn found(line: &str) -> String {
        let arguments: Vec<&[u8]> = line.split(' ').map(str::as_bytes).collect();
        taken(&arguments).map_or_else(|error| error, |found| found.join(", "))
    }

    #[test]
    fn bundles() {
        assert_eq!(found("-jq a"), "-j, -q, <a>");
        assert_eq!(
            found("-w64 -w 64 -qw64 -qw 64"),
            "-w 64, -w 64, -q, -w 64, -q, -w 64"
        );
        assert_eq!(found("-wq -w=5 -w -q"), "-w q, -w =5, -w -q");
        assert_eq!(found("-é-"), "-é, --");
        assert_eq!(found("-jw"), "option '-w' needs a value");
    }

    #[test]
    fn long_options() {
        assert_eq!(found("--width=64 --width 5"), "--width 64, --width 5");
        assert_eq!(found("--width= --width=a=b"), "--width , --width a=b");
        assert_eq!(found("--json=5 a"), "option '--json' takes no value");
        assert_eq!(found("--width"), "option '--width' needs a value");
        assert_eq!(found("--width --"), "--width --");
    }

    #[test]
    fn operands() {
        assert_eq!(found("- a -- -q -- --x"), "<->, <a>, <-q>, <-->, <--x>");
        assert_eq!(found("a --"), "<a>");
        assert_eq!(taken(&[b""]), Ok(vec!["<>".to_string()]));
        assert_eq!(taken(&[b"--", b"-"]), Ok(vec!["<->".to_string()]));
    }

    /// No byte is lost, and none ends the program.
    #[test]
    fn bytes_that_are_not_utf8() {
        assert_eq!(
            taken(&[b"-\xff\xfe"]),
            Ok(vec!["-\u{fffd}\u{fffd}".to_string()])
        );
        assert_eq!(taken(&[b"-q\xc3"]).unwrap(), ["-q", "-\u{fffd}"]);
        assert_eq!(
            taken(&[b"--\xff=x"]).unwrap_err(),
            "option '--\u{fffd}' takes no value"
        );
        let mut arguments = Arguments::new([OsString::from_vec(b"-w\xff".to_vec())].into_iter());
        assert_eq!(
            arguments.take(),
            Ok(Some(Argument::Option("-w".to_string())))
        );
        let value = arguments.value("-w").unwrap();
        assert_eq!(value.as_bytes(), b"\xff");
    }
}
