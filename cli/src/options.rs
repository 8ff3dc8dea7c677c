// SPDX-License-Identifier: BSD-2-Clause OR GPL-2.0-or-later
//! The options and what they mean.

use crate::arguments::{Argument, Arguments};
use crate::kind::Wording;
use std::ffi::{OsStr, OsString};
use sunderwath::Kind;

/// How a tree is drawn.
#[derive(Clone, Copy, Debug, PartialEq, Eq)]
pub enum Drawing {
    /// By indentation alone.
    Ascii,
    /// With box-drawing lines.
    Utf8,
    /// As the terminal can.
    Auto,
}

#[derive(Clone, Copy, Debug, PartialEq, Eq)]
pub enum Format {
    Table,
    Parsable,
    Json,
    Tree(Drawing),
    Slots,
}

#[derive(Clone, Debug, PartialEq, Eq)]
pub struct Options {
    /// The kind of board that was asked for, if any.
    pub board: Option<Kind>,
    pub format: Format,
    /// A plan for the MPIDRs stands beside the hash.
    pub plan: bool,
    /// Nothing is printed of an accepted board.
    pub check: bool,
    pub quiet: bool,
    /// At least one.
    pub files: Vec<OsString>,
}

impl Options {
    /// The kind of board to read.
    pub fn kind(&self) -> Kind {
        self.board.unwrap_or_default()
    }

    /// What is wrong with all of them together.
    fn fault(&self) -> Option<&'static str> {
        let inputs = self.files.iter().filter(|file| *file == "-").count();
        let without_plan = matches!(self.format, Format::Tree(_) | Format::Slots);
        if self.files.is_empty() {
            Some("no file")
        } else if inputs > 1 {
            Some("standard input can be read once")
        } else if self.plan && without_plan {
            Some("option '--plan' goes with the table, --parse and --json only")
        } else {
            None
        }
    }
}

#[derive(Debug, PartialEq, Eq)]
pub enum Request {
    Run(Options),
    Help,
    Version,
}

/// The thing that a value names, or that it has to be one of the known ones.
fn one_of<T>(what: &str, known: &[(String, T)], value: &OsStr) -> Result<T, String>
where
    T: Copy,
{
    if let Some((_, thing)) = known.iter().find(|(name, _)| value == name.as_str()) {
        return Ok(*thing);
    }
    let names: Vec<&str> = known.iter().map(|(name, _)| name.as_str()).collect();
    let (last, others) = names.split_last().unwrap_or((&"", &[]));
    let (others, value) = (others.join(", "), value.to_string_lossy());
    Err(format!(
        "the {what} must be {others} or {last}, not '{value}'"
    ))
}

fn board(value: &OsStr) -> Result<Kind, String> {
    let known = Kind::ALL.map(|kind| (kind.name().to_string(), kind));
    one_of("board", &known, value)
}

fn width(value: &OsStr) -> Result<Kind, String> {
    let known = Kind::ALL.map(|kind| (kind.number().to_string(), kind));
    one_of("width", &known, value)
}

fn drawing(value: Option<OsString>) -> Result<Drawing, String> {
    let known = [("ascii", Drawing::Ascii), ("utf8", Drawing::Utf8)];
    let known = known.map(|(name, drawing)| (name.to_string(), drawing));
    value.map_or(Ok(Drawing::Auto), |value| one_of("tree", &known, &value))
}

/// Takes the arguments that follow the program's name.
struct Reader<I> {
    arguments: Arguments<I>,
    options: Options,
}

impl<I: Iterator<Item = OsString>> Reader<I> {
    /// One option, which may ask for something else than a run.
    fn option(&mut self, option: &str) -> Result<Option<Request>, String> {
        let (options, arguments) = (&mut self.options, &mut self.arguments);
        match option {
            "-h" | "--help" => return Ok(Some(Request::Help)),
            "-V" | "--version" => return Ok(Some(Request::Version)),
            "-b" | "--board" => options.board = Some(board(&arguments.value(option)?)?),
            "-w" | "--width" => options.board = Some(width(&arguments.value(option)?)?),
            "-c" | "--check" => options.check = true,
            "-q" | "--quiet" => options.quiet = true,
            "-p" | "--parse" => options.format = Format::Parsable,
            "-j" | "--json" => options.format = Format::Json,
            "-t" => options.format = Format::Tree(Drawing::Auto),
            "--tree" => options.format = Format::Tree(drawing(arguments.own_value())?),
            "-s" | "--slots" => options.format = Format::Slots,
            "--plan" => options.plan = true,
            _ => return Err(format!("unknown option '{option}'")),
        }
        Ok(None)
    }

    fn read(mut self) -> Result<Request, String> {
        while let Some(argument) = self.arguments.take()? {
            match argument {
                Argument::Operand(file) => self.options.files.push(file),
                Argument::Option(option) => {
                    if let Some(request) = self.option(&option)? {
                        return Ok(request);
                    }
                }
            }
        }
        match self.options.fault() {
            Some(fault) => Err(fault.to_string()),
            None => Ok(Request::Run(self.options)),
        }
    }
}

/// Reads the arguments that follow the program's name.
pub fn parse(arguments: impl IntoIterator<Item = OsString>) -> Result<Request, String> {
    let options = Options {
        board: None,
        format: Format::Table,
        plan: false,
        check: false,
        quiet: false,
        files: Vec::new(),
    };
    let arguments = Arguments::new(arguments.into_iter());
    Reader { arguments, options }.read()
}

#[cfg(test)]
mod tests {
    use super::*;

    fn parsed(line: &str) -> Result<Request, String> {
        parse(line.split_whitespace().map(OsString::from))
    }

    /// The options of a line that asks for a run.
    fn options(line: &str) -> Options {
        match parsed(line) {
            Ok(Request::Run(options)) => options,
            other => panic!("{line}: {other:?}"),
        }
    }

    #[test]
    fn options_in_any_order() {
        let wanted = Options {
            board: Some(Kind::Arm32),
            format: Format::Json,
            plan: false,
            check: false,
            quiet: true,
            files: vec!["a.dtb".into()],
        };
        for line in [
            "--width 32 --json -q a.dtb",
            "a.dtb -q -j -w 32",
            "--width=32 --quiet -j -- a.dtb",
            "-b arm32 -j -q a.dtb",
            "--board arm32 a.dtb -q -j",
            "-q --board=arm32 a.dtb -j",
            "-jqw32 a.dtb",
            "-qjw 32 a.dtb",
            "-qjbarm32 a.dtb",
            "a.dtb -jqb arm32",
        ] {
            assert_eq!(options(line), wanted, "{line}");
        }
        assert_eq!(parsed("--help"), Ok(Request::Help));
        assert_eq!(parsed("x -V"), Ok(Request::Version));
        assert_eq!(parsed("-jqh"), Ok(Request::Help));
    }

    #[test]
    fn files() {
        let names = |line: &str| options(line).files;
        assert_eq!(names("a -q b -"), ["a", "b", "-"]);
        assert_eq!(names("-q -- -c a -- b"), ["-c", "a", "--", "b"]);
        assert!(!options("-- -c").check);
        let twice = "standard input can be read once".to_string();
        assert_eq!(parsed("a - b -"), Err(twice.clone()));
        assert_eq!(parsed("-c - -- -"), Err(twice));
        assert!(options("-c a").check && options("a --check").check && options("-jc a").check);
    }

    /// The last one of the two options counts; that neither is given stays known.
    #[test]
    fn last_board_counts() {
        for (line, wanted) in [
            ("a", None),
            ("-w 64 a", Some(Kind::Arm64)),
            ("-w 5 a", Some(Kind::Riscv)),
            ("--width=5 a", Some(Kind::Riscv)),
            ("-b riscv a", Some(Kind::Riscv)),
            ("-b riscv a -w 32", Some(Kind::Arm32)),
            ("--width 32 --board=arm64 a", Some(Kind::Arm64)),
            ("-w 64 -w 5 a", Some(Kind::Riscv)),
        ] {
            let options = options(line);
            assert_eq!(options.board, wanted, "{line}");
            assert_eq!(options.kind(), wanted.unwrap_or(Kind::Arm64));
        }
    }

    #[test]
    fn last_format_counts() {
        for (line, wanted) in [
            ("a", Format::Table),
            ("-s a", Format::Slots),
            ("-j -p -t --slots a", Format::Slots),
            ("-s -t a", Format::Tree(Drawing::Auto)),
            ("-jt a", Format::Tree(Drawing::Auto)),
            ("--tree a", Format::Tree(Drawing::Auto)),
            ("--tree=utf8 a", Format::Tree(Drawing::Utf8)),
            ("-t --tree=ascii a", Format::Tree(Drawing::Ascii)),
            ("--slots a --json", Format::Json),
            ("-jc a", Format::Json),
        ] {
            assert_eq!(options(line).format, wanted, "{line}");
        }
    }

    /// The format that counts decides whether there can be a plan.
    #[test]
    fn plans() {
        assert!(!options("a").plan);
        for line in ["--plan a", "-p --plan a", "a --plan -j", "-ts --plan -j a"] {
            assert!(options(line).plan, "{line}");
        }
        assert!(options("--plan -c a").plan && !options("-- --plan").plan);
        let wrong = "option '--plan' goes with the table, --parse and --json only".to_string();
        for line in ["--plan -t a", "--plan -js a", "--tree=ascii a --plan"] {
            assert_eq!(parsed(line), Err(wrong.clone()), "{line}");
        }
        let value = "option '--plan' takes no value".to_string();
        assert_eq!(parsed("--plan=0 a"), Err(value));
        assert_eq!(parsed("--plan -t -h"), Ok(Request::Help));
        let twice = Err("standard input can be read once".to_string());
        assert_eq!(parsed("--plan -s - -"), twice);
    }

    #[test]
    fn wrong_usage() {
        for (line, wanted) in [
            ("", "no file"),
            ("-q", "no file"),
            ("--", "no file"),
            ("--width", "option '--width' needs a value"),
            ("-qw", "option '-w' needs a value"),
            ("--board", "option '--board' needs a value"),
            ("-w 6 a", "the width must be 32, 64 or 5, not '6'"),
            ("-w06 a", "the width must be 32, 64 or 5, not '06'"),
            ("--width= a", "the width must be 32, 64 or 5, not ''"),
            (
                "--width riscv a",
                "the width must be 32, 64 or 5, not 'riscv'",
            ),
            (
                "-b x86 a",
                "the board must be arm32, arm64 or riscv, not 'x86'",
            ),
            ("-b 5 a", "the board must be arm32, arm64 or riscv, not '5'"),
            (
                "--board RISCV a",
                "the board must be arm32, arm64 or riscv, not 'RISCV'",
            ),
            (
                "--tree=utf-8 a",
                "the tree must be ascii or utf8, not 'utf-8'",
            ),
            ("-x a", "unknown option '-x'"),
            ("-jx a", "unknown option '-x'"),
            ("-tutf8 a", "unknown option '-u'"),
            ("--wid 32 a", "unknown option '--wid'"),
            ("--boards riscv a", "unknown option '--boards'"),
            ("--json=5 a", "option '--json' takes no value"),
            ("--slots=1 a", "option '--slots' takes no value"),
        ] {
            assert_eq!(parsed(line), Err(wanted.to_string()), "{line}");
        }
    }
}
