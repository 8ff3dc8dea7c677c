// SPDX-License-Identifier: BSD-2-Clause OR GPL-2.0-or-later
//! How the texts of several files stand behind each other on standard output.

use crate::escape::for_terminal;
use crate::options::{Format, Options};

#[derive(Clone, Copy, Debug, PartialEq, Eq)]
enum Style {
    /// One file: its text alone.
    Alone,
    /// Each text under a line with its file's name, with an empty line between them.
    Headings,
    /// Each under a comment with its file's name.
    Comments,
    /// The elements of one JSON array.
    Array,
}

#[derive(Debug)]
pub struct Layout {
    style: Style,
    /// A text stands there already.
    begun: bool,
}

/// The object two blanks further to the right, and nothing behind it. No string inside has a line break.
fn indented(object: &str) -> String {
    let lines: Vec<String> = object.lines().map(|line| format!("  {line}")).collect();
    lines.join("\n")
}

impl Layout {
    pub fn of(options: &Options) -> Self {
        let several = options.files.len() > 1;
        let style = match options.format {
            Format::Json if several || options.check => Style::Array,
            _ if !several => Style::Alone,
            Format::Parsable => Style::Comments,
            _ => Style::Headings,
        };
        Layout {
            style,
            begun: false,
        }
    }

    pub fn start(&self) -> &'static str {
        match self.style {
            Style::Array => "[",
            _ => "",
        }
    }

    /// The text of one more file, with what stands before it.
    pub fn add(&mut self, file: &str, text: &str) -> String {
        let begun = std::mem::replace(&mut self.begun, true);
        let file = for_terminal(file);
        match self.style {
            Style::Alone => text.to_string(),
            Style::Headings if begun => format!("\n{file}:\n{text}"),
            Style::Headings => format!("{file}:\n{text}"),
            Style::Comments => format!("# file={file}\n{text}"),
            Style::Array if begun => format!(",\n{}", indented(text)),
            Style::Array => format!("\n{}", indented(text)),
        }
    }

    pub fn end(&self) -> &'static str {
        match self.style {
            Style::Array if self.begun => "\n]\n",
            Style::Array => "]\n",
            _ => "",
        }
    }
}

#[cfg(test)]
mod tests {
    use super::*;
    use crate::options::{parse, Request};

    /// What stands on standard output where each file has a line of text.
    fn laid_out(line: &str) -> String {
        let arguments = line.split(' ').map(From::from);
        let options = match parse(arguments) {
            Ok(Request::Run(options)) => options,
            other => panic!("{line}: {other:?}"),
        };
        let mut layout = Layout::of(&options);
        let files = options.files.iter().map(|file| file.to_str().unwrap());
        let texts: Vec<String> = files.map(|file| layout.add(file, "x\ny\n")).collect();
        layout.start().to_string() + &texts.concat() + layout.end()
    }

    #[test]
    fn one_file() {
        for line in ["a", "-p a", "-t a", "-s a", "-j a"] {
            assert_eq!(laid_out(line), "x\ny\n", "{line}");
        }
        assert_eq!(laid_out("-cj a"), "[\n  x\n  y\n]\n");
    }

    #[test]
    fn several_files() {
        let headings = "a:\nx\ny\n\nb:\nx\ny\n";
        for line in ["a b", "-t a b", "-s a b"] {
            assert_eq!(laid_out(line), headings, "{line}");
        }
        assert_eq!(laid_out("-p a b\n"), "# file=a\nx\ny\n# file=b\\n\nx\ny\n");
        assert_eq!(
            laid_out("-j a b"),
            "[\n  x\n  y\n,\n  x\n  y\n]\n".replace("\n,", ",")
        );
    }

    #[test]
    fn no_object() {
        let options = parse(["-cj", "a"].map(From::from));
        let options = match options {
            Ok(Request::Run(options)) => options,
            other => panic!("{other:?}"),
        };
        let layout = Layout::of(&options);
        assert_eq!(layout.start().to_string() + layout.end(), "[]\n");
    }
}
