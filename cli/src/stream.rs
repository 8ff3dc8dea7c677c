// SPDX-License-Identifier: BSD-2-Clause OR GPL-2.0-or-later
//! Follows the tokens of a whole structure block, in one pass and without recursion: where it breaks 33 and why, and what is
//! kept when only /cpus is.

use crate::fault::Fault;
use crate::header::{word_at, Blocks};
use std::ops::Range;
use sunderwath::MAX_BLOB;

const BEGIN_NODE: u32 = 1;
const END_NODE: u32 = 2;
const PROP: u32 = 3;
const NOP: u32 = 4;
const END: u32 = 9;

/// What was found in a stream that keeps 33. Kept are the root's begin token, each child of the root named cpus with all
/// below it, the root's end token and the stream's.
#[derive(Debug, Default, PartialEq, Eq)]
pub struct Survey {
    /// How many children of the root are named cpus.
    pub cpus: usize,
    /// The length of all that is kept.
    pub length: usize,
    /// Where it lies in the blob, and where its property tokens do; not complete if it is longer than any blob may be.
    pub pieces: Vec<Range<usize>>,
    pub properties: Vec<usize>,
}

enum Token<'a> {
    Begin(&'a [u8]),
    Close,
    Property,
    Nop,
    End,
}

struct Walk<'a> {
    /// The blob up to the end of the structure block.
    block: &'a [u8],
    strings: Range<usize>,
    /// Behind the last zero byte of the strings block: names have to begin before it.
    names_end: usize,
    /// Where the token stands, and the one behind it.
    at: usize,
    next: usize,
    depth: usize,
    /// The root has begun.
    rooted: bool,
    /// No child has come yet, so a property may.
    fresh: bool,
    /// A child of the root named cpus is open.
    inside: bool,
    survey: Survey,
}

fn aligned(at: usize) -> usize {
    (at + 3) & !3
}

impl<'a> Walk<'a> {
    fn new(blob: &'a [u8], blocks: &Blocks) -> Self {
        let strings = blocks.strings.clone();
        let names = &blob[strings.clone()];
        let last_zero = names.iter().rposition(|&byte| byte == 0);
        Walk {
            block: &blob[..blocks.structure.end],
            names_end: strings.start + last_zero.map_or(0, |at| at + 1),
            strings,
            at: blocks.structure.start,
            next: blocks.structure.start,
            depth: 0,
            rooted: false,
            fresh: false,
            inside: false,
            survey: Survey::default(),
        }
    }

    /// A node's name, and where the token behind it stands.
    fn name(&self) -> Result<(Token<'a>, usize), String> {
        let rest = &self.block[self.at + 4..];
        match rest.iter().position(|&byte| byte == 0) {
            Some(length) => Ok((
                Token::Begin(&rest[..length]),
                aligned(self.at + 4 + length + 1),
            )),
            None => Err("name of FDT_BEGIN_NODE without a zero byte in the block".to_string()),
        }
    }

    fn property(&self) -> Result<(Token<'a>, usize), String> {
        let size = word_at(self.block, self.at + 4);
        let name = word_at(self.block, self.at + 8);
        let (size, name) = match (size, name) {
            (Some(size), Some(name)) => (size, name),
            _ => return Err("FDT_PROP leaves the block".to_string()),
        };
        let value = self.at + 12;
        if size as usize > self.block.len() - value {
            return Err(format!("FDT_PROP with {size} bytes leaves the block"));
        }
        if name as usize >= self.strings.len() {
            return Err(format!(
                "FDT_PROP with a name at {name:#x}, outside the strings block"
            ));
        }
        if self.strings.start + name as usize >= self.names_end {
            return Err(format!(
                "FDT_PROP with a name at {name:#x}, without a zero byte in the strings block"
            ));
        }
        Ok((Token::Property, aligned(value + size as usize)))
    }

    /// The token that stands here, and where the next one does.
    fn token(&self) -> Result<(Token<'a>, usize), String> {
        let single = |token| Ok((token, self.at + 4));
        match word_at(self.block, self.at) {
            Some(BEGIN_NODE) => self.name(),
            Some(END_NODE) => single(Token::Close),
            Some(PROP) => self.property(),
            Some(NOP) => single(Token::Nop),
            Some(END) => single(Token::End),
            Some(other) => Err(format!("unknown token {other:#010x}")),
            None => Err("the block ends without FDT_END".to_string()),
        }
    }

    fn begin(&mut self, name: &[u8]) -> Result<(), &'static str> {
        if self.depth == 0 && self.rooted {
            return Err("FDT_BEGIN_NODE of a second root");
        }
        if self.depth == 1 && name == b"cpus" {
            self.survey.cpus += 1;
            self.inside = true;
        }
        self.rooted = true;
        self.fresh = true;
        self.depth += 1;
        Ok(())
    }

    fn close(&mut self) -> Result<(), &'static str> {
        if self.depth == 0 {
            return Err("FDT_END_NODE outside any node");
        }
        self.fresh = false;
        self.depth -= 1;
        Ok(())
    }

    fn own(&self) -> Result<(), &'static str> {
        match (self.depth, self.fresh) {
            (0, _) => Err("FDT_PROP outside any node"),
            (_, false) => Err("FDT_PROP after a child node"),
            _ => Ok(()),
        }
    }

    fn finish(&self) -> Result<(), &'static str> {
        match (self.depth, self.rooted) {
            (0, true) => Ok(()),
            (0, false) => Err("FDT_END before the root"),
            _ => Err("FDT_END inside an open node"),
        }
    }

    /// Keeps the token, behind the piece that ends here or in a new one.
    fn keep(&mut self, token: &Token) {
        self.survey.length += self.next - self.at;
        if self.survey.length > MAX_BLOB {
            return;
        }
        match self.survey.pieces.last_mut() {
            Some(piece) if piece.end == self.at => piece.end = self.next,
            _ => self.survey.pieces.push(self.at..self.next),
        }
        if matches!(token, Token::Property) {
            self.survey.properties.push(self.at);
        }
    }

    /// One token; true behind the end token.
    fn step(&mut self) -> Result<bool, String> {
        let (token, next) = self.token()?;
        self.next = next;
        match token {
            Token::Begin(name) => self.begin(name)?,
            Token::Close => self.close()?,
            Token::Property => self.own()?,
            Token::Nop => {}
            Token::End => self.finish()?,
        }
        let of_root = matches!(
            (&token, self.depth),
            (Token::Begin(_), 1) | (Token::Close, 0) | (Token::End, _)
        );
        if of_root || self.inside {
            self.keep(&token);
        }
        self.inside = self.inside && self.depth > 1;
        self.at = next;
        Ok(matches!(token, Token::End))
    }

    fn run(&mut self) -> Result<(), String> {
        while !self.step()? {}
        if self.at < self.block.len() {
            return Err("data behind FDT_END".to_string());
        }
        Ok(())
    }
}

/// Follows the stream to its end, or tells 33 at the first token that breaks it.
pub fn survey(blob: &[u8], blocks: &Blocks) -> Result<Survey, Fault> {
    let mut walk = Walk::new(blob, blocks);
    match walk.run() {
        Ok(()) => Ok(walk.survey),
        Err(reason) => Err(Fault::at(walk.at, reason)),
    }
}
