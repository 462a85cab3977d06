//! The little of JSON that a record needs. It is written as it comes: a file of millions of nodes takes no more memory than its slots.

use std::fmt::Display;
use std::io::{self, Write};

pub struct Json<'o>(pub &'o mut dyn Write);

impl Json<'_> {
    /// What is JSON already: a number, `true`, `null`, a mark.
    pub fn raw(&mut self, value: &dyn Display) -> io::Result<()> {
        write!(self.0, "{value}")
    }

    pub fn text(&mut self, text: &str) -> io::Result<()> {
        write!(self.0, "\"")?;
        for c in text.chars() {
            match c {
                '"' | '\\' => write!(self.0, "\\{c}")?,
                '\0'..='\x1F' => write!(self.0, "\\u{:04x}", u32::from(c))?,
                _ => write!(self.0, "{c}")?,
            }
        }
        write!(self.0, "\"")
    }
}
