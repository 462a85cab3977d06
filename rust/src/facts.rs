//! What a format fixes, and what a scan allows.

use core::fmt;
use core::str::FromStr;

use crate::units::{decimal, hexadecimal};
use crate::ParseError;

/// What a format fixes. The library has no magic, version or masks of its own: the caller names them. Refused as
/// [`Kind::Format`](crate::Kind::Format) by scan and writer where the hashless mask is not one bit, or shares it with the reserved mask, or
/// the node maximum is above 2^30.
///
/// As text they are five words with commas between them, which is also how they are shown: the magic in 8 hexadecimal digits, the version
/// in 6, the two masks in 2 each, and the node maximum in decimal.
///
/// ```
/// use vekalumist::Facts;
///
/// let facts: Facts = "4D415354,000002,02,FC,1073741823".parse()?;
/// assert_eq!(facts, Facts::STAND_IN);
/// assert_eq!(facts.to_string(), "4D415354,000002,02,FC,1073741823");
/// # Ok::<(), vekalumist::ParseError>(())
/// ```
#[derive(Clone, Copy, Debug, PartialEq, Eq, Hash)]
pub struct Facts {
    /// The file's first four bytes.
    pub magic: [u8; 4],
    /// The three bytes after the flags.
    pub version: [u8; 3],
    /// The flag bit of a file without node hashes.
    pub hashless: u8,
    /// The flag bits that must be zero.
    pub reserved: u8,
    /// The most nodes that a file may have.
    pub max_nodes: usize,
}

impl Facts {
    /// Facts that stand in for the published ones, which are not at hand but for the node maximum: magic `MAST`, version 0 0 2, hashless
    /// mask 2, reserved mask 0xFC, node maximum 2^30 - 1. The repository's samples are written under them; name your own for files of the
    /// Miden VM.
    pub const STAND_IN: Facts = Facts { magic: *b"MAST", version: [0, 0, 2], hashless: 0x02, reserved: 0xFC, max_nodes: (1 << 30) - 1 };
}

impl fmt::Display for Facts {
    fn fmt(&self, f: &mut fmt::Formatter<'_>) -> fmt::Result {
        let ([a, b, c, d], [e, g, h]) = (self.magic, self.version);
        write!(f, "{a:02X}{b:02X}{c:02X}{d:02X},{e:02X}{g:02X}{h:02X},{:02X},{:02X},{}", self.hashless, self.reserved, self.max_nodes)
    }
}

impl FromStr for Facts {
    type Err = ParseError;

    fn from_str(text: &str) -> Result<Facts, ParseError> {
        let mut words = text.split(',');
        let mut word = || words.next().unwrap_or("");
        let magic = hexadecimal(word()).ok_or(ParseError("the magic is not 8 hexadecimal digits"))?;
        let version = hexadecimal(word()).ok_or(ParseError("the version is not 6 hexadecimal digits"))?;
        let [hashless] = hexadecimal(word()).ok_or(ParseError("the hashless mask is not 2 hexadecimal digits"))?;
        let [reserved] = hexadecimal(word()).ok_or(ParseError("the reserved mask is not 2 hexadecimal digits"))?;
        let maximum = word();
        let max_nodes = decimal(maximum).ok_or(ParseError("the node maximum is not a decimal number below 2^64"))? as usize;
        match words.next() {
            None => Ok(Facts { magic, version, hashless, reserved, max_nodes }),
            Some(_) => Err(ParseError("format facts are five words with commas between them")),
        }
    }
}

/// What a scan allows. The default allows no hashless file and has no bound.
///
/// ```
/// use vekalumist::ScanOptions;
///
/// let options = ScanOptions::new().allow_hashless().bound(1 << 20);
/// assert!(options.allow_hashless);
/// assert_eq!(options.bound, Some(1 << 20));
/// ```
#[derive(Clone, Copy, Debug, Default, PartialEq, Eq, Hash)]
#[non_exhaustive]
pub struct ScanOptions {
    /// Whether a file without hashes is accepted; else it is refused as [`Kind::Hashless`](crate::Kind::Hashless).
    pub allow_hashless: bool,
    /// How many bytes a reader of the file may have to allocate: with n, a count above n / size is [`Kind::Budget`](crate::Kind::Budget).
    pub bound: Option<usize>,
}

impl ScanOptions {
    /// The default.
    #[must_use]
    pub const fn new() -> ScanOptions {
        ScanOptions { allow_hashless: false, bound: None }
    }

    /// The same, and a file without hashes is accepted.
    #[must_use]
    pub const fn allow_hashless(self) -> ScanOptions {
        ScanOptions { allow_hashless: true, ..self }
    }

    /// The same under a bound of so many bytes.
    #[must_use]
    pub const fn bound(self, bytes: usize) -> ScanOptions {
        ScanOptions { bound: Some(bytes), ..self }
    }
}

#[cfg(test)]
mod tests {
    use super::*;
    use std::string::ToString;

    #[test]
    fn facts_are_five_words() {
        let facts = Facts { magic: [1, 2, 0xAB, 255], version: [4, 5, 6], hashless: 0x40, reserved: 3, max_nodes: usize::MAX };
        assert_eq!(facts.to_string(), "0102ABFF,040506,40,03,18446744073709551615");
        assert_eq!(facts.to_string().parse(), Ok(facts));
        assert_eq!(facts.to_string().to_lowercase().parse(), Ok(facts));
        let says = |text: &str| text.parse::<Facts>().unwrap_err().to_string();
        assert_eq!(says(""), "the magic is not 8 hexadecimal digits");
        assert_eq!(says("4D415354"), "the version is not 6 hexadecimal digits");
        assert_eq!(says("4D415354,000002,2,FC,1"), "the hashless mask is not 2 hexadecimal digits");
        assert_eq!(says("4D415354,000002,02,FG,1"), "the reserved mask is not 2 hexadecimal digits");
        for maximum in ["", "-1", "+1", "18446744073709551616"] {
            assert_eq!(says(&std::format!("4D415354,000002,02,FC,{maximum}")), "the node maximum is not a decimal number below 2^64");
        }
        assert_eq!(says("4D415354,000002,02,FC,1,"), "format facts are five words with commas between them");
    }
}
