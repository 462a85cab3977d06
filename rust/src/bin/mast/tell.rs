//! What is told of one file. A record is fields with names; on standard output it is a line of text, or a part of the file's one line of JSON.
//! Why something was refused goes to standard error.

use std::fmt::Display;
use std::io::{self, Write};

use vekalumist::{Children, Refusal, Word};

use crate::complain;
use crate::json::Json;

/// Why nothing more is told of a file.
pub enum Stop {
    Refused(Refusal),
    /// It could not be read, or there is no memory for its tables.
    Unread(String),
    Output(io::Error),
}

/// A table of zeros to lend: of so many places as a file asks for, so there may be no memory for it.
pub fn table<N: Clone + Default>(places: usize) -> Result<Vec<N>, Stop> {
    let mut table = Vec::new();
    table.try_reserve_exact(places).map_err(|_| Stop::Unread(format!("no memory for a table of {places} places")))?;
    table.resize(places, N::default());
    Ok(table)
}

impl From<Refusal> for Stop {
    fn from(refusal: Refusal) -> Stop {
        Stop::Refused(refusal)
    }
}

impl From<io::Error> for Stop {
    fn from(error: io::Error) -> Stop {
        Stop::Output(error)
    }
}

/// A field: its name in JSON, its name in a line of text, which may be empty, and its value.
pub type Field<'v> = (&'static str, &'static str, Value<'v>);

pub enum Value<'v> {
    Number(usize),
    Text(&'v str),
    Word(Word),
    /// A value of the map: in JSON a text, since readers of JSON do not keep all such numbers.
    Element(u64),
    Ids(Children),
    /// In a line its name alone says it.
    Truth(bool),
    Refused(Refusal),
    /// `null` in JSON, and in a line `none`.
    None,
}

pub struct Tell<'o> {
    name: &'o str,
    pub json: bool,
    pub out: &'o mut dyn Write,
    /// Whether anything of this file was refused.
    pub refused: bool,
    /// In the midst of a line of JSON, what is to be said after it.
    waiting: Option<Vec<String>>,
}

impl<'o> Tell<'o> {
    pub fn new(name: &'o str, json: bool, out: &'o mut dyn Write) -> Tell<'o> {
        Tell { name, json, out, refused: false, waiting: None }
    }

    /// Says on standard error why something is refused, after what was told before; it is said where standard output fails, too.
    pub fn why(&mut self, why: &dyn Display) -> io::Result<()> {
        self.refused = true;
        if let Some(waiting) = &mut self.waiting {
            waiting.push(why.to_string());
            return Ok(());
        }
        let flushed = self.out.flush();
        complain(&format_args!("{}: {why}", self.name));
        flushed
    }

    /// The file could not be read: on standard error why, and in JSON a line too, so that each file has one.
    pub fn unread(&mut self, why: &str) -> io::Result<()> {
        self.why(&why)?;
        if self.json {
            self.record(&[("error", "", Value::Text(why))])?;
        }
        Ok(())
    }

    /// Nothing more is told of the file than that it is refused.
    pub fn refused_whole(&mut self, refusal: Refusal) -> io::Result<()> {
        self.why(&refusal)?;
        if self.json {
            self.record(&[("refused", "", Value::Refused(refusal))])?;
        }
        Ok(())
    }

    /// A record alone: a line, or the line of JSON.
    pub fn record(&mut self, fields: &[Field<'_>]) -> io::Result<()> {
        self.records(fields, "", |_| Ok(()))
    }

    /// A record and a list of others: a line each; or the line of JSON, in which the list is a member of this name. Without fields there is no
    /// line for them, and without a name no list.
    pub fn records<E: From<io::Error>>(
        &mut self,
        fields: &[Field<'_>],
        list: &str,
        each: impl FnOnce(&mut Rows<'_, 'o>) -> Result<(), E>,
    ) -> Result<(), E> {
        if !self.json {
            if !fields.is_empty() {
                line(self.out, fields)?;
            }
            return each(&mut Rows { tell: self, first: true });
        }
        write!(self.out, "{{\"file\":")?;
        Json(self.out).text(self.name)?;
        for field in fields {
            write!(self.out, ",")?;
            member(&mut Json(self.out), field)?;
        }
        if list.is_empty() {
            return Ok(writeln!(self.out, "}}")?);
        }
        write!(self.out, ",\"{list}\":[")?;
        self.waiting = Some(Vec::new());
        let told = each(&mut Rows { tell: self, first: true }).and_then(|()| Ok(writeln!(self.out, "]}}")?));
        // what waited is said however the list ended
        let waiting = self.waiting.take().unwrap_or_default();
        let said = waiting.iter().map(|why| self.why(why)).fold(Ok(()), Result::and);
        told.and(said.map_err(E::from))
    }
}

/// The records of a list.
pub struct Rows<'t, 'o> {
    tell: &'t mut Tell<'o>,
    first: bool,
}

impl Rows<'_, '_> {
    /// One more of them. What is refused in it is also said on standard error.
    pub fn row(&mut self, fields: &[Field<'_>]) -> io::Result<()> {
        let first = std::mem::replace(&mut self.first, false);
        let out = &mut *self.tell.out;
        if self.tell.json {
            write!(out, "{}{{", if first { "" } else { "," })?;
            for (i, field) in fields.iter().enumerate() {
                write!(out, "{}", if i == 0 { "" } else { "," })?;
                member(&mut Json(out), field)?;
            }
            write!(out, "}}")?;
        } else {
            line(out, fields)?;
        }
        for (_, _, value) in fields {
            if let Value::Refused(refusal) = value {
                self.tell.why(refusal)?;
            }
        }
        Ok(())
    }

    /// Says on standard error why something is refused that has no number.
    pub fn why(&mut self, why: &dyn Display) -> io::Result<()> {
        self.tell.why(why)
    }
}

/// A line of text: names and values with a space between them, but for empty ones.
fn line(out: &mut dyn Write, fields: &[Field<'_>]) -> io::Result<()> {
    let mut space = "";
    let mut word = |word: &dyn Display| {
        let before = std::mem::replace(&mut space, " ");
        write!(out, "{before}{word}")
    };
    for (_, name, value) in fields {
        if !name.is_empty() {
            word(name)?;
        }
        match value {
            Value::Number(number) => word(number)?,
            Value::Text(text) => word(text)?,
            Value::Word(numbers) => word(numbers)?,
            Value::Element(number) => word(number)?,
            Value::Ids(ids) => ids.clone().try_for_each(|id| word(&id))?,
            Value::Truth(_) => {}
            Value::Refused(refusal) => word(&format_args!("refused {} at {}", refusal.kind.number(), refusal.place))?,
            Value::None => word(&"none")?,
        }
    }
    writeln!(out)
}

fn member(json: &mut Json<'_>, (name, _, value): &Field<'_>) -> io::Result<()> {
    json.text(name)?;
    json.raw(&":")?;
    match value {
        Value::Number(number) => json.raw(number),
        Value::Text(text) => json.text(text),
        Value::Word(numbers) => json.text(&numbers.to_string()),
        Value::Element(number) => json.text(&number.to_string()),
        Value::Ids(ids) => {
            json.raw(&"[")?;
            for (i, id) in ids.clone().enumerate() {
                json.raw(&format_args!("{}{id}", if i == 0 { "" } else { "," }))?;
            }
            json.raw(&"]")
        }
        Value::Truth(truth) => json.raw(truth),
        Value::Refused(refusal) => {
            let (kind, place) = (refusal.kind, refusal.place);
            json.raw(&format_args!(
                "{{\"number\":{},\"name\":\"{}\",\"place\":{},\"unit\":\"{}\"}}",
                kind.number(),
                kind.name(),
                place.number(),
                place.unit()
            ))
        }
        Value::None => json.raw(&"null"),
    }
}
