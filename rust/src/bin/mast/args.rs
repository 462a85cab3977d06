//! The words of a command: what is asked for, or what is wrong with them.

use std::ffi::{OsStr, OsString};

use vekalumist::{Facts, Forest, Refusal, ScanOptions, Word};

use crate::help::{self, Choice, Command, CHOICES, COMMANDS};

pub enum Asked {
    Text(String),
    Run(Run),
}

/// A command with its options, over some files.
pub struct Run {
    pub command: &'static Command,
    pub facts: Facts,
    pub options: ScanOptions,
    pub range: Range,
    pub json: bool,
    /// What a lookup is for.
    pub key: Word,
    pub files: Vec<OsString>,
}

/// Nodes from one on, and before another if it is named.
#[derive(Default)]
pub struct Range {
    pub from: u32,
    pub to: Option<u32>,
}

impl Run {
    pub fn scan<'a>(&self, bytes: &'a [u8]) -> Result<Forest<'a>, Refusal> {
        Forest::scan(bytes, &self.facts, self.options)
    }
}

pub fn asked(words: &[OsString]) -> Result<Asked, String> {
    let (first, words) = words.split_first().ok_or("give a command and a file")?;
    match first.to_str() {
        Some("--help" | "-h") => Ok(Asked::Text(help::whole())),
        Some("--version" | "-V") => Ok(Asked::Text(help::version())),
        Some("help") => match words {
            [] => Ok(Asked::Text(help::whole())),
            [name] => Ok(Asked::Text(help::of(command(name)?))),
            _ => Err("help is for one command".into()),
        },
        _ => of_command(command(first)?, words),
    }
}

fn command(name: &OsStr) -> Result<&'static Command, String> {
    let found = COMMANDS.iter().find(|command| name == command.name);
    found.ok_or_else(|| format!("there is no command {}", name.to_string_lossy()))
}

fn of_command(command: &'static Command, words: &[OsString]) -> Result<Asked, String> {
    let options = ScanOptions::new().allow_hashless();
    let mut run =
        Run { command, facts: Facts::STAND_IN, options, range: Range::default(), json: false, key: Word::default(), files: Vec::new() };
    let mut words = words.iter();
    let mut ended = false; // by --
    while let Some(word) = words.next() {
        let is_option = !ended && word != "-" && word.as_encoded_bytes().starts_with(b"-");
        let option = is_option.then(|| word.to_string_lossy());
        match option.as_deref() {
            None => run.files.push(word.clone()),
            Some("--") => ended = true,
            Some(text) => {
                let (name, joined) = text.split_once('=').map_or((text, None), |(name, value)| (name, Some(value)));
                let choice = choice(name, command)?;
                let value = match (choice.value, joined) {
                    ("", None) => "",
                    ("", Some(_)) => return Err(format!("{name} has no value")),
                    (_, Some(value)) => value,
                    (wanted, None) => {
                        words.next().and_then(|word| word.to_str()).ok_or_else(|| format!("{name} needs a value, {wanted}"))?
                    }
                };
                match choice.name {
                    "--help" => return Ok(Asked::Text(help::of(command))),
                    "--version" => return Ok(Asked::Text(help::version())),
                    name => set(&mut run, name, value).map_err(|why| format!("{name} {value}: {why}"))?,
                }
            }
        }
    }
    if !command.operand.is_empty() {
        run.key = key(&mut run.files, command.operand)?;
    }
    match run.files.iter().filter(|file| *file == "-").count() {
        _ if run.files.is_empty() => Err("give a file; - is standard input".into()),
        0 | 1 => Ok(Asked::Run(run)),
        _ => Err("standard input can be read once".into()),
    }
}

fn choice(name: &str, command: &Command) -> Result<&'static Choice, String> {
    let found = CHOICES.iter().find(|choice| name == choice.name || name == choice.short);
    let choice = found.ok_or_else(|| format!("there is no option {name}"))?;
    if choice.is_of(command) {
        Ok(choice)
    } else {
        Err(format!("{name} is for the command {} alone", choice.of))
    }
}

fn set(run: &mut Run, name: &str, value: &str) -> Result<(), String> {
    match name {
        "--facts" => run.facts = value.parse().map_err(|error: vekalumist::ParseError| error.to_string())?,
        "--no-hashless" => run.options.allow_hashless = false,
        "--bound" => run.options.bound = Some(number(value).ok_or("this is not a number of bytes below 2^64")?),
        "--range" => run.range = range(value).ok_or("a range is A..B, A.. or ..B, where A is not above B and both are below 2^32")?,
        "--json" => run.json = true,
        _ => return Err("this option is not known".into()),
    }
    Ok(())
}

/// The first word that is no option is what a lookup is for.
fn key(words: &mut Vec<OsString>, wanted: &str) -> Result<Word, String> {
    if words.is_empty() {
        return Err(format!("give {wanted} and a file"));
    }
    let word = words.remove(0);
    let text = word.to_string_lossy();
    text.parse().map_err(|error| format!("{text}: {error}"))
}

fn range(text: &str) -> Option<Range> {
    let (from, to) = text.split_once("..")?;
    let from = if from.is_empty() { 0 } else { number(from)? };
    let to = if to.is_empty() { None } else { Some(number(to)?) };
    to.is_none_or(|to| from <= to).then_some(Range { from, to })
}

/// A number in decimal digits alone; `parse` would take a sign.
fn number<N: std::str::FromStr>(text: &str) -> Option<N> {
    text.bytes().all(|byte| byte.is_ascii_digit()).then(|| text.parse().ok())?
}
