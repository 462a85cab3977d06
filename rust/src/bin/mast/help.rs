//! The commands and options, once: what is asked for is read by these tables, and the help and the man page are made of them.

use std::fmt::Write;

use vekalumist::Facts;

use crate::args::Run;
use crate::tell::{Stop, Tell};
use crate::{check, layout, map, nodes};

pub struct Command {
    pub name: &'static str,
    /// What stands before the files.
    pub operand: &'static str,
    pub text: &'static str,
    pub run: fn(&Run, &[u8], &mut Tell<'_>) -> Result<(), Stop>,
}

pub static COMMANDS: [Command; 6] = [
    Command {
        name: "layout",
        operand: "",
        text: "Where the sections lie, in seven lines: nodes, roots, block data, node\n\
               entries, external digests, node hashes and the advice map with its end; in\n\
               an eighth how many counts are long, which have more bytes than they need:\n\
               of all, of the four that the scan reads, and of the map's. A refused file\n\
               gives the line `refused NUMBER at PLACE`. With --json every field of the\n\
               layout, the flags, how many bytes follow the map, and the long counts.",
        run: layout::run,
    },
    Command {
        name: "roots",
        operand: "",
        text: "A line for each root: its number, its place, its node, that node's kind,\n\
               its digest and where that lies: none where the file has no hashes. A root\n\
               that names no node is refused in its line, and so is a digest that is none.",
        run: nodes::roots,
    },
    Command {
        name: "nodes",
        operand: "",
        text: "A line for each node: its number, its place, its kind with its children (of\n\
               a Block the place of its operations in the block data), its slot, which is\n\
               its row among the digests of its kind, its digest and where that lies, as\n\
               for roots.",
        run: nodes::nodes,
    },
    Command {
        name: "map",
        operand: "",
        text: "A line for each entry of the advice map, keys rising: the key, its place,\n\
               how many values it has, and the place of the first.",
        run: map::map,
    },
    Command {
        name: "lookup",
        operand: "KEY",
        text: "Whether the advice map has a key, how many keys were compared, and the\n\
               key's values, a line each. KEY is the 64 hexadecimal digits of the key's\n\
               bytes as the file has them, with or without 0x, or four decimal numbers\n\
               with commas between them.",
        run: map::lookup,
    },
    Command {
        name: "check",
        operand: "",
        text: "What the scan lets pass, a line for each check: `roots`, every root names a\n\
               node; `children`, every child is a node and comes before its parent;\n\
               `order`, external nodes come first, then blocks, then all others; `strict`,\n\
               every entry is in its canonical form; `map`, the advice map is whole and\n\
               has no key twice; `trailing`, nothing follows the map.",
        run: check::check,
    },
];

/// An option, with the name of its value if it has one, and the command that alone has it.
pub struct Choice {
    pub name: &'static str,
    pub short: &'static str,
    pub value: &'static str,
    pub of: &'static str,
    pub text: &'static str,
}

const fn choice(name: &'static str, value: &'static str, text: &'static str) -> Choice {
    Choice { name, short: "", value, of: "", text }
}

pub static CHOICES: [Choice; 7] = [
    choice(
        "--facts",
        "WORDS",
        "The format facts, with commas between them: the magic in 8 hexadecimal\n\
         digits, the version in 6, the hashless mask and the reserved mask in 2\n\
         each, and the node maximum in decimal. Without it they are\n\
         STAND_IN, which stands in for the published facts:\n\
         name your own for files of the Miden VM.",
    ),
    choice("--no-hashless", "", "A file without node hashes is refused (HASHLESS)."),
    choice(
        "--bound",
        "BYTES",
        "A count above BYTES divided by the size of what it counts is refused\n\
         (BUDGET); block data, entries and digests together count as one.",
    ),
    Choice {
        of: "nodes",
        ..choice(
            "--range",
            "A..B",
            "The nodes from A on and before B alone. A.. is to the last and ..B from the\n\
             first. Where a node before B is not there, it is refused (INDEX).",
        )
    },
    choice(
        "--json",
        "",
        "One line of JSON for each file: an object with its name, and with `refused`\n\
         or `error` where nothing else can be said of it. Keys, digests and values\n\
         are texts, all other numbers are numbers.",
    ),
    Choice {
        short: "-h",
        ..choice("--help", "", "This text; after a command, that command's. So do `mast help` and\n`mast help COMMAND`.")
    },
    Choice { short: "-V", ..choice("--version", "", "The version of this program and of the proved archive in it.") },
];

const EXIT: [(&str, &str); 3] = [
    ("0", "Every file was accepted, and every check that was asked for holds."),
    ("1", "A file, or something that was asked of it, was refused. Why is said on\nstandard error: number, name and place."),
    ("2", "Wrong use, a file that cannot be read, or an output that cannot be written.\nOf several files the highest status counts."),
];

const EXAMPLES: [&str; 4] = [
    "mast layout --json *.mast",
    "mast nodes --range 10..20 program.mast",
    "mast lookup 1,0,0,0 program.mast",
    "mast check - <program.mast",
];

impl Choice {
    /// Whether a command has it.
    pub fn is_of(&self, command: &Command) -> bool {
        self.of.is_empty() || self.of == command.name
    }

    fn term(&self) -> String {
        let comma = if self.short.is_empty() { "" } else { ", " };
        let space = if self.value.is_empty() { "" } else { " " };
        format!("{}{comma}{}{space}{}", self.short, self.name, self.value)
    }

    fn said(&self) -> String {
        let only = if self.of.is_empty() { String::new() } else { format!("\nFor the command {} alone.", self.of) };
        self.text.replace("STAND_IN", &Facts::STAND_IN.to_string()) + &only
    }
}

impl Command {
    fn term(&self) -> String {
        let space = if self.operand.is_empty() { "" } else { " " };
        format!("{}{space}{} FILE...", self.name, self.operand)
    }
}

/// A term and what is said of it, at the indents that the man page is read by.
fn said(page: &mut String, term: &str, text: &str) {
    let _ = writeln!(page, "  {term}");
    for line in text.lines() {
        let _ = writeln!(page, "      {line}");
    }
}

/// The whole help.
pub fn whole() -> String {
    let mut page = String::from(
        "mast - what compiled program files hold, by a proved reader\n\n\
         USAGE\n  mast COMMAND [OPTION]... FILE...\n\n  \
         A FILE is a serialized MAST forest of the Miden VM, of any size; - is\n  \
         standard input, which can be named once. Options stand after the command,\n  \
         before or after files; -- ends them. With several files a line with its name\n  \
         goes before each.\n\nCOMMANDS\n",
    );
    for command in &COMMANDS {
        said(&mut page, &command.term(), command.text);
    }
    page += "\nOPTIONS\n";
    for choice in &CHOICES {
        said(&mut page, &choice.term(), &choice.said());
    }
    page += "\nEXIT STATUS\n";
    for (status, text) in EXIT {
        said(&mut page, status, text);
    }
    page += "\nEXAMPLES\n";
    for example in EXAMPLES {
        let _ = writeln!(page, "  {example}");
    }
    page
}

/// The help of one command.
pub fn of(command: &Command) -> String {
    let mut page = format!("USAGE\n  mast {}\n\n", command.term().replace(" FILE", " [OPTION]... FILE"));
    for line in command.text.lines() {
        let _ = writeln!(page, "  {line}");
    }
    page += "\nOPTIONS\n";
    for choice in CHOICES.iter().filter(|choice| choice.is_of(command)) {
        said(&mut page, &choice.term(), &choice.said());
    }
    page
}

pub fn version() -> String {
    let archive = vekalumist::version();
    let (major, minor, patch) = (archive / 10000, archive / 100 % 100, archive % 100);
    format!("mast {}, over the proved archive {major}.{minor}.{patch}\n", env!("CARGO_PKG_VERSION"))
}
