//! mast: what compiled program files hold, by the proved reader. `mast --help` says what it does; this is where the words of a command become
//! calls of the library and its answers lines. One file is read, asked about and told of at a time.

mod args;
mod check;
mod help;
mod json;
mod layout;
mod map;
mod nodes;
mod tell;

use std::ffi::{OsStr, OsString};
use std::fmt::Display;
use std::io::{self, Read, Write};
use std::os::fd::AsFd;
use std::process::ExitCode;
use std::{env, fs};

use args::{Asked, Run};
use tell::{Stop, Tell};

/// A file was refused, or a check does not hold.
const REFUSED: u8 = 1;
/// Wrong use, or a file that cannot be read, or an output that cannot be written.
const WRONG: u8 = 2;

fn main() -> ExitCode {
    let words: Vec<OsString> = env::args_os().skip(1).collect();
    let mut out = io::BufWriter::with_capacity(1 << 16, io::stdout().lock());
    let ended = match args::asked(&words) {
        Ok(Asked::Text(text)) => out.write_all(text.as_bytes()).map(|()| 0),
        Ok(Asked::Run(run)) => all_files(&run, &mut out),
        Err(wrong) => {
            complain(&format_args!("{wrong}\nmast --help says more."));
            return ExitCode::from(WRONG);
        }
    };
    match ended.and_then(|status| out.flush().map(|()| status)) {
        Ok(status) => ExitCode::from(status),
        Err(error) => {
            // whoever reads may have had enough, and needs no word of it; but not all was said, so it is no success
            if error.kind() != io::ErrorKind::BrokenPipe {
                complain(&format_args!("standard output: {error}"));
            }
            ExitCode::from(WRONG)
        }
    }
}

/// Tells of each file in turn, and gives the worst status.
fn all_files(run: &Run, out: &mut dyn Write) -> io::Result<u8> {
    let mut worst = 0;
    for (i, file) in run.files.iter().enumerate() {
        let name = file.to_string_lossy();
        if run.files.len() > 1 && !run.json {
            writeln!(out, "{}==> {name} <==", if i == 0 { "" } else { "\n" })?;
        }
        worst = worst.max(one_file(run, file, &name, out)?);
    }
    Ok(worst)
}

fn one_file(run: &Run, file: &OsStr, name: &str, out: &mut dyn Write) -> io::Result<u8> {
    let mut tell = Tell::new(name, run.json, out);
    let told = read(file).map_err(|error| Stop::Unread(error.to_string())).and_then(|bytes| (run.command.run)(run, &bytes, &mut tell));
    match told {
        Ok(()) => {}
        Err(Stop::Refused(refusal)) => tell.refused_whole(refusal)?,
        Err(Stop::Unread(why)) => {
            tell.unread(&why)?;
            return Ok(WRONG);
        }
        Err(Stop::Output(error)) => return Err(error),
    }
    Ok(if tell.refused { REFUSED } else { 0 })
}

/// Says something on standard error; if that cannot be written to, there is nobody to tell.
fn complain(what: &dyn Display) {
    let _ = writeln!(io::stderr(), "mast: {what}");
}

fn read(file: &OsStr) -> io::Result<Vec<u8>> {
    if file != "-" {
        return fs::read(file);
    }
    // as a file: the library's own standard input takes one that cannot be read for an empty one
    let mut input = fs::File::from(io::stdin().as_fd().try_clone_to_owned()?);
    let mut bytes = Vec::new();
    input.read_to_end(&mut bytes)?;
    Ok(bytes)
}
