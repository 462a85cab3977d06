//! Links libvekalumist.a: from the folder in VEKALUMIST_ARCHIVE, or else made by the repository's own script, which proves it first. That is
//! done over a copy of the sources in cargo's output folder, so that nothing is written beside them. What rt says meanwhile goes to standard
//! error, which cargo shows with -vv, and where the build fails.

use std::path::{Path, PathBuf};
use std::process::{exit, Command};
use std::{env, fs, io};

fn main() {
    println!("cargo::rerun-if-env-changed=VEKALUMIST_ARCHIVE");
    let folder = match env::var_os("VEKALUMIST_ARCHIVE").filter(|folder| !folder.is_empty()) {
        Some(folder) => named(Path::new(&folder)),
        None => made(),
    };
    hold_to_machine(&folder.join("libvekalumist.a"));
    hold_to_version(&folder.join("libvekalumist.version"));
    println!("cargo::rustc-link-search=native={}", folder.display());
    println!("cargo::rustc-link-lib=static=vekalumist");
}

/// Ends the build with one line that says why.
fn fail(why: &str) -> ! {
    println!("cargo::error={why}");
    exit(1)
}

fn cargo_says(name: &str) -> String {
    env::var(name).unwrap_or_else(|_| fail(&format!("cargo has not set {name}")))
}

const ONE_FOR_EACH: &str = "tools/archive.sh REPO OUT makes one for x86_64; name its folder OUT in VEKALUMIST_ARCHIVE.";

/// The archive is linked only if it is for the machine that is built for.
fn hold_to_machine(archive: &Path) {
    let bytes = fs::read(archive).unwrap_or_else(|error| fail(&format!("{}: {error}", archive.display())));
    let (wanted, found) = (cargo_says("CARGO_CFG_TARGET_ARCH"), machine(&bytes));
    if found.as_deref() != Some(wanted.as_str()) {
        let found = found.unwrap_or_else(|| "no machine that is known here".into());
        fail(&format!("{} is for {found}, and this build for {wanted}. {ONE_FOR_EACH}", archive.display()));
    }
}

/// And only if it is of this crate's version: another may store more than the memory that is lent here.
fn hold_to_version(file: &Path) {
    let part = |name: &str| cargo_says(name).parse::<u64>().unwrap_or_else(|_| fail(&format!("{name} is no number")));
    let wanted = 10000 * part("CARGO_PKG_VERSION_MAJOR") + 100 * part("CARGO_PKG_VERSION_MINOR") + part("CARGO_PKG_VERSION_PATCH");
    let found = fs::read_to_string(file).unwrap_or_default();
    if found.trim() != wanted.to_string() {
        let found = if found.is_empty() { "is not there".into() } else { format!("says {}", found.trim()) };
        fail(&format!(
            "{} {found}, and this crate is {wanted}: tools/archive.sh leaves it beside the archive of its version.",
            file.display()
        ));
    }
}

fn named(folder: &Path) -> PathBuf {
    let archive = folder.join("libvekalumist.a");
    match fs::canonicalize(folder) {
        Ok(folder) if archive.is_file() => {
            // the two files and not the folder, which may be one with many others
            for file in ["libvekalumist.a", "libvekalumist.version"] {
                println!("cargo::rerun-if-changed={}", folder.join(file).display());
            }
            folder
        }
        _ => fail(&format!("VEKALUMIST_ARCHIVE: there is no {}", archive.display())),
    }
}

fn made() -> PathBuf {
    let package = PathBuf::from(cargo_says("CARGO_MANIFEST_DIR"));
    let out = PathBuf::from(cargo_says("OUT_DIR"));
    let repository = package.parent().unwrap_or_else(|| fail("this package is a folder of its repository, and stands alone here"));
    // the archive itself is not named here: it is newer than the start of the run that makes it
    for input in ["crates.txt", "tools/archive.sh"].map(|input| repository.join(input)).into_iter().chain(parts(&repository.join("crates")))
    {
        println!("cargo::rerun-if-changed={}", input.display());
    }
    // rt builds for the machine that it runs on: nothing is proved for another
    let (target, host) = (cargo_says("TARGET"), cargo_says("HOST"));
    if target.split('-').next() != host.split('-').next() || cargo_says("CARGO_CFG_TARGET_OS") != "linux" {
        fail(&format!("no archive for {target} can be made on {host}. {ONE_FOR_EACH}"));
    }
    if Command::new("rt").arg("version").output().is_err() {
        fail(
            "the library is proved before it is linked, and rt, the Rattle kit's command, is not on the PATH. Put it there, or name in \
             VEKALUMIST_ARCHIVE a folder that has libvekalumist.a (tools/archive.sh REPO OUT makes one).",
        );
    }
    let (source, script) = (out.join("source"), repository.join("tools/archive.sh"));
    if let Err(error) = copied(repository, &source) {
        fail(&format!("the sources cannot be copied to {}: {error}", source.display()));
    }
    // standard output is cargo's
    match Command::new("sh").arg(&script).arg(&source).arg(&out).stdout(io::stderr()).status() {
        Ok(status) if status.success() => out,
        Ok(status) => {
            fail(&format!("the library was not proved and built ({status}); {} has what rt said", out.join("build.log").display()))
        }
        Err(error) => fail(&format!("{}: {error}", script.display())),
    }
}

/// What is in a folder; nothing where there is none.
fn within(folder: &Path) -> Vec<PathBuf> {
    fs::read_dir(folder).into_iter().flatten().flatten().map(|entry| entry.path()).collect()
}

/// What each crate has, but for the folder `out`, in which rt keeps its own.
fn parts(crates: &Path) -> Vec<PathBuf> {
    within(crates).iter().flat_map(|one| within(one)).filter(|part| !part.ends_with("out")).collect()
}

/// Copies what rt proves. What an earlier run proved stays in the copy's out folders, and rt takes it for what has not changed.
fn copied(repository: &Path, source: &Path) -> io::Result<()> {
    let (from, to) = (repository.join("crates"), source.join("crates"));
    for part in parts(&to) {
        if part.is_dir() {
            fs::remove_dir_all(part)?
        } else {
            fs::remove_file(part)?
        }
    }
    fs::create_dir_all(&to)?;
    fs::copy(repository.join("crates.txt"), source.join("crates.txt"))?;
    for part in parts(&from) {
        if let Ok(name) = part.strip_prefix(&from) {
            copied_part(&part, &to.join(name))?;
        }
    }
    Ok(())
}

fn copied_part(from: &Path, to: &Path) -> io::Result<()> {
    if !from.is_dir() {
        to.parent().map_or(Ok(()), fs::create_dir_all)?;
        return fs::copy(from, to).map(|_| ());
    }
    fs::create_dir_all(to)?;
    for entry in fs::read_dir(from)? {
        let entry = entry?;
        copied_part(&entry.path(), &to.join(entry.file_name()))?;
    }
    Ok(())
}

/// The machine of the archive's first object, by cargo's name. An archive is a mark, then members: a header of 60 bytes, whose bytes 48 to 57
/// are the member's length, and the member, with a byte more where that is odd. An object has its machine in bytes 18 and 19.
fn machine(archive: &[u8]) -> Option<String> {
    let mut members = archive.strip_prefix(b"!<arch>\n")?;
    loop {
        let (header, rest) = members.split_at_checked(60)?;
        let len: usize = std::str::from_utf8(&header[48..58]).ok()?.trim_end().parse().ok()?;
        let member = rest.get(..len)?;
        if let [0x7F, b'E', b'L', b'F', ..] = member {
            return Some(match member.get(18..20)? {
                [0x3E, 0] => "x86_64".into(),
                [0xB7, 0] => "aarch64".into(),
                other => format!("the machine with ELF's number {}", u16::from_le_bytes([other[0], other[1]])),
            });
        }
        members = rest.get(len + len % 2..)?;
    }
}
