#!/usr/bin/env python3
"""man.py [--check] MAST: makes the man page rust/man/mast.1 from what the program MAST says of itself with --help and --version. With --check
nothing is written: it fails where the page is another, so that help and page cannot part.

The help's first line is name and purpose. A line without indent is a heading; two spaces begin a term where the next line has six, and else a
paragraph, or under EXAMPLES a line as it is; six spaces are what is said of a term."""
import pathlib, re, subprocess, sys

PAGE = pathlib.Path(__file__).resolve().parent.parent / "rust/man/mast.1"


def escaped(line):
    line = line.replace("\\", "\\e").replace("-", "\\-")
    return re.sub(r"^([.'])", r"\\&\1", line)


def bold_words(term):
    """A term: what is typed as it stands is bold, and what stands for something else (in capitals) is not."""
    return "".join(word if re.match(r"[\[A-Z]|\s|,", word) else f"\\fB{word}\\fR" for word in re.split(r"(\s+|,)", escaped(term)) if word)


def page(lines, version):
    name, purpose = lines[0].split(" - ")
    out = [f'.TH MAST 1 "" "{version}"', ".SH NAME", f"{name} \\- {escaped(purpose)}"]
    heading = ""
    for line, after in zip(lines[1:], lines[2:] + [""]):
        text = line.strip()
        if not text:
            continue
        if not line.startswith(" "):
            heading = text
            out.append(f".SH {'SYNOPSIS' if text == 'USAGE' else text}")
        elif line.startswith("      "):
            out.append(escaped(text))
        elif after.startswith("      "):
            out += [".TP", bold_words(text)]
        elif heading == "EXAMPLES":
            out += [".br", f"\\fB{escaped(text)}\\fR"]
        elif heading == "USAGE" and out[-1] == ".SH SYNOPSIS":
            out += [bold_words(text), ".SH DESCRIPTION"]
        else:
            out.append(escaped(text))
    return "\n".join(out) + "\n"


def said(program, word):
    return subprocess.run([program, word], check=True, capture_output=True, text=True).stdout


def main(words):
    check = words[:1] == ["--check"]
    programs = words[1:] if check else words
    if len(programs) != 1:
        sys.exit(__doc__)
    version = said(programs[0], "--version").split(",")[0]
    made = page(said(programs[0], "--help").splitlines(), version)
    if not check:
        PAGE.parent.mkdir(exist_ok=True)
        PAGE.write_text(made)
    elif not PAGE.exists() or PAGE.read_text() != made:
        sys.exit(f"{PAGE.name} is not made from this program's help: run man.py MAST")
    print(f"{made.count('.TP')} terms, {made.count('.SH')} sections")


main(sys.argv[1:])
