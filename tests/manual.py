"""The manual page, docs/sunreg.1, made from the output of the built program.

It uses the help texts, the version, and the meanings of numbers."""
import functools
import re
import subprocess

KINDS = {"refused": "Refused", "held": "Rejected readings", "lost": "Lost polls", "malformed": "Malformed responses", "exception": "Device exceptions", "fault": "Faults", "status": "Exit statuses"}

TOP = r"""Without a command, sunreg runs
.BR replay .
Times are whole seconds since 1970-01-01 UTC, energies milliwatt-hours (mWh), powers watts (W). An office is stored in one file and its log, FILE-wal.
sunreg is not certified for metering. Its HTTP has no users, and is served on this machine only."""

END = r""".SH FILES
.TP
.IR FILE ", " FILE-wal
The office and its log, an SQLite database. Both files together hold the recorded data; while a command uses them, neither is complete without the other.
.SH SEE ALSO
.BR sqlite3 (1),
.BR curl (1),
.BR mbpoll (1).
The sources have
.I README.md
and
.IR docs/ :
SCRIPT.md on script lines and numbers, HTTP.md on requests, SCHEMA.md on the file, INSTALL.md on the service."""


@functools.cache
def said(program, *words):
    """Returns the program's output for these arguments, or none if it refuses them."""
    run = subprocess.run([program, *words], capture_output=True, text=True, stdin=subprocess.DEVNULL, timeout=60)
    return run.stdout if run.returncode == 0 else None


def parts(text):
    """Returns a help text's parts by name: about, usage, commands, arguments, options, and the text
    below."""
    found, name = {"about": [], "after": []}, "about"
    for line in text.splitlines():
        if line.startswith("Usage: "):
            found["usage"] = line.removeprefix("Usage: ")
        elif line in ("Commands:", "Arguments:", "Options:"):
            name = line[:-1].lower()
            found[name] = []
        elif not line:
            name = "after" if name == "options" else name
        elif name in ("about", "after"):
            found[name].append(line)
        else:
            found[name].append(tuple(it.strip() for it in re.split(r"(?<=\S)  +", line.strip(), maxsplit=1)))
    return found


def commands(program):
    """Returns each command's name and sentence, in the order of the help, without `help` itself."""
    return [it for it in parts(said(program, "help"))["commands"] if it[0] != "help"]


@functools.cache
def numbers(program, word):
    """Returns the numbers that `explain` knows for a word, as it prints them if it is given no
    number."""
    run = subprocess.run([program, "explain", word, "none"], capture_output=True, text=True, stdin=subprocess.DEVNULL, timeout=60)
    return [int(it) for it in re.search(r"has the numbers([ \d]+)", run.stderr)[1].split()]


def meanings(program, word):
    """Returns the meanings for a word: a heading, the meaning, its cause, and what to do."""
    found = []
    for number in numbers(program, word):
        for text in (said(program, "explain", word, str(number)) or "").split("\n\n"):
            first, cause, remedy = text.splitlines()
            heading, means = first.split(": ", 1)
            found.append((heading, means, cause.removeprefix("Usual cause: "), remedy.removeprefix("What to do: ")))
    return found


def quoted(text):
    """Returns a text quoted for roff."""
    text = text.replace("\\", r"\e").replace("-", r"\-").replace("^", r"\(ha").replace("~", r"\(ti").replace("'", r"\(aq").replace("`", r"\(ga")
    return "\\&" + text if text.startswith(".") else text


def command_page(program, name, about):
    text = parts(said(program, "help", name))
    lines = [f".SS {quoted(name)}", quoted(about) + ".", ".PP", ".B", quoted(text["usage"])]
    for option, meaning in text.get("arguments", []) + text["options"]:
        if "--help" not in option:
            lines += [".TP", f".B {quoted(option)}", quoted(meaning) + "."]
    example = " ".join(text["after"]).removeprefix("Example:").strip()
    return lines + [".PP", "Example:", ".PP", ".EX", "    " + quoted(example), ".EE"]


def numbers_page(program):
    lines = [".SH NUMBERS", "What the printed numbers mean. For the cause and the remedy of a number, run for example", ".BR \"sunreg explain refused 12\" ."]
    for word, name in KINDS.items():
        if word != "status":
            lines += [f".SS {name}"]
            for heading, means, *_ in meanings(program, word):
                lines += [".TP", f".B {quoted(heading)}", quoted(means) + "."]
    return lines


def page(program):
    version = said(program, "--version").splitlines()[0].removeprefix("sunreg ")
    about = parts(said(program, "help"))["about"][0]
    lines = ['.\\" Generated from the program by: tests/words.sh --manual > docs/sunreg.1', f'.TH SUNREG 1 "" "sunreg {version}" "User Commands"']
    lines += [".SH NAME", f"sunreg \\- {quoted(about[0].lower() + about[1:])}", ".SH SYNOPSIS", ".B sunreg", "[\\fICOMMAND\\fR [\\fIOPTIONS\\fR]]"]
    lines += [".SH DESCRIPTION", TOP, ".SH COMMANDS"]
    for name, told in commands(program):
        lines += command_page(program, name, told)
    lines += numbers_page(program)
    lines += [".SH EXIT STATUS"]
    for heading, means, *_ in meanings(program, "status"):
        lines += [".TP", f".B {heading.removeprefix('status ')}", quoted(means) + "."]
    return "\n".join([*lines, END]) + "\n"
