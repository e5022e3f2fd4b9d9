#!/usr/bin/env python3
"""arguments.py [PROGRAM]: compares what the program prints for arguments with texts written by hand. Ends on 'N passed, M failed'.

- Help: every form of asking for it, and the complete help of the program and of three commands.
- Wrong arguments: nothing is printed, the text on standard error begins with `error: `, and the status is 2. Ten texts are complete.
- Values: numbers past their limits, and lists of devices that name none.
- Inputs: a script of 4,194,304 bytes is run, and a longer one is refused.
The tests of office_tests show how right arguments are parsed. In a line the arguments are separated by bars.
"""
import os
import pathlib
import subprocess
import sys

HERE = pathlib.Path(__file__).resolve().parent
PROGRAM = pathlib.Path(sys.argv[1] if len(sys.argv) > 1 else os.environ.get("SUNREG", HERE.parent / "out" / "sunreg")).resolve()
MOST_BYTES = 4_194_304
counts = {"passed": 0, "failed": 0}

HELP_OF_PROGRAM = """\
Polls SunSpec meters over Modbus TCP; books energy by quarter hour and day

Usage: sunreg [COMMAND]

Commands:
  replay       Runs a script on an office in memory or in a file (default)
  plan         Plans the Modbus reads for a point list from standard input
  chain        Lists the SunSpec models in an image from standard input
  scan         Lists the SunSpec models of a live device; it only reads
  create       Creates a new office in a file
  enter        Sets up an office from lines on standard input; each acts once
  serve        Serves HTTP on 127.0.0.1, one connection at a time
  round        Polls all planned reads of one device once
  report       Prints a register's energy by day, month or year
  backup       Copies an office into one complete file
  recover      Recovers what a damaged log still holds into a new file
  carry        Starts a new file from the last entries of an office's meters
  audit        Checks the consistency of an office's rows; it only reads
  stand-in     Simulates a Modbus device, set up from standard input
  loop         Runs a script against a simulated device in this process
  run          Polls devices on a schedule and serves HTTP until stopped
  explain      Explains a printed number: its meaning, cause and remedy
  completions  Prints shell completions for sunreg
  help         Print this message or the help of the given subcommand(s)

Options:
  -h, --help     Print help
  -V, --version  Print version

Exit status: 0 success, 1 refused, 2 invalid arguments, 3 input or output failed
"""
HELP_OF_SERVE = """\
Serves HTTP on 127.0.0.1, one connection at a time

Usage: sunreg serve [OPTIONS] --db <FILE> --port <N> --connections <N>

Options:
      --db <FILE>         Office file
      --port <N>          Port on 127.0.0.1, 1 to 65535
      --connections <N>   Exits after this many connections, 1 to 1000000
      --host-name <NAME>  Additional accepted Host name (repeatable)
  -h, --help              Print help

Example: sunreg serve --db office.db --port 8080 --connections 100
"""
HELP_OF_EXPLAIN = """\
Explains a printed number: its meaning, cause and remedy

Usage: sunreg explain <WHAT> <NUMBER>

Arguments:
  <WHAT>    refused, held, lost, malformed, exception, fault or status
  <NUMBER>  The number after that word

Options:
  -h, --help  Print help

Example: sunreg explain refused 12
"""
HELP_OF_RUN = """\
Polls devices on a schedule and serves HTTP until stopped

Usage: sunreg run [OPTIONS] --db <FILE> --listen <PORT> --every <SECONDS> --devices <LIST>

Options:
      --db <FILE>         Office file; repeat for carried files, oldest first; run continues the last
      --listen <PORT>     HTTP port on 127.0.0.1, 1 to 65535
      --every <SECONDS>   Polling interval of each device, 1 to 86400
      --devices <LIST>    1 to 64 NAME=HOST:PORT, comma-separated
      --for <SECONDS>     Exits after this time, 1 to 4000000000
      --carry <PERIOD>    Starts a new file every PERIOD: month or year
      --earlier <COUNT>   Includes this many earlier files in energy figures, 1 to 1200
      --host-name <NAME>  Additional accepted Host name (repeatable)
      --most-kept <MB>    Limit for stored commands, in MB, 1 to 1000000; then status 503
      --verbose           Prints more details
  -h, --help              Print help

Example:
  sunreg run --db office.db --listen 8080 --every 60 --devices inv=192.0.2.7:502
"""
# Lines that ask for help, and lines with the complete help.
ASKED = [
    "--help",
    "-h",
    "help",
    "help|help",
    "help|replay",
    "help|stand-in",
    "plan|--help",
    "run|-h",
    "--help|serve",
    "-h|bogus",
    "serve|--port|x|--help",
    "report|--db|x|-h|--bogus",
    "help|explain",
    "completions|-h",
]
HELPS = [
    ("--help", HELP_OF_PROGRAM),
    ("help", HELP_OF_PROGRAM),
    ("help|serve", HELP_OF_SERVE),
    ("serve|-h", HELP_OF_SERVE),
    ("run|--help", HELP_OF_RUN),
    ("help|explain", HELP_OF_EXPLAIN),
]
VERSIONS = ["--version", "-V", "--version|serve", "-V|bogus"]
COMMANDS = "replay plan chain scan create enter serve round report backup recover carry audit stand-in loop run explain completions".split()

# Lines that are no command.
WRONG = [
    "bogus",
    "",
    "Plan",
    "--versions",
    "plan|--version",
    "plan|-V",
    "--zone|UTC0",
    "plan|more",
    "plan|--zone|UTC0",
    "plan|chain",
    "help|nothing",
    "replay|--zone",
    "replay|--zone|UTC0|--zone|UTC0",
    "replay|-zone|UTC0",
    "create|--db|x",
    "create|--zone|UTC0",
    "serve|--db|x",
    "serve|--db|x|--port|1",
    "serve|--db|x|--connections|1",
    "serve|--port|1|--connections|1",
    "serve|--db|x|--port|1|--connections|1|--host|h",
    "round|--db|x|--port|1",
    "round|--db|x|--device|d",
    "report|--db|x",
    "report|--register|r",
    "report|--db|x|--register|r|--by|week",
    "report|--db|x|--register|r|--unit|wh",
    "report|--db|x|--register|r|--unit|kWh",
    "report|--db|x|--register|r|--format|xml",
    "report|--db|x|--register|r|--format|",
    "report|--db|x|--register|r|--statement|--by|day",
    "scan|--host|h",
    "scan|--port|1|--unit|256",
    "scan|--port|1|--timeout|61",
    "scan|--port|1|--list|--setup|inv",
    "stand-in|--connections|1",
    "loop|--db|x",
    "enter|--db|x",
    "enter|--caller|c",
    "enter|--db|x|--caller|c|--devices|inv=h",
    "enter|--db|x|--caller|c|-m",
    "backup|--db|x",
    "carry|--from|x",
    "carry|--to|y",
    "carry|--db|x|--to|y",
    "carry|--from|x|--to|y|--until|0",
    "carry|--from|x|--to|y|--until|4294967296",
    "audit",
    "audit|--db|x|--against",
    "audit|--db|x|--seal|--against|s",
    "audit|--db|x|--db|y|--seal",
    "audit|--against|s|--db|x|--db|y",
    "audit|--db|x|--format",
    "audit|--db|x|--format|csv",
    "audit|--db|x|--format|json|--seal",
    "audit|--db|x|--format|json|--against|s",
    "audit|--db|x|--db|y|--format|json",
    "explain|refused",
    "explain|refused|1|2",
    "completions",
    "completions|zsh",
    "run|--db|x|--listen|1|--every|1",
    "run|--db|x|--listen|1|--every|1|--devices|a=h:1|--carry|day",
    "run|--db|x|--listen|1|--every|1|--devices|a=h:1|--earlier|3",
    "run|--db|x|--listen|1|--every|1|--devices|a=h:1|--carry|month|--earlier|1201",
    "run|--db|x|--db|y|--listen|1|--every|1|--devices|a=h:1|--carry|month|--earlier|3",
]
# Beginnings of lines, and the values that their last option does not accept.
VALUES = [
    ("serve|--db|x|--connections|1|--port|", [
        "0", "65536", "4295032831", "00000000080", "99999999999999999999999", "", "+80", "-80", " 80", "80 ",
        "0x50", "8_0", '\u0661',
    ]),
    ("run|--db|x|--every|1|--devices|a=h:1|--listen|", [
        "0", "65536", "4295032831", "00000000080", "99999999999999999999999", "", "+80", "-80", " 80", "80 ",
        "0x50", "8_0", '\u0661',
    ]),
    ("serve|--db|x|--port|1|--connections|", [
        "0", "1000001",
    ]),
    ("run|--db|x|--listen|1|--devices|a=h:1|--every|", [
        "0|--for|1", "86401|--for|1", "1|--for|0", "1|--for|4000000001", "1|--most-kept|0",
        "1|--most-kept|1000001",
    ]),
    ("run|--db|x|--listen|1|--every|1|--devices|", [
        "", ",", "a", "a=h", "a=1", "h:1", "=h:1", "a=:1", "a=h:", "a=h:0", "a=h:65536", "a=h:+1", "a=h:1 ",
        "a=h:1,", ",a=h:1", "a=h:1,b=g:2,a=g:3",
    ]),
]
TOO_MANY_DEVICES = "run|--db|x|--listen|1|--every|1|--devices|" + ",".join(f"d{n}=h:{n}" for n in range(1, 66))
# Lines, and the first lines of what is said of them. The last line names --help.
TEXTS = [
    ("serve|--db|x", """error: the following required arguments were not provided:
  --port <N>
  --connections <N>

Usage: sunreg serve --db <FILE> --port <N> --connections <N>"""),
    ("completions|Bash", "error: invalid value 'Bash' for '<SHELL>': only bash has completions"),
    ("audit|--db|x|--db|y|--seal", "error: the argument '--seal' cannot be used with more than one '--db'"),
    ("run|--db|x|--listen|1|--every|1|--devices|a=h:1|--earlier|3", "error: the argument '--earlier' cannot be used without '--carry'"),
    ("report|--db|x|--register|r|--by|week", "error: invalid value 'week' for '--by <PERIOD>': expected one of day, month, year"),
    ("bogus", """error: unrecognized subcommand 'bogus'

Usage: sunreg [COMMAND]"""),
    ("serve|--db|x|--connections|1|--port|70000", "error: invalid value '70000' for '--port <N>': not a number from 1 to 65535"),
    ("run|--db|x|--listen|1|--every|1|--devices|a=h:1,inv", "error: invalid value 'inv' for '--devices <LIST>': not NAME=HOST:PORT with a PORT from 1 to 65535"),
    ("run|--db|x|--listen|1|--every|1|--devices|a=h:1,b=h:2,a=g:3", "error: invalid value 'a=h:1' for '--devices <LIST>': its NAME is used twice"),
    (TOO_MANY_DEVICES, "error: invalid value 'd65=h:65' for '--devices <LIST>': more than 64 devices"),
]
# Texts after one byte less than an input may have, and what is printed of both.
LAST_BYTES = [("x", "bad line 4194304\n"), ("x\n", "too long\n")]


def same(what, got, wanted):
    """Counts whether something is what is wanted."""
    counts["passed" if got == wanted else "failed"] += 1
    if got != wanted:
        print(f"{what}: {got!r}\nand not {wanted!r}")


def run(line, text=""):
    """Returns the status of the program for a line, and what it prints on both streams."""
    ran = subprocess.run([PROGRAM, *line.split("|")], input=text.encode(), capture_output=True, timeout=120)
    return ran.returncode, ran.stdout.decode(), ran.stderr.decode()


def check_help():
    for line in ASKED:
        status, printed, said = run(line)
        same(line, (status, "Usage: sunreg" in printed, said), (0, True, ""))
    for line, text in HELPS:
        same(line, run(line), (0, text, ""))
    help_lines = run("--help")[1].splitlines()
    same("help fits one screen", (len(help_lines) <= 30, [it for it in help_lines if len(it) > 80]), (True, []))
    listed = [it.split()[0] for it in help_lines if it.startswith("  ") and it[2] not in " -"]
    same("the commands in their order", listed, [*COMMANDS, "help"])
    version = run("--version")
    same("the version", (version[0], version[1].startswith("sunreg "), version[2]), (0, True, ""))
    for line in VERSIONS:
        same(line, run(line), version)


def check_wrong():
    for line in [*WRONG, *(begin + value for begin, values in VALUES for value in values)]:
        status, printed, said = run(line)
        same(line, (status, printed, said.startswith("error: ") or said), (2, "", True))
    for line, text in TEXTS:
        same(line, run(line), (2, "", f"{text}\n\nFor more information, try '--help'.\n"))


def check_inputs():
    for text, printed in LAST_BYTES:
        same(f"an input that ends with {text!r}", run("replay", "\n" * (MOST_BYTES - 1) + text), (1, printed, ""))


def main():
    if not PROGRAM.is_file():
        sys.exit(f"arguments.py: {PROGRAM} is not built: run ./sunreg-build")
    for check in (check_help, check_wrong, check_inputs):
        check()
    print(f"{counts['passed']} passed, {counts['failed']} failed")
    return 1 if counts["failed"] else 0


if __name__ == "__main__":
    sys.exit(main())
