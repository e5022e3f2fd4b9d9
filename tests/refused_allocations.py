#!/usr/bin/env python3
"""refused_allocations.py LIBRARY SCRIPT REPLAY [PROGRAM..]: refuses the allocations of programs.

LIBRARY is preloaded. A run without refusals counts the allocations. Then each is refused alone, and
then each with all later ones. A run may end with status 3 ('failed' on standard error) after any
complete output line. Of the rest:

REPLAY runs the lines of SCRIPT. A line with the output 'refused 14' changed nothing: every other
line must have the output of a run in which such lines are queries. If a line of a device has that
output, the office stops: every later line has the output 'refused 15'. One 'refused 14' with status
1 means that the office couldn't be opened.

A PROGRAM prints 'no memory' if a call was refused memory, and retries it once. Its other lines, up
to an end with status 3, must be those of the run without refusals.

refused_in_file.py describes what the commands over a file may do.
"""
import collections
import os
import re
import subprocess
import sys
import tempfile

import refused_in_file

ALL = 1 << 60
# Lines that a device sends, or that settle polls: if one fails, the office stops.
OF_DEVICES = ("bytes", "tick", "connect", "gone", "failed")
ENDS_AN_ANSWER = re.compile(r"ok|started .*|refused \d+|bad line \d+")

Ran = collections.namedtuple("Ran", "status lines calls")


class Wrong(Exception):
    """The reason why a run is wrong."""


def run(program, script, first, last):
    """Runs the program with its allocations from `first` to `last` refused."""
    with tempfile.NamedTemporaryFile(prefix="calls-") as counts:
        counts.write(bytes(8))
        counts.flush()
        env = {"LD_PRELOAD": library, "COUNTS": counts.name, "REFUSE_FIRST": str(first), "REFUSE_LAST": str(last)}
        try:
            ran = subprocess.run([program], input=script.encode(), capture_output=True, timeout=60, env=env)
        except subprocess.TimeoutExpired:
            raise Wrong("it did not end within 60 seconds") from None
        with open(counts.name, "rb") as it:
            calls = int.from_bytes(it.read(8), sys.byteorder)
    if ran.returncode not in (0, 1, 3):
        raise Wrong(f"status {ran.returncode}: {ran.stderr[-300:]}")
    printed = ran.stdout.decode()
    if not (printed + "\n").endswith("\n\n") and printed:
        raise Wrong(f"it ends inside a line: {printed[-80:]}")
    return Ran(ran.returncode, printed.splitlines(), calls)


def answers_in(script, lines):
    """Returns the output of each line of the script, as far as the run went."""
    found, at = [], 0
    for asked in script:
        if at == len(lines):
            break
        start, is_question = at, asked.split()[0] in ("meter", "poll")
        while not is_question and at < len(lines) and not ENDS_AN_ANSWER.fullmatch(lines[at]):
            at += 1
        if at == len(lines):
            raise Wrong(f"it ends inside the answer of line {len(found) + 1}")
        at += 1
        found.append(lines[start:at])
    if at < len(lines):
        raise Wrong(f"nothing asked for the line {lines[at]}")
    return found


def judge_replay(program, script, ran, whole):
    """Returns how a run of the script ended, or why it is wrong."""
    if ran.status == 1 and ran.lines == ["refused 14"]:
        return "did not open the office"
    found = answers_in(script, ran.lines)
    lacking = {at for at, answer in enumerate(found) if answer == ["refused 14"]}
    stop = min((at for at in lacking if script[at].split()[1] in OF_DEVICES), default=len(script))
    asked = "".join("poll 0\n" if at in lacking else f"{line}\n" for at, line in enumerate(script))
    wanted = run(program, asked, 0, 0) if lacking else whole
    for at, (answer, right) in enumerate(zip(found, answers_in(script, wanted.lines))):
        if at in lacking and at <= stop:
            continue
        # (an invalid name or span is refused before the office gets it)
        is_asked = right != ["refused 12"] and not right[0].startswith("bad line")
        if answer != (["refused 15"] if at > stop and is_asked else right):
            raise Wrong(f"line {at + 1}, {script[at]}, answers {answer} and not {right}")
    if ran.status == 3:
        return "ended with status 3"
    if (ran.status, len(found)) != (wanted.status, len(script)):
        raise Wrong(f"it ends with status {ran.status} after {len(found)} lines")
    return "stopped the office" if stop < len(script) else "refused a line" if lacking else "answered the same"


def judge_program(ran, whole):
    lines = [it for it in ran.lines if it != "no memory"]
    if lines != whole.lines[: len(lines)]:
        at = next(at for at, (one, other) in enumerate(zip(lines, [*whole.lines, None])) if one != other)
        raise Wrong(f"it prints {lines[at]} in place of {[*whole.lines, 'nothing'][at]}")
    if ran.status == 3:
        return "ended with status 3"
    if (ran.status, len(lines)) != (whole.status, len(whole.lines)):
        raise Wrong(f"it ends with status {ran.status} after {len(lines)} lines")
    return "tried again" if len(lines) < len(ran.lines) else "answered the same"


def try_all(program, script, judge):
    """Refuses each allocation of the program, and returns the numbers of right and wrong runs."""
    name = os.path.basename(program)
    whole = run(program, script, 0, 0)
    if whole.status == 3 or not whole.calls:
        raise Wrong(f"{name}: with none refused it ends with status {whole.status} after {whole.calls} allocations")
    failed = 0
    for how, last in (("alone", 0), ("and all later ones", ALL)):
        ends = collections.Counter()
        for number in range(1, whole.calls + 1):
            try:
                ends[judge(run(program, script, number, last or number), whole)] += 1
            except Wrong as why:
                failed += 1
                print(f"{name}: allocation {number} {how}: {why}")
        print(f"{name}: each of {whole.calls} allocations refused {how}: {', '.join(f'{count} {end}' for end, count in sorted(ends.items()))}")
    return 2 * whole.calls - failed, failed


def main(path, replay, *programs):
    with open(path, encoding="utf-8") as it:
        text = it.read()
    script = text.splitlines()
    counts = [try_all(replay, text, lambda ran, whole: judge_replay(replay, script, ran, whole))]
    counts += [try_all(it, "", judge_program) for it in programs]
    counts += refused_in_file.try_commands(library, os.path.abspath(replay))
    failed = sum(it for _, it in counts)
    print(f"{sum(it for it, _ in counts)} passed, {failed} failed")
    return 1 if failed else 0


if __name__ == "__main__":
    if len(sys.argv) < 4:
        sys.exit(__doc__)
    library = sys.argv[1]
    sys.exit(main(*sys.argv[2:]))
