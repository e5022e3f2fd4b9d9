"""mbpoll_client.py PORT UNIT: sends the requests on standard input with the program mbpoll.

It makes one call for each, and prints a response for each.
"""
import re
import subprocess
import sys

AREAS = {"read-coils": "0", "read-discrete": "1", "read-input": "3", "read-holding": "4"}
WRITES = {"write-coil": "0", "write-coils": "0", "write-register": "4", "write-registers": "4"}
EXCEPTIONS = ["illegal function", "illegal data address", "illegal data value", "slave device or server failure"]


def carry_out(port, unit, kind, values):
    words = ["mbpoll", "-m", "tcp", "-p", port, "-a", unit, "-0", "-1", "-o", "10", "-r", values[0]]
    words += ["-t", AREAS[kind], "-c", values[1], "127.0.0.1"] if kind in AREAS else ["-t", WRITES[kind], "127.0.0.1", *values[1:]]
    done = subprocess.run(words, capture_output=True, text=True, timeout=60)
    said = done.stdout + done.stderr
    failure = re.search(r"failed: (.*)", said)
    if failure:
        why = failure[1].strip().lower()
        return f"exception {EXCEPTIONS.index(why) + 1}" if why in EXCEPTIONS else f"failed: {why}"
    if kind in AREAS:
        return " ".join(re.findall(r"(?m)^\[\d+\]:\s+(\d+)", said)) or f"failed: {said!r}"
    return "ok" if re.search(r"Written \d+ references", said) else f"failed: {said!r}"


for line in sys.stdin:
    kind, *values = line.split()
    print(carry_out(sys.argv[1], sys.argv[2], kind, values), flush=True)
