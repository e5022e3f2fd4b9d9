"""Functions that tests/peers.sh and the benchmarks share to run a program.

They give a folder, ports, and children that end with the script."""
import atexit
import pathlib
import shutil
import signal
import socket
import subprocess
import sys
import tempfile
import time

HERE = pathlib.Path(__file__).resolve().parent
ROOM = pathlib.Path(tempfile.mkdtemp(prefix="peers-"))
CHILDREN = []


def clear():
    for child in CHILDREN:
        if child.poll() is None:
            child.kill()
            child.wait()
    shutil.rmtree(ROOM, ignore_errors=True)


atexit.register(clear)
for number in (signal.SIGTERM, signal.SIGHUP, signal.SIGINT):
    signal.signal(number, lambda number, _: sys.exit(128 + number))


def free_port():
    with socket.create_server(("127.0.0.1", 0)) as listener:
        return listener.getsockname()[1]


def is_listening(port):
    """Returns whether a program of this machine listens on the port, without a connection."""
    rows = pathlib.Path("/proc/net/tcp").read_text().splitlines()[1:]
    return any(row.split()[1].endswith(f":{port:04X}") and row.split()[3] == "0A" for row in rows)


def start(words, port=None, text="", **how):
    """Starts a program with a text as its input, and waits until it listens on the port."""
    (ROOM / "input").write_text(text)
    child = subprocess.Popen(words, stdin=open(ROOM / "input"), cwd=ROOM, **how)
    CHILDREN.append(child)
    for _ in range(600):
        if port is None or is_listening(port):
            return child
        if child.poll() is not None:
            break
        time.sleep(0.05)
    raise RuntimeError(f"{words[0]} does not listen on port {port}")


def stop(child):
    if child.poll() is None:
        child.kill()
    child.wait()


def run(*words, text="", limit=120):
    """Runs a program to its end."""
    return subprocess.run(words, input=text, capture_output=True, text=True, cwd=ROOM, timeout=limit)


def sql(db, query):
    """Returns the rows that the program sqlite3 prints for a query, or its error."""
    done = run("sqlite3", "-bail", db, query)
    return done.stdout.splitlines() if done.returncode == 0 else [done.stderr.strip()]
