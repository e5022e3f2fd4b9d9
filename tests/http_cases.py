"""http_cases.py PROGRAM ROOM: plays the golden tests of crates/http_cases over files.

See http_cases.sh. `serve` and `run` respond at a port. `enter` enters the lines of a script; a
`connect`, `start` and `bytes` become a `round` at a device of this process. The clock of each
process is set to the time of the line or the request. Not tested here:
- a poll without an answer, since the next process ends it as lost
- a line that the office rejects, for which `round` has no place
- /status and /metrics of a run, which counts its work at a device
"""
import glob
import os
import pathlib
import re
import socket
import subprocess
import sys
import threading
import time

PROGRAM, ROOM = sys.argv[1], pathlib.Path(sys.argv[2])
DATA = pathlib.Path(__file__).resolve().parent.parent / "crates" / "http_cases" / "data"
COUNTED = re.compile(rb"GET /(status|metrics) ")
NO_REPLY = b"no reply"


def library():
    found = glob.glob("/usr/lib/*/faketime/libfaketime.so.1") + glob.glob("/usr/lib/faketime/libfaketime.so.1")
    if not found:
        print("http_cases: no faketime here, and nothing can be tried without it", file=sys.stderr)
        sys.exit(2)
    return found[0]


LIBRARY = library()


class Clock:
    """The clock of processes, which is stopped at a time."""

    def __init__(self, path):
        self.path = path

    def set(self, moment):
        new = f"{self.path}.new"
        with open(new, "w") as file:
            file.write(time.strftime("%Y-%m-%d %H:%M:%S", time.gmtime(int(moment))))
        os.rename(new, self.path)

    def surroundings(self):
        names = ("FAKETIME_NO_CACHE", "FAKETIME_DONT_FAKE_MONOTONIC", "DONT_FAKE_MONOTONIC", "NO_FAKE_STAT")
        return {**os.environ, "TZ": "UTC", "LD_PRELOAD": LIBRARY, "FAKETIME_TIMESTAMP_FILE": str(self.path), **{name: "1" for name in names}}


class NotTried(Exception):
    """A test needs something that this script can't do."""


def decode(text):
    """Returns the bytes of a request, as crates/http_cases/README.md describes."""
    found = bytearray()
    for line in text.split("\n"):
        is_open = line.endswith("~")
        first, *escaped = line.removesuffix("~").split("~")
        found += first.encode()
        for part in escaped:
            escape, _, rest = part.partition(";")
            byte, _, count = escape.partition("*")
            found += bytes([int(byte)]) * int(count or 1) + rest.encode()
        if not is_open:
            found += b"\r\n"
    return bytes(found)


class Office:
    """The office of a test, in a file."""

    def __init__(self, folder):
        folder.mkdir()
        self.folder, self.path, self.lines, self.start = folder, folder / "office.db", 0, None
        self.clock = Clock(folder / "clock")
        self.clock.set(0)
        self.call("create", "--db", self.path, "--zone", "UTC0")

    def call(self, *words, text=""):
        ran = subprocess.run([PROGRAM, *map(str, words)], input=text, capture_output=True, text=True, env=self.clock.surroundings(), timeout=60)
        if ran.returncode:
            raise RuntimeError(f"{words}: {ran.stdout}{ran.stderr}")
        return ran.stdout

    def enter(self, moment, line):
        self.lines += 1
        self.clock.set(moment)
        self.call("enter", "--db", self.path, "--caller", "script", text=f"{self.lines} {line}\n")

    def set_up(self, lines):
        """Executes the lines of a script."""
        for line in filter(None, lines.split("\n")):
            moment, verb, *words = line.split(" ")
            if verb == "connect":
                pass
            elif verb == "start":
                self.has_no_poll()
                self.start = (moment, *words)
            elif verb == "bytes":
                self.poll(moment, bytes.fromhex(words[1]))
            elif verb in ("device", "register", "install"):
                self.enter(moment, line.partition(" ")[2])
            else:
                raise NotTried(line)
        self.has_no_poll()

    def has_no_poll(self):
        if self.start:
            raise NotTried("a poll without an answer")

    def poll(self, moment, frame):
        """Runs a round of the started poll, which a frame answers at a time."""
        begun, device, function, address, count = self.start
        self.start = None
        (self.folder / "list.csv").write_text(f"name,function,area,address,type,scale\nall,{function},0,{address},string{count},\n")
        self.enter(begun, f"list {device} @{self.folder}/list.csv")
        with socket.create_server(("127.0.0.1", 0)) as listener:
            answering = threading.Thread(target=self.answer, args=(listener, moment, frame), daemon=True)
            answering.start()
            self.call("round", "--db", self.path, "--device", device, "--port", listener.getsockname()[1])
            answering.join(20)

    def answer(self, listener, moment, frame):
        stream, _ = listener.accept()
        with stream:
            request = stream.recv(260)
            self.clock.set(moment)
            stream.sendall(request[:2] + frame[2:])
            stream.recv(260)

    def begin(self, command, moment, connections):
        """Starts a process that responds at a port."""
        self.clock.set(moment)
        with socket.create_server(("127.0.0.1", 0)) as listener:
            port = listener.getsockname()[1]
        if command == "serve":
            words = ("serve", "--port", port, "--connections", connections)
        else:
            words = ("run", "--listen", port, "--every", 86400, "--devices", "nobody=127.0.0.1:1")
        words = [PROGRAM, *map(str, words), "--db", str(self.path), "--host-name", "office.example"]
        return port, subprocess.Popen(words, stdin=subprocess.DEVNULL, stdout=subprocess.DEVNULL, stderr=subprocess.DEVNULL, env=self.clock.surroundings())

    def ask_all(self, command, requests):
        """Returns the responses of one process."""
        port, process = self.begin(command, requests[0][0], len(requests))
        try:
            return [self.ask(port, moment, request) for moment, request in requests]
        finally:
            process.terminate()
            process.wait(20)

    def ask(self, port, moment, request):
        self.clock.set(moment)
        with connected(port) as stream:
            try:
                stream.sendall(request)
                stream.shutdown(socket.SHUT_WR)
            except OSError:
                pass
            return read_all(stream) or NO_REPLY


def connected(port):
    until = time.monotonic() + 20
    while True:
        try:
            return socket.create_connection(("127.0.0.1", port), timeout=20)
        except OSError:
            if time.monotonic() > until:
                raise
            time.sleep(0.02)


def read_all(stream):
    found = b""
    while True:
        try:
            more = stream.recv(65536)
        except ConnectionResetError:
            return found
        if not more:
            return found
        found += more


def blocks_of(text):
    """Returns the blocks of a test: the command, or `script`, with its lines.

    Requests of one command are in one block."""
    first, *others = text.removesuffix("\n").split("\n> ")
    blocks = [("script", first.partition("\n")[2])]
    for block in others:
        head, _, body = block.partition("\n")
        command, _, moment = head.partition(" ")
        if command == "script":
            blocks.append((command, body))
            continue
        if blocks[-1][0] != command:
            blocks.append((command, []))
        blocks[-1][1].append((int(moment), decode(body)))
    return blocks


def differs(path, folder):
    """Returns the difference of a test's responses from the expected ones, or nothing."""
    text = path.with_suffix(".out").read_bytes()
    if b"\nrejected: " in text:
        raise NotTried("a line of its script that the office rejects")
    wanted = [it.removesuffix(b"\n") for it in re.split(rb"(?<=\n)(?=HTTP/1\.1 |no reply\n)", text)]
    office = Office(folder)
    for command, given in blocks_of(path.read_text()):
        if command == "script":
            office.set_up(given)
            continue
        replies = office.ask_all(command, given)
        for (moment, request), reply, want in zip(given, replies, wanted):
            is_tried = command == "serve" or not COUNTED.match(request) or want.startswith(b"HTTP/1.1 4")
            if is_tried and reply != want:
                return f"{command} {moment} {request[:300]!r}: {reply!r}, and not {want!r}"
        wanted = wanted[len(given):]
    return f"{len(wanted)} replies are left" if wanted else None


def main():
    passed = failed = not_tried = 0
    for number, path in enumerate(sorted(DATA.glob("*/*.http"))):
        name = path.relative_to(DATA).with_suffix("")
        try:
            why = differs(path, ROOM / str(number))
        except NotTried as reason:
            not_tried += 1
            print(f"{name}: not tried: {reason}")
            continue
        except (OSError, RuntimeError, subprocess.SubprocessError) as error:
            why = repr(error)
        passed, failed = passed + (why is None), failed + (why is not None)
        if why:
            print(f"{name}: {why}", flush=True)
    print(f"{passed} passed, {failed} failed, {not_tried} not tried")
    return 1 if failed else 0


if __name__ == "__main__":
    sys.exit(main())
