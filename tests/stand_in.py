#!/usr/bin/env python3
"""stand_in.py [PROGRAM]: compares what the simulator (`stand-in`) accepts, prints and answers with texts and bytes written by hand, and
scans of it with the words that it has. Ends on 'N passed, M failed'.

The frames are those of the Modbus Application Protocol V1.1b3 and of Modbus Messaging on TCP/IP V1.0b. PORT is the first port, 18741 by
default.
"""
import itertools
import os
import pathlib
import socket
import struct
import subprocess
import sys
import threading
import time

HERE = pathlib.Path(__file__).resolve().parent
PROGRAM = pathlib.Path(sys.argv[1] if len(sys.argv) > 1 else os.environ.get("SUNREG", HERE.parent / "out" / "sunreg")).resolve()
HOST, PORTS = "127.0.0.1", itertools.count(int(os.environ.get("PORT", "18741")))
LIMIT = 60 * int(os.environ.get("SLOW", "1"))
counts = {"passed": 0, "failed": 0}

# Texts that set a simulator up, what they print, and their status. Where it is 0 the simulator
# serves one connection.
TEXTS = [
    ("", "", 0),
    ("# nothing\n\narea coil 0 65536\n", "", 0),
    ("area holding 5 0\n", "refused 12\n", 0),
    ("area holding 65535 1\narea holding 65535 2\narea holding 65536 1\n", "refused 12\nrefused 12\n", 0),
    ("area input 4294967296 1\narea input 0 4294967297\n", "refused 12\nrefused 12\n", 0),
    ("area holding 10 5\narea holding 14 1\narea holding 15 1\narea input 14 1\n", "refused 12\n", 0),
    ("area holding 10 5\narea holding 5 6\narea holding 5 5\n", "refused 12\n", 0),
    ("set holding 0 1\narea holding 0 1\nset holding 0 65535\n", "refused 12\n", 0),
    ("area holding 0 1\nset holding 0 65536\nset holding 1 0\nset coil 0 0\n", "refused 12\nrefused 12\nrefused 12\n", 0),
    ("area coil 0 1\nset coil 65536 1\nset coil 0 2\n", "refused 12\n", 0),
    ("trick 0 drop\ntrick 1 cut 259\ntrick 1 twice\n", "", 0),
    ("area coil 0 1\r\nset coil 0 1", "", 0),
    ("x", "bad line 1\n", 1),
    ("set holding 0 1\n#\narea holding 0\narea holding 0 1\n", "refused 12\nbad line 3\n", 1),
    ("area register 0 1\n", "bad line 1\n", 1),
    ("trick 1 cut 260\n", "bad line 1\n", 1),
    ("1000 tick\n", "bad line 1\n", 1),
    ("area  holding 0 1\n", "bad line 1\n", 1),
]
# A text whose values are read back by these frames, and the responses without tricks.
SET_UP = "area holding 7 2\nset holding 8 9\narea coil 0 1\nset coil 0 5\n"
FRAMES = ["000100000006010300070002", "000200000006010100000001", "000300000006010300090001", "000400000006010300080001"]
RESPONSES = ["00010000000701030400000009", "00020000000401010101", "000300000003018302", "0004000000050103020009"]
# Tricks behind the text, and the responses that they change: of two tricks of a frame the first one
# counts.
TRICKED = [
    ("", {}), ("trick 2 unit\ntrick 2 id\n", {1: "00020000000402010101"}), ("trick 2 id\ntrick 2 unit\n", {1: "00030000000401010101"}),
    ("trick 2 unit\ntrick 3 id\n", {1: "00020000000402010101", 2: "000400000003018302"}),
]
# Each client sends a frame, and reads its response up to the end of the connection. The garbled
# frame has no length.
NINE = "area holding 0 1\nset holding 0 9\n"
READ, WRITE, GARBLED = "000700000006010300000001", "000800000006010600000005", "0007000000010103"
CLIENTS = [
    ("a read", READ, "0007000000050103020009"), ("a write of 5", WRITE, WRITE), ("a read of 5", READ, "0007000000050103020005"),
    ("a garbled frame", GARBLED, None), ("a read after it", READ, "0007000000050103020005"),
]
# The words of a device from 40000 on: the mark, model 103 with 50 registers, whose counter WH shows
# 5000 at the scale 0, and the end.
WORDS = {40000: 0x5375, 40001: 0x6E53, 40002: 103, 40003: 50, 40027: 5000, 40054: 0xFFFF}
CHAIN = """\
base 40000
model 40002 103 50
point A 0
point AphA 0
point AphB 0
point AphC 0
point A_SF 0
point PPVphAB 0
point PPVphBC 0
point PPVphCA 0
point PhVphA 0
point PhVphB 0
point PhVphC 0
point V_SF 0
point W 0
point W_SF 0
point Hz 0
point Hz_SF 0
point VA 0
point VA_SF 0
point VAr 0
point VAr_SF 0
point PF 0
point PF_SF 0
point WH 5000
point WH_SF 0
point DCA 0
point DCA_SF 0
point DCV 0
point DCV_SF 0
point DCW 0
point DCW_SF 0
point TmpCab 0
point TmpSnk 0
point TmpTrns 0
point TmpOt 0
point Tmp_SF 0
point St 0
point StVnd 0
point Evt1 0x00000000
point Evt2 0x00000000
point EvtVnd1 0x00000000
point EvtVnd2 0x00000000
point EvtVnd3 0x00000000
point EvtVnd4 0x00000000
end 40054
"""
LIST = "name,function,area,address,type,scale\nm1.A,3,0,40004,uint16,m1.A_SF\n"
SETUP = "1 device inv 1 5 1\n2 list inv 6e616d652c"
SETUP_END = """0a
# Install lines: remove the # and replace CEILING by the maximum power in watts.
3 register inv-wh1 inv 3 40026 @40028
# 4 install inv-wh1 inv-wh1 5000 0 CEILING
"""
# The reads of a scan: from which address on, and how many words.
READS = [(40000, 2), (40002, 2), (40004, 50), (40054, 2)]


def same(what, got, wanted):
    """Counts whether something is what is wanted."""
    counts["passed" if got == wanted else "failed"] += 1
    if got != wanted:
        print(f"{what}: {got!r}\nand not {wanted!r}")


def started(text, connections):
    """Starts a simulator that serves so many connections, and returns it and its port."""
    port = next(PORTS)
    pipes = {"stdin": subprocess.PIPE, "stdout": subprocess.PIPE, "stderr": subprocess.PIPE}
    child = subprocess.Popen([PROGRAM, "stand-in", "--port", str(port), "--connections", str(connections)], **pipes)
    child.stdin.write(text.encode())
    child.stdin.close()
    child.stdin = None
    return child, port


def connected(child, port):
    """Returns a connection to a simulator that listens within the limit."""
    until = time.monotonic() + LIMIT
    while time.monotonic() < until and child.poll() is None:
        try:
            return socket.create_connection((HOST, port), timeout=LIMIT)
        except OSError:
            time.sleep(0.01)
    raise SystemExit(f"stand_in.py: no simulator listens at {port}: {child.communicate()}")


def ended(child):
    """Returns the status of a simulator, and what it printed on both streams."""
    printed, said = child.communicate(timeout=LIMIT)
    return child.returncode, printed.decode(), said.decode()


def read_all(link):
    """Returns what comes up to the end of a connection."""
    return b"".join(iter(lambda: link.recv(300), b""))


def exchange(link, frame):
    """Sends a frame, and returns the response, as hex."""
    link.sendall(bytes.fromhex(frame))
    got = b""
    while len(got) < 6 or len(got) < 6 + int.from_bytes(got[4:6], "big"):
        more = link.recv(300)
        if not more:
            break
        got += more
    return got.hex()


def check_set_ups():
    for text, printed, status in TEXTS:
        child, port = started(text, 1)
        if status == 0:
            connected(child, port).close()
        same(repr(text), ended(child), (status, printed, ""))


def check_values():
    for tricks, changed in TRICKED:
        child, port = started(SET_UP + tricks, 1)
        with connected(child, port) as link:
            for place, frame in enumerate(FRAMES):
                same(f"frame {place} after {tricks!r}", exchange(link, frame), changed.get(place, RESPONSES[place]))
        same(f"the simulator ends after {tricks!r}", ended(child), (0, "", ""))


def check_connections():
    """Each connection is served in turn, and a garbled one ends alone."""
    child, port = started(NINE, len(CLIENTS))
    links = []
    for _, frame, response in CLIENTS:
        link = connected(child, port)
        link.sendall(bytes.fromhex(frame))
        if response:
            link.shutdown(socket.SHUT_WR)
        links.append(link)
    for link, (what, _, response) in zip(links, CLIENTS):
        if response:
            same(what, read_all(link).hex(), response)
        link.close()
    same("all connections were served", ended(child), (0, "", ""))


def check_cut():
    child, port = started(NINE + "trick 1 cut 4\n", 1)
    with connected(child, port) as link:
        link.sendall(bytes.fromhex(READ))
        same("a response that is cut", read_all(link).hex(), "00070000")
    same("its simulator ends", ended(child), (0, "", ""))


def scan(port, *words):
    """Returns the status of a scan, and what it prints on both streams."""
    done = subprocess.run([PROGRAM, "scan", "--port", str(port), *words], capture_output=True, text=True, timeout=LIMIT)
    return done.returncode, done.stdout, done.stderr


def check_scans():
    bank = "area holding 40000 56\n" + "".join(f"set holding {address} {word}\n" for address, word in WORDS.items())
    for words, begin, end in (((), CHAIN, CHAIN), (("--list",), LIST, ""), (("--setup", "inv"), SETUP, SETUP_END)):
        child, port = started(bank, 1)
        until = time.monotonic() + LIMIT
        found = scan(port, *words)
        while found[0] == 3 and time.monotonic() < until:
            time.sleep(0.05)
            found = scan(port, *words)
        status, printed, said = found
        same(f"a scan {words}", (status, printed.startswith(begin), printed.endswith(end), said), (0, True, True, ""))
        ended(child)


def reset_after(listener, count):
    """Answers so many reads of a connection, and resets it after the next request."""
    link, _ = listener.accept()
    for address, length in READS[:count]:
        request = link.recv(12, socket.MSG_WAITALL)
        words = b"".join(WORDS.get(it, 0).to_bytes(2, "big") for it in range(address, address + length))
        link.sendall(request[:4] + (len(words) + 3).to_bytes(2, "big") + request[6:8] + bytes([len(words)]) + words)
    link.recv(12, socket.MSG_WAITALL)
    # (a connection that is closed so is reset)
    link.setsockopt(socket.SOL_SOCKET, socket.SO_LINGER, struct.pack("ii", 1, 0))
    link.close()


def check_failing_scans():
    """A connection that fails in a scan prints nothing of the device."""
    for count in range(len(READS)):
        with socket.create_server((HOST, 0)) as listener:
            port = listener.getsockname()[1]
            device = threading.Thread(target=reset_after, args=(listener, count), daemon=True)
            device.start()
            status, printed, said = scan(port)
            device.join(LIMIT)
        is_said = f"port {port} of {HOST}" in said and said.endswith(": the connection failed\n")
        same(f"a connection that fails after {count} reads", (status, printed, is_said or said), (3, "", True))


def main():
    if not PROGRAM.is_file():
        sys.exit(f"stand_in.py: {PROGRAM} is not built: run ./sunreg-build")
    for check in (check_set_ups, check_values, check_connections, check_cut, check_scans, check_failing_scans):
        check()
    print(f"{counts['passed']} passed, {counts['failed']} failed")
    return 1 if counts["failed"] else 0


if __name__ == "__main__":
    sys.exit(main())
