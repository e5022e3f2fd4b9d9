"""crowd.py PROGRAM [SECONDS]: measures rounds and a quiet client while a crowd reads nothing.

bench/crowd.sh runs it. The office has one device with a year of quarter hours, and polls it every
second. Each client of the crowd connects, requests all months of the register, and reads no byte;
when it is dropped it connects again. A quiet client requests /status twice a second. The script
measures how late the rounds are, and how long the quiet client waits. The same run without a crowd
comes first, so that both have the same machine.
"""
import os
import select
import socket
import socketserver
import struct
import subprocess
import sys
import threading
import time

from growth import lines
from sites import CHILDREN, clear, fill, free_port, load, machine, places, start

CROWDS, EVERY, LATE = (0, 64, 500), 1, 0.05
MONTHS = b"GET /registers/r0/months HTTP/1.1\r\nHost: localhost\r\n\r\n"
STATUS = b"GET /status HTTP/1.1\r\nHost: localhost\r\n\r\n"


class Device(socketserver.ThreadingTCPServer):
    """A device that answers each read, and records the time of each connection."""

    daemon_threads = allow_reuse_address = True

    def __init__(self):
        super().__init__(("127.0.0.1", 0), Reads)
        self.joined = []
        threading.Thread(target=self.serve_forever, daemon=True).start()

    def get_request(self):
        found = super().get_request()
        self.joined.append(time.time())
        return found


class Reads(socketserver.BaseRequestHandler):
    def handle(self):
        while request := self.request.recv(260):
            count = struct.unpack(">H", request[10:12])[0]
            body = struct.pack(">BBB", request[6], request[7], 2 * count) + bytes(2 * count)
            self.request.sendall(request[:4] + struct.pack(">H", len(body)) + body)


def crowd(port, clients):
    """Keeps so many clients connected that have requested months and read nothing."""
    poll, streams = select.poll(), {}

    def join():
        stream = socket.socket()
        stream.setsockopt(socket.SOL_SOCKET, socket.SO_RCVBUF, 4096)
        try:
            stream.connect(("127.0.0.1", port))
            stream.sendall(MONTHS)
        except OSError:
            stream.close()
            return
        streams[stream.fileno()] = stream
        poll.register(stream, select.POLLRDHUP)

    while True:
        while len(streams) < clients:
            join()
        for number, _ in poll.poll(100):
            poll.unregister(number)
            streams.pop(number).close()


def waited(port):
    """Returns the seconds until a quiet client has its response, or infinity if it gets none in 30
    s."""
    began = time.monotonic()
    try:
        with socket.create_connection(("127.0.0.1", port), timeout=30) as stream:
            stream.sendall(STATUS)
            reply = b""
            while more := stream.recv(65536):
                reply += more
    except OSError:
        reply = b""
    return time.monotonic() - began if reply.startswith(b"HTTP/1.1 200 ") else float("inf")


def lateness(joined, begun, ended):
    """Returns how many seconds late the round of each full second began; infinity if none began in
    that second."""
    # (the run's seconds may begin a little before the clock's, because both are in milliseconds)
    due = range(int(begun) + 1, int(ended) - 1)
    return [min((at - second for at in joined if -0.05 < at - second < EVERY - 0.05), default=float("inf")) for second in due]


def measure(program, room, clients, seconds):
    """Runs the office beside a crowd. Returns how late each round was, and each wait of the quiet
    client."""
    db, device, port = str(room / "office.db"), Device(), free_port()
    fill(db, lines(1, 900, 365)[0])
    words = [program, "run", "--db", db, "--listen", str(port), "--every", str(EVERY), "--devices", f"d0=127.0.0.1:{device.server_address[1]}", "--for", str(seconds + 20)]
    start(words, port, stdout=subprocess.DEVNULL, stderr=subprocess.DEVNULL)
    others = subprocess.Popen([sys.executable, __file__, "--crowd", str(port), str(clients)])
    CHILDREN.append(others)
    time.sleep(3)
    waits, begun = [], time.time()
    while time.time() < begun + seconds:
        waits.append(waited(port))
        time.sleep(0.5)
    late = lateness(device.joined, begun, time.time())
    device.shutdown()
    clear(room)
    return late, sorted(waits)


def told(seconds):
    return "none" if seconds == float("inf") else f"{1000 * seconds:.0f} ms"


def main():
    if sys.argv[1] == "--crowd":
        crowd(int(sys.argv[2]), int(sys.argv[3]))
    program, seconds = os.path.abspath(sys.argv[1]), int(sys.argv[2]) if len(sys.argv) > 2 else 30
    machine(program)
    print("| Crowd | Rounds due | not begun | more than 50 ms late | the latest | Requests of the quiet client | the median | the longest |\n|" + "---|" * 8)
    for _, room in [*places().items()][:1]:
        for clients in CROWDS:
            late, waits = measure(program, room, clients, seconds)
            begun = [it for it in late if it != float("inf")]
            print(
                f"| {clients} | {len(late)} | {len(late) - len(begun)} | {sum(it > LATE for it in begun)} | {told(max(begun, default=float('inf')))} "
                f"| {len(waits)} | {told(waits[len(waits) // 2])} | {told(waits[-1])} |", flush=True,
            )
    print(f"load {load()} at the end", flush=True)


if __name__ == "__main__":
    main()
