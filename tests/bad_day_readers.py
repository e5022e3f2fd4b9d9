"""bad_day_readers.py PORT CLIENTS SECONDS: requests all quarter hours of the meter m1 repeatedly.

So many clients do so for so long, and read the responses. The script prints as JSON the bytes of
each response, and its last line. It is a separate process, so that it does not delay the process
that measures the run.
"""
import json
import socket
import sys
import threading
import time

PORT, PEERS, SECONDS = (int(word) for word in sys.argv[1:])
REQUEST = b"GET /meters/m1/intervals HTTP/1.1\r\n\r\n"
sizes, ends = [], []


def asks_on(until):
    room = bytearray(65536)
    while time.monotonic() < until:
        size, last = 0, b""
        try:
            with socket.create_connection(("127.0.0.1", PORT), timeout=60) as stream:
                stream.sendall(REQUEST)
                while count := stream.recv_into(room):
                    size += count
                    last = (last + bytes(room[max(0, count - 32) : count]))[-32:]
            sizes.append(size)
            # (a line without its newline is no last line)
            ends.append(last.rsplit(b"\n", 2)[-2].decode() if last.endswith(b"\n") else "")
        except OSError:
            time.sleep(0.1)


peers = [threading.Thread(target=asks_on, args=(time.monotonic() + SECONDS,)) for _ in range(PEERS)]
for peer in peers:
    peer.start()
for peer in peers:
    peer.join()
print(json.dumps({"sizes": sizes, "ends": ends}))
