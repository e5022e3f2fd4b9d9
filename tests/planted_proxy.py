#!/usr/bin/env python3
"""planted_proxy.py FROM TO PROGRAM run ..: runs a program, and changes one text of its HTTP.

TO has the length of FROM. The program listens at another port than --listen says, and this process
forwards the bytes of that port. tests/planted.py uses it to break a route or a file of the page. It
ends when the program ends, and ends the program when it is ended.
"""
import os
import signal
import socket
import subprocess
import sys
import threading

OLD, NEW = (it.encode() for it in sys.argv[1:3])
WORDS = sys.argv[3:]


def pass_on(one, other):
    """Forwards the bytes of a stream until it ends."""
    try:
        while piece := one.recv(1 << 16):
            other.sendall(piece.replace(OLD, NEW))
        other.shutdown(socket.SHUT_WR)
    except OSError:
        pass


def serve(listener, port):
    while True:
        one, _ = listener.accept()
        try:
            other = socket.create_connection(("127.0.0.1", port))
        except OSError:
            one.close()
            continue
        for pair in ((one, other), (other, one)):
            threading.Thread(target=pass_on, args=pair, daemon=True).start()


def main():
    at = WORDS.index("--listen") + 1
    told = WORDS[at]
    with socket.socket() as it:
        it.bind(("127.0.0.1", 0))
        port = it.getsockname()[1]
    WORDS[at] = str(port)
    child = subprocess.Popen(WORDS, stdout=subprocess.PIPE)
    for it in (signal.SIGTERM, signal.SIGINT):
        signal.signal(it, lambda *_: child.kill())
    for line in child.stdout:
        if line == f"listening {port}\n".encode():
            listener = socket.create_server(("127.0.0.1", int(told)))
            threading.Thread(target=serve, args=(listener, port), daemon=True).start()
            line = f"listening {told}\n".encode()
        os.write(1, line)
    return child.wait() % 256


if __name__ == "__main__":
    os._exit(main())
