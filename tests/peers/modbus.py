"""A plain Modbus TCP client and server of Python's standard library, from the public specification.

    modbus.py client PORT UNIT             sends the requests on standard input, prints responses
    modbus.py serve PORT BANK [SECONDS]    serves the registers of BANK, SECONDS after a request

tests/peers/requests.txt has the requests and responses. A line of BANK is `holding ADDRESS VALUE..`
or `input ADDRESS VALUE..`, or `without holding`: then its function is unknown.
"""
import socket
import struct
import sys
import threading
import time

READS = {"read-coils": 1, "read-discrete": 2, "read-holding": 3, "read-input": 4}
WRITES = {"write-coils": 15, "write-registers": 16}
MASK = 22
MOST = {1: 2000, 2: 2000, 3: 125, 4: 125, 15: 1968, 16: 123}


def bytes_of_bits(bits):
    """Returns bits as bytes, the first in the lowest bit of the first byte."""
    return bytes(sum(bit << at for at, bit in enumerate(bits[first:first + 8])) for first in range(0, len(bits), 8))


def bits_of_bytes(data, count):
    return [data[at // 8] >> at % 8 & 1 for at in range(count)]


def words_of(data):
    return list(struct.unpack(f">{len(data) // 2}H", data))


def frame(tid, unit, pdu):
    return struct.pack(">HHHB", tid, 0, len(pdu) + 1, unit) + pdu


def exactly(stream, count):
    """Reads so many bytes of a stream, or fewer if it ends."""
    got = b""
    while len(got) < count:
        more = stream.recv(count - len(got))
        if not more:
            break
        got += more
    return got


def take_frame(stream):
    """Reads the transaction identifier, the unit and the PDU of the next frame, or None if the
    stream ends."""
    head = exactly(stream, 7)
    if len(head) < 7:
        return None
    tid, protocol, length, unit = struct.unpack(">HHHB", head)
    if protocol != 0 or not 2 <= length <= 254:
        raise ValueError(f"no head of a frame: {head.hex()}")
    pdu = exactly(stream, length - 1)
    return (tid, unit, pdu) if len(pdu) == length - 1 else None


def pdu_of(words):
    """Returns the PDU of a request in words."""
    kind, *rest = words
    if kind == "raw":
        return bytes.fromhex("".join(rest))
    values = [int(it) for it in rest]
    if kind in READS:
        return struct.pack(">BHH", READS[kind], *values)
    if kind == "write-coil":
        return struct.pack(">BHH", 5, values[0], 0xFF00 if values[1] else 0)
    if kind == "write-register":
        return struct.pack(">BHH", 6, *values)
    if kind == "mask":
        return struct.pack(">BHHH", MASK, *values)
    address, values = values[0], values[1:]
    data = bytes_of_bits(values) if kind == "write-coils" else struct.pack(f">{len(values)}H", *values)
    return struct.pack(">BHHB", WRITES[kind], address, len(values), len(data)) + data


def answer_of(words, sent, pdu):
    """Returns a response to a request, in words."""
    kind = words[0]
    if kind == "raw":
        return pdu.hex()
    if pdu[0] == sent[0] | 0x80 and len(pdu) == 2:
        return f"exception {pdu[1]}"
    if pdu[0] != sent[0]:
        return f"another function: {pdu.hex()}"
    if kind in READS:
        count = int(words[2])
        size = (count + 7) // 8 if READS[kind] <= 2 else 2 * count
        if pdu[1] != size or len(pdu) != 2 + size:
            return f"another length: {pdu.hex()}"
        values = bits_of_bytes(pdu[2:], count) if READS[kind] <= 2 else words_of(pdu[2:])
        return " ".join(map(str, values))
    return "ok" if pdu == sent[:5] else f"no echo: {pdu.hex()}"


def ask(port, unit):
    with socket.create_connection(("127.0.0.1", port), timeout=30) as stream:
        for tid, line in enumerate(sys.stdin, 0xFFF0):
            words = line.split()
            sent = pdu_of(words)
            stream.sendall(frame(tid & 0xFFFF, unit, sent))
            got = take_frame(stream)
            if got is None:
                print("the end")
                return
            back, behind, pdu = got
            mine = (back, behind) == (tid & 0xFFFF, unit)
            print(answer_of(words, sent, pdu) if mine else f"another frame: {back} {behind}", flush=True)


class Bank:
    """Holding and input registers, by area and address."""

    def __init__(self, path):
        self.values = {3: {}, 4: {}}
        for line in open(path):
            area, address, *values = line.split()
            if area == "without":
                del self.values[3]
                continue
            function = {"holding": 3, "input": 4}[area]
            self.values[function].update((int(address) + at, int(value)) for at, value in enumerate(values))

    def answer(self, pdu):
        function = pdu[0]
        if function not in self.values:
            return bytes([function | 0x80, 1])
        if len(pdu) != 5 or not 1 <= int.from_bytes(pdu[3:5], "big") <= MOST[function]:
            return bytes([function | 0x80, 3])
        address, count = struct.unpack(">HH", pdu[1:])
        try:
            words = [self.values[function][address + at] for at in range(count)]
        except KeyError:
            return bytes([function | 0x80, 2])
        return struct.pack(f">BB{count}H", function, 2 * count, *words)


def attend(stream, bank, wait):
    with stream:
        try:
            while (got := take_frame(stream)) is not None:
                time.sleep(wait)
                tid, unit, pdu = got
                stream.sendall(frame(tid, unit, bank.answer(pdu)))
        except (OSError, ValueError) as why:
            print(f"modbus.py: {why}", file=sys.stderr)


def serve(port, path, wait):
    bank = Bank(path)
    with socket.create_server(("127.0.0.1", port)) as listener:
        while True:
            stream, _ = listener.accept()
            stream.setsockopt(socket.IPPROTO_TCP, socket.TCP_NODELAY, 1)
            threading.Thread(target=attend, args=(stream, bank, wait), daemon=True).start()


if __name__ == "__main__":
    if sys.argv[1] == "client":
        ask(int(sys.argv[2]), int(sys.argv[3]))
    else:
        serve(int(sys.argv[2]), sys.argv[3], float(sys.argv[4]) if len(sys.argv) > 4 else 0.0)
