"""pymodbus_office.py DB DEVICE PORT: runs a round as a Python program does it with pymodbus.

It uses the same tables and records as plain_office.py does. Its synchronous client sends one
request at a time.
"""
import sys

from plain_office import Office
from pymodbus_peer import READS, ModbusTcpClient, unit_word

KINDS = {3: "read-holding", 4: "read-input"}


def pdu_of(function, reply):
    """Returns the PDU of a response, as plain_office.py settles it."""
    if reply.isError():
        return bytes([function | 0x80, reply.exception_code])
    words = b"".join(it.to_bytes(2, "big") for it in reply.registers)
    return bytes([function, len(words)]) + words


def main():
    office = Office(sys.argv[1], sys.argv[2])
    client = ModbusTcpClient("127.0.0.1", port=int(sys.argv[3]), timeout=office.timeout)
    if not client.connect():
        sys.exit("pymodbus_office.py: the device can't be reached")
    of_unit = {unit_word(client): office.unit}
    print("ok")
    for at, (function, address) in enumerate(office.plan):
        office.start([(function, address)], at)
        reply = getattr(client, READS[KINDS[function]][0])(address, count=2, **of_unit)
        office.settle([(at % 65536, office.unit, pdu_of(function, reply))])
    client.close()
    print("ok")


if __name__ == "__main__":
    main()
