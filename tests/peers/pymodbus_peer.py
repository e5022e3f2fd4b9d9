"""A client and a server with pymodbus, of version 2 or 3.

    pymodbus_peer.py version             prints its version
    pymodbus_peer.py client PORT UNIT    sends the requests on standard input, and prints responses
    pymodbus_peer.py serve PORT BANK     serves the registers of the file BANK

After a line `without holding` in BANK, the read of holding registers is an unknown function.
"""
import inspect
import sys

import pymodbus

try:
    from pymodbus.client import ModbusTcpClient
except ImportError:
    from pymodbus.client.sync import ModbusTcpClient

READS = {
    "read-coils": ("read_coils", "bits"),
    "read-discrete": ("read_discrete_inputs", "bits"),
    "read-holding": ("read_holding_registers", "registers"),
    "read-input": ("read_input_registers", "registers"),
}
WRITES = {
    "write-coil": "write_coil",
    "write-register": "write_register",
    "write-coils": "write_coils",
    "write-registers": "write_registers",
}


def unit_word(client):
    """Returns this version's name for the unit."""
    has = inspect.signature(client.read_coils).parameters
    return next((it for it in ("device_id", "slave", "unit") if it in has), "unit")


def reply_to(client, kind, values, of_unit):
    if kind in READS:
        return getattr(client, READS[kind][0])(values[0], count=values[1], **of_unit)
    if kind == "mask":
        return client.mask_write_register(address=values[0], and_mask=values[1], or_mask=values[2], **of_unit)
    address, *rest = values
    if kind.startswith("write-coil"):
        rest = [bool(it) for it in rest]
    written = rest if kind.endswith("s") else rest[0]
    return getattr(client, WRITES[kind])(address, written, **of_unit)


def answer(client, kind, values, of_unit):
    reply = reply_to(client, kind, values, of_unit)
    if reply.isError():
        return f"exception {reply.exception_code}" if hasattr(reply, "exception_code") else f"failed: {reply}"
    if kind in READS:
        return " ".join(str(int(it)) for it in getattr(reply, READS[kind][1])[:values[1]])
    return "ok"


def ask(port, unit):
    client = ModbusTcpClient("127.0.0.1", port=port, timeout=30)
    if not client.connect():
        print("no connection")
        return
    of_unit = {unit_word(client): unit}
    for line in sys.stdin:
        kind, *values = line.split()
        try:
            print(answer(client, kind, [int(it) for it in values], of_unit), flush=True)
        except Exception as why:
            print(f"failed: {why!r}", flush=True)
    client.close()


def forget_holding():
    """Removes the read of holding registers from the functions of a server."""
    from pymodbus import factory

    taught = factory.ServerDecoder.__init__

    def taught_less(self, *words, **more):
        taught(self, *words, **more)
        for known in vars(self).values():
            if isinstance(known, dict):
                known.pop(3, None)

    factory.ServerDecoder.__init__ = taught_less


def serve(port, path):
    from pymodbus import datastore

    try:
        from pymodbus.server import StartTcpServer
    except ImportError:
        from pymodbus.server.sync import StartTcpServer
    device = getattr(datastore, "ModbusDeviceContext", None) or datastore.ModbusSlaveContext
    block = datastore.ModbusSequentialDataBlock
    store = device(hr=block(0, [0] * 65537), ir=block(0, [0] * 65537))
    for line in open(path):
        area, address, *values = line.split()
        if area == "without":
            forget_holding()
            continue
        store.setValues({"holding": 3, "input": 4}[area], int(address), [int(it) for it in values])
    has = inspect.signature(datastore.ModbusServerContext.__init__).parameters
    name = "devices" if "devices" in has else "slaves"
    context = datastore.ModbusServerContext(**{name: store}, single=True)
    StartTcpServer(context=context, address=("127.0.0.1", port))


if __name__ == "__main__":
    if sys.argv[1] == "version":
        print(pymodbus.__version__)
    elif sys.argv[1] == "client":
        ask(int(sys.argv[2]), int(sys.argv[3]))
    else:
        serve(int(sys.argv[2]), sys.argv[3])
