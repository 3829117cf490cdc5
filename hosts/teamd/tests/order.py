"""Reads what strace told of sendto and sendmsg of a teamd: order.py FILE. Each change of a port in the driver is a line, and so is each LACPDU whose Distributing is
not what the driver was told of its port before."""

import re
import struct
import sys

# Of the attributes of an option of the team driver.
NAME, DATA, PORT = 1, 4, 6
SLOW = bytes.fromhex("0180c2000002")
DISTRIBUTING, ACTOR_PORT, ACTOR_STATE = 0x20, 30, 32


def told(octets: bytes) -> "tuple[int, bool] | None":
    """The ifIndex of a port, and whether a message enables it."""
    at = octets.find(b"enabled\0") - 4
    found = {}
    while 0 <= at <= len(octets) - 4:
        length, kind = struct.unpack_from("<HH", octets, at)
        if length < 4:
            break
        found[kind] = octets[at + 4:at + length]
        at += (length + 3) & ~3
    return (struct.unpack("<I", found[PORT])[0], DATA in found) if PORT in found else None


enabled: "dict[int, bool]" = {}
frames = 0
with open(sys.argv[1], encoding="utf-8") as lines:
    for line in lines:
        octets = bytes.fromhex("".join(re.findall(r"\\x([0-9a-f]{2})", line)))
        if octets.startswith(SLOW):
            port, says = struct.unpack_from(">H", octets, ACTOR_PORT)[0], bool(octets[ACTOR_STATE] & DISTRIBUTING)
            frames += 1
            if enabled.get(port, False) != says:
                print(f"wrong: port {port} {'distributes' if says else 'does not distribute'} in an LACPDU, and the driver was told otherwise")
        elif change := told(octets):
            if enabled.get(change[0]) != change[1]:
                print(f"{'enabled' if change[1] else 'disabled'}: port {change[0]}, after {frames} LACPDUs")
            enabled[change[0]] = change[1]
print(f"{frames} LACPDUs")
