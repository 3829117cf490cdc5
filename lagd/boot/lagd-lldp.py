#!/usr/bin/python3
"""Has lldpd send the Link Aggregation TLV (IEEE 802.1AX-2014: OUI 00-80-C2, subtype 7) of each port of lagd: /usr/local/sbin/lagd-lldp, which
lagd-lldp.service runs.

Each two seconds it compares what lldpd has with what the daemons tell, and changes what differs: so it stays right when a port joins or
leaves, a daemon is gone, or lldpd starts again. The TLV is its own on all ports of lldpd. It wants lldpcli (Debian: lldpd), as the
user _lldpd, and the rights of the group lagd.
"""

from __future__ import annotations

import argparse
import json
import re
import signal
import socket
import subprocess
import sys
import time
from typing import Any, Iterator, Sequence

OUI, SUBTYPE = "00,80,c2", "7"
# Bits of the status: the port can be aggregated; it is.
CAPABLE, ENABLED = 1, 2
EVERY, PATIENCE = 2, 10
# What is met where an answer is not as its maker says.
FAULTS = (AttributeError, LookupError, OverflowError, TypeError, ValueError)
# lldpcli reads the name of a port as a pattern.
PLAIN = re.compile(r"[\w.:@-]+", re.ASCII)
# Lines that were printed.
told: set[str] = set()


def complain(why: Exception) -> None:
    """Prints what went wrong, once."""
    line = f"lagd-lldp: {type(why).__name__}: {why}"
    if line not in told:
        print(line, file=sys.stderr, flush=True)
        told.add(line)


def printed(*words: str) -> str:
    """What a command prints; nothing where it fails, as a line says."""
    try:
        ended = subprocess.run(words, stdin=subprocess.DEVNULL, capture_output=True, timeout=PATIENCE)
    except (OSError, subprocess.TimeoutExpired) as why:
        complain(why)
        return ""
    if ended.returncode:  # behind the time and the place of the line
        complain(ChildProcessError(f"{words[0]}: {ended.stderr.decode(errors='replace').strip().rpartition('] ')[2]}"))
        return ""
    return ended.stdout.decode(errors="replace")


def index_of(device: str) -> int:
    """The ifIndex of a device, or 0. A character of JSON is an octet of its name."""
    try:
        return socket.if_nametoindex(device.encode("latin-1"))  # type: ignore[arg-type]
    except (OSError, UnicodeError):
        return 0


def told_by(port: Any, bundle: Any, device: int) -> str:
    """What the TLV of a port has behind its subtype. A port that carries is in the aggregation of the device, whose ifIndex the TLV has as
    lldpd has that of a bond; one that is individual at either end is in none."""
    capable, aggregated = ("aggregation" in port[end]["state"] for end in ("actor", "partner"))
    enabled = bool(device and capable and aggregated and port["carries"] and port["aggregator"] == bundle["aggregator"])
    status = (CAPABLE if capable else 0) | (ENABLED if enabled else 0)
    return bytes([status, *(device if enabled else 0).to_bytes(4, "big")]).hex(",")


def of_bundle(bundle: Any) -> Iterator[tuple[str, str]]:
    """The interface of each port of a daemon, and what its TLV has; a missing interface has none."""
    device = index_of(bundle["carry"]["device"]) if "carry" in bundle else 0
    for port in bundle["ports"]:
        try:
            name = socket.if_indextoname(port["index"] or 0)
        except OSError:
            continue
        if PLAIN.fullmatch(name):
            yield name, told_by(port, bundle, device)


def wanted(folder: str) -> dict[str, str]:
    """What the TLV of each port of the daemons has, by the name of its interface. What is no status of a daemon gives none."""
    found: dict[str, str] = {}
    for line in printed("lagd", "--status", "--json", "--folder", folder).splitlines():
        try:
            found.update(of_bundle(json.loads(line)))
        except FAULTS as why:
            complain(why)
    return found


def there(client: Sequence[str]) -> dict[str, list[str]] | None:
    """What the TLVs of each port of lldpd have; None where lldpd does not answer."""
    text = printed(*client, "-f", "json0", "show", "interfaces", "details")
    if not text:
        return None
    found: dict[str, list[str]] = {}
    for part in json.loads(text).get("lldp", []):
        for interface in part.get("interface", []):
            tlvs = [tlv for group in interface.get("unknown-tlvs", []) for tlv in group.get("unknown-tlv", [])]
            own = [tlv for tlv in tlvs if tlv.get("oui", "").lower() == OUI and tlv.get("subtype") == SUBTYPE]
            found[interface["name"]] = [tlv.get("value", "").lower() for tlv in own]
    return found


def set_right(client: Sequence[str], right: dict[str, str]) -> None:
    """Changes what differs."""
    for name, values in (there(client) or {}).items():
        words = ["ports", name, "lldp", "custom-tlv"]
        if name in right and values != [right[name]]:
            printed(*client, "configure", *words, "replace", "oui", OUI, "subtype", SUBTYPE, "oui-info", right[name])
        elif name not in right and values:
            printed(*client, "unconfigure", *words, "oui", OUI, "subtype", SUBTYPE)


def main() -> int:
    reader = argparse.ArgumentParser(description=__doc__, formatter_class=argparse.RawDescriptionHelpFormatter)
    reader.add_argument("--folder", default="/run/lagd", help="of status sockets of lagd")
    reader.add_argument("--socket", metavar="FILE", help="of lldpd, if it is not the usual one")
    given = reader.parse_args()
    client = ["lldpcli", *(["-u", given.socket] if given.socket else [])]
    signal.signal(signal.SIGTERM, lambda *_: sys.exit(0))
    try:
        while True:
            try:
                set_right(client, wanted(given.folder))
            except FAULTS as why:
                complain(why)
            time.sleep(EVERY)
    except KeyboardInterrupt:
        return 0
    finally:
        set_right(client, {})


if __name__ == "__main__":
    sys.exit(main())
