"""The subagent of snmpd, asked by the commands of Debian's package snmp: what each column of IEEE8023-LAG-MIB has, and what it has of daemons
that are gone or false."""

from __future__ import annotations

import contextlib
import json
import os
import re
import shutil
import signal
import socket
import subprocess
import threading
import time
from typing import Any

from checking import Skipped, check, within
from daemon import KEY, SYSTEM, Daemon, Part
from daemons import COMES_UP
from linking import build_subagent, has_subagent
from repository import write_text
from spaces import OURS, THEIRS, inside, ip, within_space

# lagMIBObjects of IEEE8023-LAG-MIB, and its tables below it (IEEE 802.1AX-2014, annex D).
OBJECTS = "1.2.840.10006.300.43.1"
AGGREGATORS, LISTS, PORTS, COUNTS, LAST_CHANGED = "1.1.1", "1.2.1", "2.1.1", "2.2.1", "3"
UPTIME = "1.3.6.1.2.1.1.3.0"
CONFIGURATION = "agentaddress udp:127.0.0.1:1161\nrocommunity public\nmaster agentx\nagentXSocket unix:{}\n"
# The subagent looks for snmpd every 5 s; a status is no older than a second, and has to be of now behind OLDEST.
COMES_BACK, GOES, OLDEST = 15, 4, 1.1
# The bits of LacpState, from the most significant one of its octet on (RFC 2578, 7.1.4: bit 0 comes first).
BITS = ("activity", "timeout", "aggregation", "synchronized", "collecting", "distributing", "defaulted", "expired")
# The counters of 7.3.3.1, in the order of the columns.
COUNTED = ("lacpdus_received", "markers_received", "marker_responses_received", "unknown_received", "illegal_received", "lacpdus_sent", "markers_sent", "marker_responses_sent")
NOBODY = "00 00 00 00 00 00"
# Behind what a false daemon answers: it keeps the connection then, or answers this for ever.
HANGS, ENDLESS = b"..hangs", b"..endless"

Told = dict[str, str]


def want_subagent() -> None:
    """Skips a part where snmpd, its commands or what the subagent is built with are not here."""
    for word, package in ("snmpd", "snmpd"), ("snmpbulkwalk", "snmp"):
        if not shutil.which(word, path=f"{os.environ['PATH']}:/usr/sbin"):
            raise Skipped(f"no command {word} (Debian: {package})")
    if not has_subagent():
        raise Skipped("no libnetsnmpagent or no jansson (Debian: libsnmp-dev, libjansson-dev)")


class Agent:
    """snmpd, and the subagent of it."""

    def __init__(self, part: Part, folder: str) -> None:
        want_subagent()
        self.part, self.socket = part, os.path.join(part.folder, "agentx")
        self.file, self.log = (os.path.join(part.folder, name) for name in ("snmpd.conf", "subagent"))
        write_text(self.file, CONFIGURATION.format(self.socket))
        ip(OURS, "link", "set", "lo", "up")
        self.words = [build_subagent(part.folder), "--agentx", f"unix:{self.socket}", "--folder", folder]
        self.master = self.start_master()
        with open(self.log, "w", encoding="utf-8") as log:
            self.process = subprocess.Popen(["ip", "netns", "exec", OURS, *self.words], stdout=log, stderr=log)
        part.running += [self]

    def start_master(self) -> subprocess.Popen[bytes]:
        """Starts snmpd, which reads no other file."""
        words = ["snmpd", "-C", "-c", self.file, "-f", "-Ln", "-p", f"{self.file}.pid", "-I", "-smux,mteTrigger,mteTriggerConf"]
        more = {**os.environ, "PATH": f"{os.environ['PATH']}:/usr/sbin", "MIBS": "", "SNMP_PERSISTENT_DIR": os.path.join(self.part.folder, "kept")}
        return subprocess.Popen(["ip", "netns", "exec", OURS, *words], stdout=subprocess.DEVNULL, stderr=subprocess.DEVNULL, env=more)

    def printed(self) -> str:
        with open(self.log, encoding="utf-8", errors="replace") as it:
            return it.read()

    def asked(self, command: str, *objects: str) -> Told:
        """What a command answers: values by the objects, without those that are not there."""
        told = inside(OURS, command, "-m", "", "-v2c", "-c", "public", "-On", "-Oe", "-Ox", "-OU", "-OQ", "-Ot", "-t", "2", "127.0.0.1:1161", *objects, timeout=60)
        rows = re.findall(r"^\.([\d.]+) = (.*(?:\n(?!\.).*)*)$", told.stdout, re.M)
        return {name: " ".join(value.replace('"', ' ').split()) for name, value in rows if not value.startswith("No ")}

    def walk(self, below: str = "", command: str = "snmpbulkwalk") -> Told:
        """All below an object, by what stands behind that of the MIB."""
        found = self.asked(command, f"{OBJECTS}.{below}".strip("."))
        return {name.removeprefix(f"{OBJECTS}."): value for name, value in found.items()}

    def ticks(self, name: str) -> int:
        """A value of TimeTicks, or -1."""
        return int(self.asked("snmpget", name).get(name, -1))

    def last_changed(self) -> int:
        return self.ticks(f"{OBJECTS}.{LAST_CHANGED}.0")

    def rows(self) -> set[str]:
        """The tables, columns and indexes that are told, but for dot3adTablesLastChanged."""
        return {name for name in self.walk() if not name.startswith(f"{LAST_CHANGED}.")}

    def ends(self) -> None:
        """The subagent ends by SIGTERM; sanitizers had nothing to tell."""
        self.process.send_signal(signal.SIGTERM)
        told = lambda: self.printed()[-3000:]
        try:
            check(self.process.wait(20) == 0 and "ERROR:" not in told() and "runtime error" not in told(), "the subagent ends with status 0, and no sanitizer found a fault", told())
        finally:
            self.master.kill()
            self.master.wait()


def octets(mac: str) -> str:
    """A MAC address as the commands print octets."""
    return mac.upper().replace(":", " ")


def bits(names: list[str]) -> str:
    """An octet of LacpState."""
    return f"{sum(0x80 >> BITS.index(name) for name in names):02X}"


def port_list(indexes: list[int]) -> str:
    """A PortList: the bit of port 1 is the most significant one of the first octet (RFC 4363)."""
    room = bytearray((max(indexes, default=1) + 7) // 8)
    for index in indexes:
        room[(index - 1) // 8] |= 0x80 >> (index - 1) % 8
    return " ".join(f"{it:02X}" for it in room)


def index_of(name: str) -> int:
    """The ifIndex of an interface, as the kernel has it."""
    return int(inside(OURS, "cat", f"/sys/class/net/{name}/ifindex").stdout or 0)


def status_of(daemon: Daemon) -> Any:
    return json.loads(inside(daemon.space, daemon.program, "--folder", daemon.folder, "--status", "--json").stdout)


def of_port(port: Any, aggregator: int) -> dict[int, str]:
    """The columns of dot3adAggPortTable, as the standard has them of a port that carries in the device with this index."""
    actor, partner = port["actor"], port["partner"]
    given = [name for name in actor["state"] if name in BITS[:3]]
    values: list[object] = [32768, octets(SYSTEM), KEY, actor["key"], 0, partner["system_priority"], NOBODY, octets(partner["system"]), 0, partner["key"], aggregator, aggregator]
    values += [port["port"], actor["port_priority"], 0, partner["port"], 0, partner["port_priority"], bits(given), bits(actor["state"]), "00", bits(partner["state"]), 1]
    return {column: str(value) for column, value in enumerate(values, 2)}


def of_aggregator(port: Any) -> dict[int, str]:
    """The columns of dot3adAggTable, of a device with one of its ports."""
    address = inside(OURS, "cat", "/sys/class/net/lag0/address").stdout.strip()
    partner = port["partner"]
    values = [octets(address), 32768, octets(SYSTEM), 1, KEY, port["actor"]["key"], octets(partner["system"]), partner["system_priority"], partner["key"], 0]
    return {column: str(value) for column, value in enumerate(values, 2)}


def wanted(status: Any) -> Told:
    """Each object of a bundle of which all ports carry."""
    device, found = index_of("lag0"), dict[str, str]()
    indexes = {port["interface"]: index_of(port["interface"]) for port in status["ports"]}
    found.update({f"{AGGREGATORS}.{column}.{device}": value for column, value in of_aggregator(status["ports"][0]).items()})
    found[f"{LISTS}.1.{device}"] = port_list(list(indexes.values()))
    for port in status["ports"]:
        index = indexes[port["interface"]]
        found.update({f"{PORTS}.{column}.{index}": value for column, value in of_port(port, device).items()})
        found.update({f"{COUNTS}.{column}.{index}": str(port["counters"][name]) for column, name in enumerate(COUNTED, 1)})
    return found


def without_counts(told: Told) -> Told:
    return {name: value for name, value in told.items() if not name.startswith((f"{COUNTS}.", f"{LAST_CHANGED}."))}


def pair(part: Part) -> tuple[Daemon, Daemon, Agent]:
    """Two daemons that carry, and a subagent beside one."""
    ours, theirs = part.ours("a0:priority=100", "a1", options=["--carry", "lag0"]), part.theirs("b0", "b1:priority=7", options=["--carry", "lag0"])
    agent = Agent(part, ours.folder)
    both = lambda: ours.distributes("a0", "a1") and theirs.distributes("b0", "b1") and status_of(ours)["aggregator"]
    check(within(COMES_UP, both), "both links carry", ours.text())
    within(COMES_BACK, agent.rows)
    time.sleep(OLDEST)
    return ours, theirs, agent


def count_fits(agent: Agent, ours: Daemon) -> bool:
    """Whether the counts are between those of two looks at the status."""
    before = wanted(status_of(ours))
    time.sleep(OLDEST)
    told, after = agent.walk("2.2"), wanted(status_of(ours))
    names = [name for name in after if name.startswith(f"{COUNTS}.")]
    return len(told) == len(names) == 16 and all(int(before[name]) <= int(told[name]) <= int(after[name]) for name in names)


def tables(part: Part) -> None:
    """Each column of each table, by three commands; what may not be written is not."""
    ours, theirs, agent = pair(part)
    right = wanted(status_of(ours))
    told = agent.walk()
    check(without_counts(told) == without_counts(right), f"all {len(without_counts(right))} objects have the values of the status, as the standard writes them",
        sorted(without_counts(told).items() ^ without_counts(right).items()))
    check(told.keys() - {f"{LAST_CHANGED}.0"} == right.keys(), "there are these objects, the counts of both ports, and dot3adTablesLastChanged", sorted(told.keys() ^ right.keys()))
    check(count_fits(agent, ours), "each count is that of the status", agent.walk("2.2"))
    state = told.get(f"{PORTS}.21.{index_of('a0')}")
    check(state == "FC", "a port that distributes with a short timeout has the state FC: bits 0 to 5", state)
    check(without_counts(agent.walk(command="snmpwalk")) == without_counts(told), "snmpwalk tells the same as snmpbulkwalk")
    one = agent.asked("snmpget", *(f"{OBJECTS}.{name}" for name in right))
    check(without_counts({name.removeprefix(f"{OBJECTS}."): value for name, value in one.items()}) == without_counts(right), "snmpget tells the same of all at once", one)
    absent = [f"{OBJECTS}.{it}" for it in (f"{AGGREGATORS}.1.{index_of('lag0')}", f"{PORTS}.2.{index_of('lag0')}", f"{PORTS}.25.{index_of('a0')}", f"{PORTS}.2", f"{PORTS}.2.{index_of('a0')}.1", "1.3.1.1.1")]
    check(not agent.asked("snmpget", *absent), "what is no object is not there", agent.asked("snmpget", *absent))
    written = inside(OURS, "snmpset", "-m", "", "-v2c", "-c", "public", "127.0.0.1:1161", f"{OBJECTS}.{AGGREGATORS}.6.{index_of('lag0')}", "i", "9")
    check(written.returncode != 0 and without_counts(agent.walk()) == without_counts(told), "nothing can be written", written.stdout)
    agent.ends()


def last_change(part: Part) -> None:
    """dot3adTablesLastChanged, while ports come and go."""
    ours, theirs, agent = pair(part)
    within(GOES, lambda: False)
    first, again, uptime = agent.last_changed(), agent.last_changed(), agent.ticks(UPTIME)
    check(0 < first == again < uptime, "dot3adTablesLastChanged stays while nothing changes, below sysUpTime", first, again, uptime)
    ip(OURS, "link", "set", "a1", "down")
    state = lambda: int(agent.walk("2.1").get(f"{PORTS}.21.{index_of('a1')}", "FF"), 16)
    check(within(GOES, lambda: not state() & 0x0C), "a port whose link is down neither collects nor distributes", f"{state():02X}")
    check(uptime < agent.last_changed() <= agent.ticks(UPTIME), "dot3adTablesLastChanged is of that time", agent.last_changed(), agent.ticks(UPTIME))
    agent.ends()


def gone(part: Part) -> None:
    """A daemon is killed, is stopped, and is there again."""
    ours, theirs, agent = pair(part)
    check(len(agent.rows()) == 73, "two ports and a device have 73 objects", len(agent.rows()))
    ours.process.send_signal(signal.SIGSTOP)
    check(within(GOES, lambda: not agent.rows()), "a daemon that is stopped has no rows", agent.rows())
    ours.process.send_signal(signal.SIGCONT)
    check(within(GOES, lambda: len(agent.rows()) == 73), "and has them again when it goes on", agent.rows())
    before = agent.last_changed()
    ours.kill()
    check(within(GOES, lambda: not agent.rows()), "a daemon that is killed has no rows", agent.rows())
    check(agent.last_changed() > before, "and dot3adTablesLastChanged says so", before, agent.last_changed())
    again = part.ours("a0", "a1")
    check(within(COMES_UP, lambda: again.distributes("a0", "a1")), "another daemon has the links, and carries no data", again.text())
    check(within(GOES, lambda: len(agent.rows()) == 62), "its ports have rows, and it has no aggregator with an ifIndex", sorted(agent.rows()))
    told = agent.walk("2.1")
    check({told.get(f"{PORTS}.{column}.{index_of(name)}") for column in (12, 13) for name in ("a0", "a1")} == {"0"}, "so its ports name none", told)
    agent.ends()


def master_again(part: Part) -> None:
    """snmpd ends, and starts again."""
    ours, theirs, agent = pair(part)
    for by in signal.SIGTERM, signal.SIGKILL:
        agent.master.send_signal(by)
        agent.master.wait()
        check(not agent.rows(), f"{by.name} ends snmpd")
        agent.master = agent.start_master()
        check(within(COMES_BACK, lambda: len(agent.rows()) == 73), "it starts again, and the subagent is there again", agent.printed())
        check(agent.last_changed() <= agent.ticks(UPTIME), "dot3adTablesLastChanged is no later than sysUpTime, which began anew", agent.last_changed(), agent.ticks(UPTIME))
    agent.ends()


def many(part: Part) -> None:
    """A bundle of 64 ports, all of which carry."""
    lines = [f"link add c{n} type veth peer name d{n} netns {THEIRS}\nlink set c{n} up\n" for n in range(64)]
    ip(OURS, "-batch", "-", input="".join(lines))
    ip(THEIRS, "-batch", "-", input="".join(f"link set d{n} up\n" for n in range(64)))
    names = [f"c{n}" for n in range(64)]
    ours, theirs = part.ours(*names, options=["--carry", "lag0"]), part.theirs(*(f"d{n}" for n in range(64)), options=["--carry", "lag0"])
    agent = Agent(part, ours.folder)
    check(within(3 * COMES_UP, lambda: ours.distributes(*names)), "64 links carry", ours.text()[-500:])
    check(within(COMES_BACK, lambda: len(agent.rows()) == 64 * 31 + 11), "64 ports have 31 objects each", len(agent.rows()))
    right = without_counts(wanted(status_of(ours)))
    told = without_counts(agent.walk())
    check(told == right, "each has the values of the status", sorted(told.items() ^ right.items())[:9])
    agent.ends()


def odd_name(part: Part) -> None:
    """A device and a port whose names have octets that are no UTF-8, and marks of JSON."""
    port, device = b'a\xe9"\\\xff', b'l"\xc3\x84\\\x01\x80'
    ip(OURS, "link", "set", "a0", "down")
    done = subprocess.run([b"ip", b"-n", OURS.encode(), b"link", b"set", b"a0", b"name", port], capture_output=True)
    if done.returncode:
        raise Skipped(f"no such name: {done.stderr!r}")
    subprocess.run([b"ip", b"-n", OURS.encode(), b"link", b"set", port, b"up"])
    folder = os.path.join(part.folder, "run")
    ours = part.ours(os.fsdecode(port), "a1", options=["--carry", os.fsdecode(device)])
    theirs = part.theirs()
    check(within(COMES_UP, lambda: theirs.distributes("b0", "b1")), "both links carry", theirs.text())
    agent = Agent(part, folder)
    check(within(COMES_BACK, lambda: len(agent.rows()) == 73), "both ports and the device have their objects", sorted(agent.rows()), ours.printed())
    with within_space(OURS):
        index = {it: socket.if_nametoindex(os.fsdecode(it)) for it in (port, device, b"a1")}
    told = agent.walk()
    check(told.get(f"{PORTS}.13.{index[port]}") == str(index[device]), "the port is attached to the device", told)
    agent.ends()


def high_indexes(part: Part) -> None:
    """A port whose bit is far in the list, and one that has no place there."""
    for name, other, index in ("e0", "f0", 200000), ("e1", "f1", 3000000):
        ip(OURS, "link", "add", name, "index", str(index), "type", "veth", "peer", "name", other, "netns", THEIRS)
        ip(OURS, "link", "set", name, "up")
        ip(THEIRS, "link", "set", other, "up")
    ours, theirs = part.ours("a0", "e0", options=["--carry", "lag0"]), part.theirs("b0", "f0", "f1", options=["--carry", "lag0"])
    agent = Agent(part, ours.folder)
    both = lambda: ours.distributes("a0", "e0") and agent.walk("1.2").get(f"{LISTS}.1.{index_of('lag0')}") == port_list([index_of("a0"), 200000])
    check(within(COMES_UP, both), "the list has the bit of ifIndex 200000 in its octet 25000", ours.text(), sorted(agent.walk("1.2")))
    ours.ends("the daemon")
    again = part.ours("a0", "e1", options=["--carry", "lag0"])
    check(within(COMES_UP, lambda: again.distributes("a0", "e1") and len(agent.rows()) == 72), "a list that has no place for 3000000 is left out, and nothing else", sorted(agent.rows()), again.text())
    agent.ends()


def false_answers(good: bytes) -> dict[str, bytes | None]:
    """What false daemons answer to each question; None: nothing, while they keep the connection."""
    status = json.loads(good)
    port = status["ports"][0]
    wrong = [dict(status, **more) for more in ({"key": "7"}, {"key": 65536}, {"system": "02:00:00:00:00:zz"}, {"ports": {}}, {"ports": [1]}, {"aggregator": -1}, {"collector_max_delay": 1.5})]
    wrong += [dict(status, carry={"device": name}) for name in ("", "x" * 16, "\u20ac", None)]
    ports: list[dict[str, Any]] = [{"index": 0}, {"index": 2**40}, {"mux": 7}, {"mux": "LOST"}, {"counters": {}}, {"partner": None}, {"actor": dict(port["actor"], state=["nonsense"])}]
    wrong += [dict(status, ports=[dict(port, **more)]) for more in ports]
    told: dict[str, bytes | None] = {f"wrong{n}": json.dumps(it).encode() for n, it in enumerate(wrong)}
    told.update(half=good[: len(good) // 2], nothing=b"", hangs=None, begins=good[:100] + HANGS, nonsense=os.urandom(1 << 20), zeros=bytes(1 << 20), deep=b"[" * 100000)
    told.update(endless=b"[" * 65536 + ENDLESS, refused=b"refused: all connections are taken\n", twice=good + good, odd=b'{"key": "\\u0000\\ud800"}')
    return told


class FalseDaemon(threading.Thread):
    """A status socket that answers as it is told."""

    def __init__(self, folder: str, name: str, answer: bytes | None) -> None:
        super().__init__(daemon=True)
        self.answer, self.kept = answer, list[socket.socket]()
        self.listener = socket.socket(socket.AF_UNIX)
        self.path = os.path.join(folder, f"{os.stat(f'/run/netns/{OURS}').st_ino}.{name}.sock")
        self.listener.bind(self.path)
        self.listener.listen(64)
        self.start()

    def run(self) -> None:
        while True:
            try:
                taken = self.listener.accept()[0]
            except OSError:
                return
            self.serve(taken)

    def serve(self, taken: socket.socket) -> None:
        """Answers one question; whoever asked may be gone before the end."""
        answer = self.answer
        if answer is None or answer.endswith(HANGS):
            self.kept += [taken]
        with contextlib.suppress(OSError):
            taken.recv(16)
            taken.sendall((answer or b"").removesuffix(HANGS).removesuffix(ENDLESS))
            while answer and answer.endswith(ENDLESS):
                taken.sendall(answer.removesuffix(ENDLESS))
        if taken not in self.kept:
            taken.close()

    def drop(self) -> None:
        self.listener.shutdown(socket.SHUT_RDWR)
        self.listener.close()
        os.remove(self.path)


def longest(agent: Agent) -> float:
    """How long one object takes at most, of four over as many seconds."""
    times = []
    for _ in range(4):
        began = time.monotonic()
        agent.last_changed()
        times += [time.monotonic() - began]
        time.sleep(1)
    return max(times)


def false_daemons(part: Part) -> None:
    """Status sockets that answer nonsense, half a status, without end or not at all, beside a daemon."""
    ours, theirs, agent = pair(part)
    right = without_counts(agent.walk())
    good = json.dumps(status_of(ours)).encode()
    for name, answer in false_answers(good).items():
        false = FalseDaemon(ours.folder, name, answer)
        time.sleep(OLDEST)
        told = within(GOES, lambda: without_counts(agent.walk()) == right)
        check(told, f"beside a false daemon ({name}) there are the rows of the right one, and no others", agent.walk(), agent.printed()[-500:])
        false.drop()
    all_of_them = [FalseDaemon(ours.folder, f"{name}-{n}", answer) for name, answer in (("hangs", None), ("endless", b"[" * 65536 + ENDLESS)) for n in range(20)]
    check(within(COMES_BACK, lambda: without_counts(agent.walk()) == right), "so there are beside forty that hang, or never end", agent.printed()[-500:])
    check(longest(agent) < 1, "and each answer comes within a second", longest(agent))
    for false in all_of_them:
        false.drop()
    lines = agent.printed().count("\n")
    check(lines < 60, "the subagent printed few lines of them", lines)
    agent.ends()


PARTS = {
    "SNMP": tables,
    "SNMP: changes": last_change,
    "SNMP: a daemon goes": gone,
    "SNMP: snmpd goes": master_again,
    "SNMP: many ports": many,
    "SNMP: odd names": odd_name,
    "SNMP: high indexes": high_indexes,
    "SNMP: false daemons": false_daemons,
}
