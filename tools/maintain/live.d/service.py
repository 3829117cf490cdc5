"""The daemon as a service: its file, its reload, who watches and scrapes, its hook, the manager of services, and its rights."""

from __future__ import annotations

import contextlib
import json
import os
import re
import shutil
import signal
import socket
import subprocess
import time
from typing import Callable, Mapping, Sequence

from checking import Skipped, check, command, within
from daemon import ENDS, KEY, OTHER, SYSTEM, Daemon, Part
from daemons import COMES_UP, CONTROL, GOES_DOWN, NOBODY, STRANGER, both_up, pair_up
from repository import TOP, daemon_words, read_text, write_text
from spaces import OURS, THEIRS, Wire, flap, inside, ip, make_pair, sockets_of

UNIT = os.path.join(TOP, "lagd", "lagd@.service")
# Where the journal listens, and a line that it gets.
JOURNAL, BUNDLE_LINE = "/run/systemd/journal", "the bundle is up, degraded or down, or has more or fewer links that carry"
# What the unit may be exposed to, as systemd-analyze counts, at most.
EXPOSED = 2.0
FILE = f"""# A bundle of two links.
[Bundle]
key=23
system=32768,{SYSTEM}
partner=first
min-links=1

[Port a0]
[Port a1]
priority=100
"""
LONG = FILE.replace("min-links=1", "min-links=1\ntimeout=long")
# Short_Timeout_Time in seconds, and Long_Timeout_Time in ticks of 100 ms (IEEE 802.1AX-2014, 6.4.4).
TIMEOUT, LONG_TICKS = 3, 900
# How the payload of an LACPDU begins.
LACPDU = b"\1\1"
# How else the MAC address of the system may be written.
NOTATIONS = "02-00-00-00-00-AA", "0200000000aa", "0200.0000.00aa"
# A wrong file, and where what was expected is told.
WRONG = {
    "[Bundle]\nkey=65536\n": "2: expected a number from 0 to 65535: key=65536",
    "[Bundle]\nkeys=7\n": "2: expected key, system, ",
    "key=7\n": "1: expected [Bundle] or [Port INTERFACE] before keys: key=7",
    "[Bundle]\nkey\n": "2: expected KEY=VALUE: key",
    "[Bundle\n": "1: expected [Bundle] or [Port INTERFACE]: [Bundle",
    "[Ports a0]\n": "1: expected [Bundle] or [Port INTERFACE]: [Ports a0]",
    "[Port a0]\n[Port a0]\n": "2: expected each interface once: [Port a0]",
    "[Port a/0]\n": "1: expected the name of an interface: [Port a/0]",
    "[Port a0]\ntimeout=fast\n": "2: expected short or long: timeout=fast",
    "[Port a0]\nindividual=1\n": "2: expected yes or no: individual=1",
    "[Bundle]\nsystem=1,01:00:00:00:00:aa\n": "2: expected auto or PRIORITY,MAC, ",
    "[Bundle]\npartner=last\n": "2: expected any, first or PRIORITY,MAC, ",
    "[Bundle]\nmin-links=0\n": "2: expected a number from 1 to 64: min-links=0",
    "[Bundle]\nhook=relative\n": "2: expected a path that begins with /, ",
    "[Bundle]\ncarry=a/0\n": "2: expected a name of an interface of at most 15 characters: carry=a/0",
    "[Bundle]\nhash=layer4\n": "2: expected layer2, layer2+3, layer3+4, encap3+4 or vlan+srcmac: hash=layer4",
    "[Bundle]\nwait-to-restore=3601\n": "2: expected a number of seconds from 0 to 3600: wait-to-restore=3601",
    "[Bundle]\nselect=stable\n": "2: expected count, bandwidth, priority or priority-stable: select=stable",
    "[Bundle]\ndelay-down=3001\n": "2: expected a number of milliseconds from 0 to 3000: delay-down=3001",
    "[Bundle]\nstate-dir=states\n": "2: expected a path that begins with /, of at most 175 characters: state-dir=states",
    "[Bundle]\nflight=0\n": "2: expected a number of milliseconds from 1 to 60000: flight=0",
    "[Bundle]\nplane=bond\n": "2: expected tap or team: plane=bond",
    "[Bundle]\noffload=on\n": "2: expected yes or no: offload=on",
    FILE.replace("[Port a0]", "carry=a0\n[Port a0]"): "8: expected carry=NAME that is not the interface of a port: carry",
    "[Bundle]\n key=7\n": "2: expected a line that does not begin with a space:  key=7",
    "[Bundle]\nkey=7 ; all\n": "2: expected a number from 0 to 65535: key=7 ; all",
    "[Bundle]\n" + "#" * 200 + "\n": "2: expected a line of at most 190 octets: ###",
    "[Bundle]\nkey=\x1b[31m\n": "2: expected a number from 0 to 65535: key=\\x1b[31m",
    FILE.replace("key=23\n", ""): " expected key=NUMBER in [Bundle]",
    FILE.partition("[Port")[0].replace(f"32768,{SYSTEM}", "auto"): "4: expected system=PRIORITY,MAC beside no section [Port INTERFACE]: by auto it is the address of the first one: system",
    FILE.replace("[Port a0]", "carry=lag0\nmembers=follow\n[Port a0]", 1): "9: expected plane=team beside members=follow: members",
    FILE.replace("[Port a0]", "carry=lag0\nplane=team\nselect=priority\n[Port a0]", 1): "10: expected select=count beside plane=team, which does not see in which group the peer sends: select",
    "[Bundle]\nmembers=all\n": "2: expected given or follow: members=all",
    "".join(f"[Port a{port}]\n" for port in range(65)): "65: expected at most 64 interfaces: [Port a64]",
}
A_HOOK = "expected a path that begins with /, of at most 175 characters, of a program that may be run: hook="
# What contradicts itself, in a file that is right but for it, and where that is told.
CONTRADICTIONS = {
    FILE.replace("min-links=1", "min-links=2\nmax-links=1"): "6: expected min-links that is at most max-links: min-links",
    FILE.replace("[Port a0]", "key=23\n[Port a0]"): "8: expected each key once: key=23",
    FILE + "timeout=long\npriority=100\n": "12: expected each key once: priority=100",
    FILE + "individual=no\nindividual=no\n": "12: expected each key once: individual=no",
    FILE + "hold=1\n": "11: expected yes or no: hold=1",
    FILE + "[Bundle]\n": "11: expected one section [Bundle]: [Bundle]",
    FILE.replace("partner=first", f"partner=32768,{SYSTEM}"): "5: expected a partner that is not this system: partner",
    FILE.replace("min-links=1", "revert=yes"): "6: expected max-links=N beside revert: revert",
    FILE.replace("min-links=1", "carry=lag0\nhash-seed=7"): "7: expected another hash than layer2 beside hash-seed: hash-seed",
    **{FILE.replace("min-links=1", f"carry=lag0\nplane=team\n{key}=yes"): "7: expected neither offload nor fast beside plane=team, by which the kernel "
       "carries all: plane" for key in ("offload", "fast")},
    FILE.replace("min-links=1", "carry=lag0\nplane=team\nhash=encap3+4"): "8: expected another hash than encap3+4 beside plane=team: hash",
    FILE.replace("min-links=1", "hook=/nowhere/hook"): f"6: {A_HOOK}/nowhere/hook",
    FILE.replace("min-links=1", "hook=/etc/passwd"): f"6: {A_HOOK}/etc/passwd",
    FILE.replace("min-links=1", "hook=/etc"): f"6: {A_HOOK}/etc",
    **{FILE.replace("min-links=1", f"{key}={value}"): "6: expected carry=NAME beside plane, members, hash, hash-seed, flight, offload, fast, queues "
       f"or answer-after: {key}"
       for key, value in (("plane", "tap"), ("hash", "layer2"), ("hash-seed", "7"), ("flight", "500"), ("offload", "yes"), ("fast", "yes"),
                          ("queues", "one"), ("answer-after", "50"))},
    FILE.replace("min-links=1", "carry=lag0\nplane=team\nqueues=all"): "8: expected no queues=all beside plane=team, which leaves queues as they "
    "are: queues",
    FILE.replace("min-links=1", "carry=lag0\nanswer-after=50"): "7: expected queues=all beside answer-after: answer-after",
    FILE.replace("min-links=1", "carry=lag0\nqueues=4"): "7: expected one or all: queues=4",
    **{FILE.replace("min-links=1", f"carry=lag0\nqueues=all\nanswer-after={value}"): "8: expected a number of milliseconds from 1 to 500: "
       f"answer-after={value}" for value in ("0", "501")},
}


class Filed(Daemon):
    """A daemon that reads a file."""

    def __init__(self, part: Part, file: str, before: Sequence[str] = (), more: Mapping[str, str] | None = None, options: Sequence[str] = ()) -> None:
        self.space, self.program, self.folder = OURS, part.program, os.path.join(part.folder, "run")
        self.log, self.file = os.path.join(part.folder, "filed"), file
        self.words = [*before, part.program, "--folder", self.folder, *options, "--config", file]
        with open(self.log, "w", encoding="utf-8") as log:
            words = ["ip", "netns", "exec", OURS, *self.words]
            self.process = subprocess.Popen(words, stdout=log, stderr=log, env={**os.environ, **(more or {})})
        part.running.append(self)

    def reload(self, text: str, told: str) -> str:
        """Its file has another text, and SIGHUP reads it; answers what the daemon prints then."""
        write_text(self.file, text)
        before = len(self.printed())
        self.process.send_signal(signal.SIGHUP)
        check(within(ENDS, lambda: told in self.printed()[before:]), f"after SIGHUP a line says: {told}", self.printed()[before:])
        return self.printed()[before:]


def filed(part: Part, text: str = FILE) -> tuple[Filed, Daemon]:
    """A daemon of a file, and another one, whose links come to distribute."""
    path = os.path.join(part.folder, "uplink.conf")
    write_text(path, text)
    ours, theirs = Filed(part, path), part.theirs()
    both_up(ours, theirs, "the bundle of a file comes to distribute")
    return ours, theirs


def check_of_machine(part: Part, path: str) -> None:
    """What a file wants of the kernel, asked by root, by one who may not, and where there is no /dev/net/tun."""
    write_text(path, FILE.replace("[Port", "carry=lag0\nfast=yes\n[Port", 1))
    asked: dict[str, list[str]] = {"": [], "not known without CAP_BPF": ["setpriv", "--bounding-set=-all", "--inh-caps=-all"]}
    for told, words in asked.items():
        ended = inside(OURS, *words, part.program, "--check", path)
        holds = ended.returncode == 0 and told in ended.stderr and (told or not ended.stderr)
        check(holds, f"a file with fast=yes is right here: {told or 'nothing is said'}", ended.returncode, ended.stderr)
    lacking = inside(OURS, "unshare", "--mount", "sh", "-c", 'mount -t tmpfs none /dev && exec "$@"', "sh", part.program, "--check", path)
    holds = lacking.returncode == 1 and "carry: there is no /dev/net/tun" in lacking.stderr
    check(holds, "without /dev/net/tun it is told that carry lacks it", lacking.returncode, lacking.stderr)
    write_text(path, FILE.replace("[Port", "carry=lag0\nplane=team\n[Port", 1))
    has_driver = inside(OURS, "ip", "link", "add", "team9", "type", "team").returncode == 0
    inside(OURS, "ip", "link", "del", "team9")
    refused = "this kernel has no team driver"
    answer = inside(OURS, part.program, "--check", path)
    holds = answer.returncode == 0 if has_driver else answer.returncode == 1 and f"plane: {refused}" in answer.stderr
    check(holds, f"a file with plane=team is {'right here' if has_driver else 'told that this kernel has no such driver'}", answer.returncode, answer.stderr)
    if not has_driver:
        started = inside(OURS, part.program, "--folder", os.path.join(part.folder, "run"), "--config", path)
        check(started.returncode == 1 and f"plane=team: {refused}" in started.stderr, "so is a start", started.returncode, started.stderr)


def files(part: Part) -> None:
    """A file is checked, and a bundle runs of it."""
    path = os.path.join(part.folder, "uplink.conf")
    untold = []
    for text, told in {**WRONG, **CONTRADICTIONS}.items():
        write_text(path, text)
        for words in ["--check", path], ["--config", path]:
            ended = inside(OURS, "timeout", "3", part.program, *words)
            if ended.returncode != 2 or f"lagd: {path}:{told}" not in ended.stderr:
                untold.append(f"{words[0]} {text!r}: {ended.returncode}, {ended.stderr}")
    check(not untold, f"{len(WRONG)} wrong files, and {len(CONTRADICTIONS)} that contradict themselves, are refused, with file, line and what was expected", *untold)
    missing = inside(OURS, part.program, "--check", os.path.join(part.folder, "none.conf"))
    check(missing.returncode == 2 and "none.conf: No such file" in missing.stderr, "so is one that is missing", missing.stderr)
    for address in (SYSTEM, *NOTATIONS):
        write_text(path, FILE.replace(SYSTEM, address))
        right = inside(OURS, part.program, "--check", path)
        check((right.returncode, right.stderr) == (0, ""), f"a right one is not, with the address {address}", right.stderr)
    check_of_machine(part, path)
    mixed = inside(OURS, part.program, "--config", path, "--min-links", "2")
    check(mixed.returncode == 2, "a file and options of a bundle do not go together", mixed.stderr)
    ours, theirs = filed(part, FILE.replace(SYSTEM, NOTATIONS[-1]))
    ports = ours.ports()
    values = {name: (port["actor"]["key"], port["actor"]["port_priority"]) for name, port in ports.items()}
    check(values == {"a0": (23, 32768), "a1": (23, 100)}, "its ports have the values of the file", values)
    check("---- uplink ----\n" in ours.text(), "it has the name of the file", ours.text())
    check(theirs.port("b0")["partner"]["system"] == SYSTEM, f"the peer sees {NOTATIONS[-1]} as {SYSTEM}", theirs.text())


def own_address(part: Part) -> None:
    """With `system=auto` the system has the address of the first interface, which has to be there at the start."""
    name = "an-alternative-name-of-a0"
    text = FILE.replace(f"32768,{SYSTEM}", "auto").replace("partner=first\n", "")
    ours, theirs = filed(part, text)
    address = ours.port("a0")["address"]
    partners = [port["partner"] for port in theirs.ports().values()]
    named = [(it["system_priority"], it["system"]) for it in partners]
    check(named == [(32768, address)] * 2, "its peer sees priority 32768 and the address of the first interface", named, address)
    printed = ours.reload(text.replace("min-links=1", "min-links=2"), "read again")
    check("restart" not in printed, "and has the same system still", printed)
    ours.reload(text.replace("min-links=1", f"partner=32768,{address}"), ":5: expected a partner that is not this system: partner")
    ours.ends("the daemon")
    ip(OURS, "link", "property", "add", "dev", "a0", "altname", name)
    for options, names, status, told in (
        ((), ("a9", "a1"), 1, "lagd: system=auto: a9: No such device"),
        ((), ("a-longer-name-that-is-missing",), 1, "lagd: system=auto: a-longer-name-that-is-missing: No such device"),
        ((), ("lo",), 2, "lagd: not an Ethernet interface: lo"),
        (("--partner", f"32768,{address}"), (name,), 2, "lagd: expected a partner that is not this system: partner"),
    ):
        found = part.refused(*options, KEY, "auto", *names)
        check(found[0] == status and told in found[1], f"with system=auto it does not start: {told}", found)
    ip(OURS, "link", "property", "del", "dev", "a0", "altname", name)


def reloads(part: Part) -> None:
    """SIGHUP reads the file again."""
    ours, theirs = filed(part)
    lines = ours.lines("a0")
    ours.reload(FILE.replace("priority=100", "priority=200"), "read again, 1 ports changed")
    check(within(ENDS, lambda: ours.port("a1")["actor"]["port_priority"] == 200), "a port has another priority", ours.text())
    both_up(ours, theirs, "both links distribute")
    check(ours.lines("a0") == lines, "the other port was not touched", ours.printed())
    ours.reload(FILE.replace("priority=100", "priority=200\nindividual=yes"), "read again, 1 ports changed")
    gone = lambda: "aggregation" not in ours.port("a1")["actor"]["state"]
    check(within(ENDS, gone) and ours.lines("a0") == lines, "it is individual now, and the other port was not touched", ours.text())
    ours.reload(FILE.replace("min-links=1", "min-links=2").replace("priority=100", "priority=200"), "read again, 1 ports changed")
    both_up(ours, theirs, "both links distribute again")
    check("min_links: 2" in ours.text(), "min-links is another one", ours.text())
    ours.reload(FILE.replace("min-links=1", "wait-to-restore=3600"), "read again, 1 ports changed")
    both_up(ours, theirs, "both links distribute once more")
    flap(OURS, "a1", 1)
    waits = "the link is back, and waits for wait-to-restore"
    check(within(ENDS, lambda: ours.port("a1")["status"] == waits) and ours.distributes("a0"), "a link that comes back waits", ours.text())
    told = inside(OURS, ours.program, "--folder", ours.folder, "--metrics").stdout
    check('lagd_port_status{bundle="uplink",interface="a1",port="2"} 131' in told, "so say the metrics", told)
    ours.reload(FILE, "read again, 0 ports changed")
    both_up(ours, theirs, "without wait-to-restore both links distribute again")
    ours.reload(FILE.replace("key=23", "key=24"), "a key that no port had at the start: a restart of this bundle is needed")
    ours.reload(FILE.replace("32768", "1"), "another system: a restart of this bundle is needed")
    ours.reload(FILE + "max-links=7\n", "the file is wrong, and nothing is changed")
    check(ours.distributes("a0") and ours.lines("a0") == lines, "and the first port was never touched", ours.printed())
    os.unlink(ours.file)
    ours.process.send_signal(signal.SIGHUP)
    check(within(ENDS, lambda: "No such file" in ours.printed()), "a file that is gone changes nothing", ours.printed())


def ports_change(part: Part) -> None:
    """SIGHUP takes ports out of a bundle and into it, down to none, and more than are there; each keeps its number, and the others are not touched."""
    path = os.path.join(part.folder, "uplink.conf")
    make_pair(2)
    write_text(path, FILE)
    ours, theirs = Filed(part, path), part.theirs("b0", "b1", "b2")
    check(within(COMES_UP, lambda: ours.distributes("a0", "a1") and ours.says_it_distributes("a1")), "the bundle of a file comes to distribute", ours.text())
    head, numbers = FILE.partition("[Port")[0], lambda: {name: port["port"] for name, port in ours.ports().items()}

    def reloaded(text: str, changed: int, ports: dict[str, int]) -> None:
        ours.reload(text, f"read again, {changed} ports changed")
        check(within(COMES_UP, lambda: numbers() == ports and ours.distributes(*ports)), f"the ports are {ports}", ours.text())

    lines = ours.lines("a1")
    reloaded(FILE.replace("[Port a0]\n", "[Port a0]\n[Port a2]\n"), 1, {"a0": 1, "a1": 2, "a2": 3})
    reloaded(FILE.replace("[Port a0]\n", "[Port a2]\n"), 1, {"a1": 2, "a2": 3})
    check(not theirs.distributes("b0") and "b0: the partner is not synchronized" in theirs.printed(), "the peer of one that leaves was told", theirs.printed())
    check(ours.lines("a1") == lines, "the port behind it was not touched", ours.printed())
    reloaded(head.replace("min-links=1", "min-links=7") + "[Port a1]\npriority=100\n", 1, {"a1": 2})
    check("min_links: 7" in ours.text() and "status: down, 1 of 1 links carry" in ours.text(), "with more min-links than ports it is down", ours.text())
    reloaded(head, 1, {})
    reloaded(FILE, 2, {"a0": 1, "a1": 2})
    before = len(ours.printed())
    leaving = subprocess.Popen(["ip", "netns", "exec", OURS, ours.program, "--folder", ours.folder, "--remove", "a1"], stdout=subprocess.DEVNULL, stderr=subprocess.DEVNULL)
    within(ENDS, lambda: "a1: it leaves the bundle" in ours.printed()[before:])
    told = inside(OURS, ours.program, "--folder", ours.folder, "--add", "a1:priority=77")
    leaving.wait(ENDS)
    check("a1: it stays in the bundle" in ours.printed()[before:], "a port that is added as it leaves stays", told.stderr, ours.printed()[before:])
    check(within(ENDS, lambda: ours.port("a1")["actor"]["port_priority"] == 77), "with the words of --add", told.stdout, ours.text())
    told = inside(OURS, ours.program, "--folder", ours.folder, "--add", "a2:long,slow")
    check(told.returncode == 1 and "refused: a2: slow: expected key=N" in told.stderr, "a refused --add names the word that is wrong", told.stderr)
    ours.ends("the daemon")
    write_text(path, head)
    alone = Filed(part, path)
    check(within(ENDS, lambda: "0 of 0 links carry" in alone.text()), "a daemon starts without a port", alone.printed())


def questions(part: Part) -> None:
    """One file at a time; and who asks for more than the daemon has files for keeps no processor."""
    path, wrong = (os.path.join(part.folder, name) for name in ("uplink.conf", "wrong.conf"))
    write_text(path, FILE)
    write_text(wrong, "[Bundle]\nkeys=7\n")
    for words in ("--check", wrong, "--config", path), ("--config", path, "--check", wrong), ("--check", wrong, "--check", path), ("--config", path, "--config", wrong):
        found = part.refused(*words)
        check(found[0] == 2 and "usage: one" in found[1], f"{words[0]} and {words[2]} are refused together", found)
    ours = part.ours()
    check(within(ENDS, lambda: bool(ours.ports())), "a daemon answers", ours.printed())
    command("prlimit", "--pid", str(ours.process.pid), f"--nofile={len(os.listdir(f'/proc/{ours.process.pid}/fd'))}:")
    askers = [socket.socket(socket.AF_UNIX, socket.SOCK_STREAM | socket.SOCK_NONBLOCK) for _ in range(8)]
    for asker in askers:
        asker.connect(ours.socket())
    time.sleep(0.5)
    before = ours.busy()
    time.sleep(3)
    check(ours.busy() - before < 1, f"without files for 8 askers it takes {100 * (ours.busy() - before) / 3:.0f} % of a processor", ours.printed())
    for asker in askers:
        asker.close()
    command("prlimit", "--pid", str(ours.process.pid), "--nofile=1024:")
    check(within(ENDS, lambda: bool(ours.ports())), "and answers again", ours.printed())


def stuck_state(part: Part) -> None:
    """A state that cannot be removed as the peers are told of the end has a line."""
    place = os.path.join(part.folder, "run")
    os.makedirs(place, exist_ok=True)
    if command("mount", "-t", "tmpfs", "-o", "mode=755", "state", place).returncode:
        raise Skipped("no file system can be mounted")
    try:
        ours = part.ours()
        check(within(ENDS, lambda: any(name.endswith(".state") for name in os.listdir(place))), "a daemon keeps its state", os.listdir(place))
        state = next(os.path.join(place, name) for name in os.listdir(place) if name.endswith(".state"))
        # Where the daemon is: a file that is a place for a file system is not removed, and this one is not written.
        there = "nsenter", "-t", str(ours.process.pid), "-m", "mount"
        command(*there, "--bind", state, state)
        command(*there, "-o", "remount,ro,bind", state)
        ours.ends("the daemon")
        check(".state" in ours.printed() and "its state cannot be removed: Read-only file system: remove " in ours.printed(), "a state that stays has a line", ours.printed())
    finally:
        command("umount", "-l", place)


EVERY_KEY = """[Bundle]
key=23
system=32768,02:00:00:00:00:01
port-priority=100
timeout=long
activity=passive
max-links=4
min-links=2
revert=yes
select=bandwidth
wait-to-restore=3
delay-down=300
partner=32768,02:00:00:00:00:02
partner-required=yes
key-by-speed=yes
marker-responses=20
hook=HOOK
state-dir=STATES
hash=layer3+4
hash-seed=9
flight=700
carry=lag0
queues=all
answer-after=70

[Port a0]
priority=5
timeout=short
individual=yes

[Port a1]
key=8
activity=active
hold=yes
"""


def sections(text: str) -> list[set[str]]:
    """The lines of each section of a file of a bundle."""
    return [set(filter(None, it.splitlines()[1:])) for it in text.split("[")[1:]]


def shows_settings(part: Part) -> None:
    """--show-config prints the settings that hold as a file has them, and a daemon of that file has the same."""
    path, long = os.path.join(part.folder, "uplink.conf"), os.path.join(part.folder, "long")
    long += "g" * (175 - len(long))  # the longest path that is taken
    os.symlink("/bin/true", long)
    every = EVERY_KEY.replace("HOOK", long).replace("STATES", long[:-1])
    write_text(path, every)
    ours = Filed(part, path)
    shown = lambda: inside(OURS, ours.program, "--folder", ours.folder, "--show-config").stdout
    check(within(ENDS, lambda: "[Port a1]" in shown()), "a daemon shows its settings", ours.printed())
    check(sections(shown()) == sections(every), "they are those of the file", shown())
    held = inside(OURS, ours.program, "--folder", ours.folder, "--hold", "a0")
    check(held.returncode == 0 and "hold=yes" in sections(shown())[1], "an order changes what is shown", held.stderr, shown())
    told = shown()
    ours.ends("the daemon")
    write_text(path, told)
    check(inside(OURS, ours.program, "--check", path).returncode == 0, "what was shown is a file of a bundle", told)
    ours = Filed(part, path)
    check(within(ENDS, lambda: shown() == told), "a daemon of this file shows the same", told, shown())


def running_settings(part: Part) -> None:
    """SIGHUP changes activity, timeout, max-links and which ports are held, without a link that goes down."""
    ours, theirs = filed(part)

    def reloaded(text: str, changed: int) -> None:
        printed = ours.reload(text, f"read again, {changed} ports changed")
        check("restart" not in printed, f"{changed} ports change at once", printed)

    bits = lambda: set(ours.port("a1")["actor"]["state"]) & {"activity", "timeout"}
    lines = ours.lines("a1")
    reloaded(FILE + "timeout=long\nactivity=passive\n", 1)
    told = lambda: not {"activity", "timeout"} & set(theirs.port("b1")["partner"]["state"])
    check(within(ENDS, told) and not bits(), "a port is passive and long, and its peer knows", theirs.text())
    check(ours.distributes("a0", "a1") and ours.lines("a1") == lines, "its link carried on", ours.printed())
    reloaded(FILE, 1)
    check(within(ENDS, lambda: bits() == {"activity", "timeout"}), "it is active and short again", ours.text())
    reloaded(FILE + "hold=yes\n", 1)
    stops = lambda: ours.port("a1")["status"] == "the host holds it" and not theirs.distributes("b1")
    check(within(GOES_DOWN, stops) and ours.distributes("a0"), "a port is held, and its peer stops, too", ours.text(), theirs.text())
    check("degraded, 1 of 2 links carry" in ours.printed(), "the bundle has a link less", ours.printed())
    flap(OURS, "a1", 1)
    check(within(COMES_UP, lambda: ours.port("a1")["status"] == "the host holds it"), "it is held when its link comes back, too", ours.text())
    reloaded(FILE, 1)
    both_up(ours, theirs, "it is let go, and both links distribute")
    reloaded(FILE.replace("min-links=1", "max-links=1"), 0)
    stands_by = lambda: ours.port("a0")["status"] == "its aggregator has no room for one more link" and not theirs.distributes("b0")
    check(within(GOES_DOWN, stands_by) and ours.distributes("a1"), "with max-links=1 the port with the higher identifier stands by", ours.text())
    reloaded(FILE.replace("min-links=1", "max-links=2"), 0)
    both_up(ours, theirs, "with max-links=2 both links distribute")
    ours.ends("the daemon")
    write_text(ours.file, FILE + "hold=yes\n")
    again = Filed(part, ours.file)
    check(within(COMES_UP, lambda: again.distributes("a0")) and again.port("a1")["status"] == "the host holds it", "a port is held from the start", again.text())


def running_timeouts(part: Part) -> None:
    """SIGHUP makes timeouts long, and a peer that is told sends up to 30 s later: no port stops, no LACPDU is counted that did not come, and the next
    daemon goes on. One that may no longer be the partner, or fell silent, is not waited for any longer than without a change."""
    ours, theirs = filed(part)
    wire = Wire(OURS, "a0")

    def counted() -> int:
        """How many LACPDUs the port has taken, when none is on its way."""
        wire.arrivals(LACPDU)
        count = ours.count("a0", "lacpdus_received")
        return counted() if wire.arrivals(LACPDU) else count

    def reload_behind(text: str) -> None:
        """Reads the file right behind an LACPDU of the peer, so that none is on its way."""
        wire.arrivals(LACPDU)
        check(within(ENDS, lambda: bool(wire.arrivals(LACPDU))), "the peer sends an LACPDU", theirs.text())
        ours.reload(text, "read again, 2 ports changed")

    knows = lambda word: word == ("short" if "timeout" in theirs.port("b0")["partner"]["state"] else "long")
    told = lambda: [ours.lines("a0"), ours.lines("a1"), theirs.lines("b0"), theirs.lines("b1")]
    before, lines = counted(), told()
    ours.reload(LONG, "read again, 2 ports changed")
    time.sleep(2 * TIMEOUT)
    check(told() == lines and knows("long"), "with long timeouts no port stops, for twice the short one", ours.printed(), theirs.printed())
    came, count = len(wire.arrivals(LACPDU)), ours.count("a0", "lacpdus_received")
    check(count == before + came and ours.count("a0", "expired") == 0, f"{came} LACPDUs came, and so many are counted", before, count, ours.text())
    ours.reload(FILE, "read again, 2 ports changed")
    check(within(ENDS, lambda: knows("short")), "the peer knows of the short ones again", theirs.text())
    reload_behind(LONG)
    ours.leave()
    lines = told()[2:]
    ours = Filed(part, ours.file)
    check(within(ENDS, lambda: "2 of 2 links go on" in ours.printed()), "the next daemon goes on, before an LACPDU came", ours.printed())
    time.sleep(2 * TIMEOUT)
    check(told()[2:] == lines and ours.distributes("a0", "a1"), "and its peer has seen nothing", ours.printed(), theirs.printed())
    ours.reload(FILE, "read again, 2 ports changed")
    check(within(ENDS, lambda: knows("short")), "the peer knows of the short ones", theirs.text())
    reload_behind(LONG.replace("partner=first", f"partner=32768,{STRANGER}"))
    stops = lambda: not (ours.distributes("a0") or ours.distributes("a1"))
    check(within(GOES_DOWN, stops), "one that may no longer be the partner is waited for by the short timeout", ours.text())
    ours.reload(FILE, "read again, 2 ports changed")
    both_up(ours, theirs, "as the partner it is one again")
    theirs.kill()
    ours.reload(LONG, "read again, 2 ports changed")
    left = ours.port("a0")["current_while"]
    check(0 < left <= LONG_TICKS, f"one that fell silent is waited for by the long timeout: {left} ticks", ours.text())


def watchers(part: Part) -> None:
    """Changes as they happen: lines, and JSON; and counts in the form of Prometheus."""
    ours, theirs = pair_up(part)
    told: dict[tuple[str, ...], str] = {}
    seeing: list[subprocess.Popen[bytes]] = []
    for kind in (), ("--json",):
        told[kind] = os.path.join(part.folder, f"watched{len(kind)}")
        with open(told[kind], "w", encoding="utf-8") as out:
            words = ["ip", "netns", "exec", OURS, ours.program, "--folder", ours.folder, "--watch", *kind]
            seeing.append(subprocess.Popen(words, stdout=out))
    time.sleep(1)
    ip(THEIRS, "link", "set", "b1", "down")
    within(GOES_DOWN, lambda: ours.port("a1")["status"] == "the link is down")
    time.sleep(1)
    lines = open(told[()], encoding="utf-8").read()
    check(lines and lines in ours.printed(), "who watches sees the lines that are printed", lines, ours.printed())
    events = [json.loads(line) for line in open(told[("--json",)], encoding="utf-8")]
    ports = [event["port"]["status"] for event in events if event["event"] == "port" and event["port"]["interface"] == "a1"]
    # An LACPDU that goes out just as the link goes fails, and that is a change of the port, too.
    check(ports in (["the link is down"], ["it distributes", "the link is down"]), "or JSON of each change of a port", events)
    check([event["state"] for event in events if event["event"] == "bundle"] == ["degraded"], "and of the bundle", events)
    text = inside(OURS, ours.program, "--folder", ours.folder, "--metrics").stdout
    sample = r'(lagd_\w+\{bundle="a0"(,\w+="[^"]*")*\}|lagd_time_seconds) \d+'
    odd = [line for line in text.splitlines() if not re.fullmatch(rf"# (HELP|TYPE) lagd_\w+ .+|{sample}", line)]
    check(text and not odd, "--metrics has the form of Prometheus", *odd)
    wanted = ['lagd_bundle_state{bundle="a0",state="degraded"} 1', 'lagd_port_carrying{bundle="a0",interface="a0",port="1"} 1']
    wanted += ['lagd_port_link_losses_total{bundle="a0",interface="a1",port="2"} 1', 'lagd_port_distributed_total{bundle="a0",interface="a1",port="2"} 1']
    check(all(line in text.splitlines() for line in wanted), "with states and counts", text)
    ours.ends("the daemon")
    check(within(ENDS, lambda: all(it.poll() == 0 for it in seeing)), "who watches ends with it")


def metrics_of_two(part: Part) -> None:
    """Two daemons: each metric has one head."""
    first, _ = part.ours("a0"), part.start(OURS, OTHER, "9", "a1")
    within(ENDS, lambda: set(first.ports()) == {"a0", "a1"})
    text = inside(OURS, first.program, "--folder", first.folder, "--metrics").stdout
    heads = re.findall(r"^# TYPE (\w+) ", text, re.M)
    check(heads and len(heads) == len(set(heads)), "the metrics of two daemons have one head each", text)
    groups = [match[1] for match in re.finditer(r"^(\w+)[{ ]", text, re.M)]
    starts = [name for at, name in enumerate(groups) if at == 0 or groups[at - 1] != name]
    check(len(starts) == len(set(starts)) == len(heads), "and its values stand together", starts)
    check(text.count('lagd_bundle_links{bundle="a1"} 1\n') == 1 and text.count('lagd_bundle_links{bundle="a0"} 1\n') == 1, "of both", text)


def hooks(part: Part) -> None:
    """A program is run where the bundle is up, degraded or down, and nobody waits for it."""
    hook, told, slack = (os.path.join(part.folder, name) for name in ("hook", "told", "slack"))
    state = "$LAGD_BUNDLE $LAGD_PREVIOUS $LAGD_STATE $LAGD_CARRYING/$LAGD_LINKS $LAGD_AGGREGATOR"
    write_text(hook, f'#!/bin/sh\ncat /proc/self/timerslack_ns > {slack}\necho "{state}" >> {told}\nexec sleep 60\n')
    os.chmod(hook, 0o755)
    ours, theirs = pair_up(part, ours=["--hook", hook])
    ip(THEIRS, "link", "set", "b1", "down")
    ip(THEIRS, "link", "set", "b0", "down")
    seen = lambda: open(told, encoding="utf-8").read().split("\n")[:-1] if os.path.exists(told) else []
    check(within(GOES_DOWN, lambda: len(seen()) >= 2 and seen()[-1].endswith(" down 0/2 0")), "the hook is run, though the one before has not ended", seen(), ours.printed())
    lines = seen()
    check("a0 down up 2/2 1" in lines and lines[-1].startswith("a0 "), "it has the state in its environment", *lines)
    slacks = [open(path, encoding="utf-8").read() for path in (slack, "/proc/self/timerslack_ns")]
    check(slacks[0] == slacks[1], "and the timer slack that the daemon was started with", *slacks)
    children = command("ps", "--ppid", str(ours.process.pid), "-o", "stat=").stdout
    check("Z" not in children, "hooks that end leave nothing", children)
    for line in command("ps", "--ppid", str(ours.process.pid), "-o", "pid=").stdout.split():
        os.kill(int(line), signal.SIGKILL)


def managed(part: Part) -> None:
    """The manager of services is told when the daemon is ready, what it does, and that it lives."""
    if "-DHAVE_SYSTEMD" not in daemon_words()[0]:
        raise Skipped("built without libsystemd")
    path, file = os.path.join(part.folder, "notify"), os.path.join(part.folder, "uplink.conf")
    write_text(file, FILE)
    manager = socket.socket(socket.AF_UNIX, socket.SOCK_DGRAM | socket.SOCK_NONBLOCK)
    manager.bind(path)
    told: list[str] = []

    def hears(word: str) -> bool:
        with contextlib.suppress(BlockingIOError):
            told.extend(manager.recv(4096).decode().split("\n"))
        return word in told

    ours, _ = Filed(part, file, more={"NOTIFY_SOCKET": path}), part.theirs()
    check(within(ENDS, lambda: hears("READY=1")), "the manager is told that the daemon is ready", told)
    check(within(ENDS, lambda: hears("WATCHDOG=1")), "that it lives", told)
    check(within(COMES_UP, lambda: hears("STATUS=up, 2 of 2 links carry")), "and what it does", told)
    told.clear()
    ours.process.send_signal(signal.SIGHUP)
    check(within(ENDS, lambda: hears("READY=1")) and "RELOADING=1" in told, "it is told of a reload", told)
    ours.process.send_signal(signal.SIGTERM)
    check(within(ENDS, lambda: hears("STOPPING=1")) and ours.status() == 0, "and of the end", told)


def ids_of_lines() -> dict[str, str]:
    """The message ids of lines, by what the lines tell, as docs/LAGD.md has them."""
    with open(os.path.join(TOP, "docs", "LAGD.md"), encoding="utf-8") as page:
        return {what: number for what, number in re.findall(r"^\| ?(.+?) ?\| ?`([0-9a-f]{32})` ?\|$", page.read(), re.M)}


def entries(listener: socket.socket, daemon: Daemon, wanted: int) -> list[dict[str, str]]:
    """What the daemon hands the journal, until there is so much of it: entries of fields."""
    found: list[dict[str, str]] = []

    def hears() -> bool:
        try:
            while True:
                found.append(dict(line.split("=", 1) for line in listener.recv(4096).decode().splitlines()))
        except BlockingIOError:
            return len(found) >= wanted

    check(within(ENDS, hears), f"the journal hears {wanted} entries", found, daemon.printed())
    return found


def message_ids(part: Part) -> None:
    """What the journal gets by its own protocol: each kind of line has its message id."""
    ids = ids_of_lines()
    given = re.findall(r'"([0-9a-f]{32})"', read_text(os.path.join(TOP, "lagd", "lagd.h")))
    check(sorted(given) == sorted(ids.values()) and len(set(given)) == len(given) > 5, "the documents have each message id", given, ids)
    place, (reader, writer) = os.path.join(part.folder, "journal"), socket.socketpair()
    os.mkdir(place)
    listener = socket.socket(socket.AF_UNIX, socket.SOCK_DGRAM | socket.SOCK_NONBLOCK)
    listener.bind(os.path.join(place, "socket"))
    found = os.fstat(writer.fileno())
    words = ["env", f"JOURNAL_STREAM={found.st_dev}:{found.st_ino}", "unshare", "--mount", "sh", "-c"]
    words += [f'mount -t tmpfs none /run && mkdir -p {JOURNAL} && mount --bind {place} {JOURNAL} && exec "$@"', "sh"]
    ours = part.ours("a0", out=writer, before=words)
    kinds = [(entry.get("MESSAGE_ID"), entry.get("MESSAGE")) for entry in entries(listener, ours, 2)]
    port = (ids.get("a port changed"), "port 1 a0: no LACPDU came in time, aggregator 0, no partner")
    bundle = (ids.get(BUNDLE_LINE), "bundle a0: down, 0 of 1 links carry, aggregator 0")
    check(kinds[:2] == [port, bundle], "a line of a port and one of the bundle have an id each", *kinds)
    ours.process.terminate()
    status, last = ours.status(), entries(listener, ours, 1)[-1]
    wanted = {"MESSAGE": "port 1 a0: ended", "PRIORITY": "5", "MESSAGE_ID": ids.get("the daemon left a port, as it ends")}
    wanted.update(SYSLOG_IDENTIFIER="lagd", LAGD_BUNDLE="a0")
    check(last == wanted and status == 0, "so has the last one, with its fields", last)
    reader.setblocking(False)
    try:
        check(reader.recv(4096) == b"", "and standard output has none of them")
    except BlockingIOError:
        check(True, "and standard output has none of them")


def journal(part: Part) -> None:
    """A line for the journal begins with its priority, where the journal is not in its place."""
    reader, writer = socket.socketpair()
    found = os.fstat(writer.fileno())
    ours = part.ours("a0", out=writer, before=["env", f"JOURNAL_STREAM={found.st_dev}:{found.st_ino}"])
    check(within(ENDS, ours.ports), "a daemon whose lines the journal reads", ours.printed())
    time.sleep(0.5)
    lines = reader.recv(4096).decode().splitlines()
    check(lines[:1] == ["<4>port 1 a0: no LACPDU came in time, aggregator 0, no partner"], "a line has its priority, and no time", *lines)


def rights(part: Part) -> None:
    """Started as root, the daemon keeps CAP_NET_RAW alone, and gets nothing back; an interface that comes later is taken up."""
    ip(OURS, "link", "del", "a1")
    ours = part.ours()
    within(ENDS, lambda: ours.port("a0")["link"] == "up")
    has = dict(re.findall(r"^(\w+):\t(\S+)$", read_text(f"/proc/{ours.process.pid}/status"), re.M))
    wanted = {"CapInh": 0, "CapPrm": 1 << 13, "CapEff": 1 << 13, "CapBnd": 0, "CapAmb": 0, "NoNewPrivs": 1}
    found = {name: int(has[name], 16) for name in wanted}
    check(found == wanted, "as root the daemon keeps CAP_NET_RAW alone", found)
    make_pair(1)
    check(within(ENDS, lambda: ours.port("a1")["link"] == "up"), "and takes up an interface that comes later", ours.text())


def unit(part: Part) -> None:
    """The unit: what systemd says of it, and a daemon with the rights that it gives."""
    if not shutil.which("systemd-analyze"):
        raise Skipped("no command systemd-analyze (Debian: systemd)")
    told = command("systemd-analyze", "security", "--offline=true", UNIT).stdout
    level = re.search(r"Overall exposure level for \S+: (\S+)", told)
    check(level and float(level[1]) <= EXPOSED, f"systemd-analyze security: at most {EXPOSED}", level and level[0])
    with open(UNIT, encoding="utf-8") as text, open(os.path.join(TOP, "lagd", "carry.conf"), encoding="utf-8") as more:
        whole = re.sub(r"^Documentation=.*\n", "", text.read(), flags=re.M).replace("/usr/sbin/lagd", part.program)
        write_text(os.path.join(part.folder, "lagd@uplink.service"), whole.replace("[Install]", more.read() + "[Install]"))
    verified = command("systemd-analyze", "verify", os.path.join(part.folder, "lagd@uplink.service"))
    check((verified.returncode, verified.stderr) == (0, ""), "systemd-analyze verify has no fault to find, with carry.conf either", verified.stderr)
    if not shutil.which("setpriv"):
        raise Skipped("no command setpriv (Debian: util-linux)")
    os.chmod(part.folder, 0o755)
    file, run = os.path.join(part.folder, "uplink.conf"), os.path.join(part.folder, "run")
    write_text(file, FILE)
    shutil.rmtree(run, ignore_errors=True)
    os.mkdir(run)
    os.chown(run, int(NOBODY), int(NOBODY))
    words = ["setpriv", "--reuid", NOBODY, "--regid", NOBODY, "--clear-groups", "--no-new-privs", "--bounding-set=-all,+net_raw"]
    words += ["--inh-caps=-all,+net_raw", "--ambient-caps=-all,+net_raw"]
    ours = Filed(part, file, before=words)
    part.folder = os.path.join(part.folder, "theirs")
    os.mkdir(part.folder)
    both_up(ours, part.theirs(), "with the rights of the unit both links distribute")
    found = [it.getsockopt(socket.SOL_SOCKET, socket.SO_PRIORITY) for it in sockets_of(ours.process.pid)]
    check(found == [CONTROL, CONTROL], "its frames have the priority of control frames, too", found)
    ours.ends("the daemon")
    shutil.rmtree(run)  # what the daemons of other parts have is root's


PARTS: dict[str, Callable[[Part], None]] = {
    "files": files,
    "the address of an interface": own_address,
    "a reload": reloads,
    "settings of a running bundle": running_settings,
    "timeouts of a running bundle": running_timeouts,
    "settings that are shown": shows_settings,
    "ports that come and go": ports_change,
    "questions": questions,
    "a state that stays": stuck_state,
    "watchers and metrics": watchers,
    "metrics of two daemons": metrics_of_two,
    "hooks": hooks,
    "the manager of services": managed,
    "lines for the journal": journal,
    "message ids": message_ids,
    "the rights of root": rights,
    "the unit": unit,
}
