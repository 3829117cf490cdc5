"""DPDK's mode 4 with the library: two partners, members that come and go, a cable that is pulled, timeouts, DPDK's own suite, and Debian's own dpdk-testpmd."""

from __future__ import annotations

import contextlib
import glob
import os
import re
import shlex
import shutil
import socket
import subprocess
import tempfile
import threading
import time
from typing import Callable, Iterator

from built import HOSTS, Built
from checking import Failed, Skipped, check, within
from dpdk import FOLDER, OBJECT
from fetching import Packages
from linking import build_daemon
from pmd import PYTHON, Lagd, Partner, Spaces, Testpmd, Traffic
from repository import MAINTAIN, TOP, read_text
from spaces import ip
from switches import words_of
from testpmd import Testpmd as Debians

TESTS = os.path.join(HOSTS, "dpdk", "tests")
HOOK = os.path.join(MAINTAIN, "peers.d", "hook.py")
BOTH = {"0", "1"}
# Limits of what is waited for, in seconds: a partner of long timeouts is missed after 90 s.
COMES_UP, GOES_DOWN = 40, 110
SANITIZED = "-O1", "-g", "-fno-omit-frame-pointer", "-fsanitize=address,undefined", "-fno-sanitize-recover=undefined"
# Of DPDK's suite: it sets the times of the protocol, which the library does not take (docs of hosts/dpdk).
OTHER_TIMES = {"test_mode4_expired"}
EAL = ["--no-huge", "-m", "512", "--no-pci", "--no-telemetry", "--no-shconf", "-l", "0"]


def program(built: Built) -> list[str]:
    return [f"{built.tree('dpdk')}/build/app/dpdk-testpmd"]


@contextlib.contextmanager
def beside(built: Built, kind: str, more: str = "") -> Iterator[tuple[Testpmd, Lagd]]:
    """testpmd beside lagd, both of whose links carry."""
    spaces = Spaces(0 if kind == "tap" else 2)
    device = Testpmd(spaces, program(built), f"{built.folder}/testpmd.log", kind, more)
    peer: Lagd | None = None
    try:
        device.start()
        space, names = (spaces.near, ["t0", "t1"]) if kind == "tap" else (spaces.far, ["a0", "a1"])
        for name in names:
            ip(space, "link", "set", name, "up")
        peer = Lagd(build_daemon(built.folder, built.archives()), space, names, f"{built.folder}/lagd-{kind}{len(more)}")
        check(within(20, peer.is_up) and within(COMES_UP, lambda: device.carrying() == BOTH), f"{kind}{more}: both members carry beside lagd", device.view())
        yield device, peer
    finally:
        if peer:
            peer.end()
        device.end()
        spaces.end()


def whole(what: str, device: Testpmd, peer: Lagd, seconds: float = 4, act: Callable[[], object] = lambda: None) -> None:
    """Data both ways while something is done: none is lost."""
    went = Traffic(device, peer).during(seconds, act)
    check(not went.from_it and not went.to_it, f"{what}: {went.from_it} frames of the client lost from it, {went.to_it} to it", went)


def members(built: Built) -> None:
    """Members at run time, over packet sockets: one leaves, and comes back, with data both ways; many times; the device stops and starts."""
    with beside(built, "af_packet") as (device, peer):
        went = Traffic(device, peer).during(4)
        check(not went.from_it and not went.to_it and min(went.by_link) > 50, "data of 64 flows goes by both links, each way, and none is lost", went)
        whole("a member is removed, and held first", device, peer, 3, lambda: device.ask("remove bonding slave 1 3"))
        check(device.carrying() == {"0"}, "it is out", device.view())
        whole("it is added again", device, peer, 6, lambda: device.ask("add bonding slave 1 3"))
        check(within(COMES_UP, lambda: device.carrying() == BOTH), "both carry", device.view())
        other = 0
        for turn in range(20):
            device.ask("remove bonding slave 1 3")
            time.sleep(0.05 * (turn % 7))
            other += "0" not in device.carrying()
            device.ask("add bonding slave 1 3")
            time.sleep(0.05 * (turn % 5))
            other += "0" not in device.carrying()
        check(not other, "one leaves and comes 20 times: the other one carries each time that somebody looks", other)
        device.ask("stop")
        for _ in range(3):
            device.ask("port stop 3")
            device.ask("port start 3")
        device.ask("start")
        check(within(COMES_UP, lambda: device.carrying() == BOTH), "the device stops and starts three times: both carry", device.view())
        whole("as before", device, peer)


def pulled(built: Built) -> None:
    """Over net_tap, whose links have a carrier: a cable is pulled, and plugged in."""
    with beside(built, "tap") as (device, peer):
        ip(peer.space, "link", "set", "t1", "down")
        check(within(2, lambda: device.carrying() == {"0"}), "a cable is pulled: its member is out within 2 s", device.view())
        whole("the data goes on by the other one", device, peer)
        ip(peer.space, "link", "set", "t1", "up")
        check(within(COMES_UP, lambda: device.carrying() == BOTH), "it is plugged in: both carry", device.view())
        whole("data goes by both", device, peer)


def rates(built: Built) -> None:
    """lacp_rate: short timeouts, by which a silent link is missed after 3 s; and a word that it is not."""
    with beside(built, "af_packet", ",lacp_rate=fast") as (device, peer):
        begun = time.monotonic()
        ip(peer.space, "link", "set", "a1", "down")
        check(within(GOES_DOWN, lambda: device.carrying() == {"0"}) and time.monotonic() - begun < 8, f"lacp_rate=fast: a silent link is out after {time.monotonic() - begun:.1f} s", device.view())
        ip(peer.space, "link", "set", "a1", "up")
        check(within(COMES_UP, lambda: device.carrying() == BOTH), "it is back: both carry", device.view())
    spaces = Spaces(2)
    wrong = Testpmd(spaces, program(built), f"{built.folder}/wrong.log", more=",lacp_rate=quick")
    try:
        with contextlib.suppress(Failed):
            wrong.start()
        told = read_text(wrong.log)
        check("Invalid lacp_rate" in told, "lacp_rate=quick is refused, and it is said", told[-800:])
    finally:
        wrong.end()
        spaces.end()


def apart(spaces: Spaces, device: Testpmd) -> tuple[list[int], float, list[int]]:
    """Two partner systems, each in sync: how many frames of the client each gets in 6 s, and then, where the partner of the first link is out of sync, the time from
    its last frame to the first one of the other, and how many of the second."""
    partners = [Partner(spaces.far, f"a{n}", f"02:00:00:00:00:a{n}") for n in (0, 1)]
    try:
        device.start()
        device.data().many = True
        if not within(COMES_UP, lambda: any(it.came for it in partners)):
            raise Failed("one partner has data of the client", device.view())
        time.sleep(3)
        before = [len(it.came) for it in partners]
        time.sleep(6)
        both = [len(it.came) - was for it, was in zip(partners, before)]
        first = both.index(max(both))
        partners[first].leaves.set()
        time.sleep(4)
        after = [len(it.came) - was - had for it, was, had in zip(partners, before, both)]
        last, begins = partners[first].came[-1], partners[1 - first].came
        return both, (begins[0] - last) if begins else 99.0, [after[first], after[1 - first]]
    finally:
        device.end()
        for it in partners:
            it.end()


def partners(built: Built) -> None:
    spaces = Spaces(2)
    try:
        both, gap, after = apart(spaces, Testpmd(spaces, program(built), f"{built.folder}/partners.log"))
    finally:
        spaces.end()
    print(f"row: two partner systems | frames in 6 s {both} | out of sync {after} | {gap:.2f} s between")
    check(min(both) == 0 and max(both) > 300, "of two partner systems one has the data of the client, and the other none", both)
    check(0 < gap < 1 and after[1] > 200, "the partner that carries is out of sync: behind its last frame the other one has them", gap, after)


def usual(built: Built) -> None:
    for it in partners, members, pulled, rates:
        it(built)


def suite(built: Built, name: str, patch: bool, words: tuple[str, ...]) -> subprocess.CompletedProcess[str]:
    """DPDK's own suite of mode 4, linked with the driver of the build, or, with words for the compiler, with its files compiled so."""
    tree, made = built.tree("dpdk"), f"{built.folder}/{name}"
    shutil.copy(f"{tree}/app/test/test_link_bonding_mode4.c", f"{made}.c")
    if patch:
        subprocess.run(["patch", "-s", f"{made}.c", f"{TESTS}/expectations.patch"], check=True)
    build, driver = f"{tree}/build", sorted(glob.glob(f"{tree}/{FOLDER}/*.c"))
    driver = [it for it in driver if not it.endswith(("_testpmd.c", "/lag.c"))] if words else []
    libraries = [f"{build}/drivers/librte_{it}.a" for it in (*([] if words else ["net_bond"]), "net_ring", "mempool_ring", "bus_vdev", "bus_pci")]
    places = [build, f"{tree}/config", f"{tree}/app/test", f"{tree}/lib/eal/linux/include", f"{tree}/lib/eal/x86/include", f"{tree}/lib/eal/include"]
    places += [*glob.glob(f"{tree}/lib/*/"), *(f"{tree}/drivers/{it}" for it in ("net/bonding", "net/ring", "bus/vdev", "bus/pci"))]
    line = ["-O2", "-march=corei7", "-w", "-include", "rte_config.h", "-DALLOW_EXPERIMENTAL_API", "-DALLOW_INTERNAL_API", "-D_GNU_SOURCE", "-DRTE_LOG_DEFAULT_LOGTYPE=bond",
            *words, *(f"-I{it}" for it in places), "-o", made, f"{TESTS}/own_suite.c", f"{made}.c", f"{tree}/app/test/packet_burst_generator.c", *driver]  # fmt: skip
    line += ["-Wl,--whole-archive", *libraries, "-Wl,--no-whole-archive", "-Wl,--start-group", *sorted(glob.glob(f"{build}/lib/librte_*.a")), "-Wl,--end-group"]
    line += ["-lpthread", "-ldl", "-lm", "-lnuma"]
    if words:
        line.remove("-DRTE_LOG_DEFAULT_LOGTYPE=bond")
    built.compile(*line)
    return subprocess.run([made, *EAL, f"--file-prefix={name}{os.getpid()}"], capture_output=True, text=True, timeout=900, env={**os.environ, "ASAN_OPTIONS": "detect_leaks=0"})


def own(built: Built) -> None:
    """Each test of DPDK's suite passes but those that set other times; so it does with the driver's files sanitized, and nothing is found."""
    for name, words in ("suite", ()), ("suite-sanitized", SANITIZED):
        told = suite(built, name, True, words)
        rows = dict((test, verdict) for verdict, test in re.findall(r"^(pass|FAIL) (\w+)$", told.stdout, re.M))
        print(*(f"row: {name} | {test} | {verdict}" for test, verdict in rows.items()), sep="\n")
        failed = {test for test, verdict in rows.items() if verdict == "FAIL"}
        check(len(rows) == 8 and failed <= OTHER_TIMES, f"{name}: DPDK's own tests of mode 4 pass, but {', '.join(OTHER_TIMES)}", failed, told.stdout[-800:], told.stderr[-800:])
        found = re.findall(r"^.*(?:runtime error|ERROR: AddressSanitizer).*$", told.stderr, re.M)
        check(not found, f"{name}: the sanitizers find nothing", *found[:5])


def debian(built: Built) -> None:
    """Debian's own dpdk-testpmd, as it is, with the shared object of the package in the place of its own, and back."""
    tree, packages = built.tree("dpdk"), Packages(f"{built.sources.cache}-peers", built.sources.may_fetch)
    place = Debians(packages, built.folder)
    drivers, spaces = f"{built.folder}/drivers", Spaces(2)
    shutil.copytree(place.drivers(), drivers, symlinks=False)
    libraries = f"{built.folder}/libraries"
    os.makedirs(libraries)
    environment = packages.environment()
    paths = environment["LD_LIBRARY_PATH"]
    found = [it for it in paths.split(":") if glob.glob(f"{it}/{OBJECT}")]
    if not found:
        raise Skipped(f"Debian's packages have no {OBJECT}")
    try:
        for way, ours, source in ("the library's", True, f"{tree}/build/drivers/{OBJECT}"), ("its own", False, f"{found[0]}/{OBJECT}"):
            for target in glob.glob(f"{drivers}/librte_net_bond.so*"):
                shutil.copy(source, target)
            shutil.copy(source, f"{libraries}/librte_net_bond.so.23")
            device = Testpmd(spaces, [packages.program("dpdk-testpmd"), "-d", drivers], f"{built.folder}/debian.log", environment={**environment, "LD_LIBRARY_PATH": f"{libraries}:{paths}"})
            both, _, _ = apart(spaces, device)
            print(f"row: Debian's dpdk-testpmd with {way} {OBJECT} | frames of the client to two partners in 6 s {both}")
            check((min(both) == 0) == ours, f"Debian's dpdk-testpmd with {way} object: {'one partner has' if ours else 'both partners have'} data of the client", both)
    finally:
        spaces.end()


def serve(device: Testpmd, path: str) -> None:
    """Answers the hook of lagconform, one call at a time. What it does not know is said so."""
    listening = socket.socket(socket.AF_UNIX)
    listening.bind(path)
    listening.listen()
    while True:
        call = listening.accept()[0]
        words, told = call.recv(1000).decode().split(), b"0"
        try:
            if words[0] in ("stop", "start"):
                (device.start if words[0] == "start" else device.stop)()
            elif words[0] == "data":
                device.data().many = words[1] == "start"
            elif words[0] != "reset":
                told = f"1KeyError: {words[0]}".encode()
        except (Failed, OSError, subprocess.SubprocessError) as why:
            told = f"1{type(why).__name__}: {why}".encode()
        call.sendall(told)
        call.close()


def conformed(built: Built, words: list[str], more: str) -> str:
    """What lagconform tells of it."""
    spaces = Spaces(2)
    device = Testpmd(spaces, words, f"{built.folder}/conform.log", more=more)
    with tempfile.TemporaryDirectory() as folder:
        try:
            device.start()
            threading.Thread(target=serve, args=(device, f"{folder}/hook"), daemon=True).start()
            hook = shlex.join([PYTHON, HOOK, f"{folder}/hook"])
            environment = {**os.environ, "NIWHOPERA_LIBRARY": built.shared(), "PYTHONDONTWRITEBYTECODE": "1"}
            return subprocess.run(["ip", "netns", "exec", spaces.far, "tools/lagconform", "a0", "a1", "--hook", hook], cwd=TOP, env=environment, capture_output=True, text=True).stdout
        finally:
            device.end()
            spaces.end()


def conforms(built: Built) -> None:
    """lagconform on two links, with short timeouts."""
    if built.beside:
        own = [f"{built.tree('dpdk', True)}/build/app/dpdk-testpmd"]
        print(f"row: DPDK as it is | {words_of(conformed(built, own, ''))}", flush=True)
    told = conformed(built, program(built), ",lacp_rate=fast")
    print(f"row: DPDK | {words_of(told)}")
    check(re.search(r"^\d+ pass, 0 fail", told, re.M), "lagconform finds nothing in DPDK's mode 4", *re.findall(r"^fail .*$", told, re.M))
