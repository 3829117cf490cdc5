"""The words of the command line, and the tests that they choose."""

from __future__ import annotations

import argparse
import fnmatch
import os
from typing import Optional, Sequence

from niwhopera import Mac

from . import pics
from .bench import BASE
from .files import check_writable
from .groups import TESTS
from .model import LONG, SURE, Test
from .refusals import MOST_LINKS, Refused
from .runner import ordered

# So many links a stack in memory has: what each test wants.
MEMORY_LINKS = 3
# The seed of random frames.
SEED = 1
ABOUT = """Tests a device which runs LACP at the far end of one to four cables, by frames alone.

It prints a line for each test, and in the end the count of each verdict. The status is 0 if nothing failed but what --known has, 1 if
something did (with --strict also if a test broke, came to no answer or passed while the bench was late, or a known fail passes), 2 if the
bench could not run to its end, a test broke by a fault of its own, a report could not be written, or, also with --strict, no test came to
pass or fail, 3 if the device sent no LACPDU before the first test, and 130 after SIGINT. It wants CAP_NET_RAW, and the interfaces for
itself: in no bond, in no bridge, and with no other program that speaks LACP there.

With --memory it wants none of these: the device is a stack in a file, and a run of all tests, the long ones too, takes seconds.

The hook is a command that gets words behind it. It ends with status 0 if it did what they say, and with 64 if it does not know them; another
status is an error of the hook:

    reset                  bring the device into the state in which it is to be tested
    set KEY VALUE          set something of the device: for each --set KEY=VALUE
    stop, start            end and start LACP on the device
    down N, up N           take the device's end of link N down and up
    data start, data stop  have the client of the device's aggregator send frames of many
                           flows between them: UDP from 198.18.0.0/16, to other addresses
                           and ports in each flow

The first two come before the first test, and a hook that fails there ends the run. `start` does not come there: the device is configured, and
sends LACPDUs, before the run begins. Tests that want words which the hook does not know are skipped; where it fails, they are inconclusive."""


def system(text: str) -> Mac:
    """The first system of the bench, with a number in octets 3 to 5 that it counts."""
    try:
        mac = Mac(text)
    except ValueError:
        raise argparse.ArgumentTypeError(f"an address, as {BASE}, and not {text}") from None
    if mac[0] & 1:
        raise argparse.ArgumentTypeError(f"{text} is a multicast address; a system has an individual one")
    if any(mac[2:5]) or not any(mac):
        raise argparse.ArgumentTypeError(f"the bench counts its systems in octets 3 to 5, which are 0 in the first one, as in {BASE}; and not {text}")
    return mac


def seconds(text: str) -> float:
    """A time of the command line."""
    number = float(text)
    if not 0 <= number <= SURE:
        raise argparse.ArgumentTypeError(f"a number of seconds from 0 to {SURE:g}, and not {text}")
    return number


def links(text: str) -> int:
    """How many links a stack in memory has."""
    number = int(text)
    if not 1 <= number <= MOST_LINKS:
        raise argparse.ArgumentTypeError(f"1 to {MOST_LINKS}, and not {text}")
    return number


def times(text: str) -> int:
    """How often a test is run."""
    number = int(text)
    if not 1 <= number <= 1000:
        raise argparse.ArgumentTypeError(f"1 to 1000, and not {text}")
    return number


def reader() -> argparse.ArgumentParser:
    """The words of the command line."""
    it = argparse.ArgumentParser(prog="lagconform", description=ABOUT, formatter_class=argparse.RawDescriptionHelpFormatter)
    it.add_argument("interfaces", nargs="*", metavar="INTERFACE", help="the interface of a link; one or two, and three or four for the tests of three links")
    it.add_argument("--version", action="store_true", help="print the version, and which library runs")
    add_reports(it)
    add_device(it)
    add_tests(it)
    return it


def add_reports(it: argparse.ArgumentParser) -> None:
    """What a run writes."""
    it.add_argument("--device", default="device under test", help="its name in the reports")
    it.add_argument("--report", metavar="FILE", help="write a page of HTML, with a time diagram of each test")
    it.add_argument("--junit", metavar="FILE", help="write a JUnit file")
    it.add_argument("--tap", metavar="FILE", help="write a TAP file (version 14)")
    it.add_argument("--json", metavar="FILE", help="write a JSON file; with --list one of the tests")
    it.add_argument("--matrix", metavar="FILE", help="write a table of Markdown: each clause, its verdict and its tests")
    it.add_argument("--pcap", metavar="FILE", help="write the frames of the run as pcapng, whose packet numbers the reports name")
    it.add_argument("--captures", metavar="FOLDER", help="write the frames of each test into a file of this folder, as RX-02.pcapng, and make it")


def add_device(it: argparse.ArgumentParser) -> None:
    """What the device is, claims and does."""
    it.add_argument("--memory", metavar="FILE", help="test a stack in memory, without links: a file of Python with a class Device, or a shared library")
    it.add_argument("--links", metavar="N", type=links, help=f"with --memory: how many links there are, 1 to 4 ({MEMORY_LINKS})")
    items = "; ".join(f"{name}: {text}" for name, text in pics.ITEMS.items())
    it.add_argument("--pics", metavar="FILE", help=f"what the device claims: lines of yes or no for these items: {items}")
    it.add_argument("--known", metavar="FILE", help="fails that are known: lines of a test and a reason")
    it.add_argument("--hook", metavar="COMMAND", help="a command that has the device do something, above")
    it.add_argument("--set", metavar="KEY=VALUE", action="append", default=[], help="a setting for the hook; may be given again")
    it.add_argument("--system", metavar="MAC", type=system, help=f"the bench's first system ({BASE}): each bench at one device, or MLAG pair, wants its own")
    it.add_argument("--flap", action="store_true", help="take our own end of a link down, where the device sees that; wants CAP_NET_ADMIN")


def add_tests(it: argparse.ArgumentParser) -> None:
    """Which tests run, and how."""
    it.add_argument("--only", metavar="TEST", action="append", help="tests to run, as RX-02 or 'RX-*', also a long one by its name; may be given again")
    it.add_argument("--tests", metavar="FILE", action="append", default=[], help="more tests: a file of Python; may be given again")
    it.add_argument("--not", metavar="TEST", action="append", dest="left_out", default=[], help="tests to leave out; may be given again")
    it.add_argument("--long", action="store_true", help=f"run tests of more than {LONG} s, too; with --memory they always run")
    it.add_argument("--repeat", metavar="N", type=times, default=1, help="run each test N times; its verdict is the worst of them")
    others = "those without an answer and those that passed while the bench was late run again"
    it.add_argument("--resume", metavar="FILE", help=f"take verdicts over from the JSON of a run of this device and build, and run the other tests; {others}")
    strict = "a test without an answer, a pass while the bench was late and a known fail that passes count as fails, in JUnit and TAP, too"
    it.add_argument("--strict", action="store_true", help=strict)
    it.add_argument("--keep-going", action="store_true", help="run the others where five tests in turn came to nothing; the status stays as without it")
    it.add_argument("--shadow", action="store_true", help="tell where the engine would have sent another LACPDU in the device's place")
    it.add_argument("--seed", type=int, help=f"the seed of random frames ({SEED}, or that of the run that --resume names)")
    it.add_argument("--slack", metavar="SECONDS", type=seconds, default=0.15, help="so late this machine and the link may be (0.15); more hides faults")
    it.add_argument("--list", action="store_true", help="print the tests, and end")
    it.add_argument("--markdown", action="store_true", help="with --list: as tables")


def matches(test: Test, patterns: Sequence[str]) -> bool:
    """Whether a test has a name of one of these patterns."""
    return any(fnmatch.fnmatch(test.id, it) for it in patterns)


def selected(only: Optional[Sequence[str]], long: bool, links: int, left_out: Sequence[str] = ()) -> list[Test]:
    """The tests to run, in their order. A long test that is named runs. A pattern that no test has, or that leaves none, is refused."""
    named = only or ()
    runs = [it for it in TESTS if (long or not it.is_long or it.id in named) and it.links <= links]
    for pattern in (*named, *left_out):
        own = [it for it in TESTS if fnmatch.fnmatch(it.id, pattern)]
        if not own:
            raise Refused(f"there is no test {pattern}: --list prints them")
        if pattern in named and not any(it in runs for it in own):
            raise Refused(f"{pattern} wants {f'{own[0].links} links' if own[0].links > links else '--long'}")
    chosen = ordered(it for it in runs if (not only or matches(it, named)) and not matches(it, left_out))
    if not chosen:
        raise Refused("no test is left")
    return chosen


def check_words(given: argparse.Namespace) -> None:
    """Refuses words that would do nothing, or too late."""
    if given.set and not given.hook:
        raise Refused("--set wants --hook: the hook sets it")
    for it in given.set:
        if not it.partition("=")[0] or "=" not in it:
            raise Refused(f"--set {it}: it is KEY=VALUE")
    if given.links and not given.memory:
        raise Refused("--links wants --memory: a run on cables has the links whose interfaces it is given")
    if given.memory and (given.interfaces or given.hook or given.flap):
        raise Refused("--memory wants no interface, no --hook and no --flap: the stack in the file is the device")
    check_writable([given.json, given.junit, given.tap, given.report, given.matrix, given.pcap])
    if given.captures:
        try:
            os.makedirs(given.captures, exist_ok=True)
        except OSError as why:
            raise Refused(f"--captures {given.captures}: {why.strerror}") from why
        check_writable([os.path.join(given.captures, "FM-01.pcapng")])
