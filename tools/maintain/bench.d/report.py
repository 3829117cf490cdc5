"""The table: what the harness and the programs measured, as ratios, and the speeds to reach."""

from __future__ import annotations

import os

PORTS = ["2", "8", "64"]
USED = ["1", "256", "all"]
WIDE = ["1", "4096", "all"]
# What looks for a conversation, and may take no longer with all in use.
FLAT = ["transmit, nothing due", "is_due, nothing due", "receive, response for nobody"]
# Partners, members at most, and what that is called.
LIMITS = [("1", "0", "none"), ("1", "64", "64"), ("1", "32", "32"), ("2", "0", "none"), ("2", "16", "16")]
# Each with a limit, and the same without.
AGAINST = [(("1", "64"), ("1", "0")), (("1", "32"), ("1", "0")), (("2", "16"), ("2", "0"))]
CODECS = [("gcc", "gcc -O2"), ("clang", "clang -O3")]
# Of each codec what is to be no slower than plain C, by which compilers.
NO_SLOWER = {"decode": ["gcc", "clang"], "encode": ["clang"]}
WORST = 20_000


def number(value: float) -> str:
    return f"{value:,.0f}" if value >= 100 else f"{value:.1f}"


class Measured:
    """The lines of the harness, by their words."""

    def __init__(self, text: str) -> None:
        # Times have a row each, and so has what is counted.
        self.times: dict[tuple[str, ...], float] = {}
        self.counts: dict[tuple[str, ...], list[int]] = {}
        self.wrong: dict[tuple[str, ...], int] = {}
        # How many calls a run makes.
        self.calls: dict[tuple[str, ...], int] = {}
        for line in text.splitlines():
            kind, *words = line.split("\t")
            if kind in ("call", "wide", "limit", "alone", "crowded", "beside"):
                *name, time, calls, wrong = words
                self.times[(kind, *name)], self.calls[(kind, *name)], self.wrong[(kind, *name)] = float(time), int(calls), int(wrong)
            elif kind == "codec":
                *name, time, calls = words
                self.times[(kind, *name)], self.calls[(kind, *name)] = float(time), int(calls)
            elif kind == "answers":
                self.wrong[kind, words[0]] = int(words[2])
            else:
                self.counts[kind, words[0]] = [int(it) for it in words[1:]]

    def names(self, kind: str) -> list[str]:
        """What stands first in the lines of a kind, in their order."""
        return list(dict.fromkeys(key[1] for key in [*self.times, *self.counts] if key[0] == kind))


class Table:
    """Prints sections, counts their rows and the wrong ones among them, and keeps the goals."""

    def __init__(self) -> None:
        self.rows = self.wrong = 0
        self.goals: list[tuple[str, float, float, str]] = []

    def section(self, head: list[str], rows: list[tuple[list[str], bool]]) -> None:
        """Prints a section; each row is its cells, and whether its answers were right."""
        shown = lambda row: f"|{'|'.join(row)}|"
        print("\n" + shown(head))
        print(shown(["---"] + ["---:"] * (len(head) - 1)))
        for row, is_right in rows:
            print(shown(row) + ("" if is_right else " WRONG"))
            self.rows += 1
            self.wrong += not is_right

    def goal(self, text: str, reached: float, most: float, unit: str = "") -> None:
        self.goals.append((text, reached, most, unit))

    def print_goals(self) -> None:
        rows = []
        for text, reached, most, unit in self.goals:
            rows.append(([text, f"{most:,g}{unit}", f"{reached:,.2f}".removesuffix(".00") + unit, "reached" if reached <= most else "not reached"], True))
        self.section(["speed to reach, the worst of its row", "at most", "measured", ""], rows)


def codec_rows(table: Table, m: Measured, unit: str = "ns") -> None:
    rows, is_right = [], not m.wrong["answers", "codec"]
    for what in m.names("codec"):
        ours = m.times["codec", what, "ours"]
        others = [m.times["codec", what, key] for key, _ in CODECS]
        rows.append(([what, number(ours), *map(number, others), *(f"{ours / it:.2f}" for it in others)], is_right))
        for (key, name), other in zip(CODECS, others):
            if key in NO_SLOWER.get(what, []):
                table.goal(f"{what} beside {name}", ours / other, 1)
    table.section([f"codec, {unit} a PDU", "ours", *(name for _, name in CODECS), *(f"ours / {name}" for _, name in CODECS)], rows)


def timed_rows(table: Table, m: Measured, head: list[str], kind: str, columns: list[tuple[str, str]]) -> None:
    """A row for each call of this kind of lines, and a column for each pair of words."""
    rows = []
    for name in m.names(kind):
        keys = [(kind, name, *words) for words in columns]
        cells = [number(m.times[key]) if key in m.times else "-" for key in keys]
        rows.append(([name, *cells], not any(m.wrong.get(key) for key in keys)))
    table.section(head, rows)


def call_rows(table: Table, m: Measured, unit: str = "ns") -> None:
    columns = [(ports, used) for ports in PORTS for used in USED]
    timed_rows(table, m, [f"one system, {unit} a call: ports / conversations"] + [" / ".join(it) for it in columns], "call", columns)
    worst = max(m.times["call", "receive, LACPDU whose Sync flips", ports, "all"] for ports in PORTS)
    table.goal("receive, LACPDU whose Sync flips, with all conversations in use", worst, 250, " ns")


def wide_rows(table: Table, m: Measured) -> None:
    columns = [(ports, used) for ports in PORTS for used in WIDE]
    head = ["4,096 conversations, ns a call: ports / conversations"] + [" / ".join(it) for it in columns]
    timed_rows(table, m, head, "wide", columns)
    for name in FLAT:
        worst = max(m.times["wide", name, ports, used] / m.times["wide", name, ports, "1"] for ports in PORTS for used in WIDE)
        table.goal(f"{name}, with any number of 4,096 conversations in use beside one", worst, 2)
    worst = max(m.times["wide", "restart", "64", used] for used in WIDE)
    table.goal("restart of 64 ports with 4,096 conversations", worst / 1000, 60, " us")


def limit_rows(table: Table, m: Measured) -> None:
    head = ["64 ports, a limit of links, ns a call"]
    head += [f"{'one aggregator' if partners == '1' else 'two aggregators'}, {told}" for partners, _, told in LIMITS]
    timed_rows(table, m, head, "limit", [(partners, limit) for partners, limit, _ in LIMITS])
    for name in m.names("limit"):
        worst = max(m.times["limit", name, *limited] / m.times["limit", name, *free] for limited, free in AGAINST)
        table.goal(f"{name}, with a limit and none promoted beside none", worst, 1.1)


def offer_rows(table: Table, m: Measured) -> None:
    one, all_of = m.times["alone", "offer", "64", "1"], m.times["call", "offer", "64", "all"]
    wrong = m.wrong["alone", "offer", "64", "1"]
    head = ["offer, 64 ports in 64 aggregators", "ns with one conversation in use", "ns with all of all", "ratio"]
    table.section(head, [(["offer", number(one), number(all_of), f"{all_of / one:.2f}"], not wrong)])
    table.goal("offer with all conversations of 64 aggregators in use beside one", all_of / one, 1.5)


def crowded_rows(table: Table, m: Measured) -> None:
    rows, times = [], []
    for name in m.names("crowded"):
        keys = [("crowded", name, "64", order) for order in ("low", "high")]
        times += [m.times[key] for key in keys]
        rows.append(([name, *(f"{m.times[key] / 1000:.2f}" for key in keys)], not any(m.wrong[key] for key in keys)))
    table.section(["32 of 64 ports find no aggregator, us a call", "low ports came first", "high ports came first"], rows)
    table.goal("the lowest time of the slowest call where ports find no aggregator", max(times) / 1000, WORST / 1000, " us")


def program_rows(table: Table, programs: list[tuple[str, float | None, int]]) -> None:
    ours: float | None = None
    rows = []
    for name, seconds, wrong in programs:
        is_ours = name.startswith("lagtool")
        ours = seconds if is_ours else ours
        ratio = "-" if is_ours or ours is None or seconds is None else f"{ours / seconds:.2f}"
        told = "not here" if seconds is None else f"{seconds:.3f}"
        rows.append(([name, told, ratio], not wrong))
    table.section(["program, CPU seconds", "seconds", "lagtool / it"], rows)


def machine() -> str:
    """The processor, how many there are, and how many processes wanted one in the last minute."""
    names = []
    if os.path.isfile("/proc/cpuinfo"):
        with open("/proc/cpuinfo") as it:
            names = [line.partition(":")[2].strip() for line in it if line.startswith("model name")]
    return f"{os.cpu_count()} processors {names[0] if names else '?'}, load {os.getloadavg()[0]:.1f}"


def print_table(text: str, programs: list[tuple[str, float | None, int]] | None) -> int:
    """Prints all; answers how many rows were wrong."""
    m, table = Measured(text), Table()
    rounds, (seconds,) = m.names("rounds")[0], m.counts["rounds", m.names("rounds")[0]]
    print(f"{machine()}. The least time of {rounds} rounds in {seconds} seconds.")
    codec_rows(table, m)
    call_rows(table, m)
    wide_rows(table, m)
    limit_rows(table, m)
    offer_rows(table, m)
    crowded_rows(table, m)
    if programs:
        program_rows(table, programs)
    table.print_goals()
    print(f"\n{table.rows} rows, {table.wrong} wrong")
    return table.wrong
