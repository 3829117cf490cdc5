"""The program's help, from the texts in its sources, where the program is not built yet."""

from __future__ import annotations

import os
import re
import textwrap

from repository import CRATES, read_text

TEXTS = os.path.join(CRATES, "lagtool", "src", "help.rt")

EXPLAIN = """\
  lagtool explain FILE..  Says which links of a bundle carry, and why not; in a clone alone, by node
      FILE..: Captures of the members, all of them at once; or what systems print (/proc/net/bonding/bond0,
              ip -d -j link, teamdctl team0 state dump, ovs-appctl lacp/show, lagd --status): two texts at
              most, this end's, then the far end's if it is there; or - for standard input
      Status 0: each link carries, and no cause holds. Status 1: something is found, or captures are of
      different times. Status 2: a file cannot be read, or has no LACPDU.

      Example: lagtool explain /proc/net/bonding/bond0
"""


def texts() -> dict[str, str]:
    """The constants of the file: their names and texts."""
    found = re.findall(r'^pub const (\w+): &str =\s*"((?:[^"\\]|\\.)*)";', read_text(TEXTS), re.M | re.S)
    return {name: re.sub(r"\\\n\s*", "", text).replace('\\"', '"') for name, text in found}


def text(program: str) -> str:
    """The help: DECODE says what the command decode does, DECODE_HEX what its word HEX is, and DECODE_EXAMPLE has an example."""
    known = texts()
    told = [f"{program} {known['VERSION']}: {known['ABOUT']}", ""]
    for name in [it for it in known if "_" not in it and it not in ("VERSION", "ABOUT", "STATUSES")]:
        more = {it.partition("_")[2]: known[it] for it in known if it.startswith(f"{name}_")}
        words = [it for it in more if it not in ("EXAMPLE", "LINES")]
        told.append("  ".join([" ".join([f"  {program} {name.lower()}", *words]), known[name]]))
        told += [textwrap.indent(f"{it}: {more[it]}", "      ") for it in words]
        told += [textwrap.indent(more[it], "      ") for it in more if it not in words] + [""]
    return "\n".join([*told, EXPLAIN, known["STATUSES"], "", "docs/COMMAND.md has the rest. The program itself is not built yet."])
