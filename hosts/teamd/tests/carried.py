"""Waits until both ends of all links of the bonds many1 to manyCOUNT distribute, as the peer has it: carried.py COUNT SECONDS. Prints after how many ms of
its clock that was since the time that stands in /run/began, in ns, or "never"."""

import re
import sys
import time

DISTRIBUTING, LINKS = 0x20, 2


def carries(number: int) -> bool:
    """Whether both ends of each link of a bond distribute: its slaves tell the state of the actor, and that of the partner."""
    with open(f"/proc/net/bonding/many{number}", encoding="ascii") as it:
        states = re.findall(r"port state: (\d+)", it.read())
    return len(states) == 2 * LINKS and all(int(state) & DISTRIBUTING for state in states)


with open("/run/began", encoding="ascii") as file:
    began = int(file.read()) / 1e9
left, until = set(range(1, int(sys.argv[1]) + 1)), began + float(sys.argv[2])
while left and time.time() < until:
    left = {each for each in left if not carries(each)}
    time.sleep(0.05)
print("never" if left else round(1000 * (time.time() - began)))
