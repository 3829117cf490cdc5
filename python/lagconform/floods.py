"""Links that carry far more than a test asks for: a loop, a storm, or the traffic of others."""

from __future__ import annotations

from typing import Optional

from .pdus import SLOW, is_data, mac

# So many frames of a second are kept for tests, and two more for each that the bench sent in it: what comes beyond them is counted alone.
KEPT = 1000
# From so many frames a second on a link is flooded, those too that no test looks at.
FLOOD = 5000
# So many frames of a second are kept of the device's client, which a hook makes it send: 64 flows at 10 a second are 640 frames, and 1,280 where each
# comes twice.
DATA_KEPT = FLOOD


class Meter:
    """How many frames of a kind are kept of a link, so that no flood takes the memory or the time of the bench."""

    def __init__(self, what: str, kept: int) -> None:
        self._what, self._kept = what, kept
        self._second, self._came, self._left = -1, 0, 0
        # Since `spilled` was asked last: how many were not kept, one of them, and how many came in the second of most.
        self._beyond, self._one, self._most = 0, b"", 0

    def _at(self, when: float) -> None:
        if int(when) > self._second:
            self._second, self._came, self._left = int(when), 0, self._kept

    def sent(self, when: float) -> None:
        """The bench sent a frame, which may be answered."""
        self._at(when)
        self._left += 2

    def takes(self, when: float, octets: bytes) -> bool:
        """Whether a frame that came is kept."""
        self._at(when)
        self._came, self._left = self._came + 1, self._left - 1
        self._most = max(self._most, self._came)
        if self._left >= 0:
            return True
        self._beyond, self._one = self._beyond + 1, octets
        return False

    def spilled(self) -> str:
        """What was not kept, since that was asked last; nothing where all was."""
        beyond, one, most, self._beyond, self._most = self._beyond, self._one, self._most, 0, 0
        if not beyond:
            return ""
        kind = f"subtype {one[14]}" if one[12:14] == SLOW and len(one) > 14 else f"type {one[12:14].hex()}"
        more = f"{beyond} beyond {self._kept} a second were not kept, as one of {kind} from {mac(one[6:12])}"
        return f"{self._what} came at up to {most} a second: {more}"


class Meters:
    """The meters of a link: data of the device's client, and all else that tests look at."""

    def __init__(self) -> None:
        self.data, self.other = Meter("data of the device's client", DATA_KEPT), Meter("Slow Protocols and broadcasts", KEPT)

    def sent(self, when: float) -> None:
        """The bench sent a frame, which may be answered."""
        self.other.sent(when)

    def takes(self, when: float, octets: bytes) -> bool:
        """Whether a frame that came is kept."""
        return (self.data if is_data(octets) else self.other).takes(when, octets)

    def spilled(self) -> str:
        """What was not kept, since that was asked last; nothing where all was."""
        return "; ".join(filter(None, (self.other.spilled(), self.data.spilled())))
