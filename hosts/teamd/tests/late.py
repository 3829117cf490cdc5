"""Sleeps for 20 ms until it is ended, and prints by how many ms one of these sleeps was too long at most."""

import signal
import sys
import time

most = 0.0


def end(*_: object) -> None:
    print(round(1000 * most))
    sys.exit()


signal.signal(signal.SIGTERM, end)
while True:
    began = time.monotonic()
    time.sleep(0.02)
    most = max(most, time.monotonic() - began - 0.02)
