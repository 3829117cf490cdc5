#!/usr/bin/env python3
"""seen.py INTERFACE SECONDS slow|other: how many frames of the slow protocols come meanwhile, or how many others."""

import socket
import sys
import time

ALL, SLOW, OUTGOING = 3, 0x8809, 4
with socket.socket(socket.AF_PACKET, socket.SOCK_RAW, socket.htons(ALL)) as it:
    it.bind((sys.argv[1], 0))
    until, count = time.monotonic() + float(sys.argv[2]), 0
    while (left := until - time.monotonic()) > 0:
        it.settimeout(left)
        try:
            frame, (_, _, kind, _, _) = it.recvfrom(2048)
        except TimeoutError:
            break
        slow = int.from_bytes(frame[12:14], "big") == SLOW
        count += kind != OUTGOING and slow == (sys.argv[3] == "slow")
print(count)
