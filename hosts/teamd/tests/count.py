"""Counts LACPDUs that are sent on interfaces: count.py SECONDS NAME.."""

import select
import socket
import sys
import time

# What is sent is told of all frames alone.
EVERY, SLOW = 0x0003, 0x8809
sockets = [socket.socket(socket.AF_PACKET, socket.SOCK_RAW, socket.htons(EVERY)) for _ in sys.argv[2:]]
for each, name in zip(sockets, sys.argv[2:]):
    each.bind((name, EVERY))
seconds, began = [0] * (int(sys.argv[1]) + 1), time.monotonic()
while time.monotonic() < began + len(seconds) - 1:
    for each in select.select(sockets, [], [], 0.1)[0]:
        _, address = each.recvfrom(2048)
        seconds[int(time.monotonic() - began)] += address[1] == SLOW and address[2] == socket.PACKET_OUTGOING
print(f"{sum(seconds)} LACPDUs in {sys.argv[1]} s, most in one: {max(seconds)}")
