"""Sends LACPDUs of a system of its own, with the tag of VLAN 5, ten a second: tagged.py NAME SECONDS."""

import socket
import sys
import time

DESTINATION, SOURCE = bytes.fromhex("0180c2000002"), bytes.fromhex("020000000077")
ACTOR = bytes.fromhex("0114 8000") + SOURCE + bytes.fromhex("0007 8000 0001 3d 000000")
PARTNER = bytes.fromhex("0214 8000 000000000000 0000 0000 0000 00 000000")
PDU = bytes([1, 1]) + ACTOR + PARTNER + bytes([3, 16]) + bytes(14) + bytes(52)
out = socket.socket(socket.AF_PACKET, socket.SOCK_RAW)
out.bind((sys.argv[1], 0))
for _ in range(10 * int(sys.argv[2])):
    out.send(DESTINATION + SOURCE + bytes.fromhex("8100 0005 8809") + PDU)
    time.sleep(0.1)
