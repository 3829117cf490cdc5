"""The hook of a trial: hook.py SOCKET WORD.. sends the words to the trial, prints what it says, and ends with status 0 if that was done, 64 if the trial
does not know the words, which is a KeyError there, and 1 if it failed."""

import socket
import sys

asked = socket.socket(socket.AF_UNIX)
asked.connect(sys.argv[1])
asked.sendall(" ".join(sys.argv[2:]).encode())
told = b""
while part := asked.recv(65536):
    told += part
print(told[1:].decode())
sys.exit(0 if told[:1] == b"0" else 64 if told.startswith(b"1KeyError: ") else 1)
