#!/usr/bin/env python3
"""Sends a message to a Diameter node, and shows what comes back: `./exchange.py HOST PORT HEXADECIMAL`. Python 3.8."""
import socket
import sys

host, port, message = sys.argv[1], int(sys.argv[2]), bytes.fromhex(sys.argv[3])
with socket.create_connection((host, port), timeout=10) as stream:
    stream.sendall(message)
    answer = stream.recv(65536)
print("command", int.from_bytes(answer[5:8], "big"), "flags", hex(answer[4]), "octets", answer.hex())
