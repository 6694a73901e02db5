#!/usr/bin/env python3
"""A program for ports with the option `packet 4`: answers each message in upper case. A message stands behind its length in 4 bytes, most significant first."""
import sys

while len(head := sys.stdin.buffer.read(4)) == 4:
    data = sys.stdin.buffer.read(int.from_bytes(head, "big")).upper()
    sys.stdout.buffer.write(len(data).to_bytes(4, "big") + data)
    sys.stdout.buffer.flush()
