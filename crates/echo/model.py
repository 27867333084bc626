#!/usr/bin/env python3
"""A second source for what `echo` must write, on any input: the rules' echo program over the table of ../replay/model.py.

    model.py < INPUT > OUTPUT
"""

import os
import sys

sys.dont_write_bytecode = True
sys.path.insert(0, os.path.join(os.path.dirname(os.path.abspath(__file__)), "..", "replay"))
from model import Refused, Table  # noqa: E402


def tried(call, *values):
    """The call's answer, or None where it is refused."""
    try:
        return call(*values)
    except Refused:
        return None


def frames(data):
    """The payloads of the whole frames, one after the other."""
    at = 0
    while len(data) - at >= 4:
        size = int.from_bytes(data[at:at + 4], "big")
        if size > len(data) - at - 4:
            return
        yield data[at + 4:at + 4 + size]
        at += 4 + size


def reply(table, payload, answer):
    kind, number = answer[:2]
    if kind in (94, 95):
        start, size = answer[-2:]
        tried(table.adjust, number, size, 64)
        tried(table.data, 1, 0, number, kind == 95, answer[2] if kind == 95 else 0, payload[start:start + size])
    elif kind == 96:
        tried(table.eof, number)


def echo(data):
    table = Table((8192, 16384, 16384))
    table.new_channel(64, 32)
    table.new_channel(64, 32)
    out = b""
    for payload in frames(data[:16384]):
        answer = tried(table.incoming, payload)
        if answer is not None:
            reply(table, payload, answer)
        tried(table.flush_all, 1, 0)
        tried(table.flush_staged, 0)
        out += bytes(table.buffers[2][:table.used[2]])
        table.drain()
    return out


if __name__ == "__main__":
    sys.stdout.buffer.write(echo(sys.stdin.buffer.read()))
