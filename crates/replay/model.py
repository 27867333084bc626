#!/usr/bin/env python3
"""A second source for what `replay` must print: the table of the rules and the format of docs/REPLAY.md, written from these two pages
alone and not from the Rattle code.

    model.py < SCRIPT > OUTPUT     what replay must print for a script
    model.py --write               writes the stored run beside this file: stdin and stdout
"""

import os
import struct
import sys

PLACES = 32
ENTRIES = 64
MOST = 65536
TOP = 0xFFFFFFFF
STATE, UNKNOWN, UNCONFIRMED, LIMIT, ROOM, CREDIT, MALFORMED, ALREADY = range(1, 9)


class Refused(Exception):
    """A refusal: its number, and for the flush of all channels the channel that it stopped at."""

    def __init__(self, number, *values):
        super().__init__(number)
        self.number = number
        self.values = list(values)


class NoCall(Exception):
    """What is unknown, cut short, or has a switch that is neither 0 nor 1."""


class Record:
    """One channel. Peer's: its number, window and limit; ours: our number, window and limit."""

    def __init__(self, peer, number, peer_window, window, peer_limit, limit, confirmed):
        self.peer, self.number = peer, number
        self.peer_window, self.window = peer_window, window
        self.peer_limit, self.limit = peer_limit, limit
        self.confirmed = confirmed
        self.wants_reply = self.eof = self.close = False

    def fields(self):
        return [self.peer, self.number, self.peer_window, self.window, self.peer_limit, self.limit,
                int(self.confirmed), int(self.wants_reply), int(self.eof), int(self.close)]


def u32(n):
    return struct.pack(">I", n)


def frame(payload):
    return u32(len(payload)) + payload


def data_payload(peer, extended, code, data):
    if extended:
        return bytes([95]) + u32(peer) + u32(code) + u32(len(data)) + data
    return bytes([94]) + u32(peer) + u32(len(data)) + data


class Table:
    def __init__(self, lengths):
        self.buffers = [bytearray((7 * i + 13) % 251 for i in range(n)) for n in lengths]
        self.used = [0, 0, 0]  # queue, staged, sent
        self.last = 1
        self.places = [None] * PLACES
        self.entries = [(0, 0, 0, 0)] * ENTRIES  # number, kind, code, bytes left
        self.count = 0

    # --- the state

    def whole_frames(self):
        staged, used, at = self.buffers[1], self.used[1], 0
        while at < used:
            if used - at < 4:
                return False
            n = int.from_bytes(staged[at:at + 4], "big")
            if n == 0 or n > used - at - 4:
                return False
            at += 4 + n
        return True

    def sound(self):
        for buffer, used in zip(self.buffers, self.used):
            if len(buffer) > MOST or used > len(buffer):
                return False
        if self.count > ENTRIES or any(e != (0, 0, 0, 0) for e in self.entries[self.count:]):
            return False
        records = [r for r in self.places if r is not None]
        by_number = {r.number: r for r in records}
        if len(by_number) != len(records):
            return False
        for number, _, _, _ in self.live():
            if number not in by_number or not by_number[number].confirmed:
                return False
        if sum(left for _, _, _, left in self.live()) != self.used[0]:
            return False
        for r in records:
            if (r.eof or r.close) and not self.has_entry(r.number):
                return False
        return self.whole_frames()

    def live(self):
        return self.entries[:self.count]

    def has_entry(self, number):
        return any(e[0] == number for e in self.live())

    def check_sound(self):
        if not self.sound():
            raise Refused(STATE)

    def find(self, number):
        for r in self.places:
            if r is not None and r.number == number:
                return r
        raise Refused(UNKNOWN)

    def confirmed(self, number):
        r = self.find(number)
        if not r.confirmed:
            raise Refused(UNCONFIRMED)
        return r

    def remove(self, record):
        self.places = [None if r is record else r for r in self.places]

    # --- the buffers

    def need(self, which, n):
        if len(self.buffers[which]) - self.used[which] < n:
            raise Refused(ROOM)

    def append(self, which, data):
        at = self.used[which]
        self.buffers[which][at:at + len(data)] = data
        self.used[which] = at + len(data)

    def keep(self, which, data):
        """The used part is now these fewer bytes; the freed tail is zeroed."""
        old = self.used[which]
        self.buffers[which][:old] = data + bytes(old - len(data))
        self.used[which] = len(data)

    def pieces(self):
        """Each entry with its own bytes."""
        at, out = 0, []
        for e in self.live():
            out.append((e, bytes(self.buffers[0][at:at + e[3]])))
            at += e[3]
        return out

    def set_pieces(self, pieces):
        self.keep(0, b"".join(data for _, data in pieces))
        live = [(e[0], e[1], e[2], len(data)) for e, data in pieces]
        self.count = len(live)
        self.entries = live + [(0, 0, 0, 0)] * (ENTRIES - len(live))

    # --- numbers

    def pick(self):
        if None not in self.places:
            raise Refused(ROOM)
        used = {r.number for r in self.places if r is not None}
        n = (self.last + 1) % 2**32
        while n in used:
            n = (n + 1) % 2**32
        return n

    def insert(self, record):
        self.places[self.places.index(None)] = record

    def new_channel(self, window, limit):
        self.check_sound()
        n = self.pick()
        self.last = n
        self.insert(Record(0, n, 0, window, 0, limit, False))
        return [n]

    def new_channel_id(self):
        self.check_sound()
        self.last = self.pick()
        return [self.last]

    def open_for_peer(self, number, peer, window, limit, peer_window, peer_limit):
        self.check_sound()
        if any(r is not None and r.number == number for r in self.places):
            raise Refused(ALREADY)
        if None not in self.places:
            raise Refused(ROOM)
        self.insert(Record(peer, number, peer_window, window, peer_limit, limit, True))
        return []

    # --- data

    def route(self, writer, rekey):
        """The buffer that data is framed into."""
        return 2 if writer and not rekey and self.used[1] == 0 else 1

    def packets(self, record, extended, code, data):
        return [frame(data_payload(record.peer, extended, code, data[i:i + record.peer_limit]))
                for i in range(0, len(data), record.peer_limit)]

    def data(self, writer, rekey, number, extended, code, data):
        self.check_sound()
        r = self.confirmed(number)
        entry = (number, int(extended), code if extended else 0, 0)
        if rekey or self.has_entry(number):
            framed, out, rest, queued = 0, b"", data, True
        elif not data:
            return [0]
        else:
            if r.peer_limit == 0:
                raise Refused(LIMIT)
            framed = min(len(data), r.peer_window)
            out = b"".join(self.packets(r, extended, code, data[:framed]))
            rest = data[framed:]
            queued = len(rest) > 0
        to = self.route(writer, rekey)
        self.need(to, len(out))
        if queued:
            if self.count == ENTRIES:
                raise Refused(ROOM)
            self.need(0, len(rest))
        self.append(to, out)
        if queued:
            self.append(0, rest)
            self.entries[self.count] = entry[:3] + (len(rest),)
            self.count += 1
        r.peer_window -= framed
        return [framed]

    # --- EOF, CLOSE, the receive window, the queries

    def eof(self, number):
        self.check_sound()
        r = self.confirmed(number)
        if self.has_entry(number):
            r.eof = True
            return []
        self.need(1, 9)
        self.append(1, frame(bytes([96]) + u32(r.peer)))
        return []

    def close(self, number):
        self.check_sound()
        r = self.confirmed(number)
        if self.has_entry(number):
            r.close = True
            return []
        self.need(1, 9)
        self.append(1, frame(bytes([97]) + u32(r.peer)))
        self.remove(r)
        return []

    def adjust(self, number, n, target):
        self.check_sound()
        r = self.confirmed(number)
        window = r.window - n if n <= r.window else r.window
        if window < target // 2:
            self.need(1, 13)
            self.append(1, frame(bytes([93]) + u32(r.peer) + u32(target - window)))
            r.window = target
            return [1]
        r.window = window
        return [0]

    def window_of(self, number):
        self.check_sound()
        try:
            return [self.find(number).window]
        except Refused:
            return [0]

    def has_pending(self, number):
        self.check_sound()
        return [int(self.has_entry(number))]

    # --- the flushes

    def flush_one(self, writer, rekey, number):
        r = self.find(number)
        window, stopped, out, wrote, kept = r.peer_window, False, b"", 0, []
        for e, data in self.pieces():
            if e[0] != number or stopped:
                kept.append((e, data))
                continue
            if not data:
                continue
            if r.peer_limit == 0:
                raise Refused(LIMIT)
            n = min(len(data), window)
            out += b"".join(self.packets(r, e[1] == 1, e[2], data[:n]))
            wrote += n
            window -= n
            if n < len(data):
                kept.append((e, data[n:]))
                stopped = True
        complete = not any(e[0] == number for e, _ in kept)
        ends = b""
        if complete and r.eof:
            ends += frame(bytes([96]) + u32(r.peer))
        if complete and r.close:
            ends += frame(bytes([97]) + u32(r.peer))
        to = self.route(writer, rekey)
        if to == 1:
            self.need(1, len(out) + len(ends))
        else:
            self.need(2, len(out))
            self.need(1, len(ends))
        self.append(to, out)
        self.append(1, ends)
        self.set_pieces(kept)
        r.peer_window = window
        if not complete:
            return [0, wrote]
        answer = [1, wrote, int(r.eof), int(r.close)]
        if r.close:
            self.remove(r)
        r.eof = r.close = False
        return answer

    def flush_pending(self, writer, rekey, number):
        self.check_sound()
        return self.flush_one(writer, rekey, number)

    def flush_all(self, writer, rekey):
        self.check_sound()
        for number in sorted(r.number for r in self.places if r is not None):
            try:
                self.flush_one(writer, rekey, number)
            except Refused as refusal:
                raise Refused(refusal.number, number)
        return []

    def flush_staged(self, rekey):
        self.check_sound()
        if rekey:
            return [0]
        staged = bytes(self.buffers[1][:self.used[1]])
        free = len(self.buffers[2]) - self.used[2]
        frames = at = 0
        while at < len(staged):
            n = 4 + int.from_bytes(staged[at:at + 4], "big")
            if at + n > free:
                break
            frames, at = frames + 1, at + n
        self.append(2, staged[:at])
        self.keep(1, staged[at:])
        return [1, frames, at]

    def drain(self):
        self.check_sound()
        self.keep(2, b"")
        return []

    # --- incoming

    def incoming(self, payload):
        self.check_sound()
        kind, fields = read_payload(payload)
        r = self.find(fields[0])
        if kind >= 93 and not r.confirmed:
            raise Refused(UNCONFIRMED)
        if kind <= 92 and r.confirmed:
            raise Refused(ALREADY)
        if kind == 91:
            r.confirmed = True
            r.peer, r.peer_window, r.peer_limit = fields[1:]
        elif kind == 92:
            self.remove(r)
        elif kind == 93:
            if r.peer_window + fields[1] > TOP:
                raise Refused(CREDIT)
            r.peer_window += fields[1]
        elif kind == 97:
            self.need(1, 9)
            self.append(1, frame(bytes([97]) + u32(r.peer)))
            self.set_pieces([(e, data) for e, data in self.pieces() if e[0] != r.number])
            self.remove(r)
        return [kind] + fields

    # --- damage

    def damage_counts(self, queue, staged, sent, count):
        self.used = [queue, staged, sent]
        self.count = count
        return []

    def damage_byte(self, which, at, value):
        if which < 3 and at < len(self.buffers[which]):
            self.buffers[which][at] = value
        return []

    # --- what is shown

    def lines(self):
        word = sum(1 << i for i, r in enumerate(self.places) if r is not None)
        yield ["t", self.last, word]
        for i, r in enumerate(self.places):
            if r is not None:
                yield ["p", i] + r.fields()
        for e in self.entries[:min(self.count, ENTRIES)]:
            yield ["e"] + list(e)
        for name, buffer, used in zip("qso", self.buffers, self.used):
            h = 0
            for b in buffer:
                h = (31 * h + b) % 2**32
            shown = bytes(buffer[:used]).hex()
            yield [name, used, h] + ([shown] if shown else [])


def read_payload(payload):
    """The type of an incoming payload and its fields, a string as its start and length."""
    forms = {91: "nnnn*", 92: "nnss", 93: "nn", 94: "ns", 95: "nns", 96: "n", 97: "n"}
    if not payload or payload[0] not in forms:
        raise Refused(MALFORMED)
    at, fields, open_end = 1, [], False
    for f in forms[payload[0]]:
        if f == "*":
            open_end = True
            continue
        if len(payload) - at < 4:
            raise Refused(MALFORMED)
        n = int.from_bytes(payload[at:at + 4], "big")
        at += 4
        if f == "n":
            fields.append(n)
        else:
            if len(payload) - at < n:
                raise Refused(MALFORMED)
            fields += [at, n]
            at += n
    if at != len(payload) and not open_end:
        raise Refused(MALFORMED)
    return payload[0], fields


# The fields of each call: n a 32-bit number, b a byte, w a switch (0 or 1), s a string.
CALLS = {
    1: (Table.new_channel, "nn"),
    2: (Table.new_channel_id, ""),
    3: (Table.open_for_peer, "nnnnnn"),
    4: (Table.data, "wwnwns"),
    5: (Table.eof, "n"),
    6: (Table.close, "n"),
    7: (Table.adjust, "nnn"),
    8: (Table.flush_pending, "wwn"),
    9: (Table.flush_all, "ww"),
    10: (Table.flush_staged, "w"),
    11: (Table.drain, ""),
    12: (Table.incoming, "s"),
    13: (Table.window_of, "n"),
    14: (Table.has_pending, "n"),
    15: (Table.damage_counts, "nnnn"),
    16: (Table.damage_byte, "bnb"),
}


class Script:
    def __init__(self, data):
        self.data, self.at = data, 0

    def bytes(self, n):
        if len(self.data) - self.at < n:
            raise NoCall()
        self.at += n
        return self.data[self.at - n:self.at]

    def number(self):
        return int.from_bytes(self.bytes(4), "big")

    def field(self, form):
        if form == "n":
            return self.number()
        if form == "s":
            return bytes(self.bytes(self.number()))
        value = self.bytes(1)[0]
        if form == "w" and value > 1:
            raise NoCall()
        return value

    def call(self):
        call = self.bytes(1)[0]
        if call not in CALLS:
            raise NoCall()
        made, forms = CALLS[call]
        return made, [self.field(f) for f in forms]


def replay(data):
    """What replay prints for a script."""
    script = Script(data[:262144])
    try:
        lengths = [script.number() for _ in range(3)]
    except NoCall:
        return "! 0\n"
    if max(lengths) > MOST + 1:
        return "! 0\n"
    table, out = Table(lengths), []
    while script.at < len(script.data):
        start = script.at
        try:
            made, fields = script.call()
        except NoCall:
            out.append(["!", start])
            break
        try:
            out.append(["=", 0] + made(table, *fields))
        except Refused as refusal:
            out.append(["=", refusal.number] + refusal.values)
        out.extend(table.lines())
    return "".join(" ".join(map(str, line)) + "\n" for line in out)


# --- the stored run

def new(window, limit):
    return b"\x01" + u32(window) + u32(limit)


def opened(number, peer, window, limit, peer_window, peer_limit):
    return b"\x03" + b"".join(map(u32, (number, peer, window, limit, peer_window, peer_limit)))


def put(writer, rekey, number, data, code=None):
    kind = bytes([0]) + u32(0) if code is None else bytes([1]) + u32(code)
    return bytes([4, writer, rekey]) + u32(number) + kind + u32(len(data)) + data


def on(call, *numbers):
    return bytes([call]) + b"".join(map(u32, numbers))


def heard(kind, *parts):
    payload = bytes([kind]) + b"".join(p if isinstance(p, bytes) else u32(p) for p in parts)
    return b"\x0c" + u32(len(payload)) + payload


def text(data):
    return u32(len(data)) + data


SETTLED = b"\x09\x01\x00" + b"\x0a\x00" + b"\x0b"  # what follows a frame: all pending, staged, drained


def echoed(number, data, code=None):
    """Data comes in, is charged with target 64 and goes back in the writer form with the same kind."""
    message = heard(94, number, text(data)) if code is None else heard(95, number, code, text(data))
    return message + on(7, number, len(data), 64) + put(1, 0, number, data, code) + SETTLED


def conversation(a, b):
    """Twenty-four frames of a peer on two channels that were just opened, and what is done about each."""
    return b"".join([
        # nothing is heard before a channel is confirmed; a 92 ends one that never is
        heard(94, a, text(b"early")), heard(91, a, 7, 5, 3) + SETTLED, heard(91, b, 9, 4, 4, b"tail") + SETTLED,
        # windows run out on both channels, in both kinds
        echoed(a, b"abcdefgh"), echoed(b, b"wxyz!", 1),
        # malformed, unknown and once too often, between the others
        heard(94, a, b"\x00\x00\x00\x09short"), heard(94, 99, text(b"no")), heard(91, a, 7, 5, 3), heard(90, a), heard(93, a, 1, b"!"),
        # a window comes back by parts: two of the three bytes, then the last
        heard(93, a, 2) + SETTLED, heard(93, a, 1) + SETTLED,
        # queued at window 0 behind nothing, and behind an entry of the other kind; then credit to the edge, and past it
        echoed(a, b"ij", 2), echoed(a, b"k"), heard(93, a, TOP) + SETTLED, heard(93, a, 4),
        # the receive window falls below half the target: an adjust is staged, and the data goes out behind it
        echoed(a, b"0123456789" * 2 + b"01"),
        # EOF of ours behind an entry, the peer's EOF, and the last byte
        on(5, b), heard(96, b) + SETTLED, heard(93, b, 1) + SETTLED, heard(92, b, 1, text(b""), text(b"")),
        # our CLOSE ends a channel at once; the peer's then finds none
        on(6, b) + SETTLED, heard(97, b) + SETTLED,
        # data waits during rekey, EOF behind it; the peer's CLOSE takes both along
        put(1, 1, a, b"rekey"), heard(96, a), on(5, a), heard(97, a) + SETTLED, heard(94, a, text(b"late")),
    ])


def stored():
    """Every call, every refusal, a conversation, and both kinds of damage."""
    parts = [
        u32(40), u32(160), u32(70),
        # numbers; 8: the number is used
        new(64, 32), b"\x02", new(10, 20),
        opened(7, 70, 64, 32, 5, 3), opened(7, 71, 1, 1, 1, 1), opened(9, 90, 100, 50, 4, 0), opened(3, 30, 8, 8, 100, 4),
        # 2: unknown, 3: not confirmed, 4: limit 0
        put(0, 0, 100, b"a"), put(0, 0, 2, b"a"), put(0, 0, 9, b"a"),
        # data in each form and kind: framed, the rest queued, then queued behind it; empty data; 5: no room in the queue
        put(0, 0, 7, b"abcdefgh"), put(1, 0, 7, b"xy", 1), put(0, 0, 3, b""), put(1, 0, 3, b"12345", 9), put(1, 0, 3, bytes(120)),
        # EOF and CLOSE: marked behind an entry, or staged at once
        on(5, 7), on(6, 7), on(5, 9), on(5, 100), on(6, 2), on(14, 7), on(14, 3), on(14, 100),
        # the receive window: charged, adjusted, more than it holds; the query
        on(7, 3, 4, 8), on(7, 3, 1, 8), on(7, 3, 9, 8), on(7, 2, 1, 1), on(7, 100, 1, 1), on(13, 3), on(13, 100),
        # incoming: 91 confirms, 92 removes, 93 adds credit (6: past the edge), 94 to 96; 7: malformed
        heard(91, 2, 20, 6, 2, b"tail"), heard(91, 2, 20, 6, 2), heard(92, 4, 1, text(b"why"), text(b"en")), heard(92, 4, 1, text(b""), text(b"")),
        heard(93, 7, 2), heard(93, 7, TOP), heard(94, 3, text(b"hello")), heard(95, 3, 1, text(b"oops")), heard(96, 3), heard(96, 3, b"!"), heard(98, 3), heard(94, 3, b"\x00\x00\x00\x02a"),
        b"\x0c" + u32(0),
        # the pending flush: not all, rekey ignored by the staged form, then all with both marks; unknown
        b"\x08\x00\x01" + u32(7), heard(93, 7, 20), b"\x08\x01\x01" + u32(7), b"\x08\x01\x00" + u32(100),
        # the staged flush: held, moved as far as sent has room, drained, moved
        b"\x0a\x01", b"\x0a\x00", b"\x0a\x00", b"\x0b", b"\x0a\x00", b"\x0b", b"\x0a\x00",
        # staged is empty: data goes straight to sent, and so does the last of channel 7, whose EOF and CLOSE are staged
        put(1, 0, 3, b"!"), b"\x08\x01\x00" + u32(7), b"\x0b", b"\x0a\x00", b"\x0b",
        # data during rekey, and the flush of all: done, straight to sent; then 4 at channel 9 after the work of 2 and 3
        put(0, 1, 2, b"ab"), put(1, 1, 3, b"cdefg", 2), put(0, 1, 3, b""), b"\x09\x01\x00",
        put(0, 1, 3, b"hi"), put(0, 1, 9, b"z"), put(0, 1, 2, b"qrstuv"), b"\x09\x00\x00", b"\x09\x01\x01",
        # an incoming CLOSE drops the entries
        heard(97, 9), heard(97, 9), on(6, 3),
        # a peer talks on two new channels, 5 and 6
        new(64, 32), new(64, 32), conversation(5, 6),
        # one frame is staged
        opened(8, 80, 1, 1, 1, 1), on(5, 8),
        # damage: a byte of each buffer, past a buffer's end and in no buffer; 1: the state is not sound
        b"\x10\x00" + u32(0) + b"\xaa", b"\x10\x02" + u32(69) + b"\xbb", b"\x10\x02" + u32(70) + b"\xcc", b"\x10\x03" + u32(0) + b"\xdd",
        b"\x10\x01" + u32(3) + b"\xff",
        new(1, 1), b"\x02", opened(2, 2, 2, 2, 2, 2), put(1, 0, 2, b"a"), on(5, 2), on(6, 2), on(7, 2, 2, 2), b"\x08\x01\x00" + u32(2), b"\x09\x01\x00",
        b"\x0a\x00", b"\x0b", heard(96, 2), on(13, 2), on(14, 2),
        b"\x10\x01" + u32(3) + b"\x05", on(13, 2),
        on(15, 41, 161, TOP, 3), on(13, 2), on(15, 0, 0, 0, 0), on(13, 2), on(15, 0, 0, 0, TOP), on(14, 2),
    ]
    return b"".join(parts) + b"\x04\x02"


def main():
    if sys.argv[1:] == ["--write"]:
        folder = os.path.dirname(os.path.abspath(__file__))
        with open(os.path.join(folder, "stdin"), "wb") as f:
            f.write(stored())
        with open(os.path.join(folder, "stdout"), "w") as f:
            f.write(replay(stored()))
    else:
        sys.stdout.write(replay(sys.stdin.buffer.read()))


if __name__ == "__main__":
    main()
