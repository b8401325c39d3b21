#!/usr/bin/env python3
"""The calls that crates/calls_run reads, and what each must answer: writes its stdin and its stdout from recorded calls.

Takes the rows at a boundary first, then rows that show a code, a refusal, a report or a kind that few before them show, as
tools/evaluate.py does, and adds the calls of SESSION, SINGLE, KEPT and ROOMS, which stand in this file: document 01 gives their replies and
tables, or its rules and those of document 02's request 3 decide them. Nothing is taken from the program: a row's reply, its table, its
buffer and its room are the recorded ones. A row that has kept replies in its room is taken with an empty one, where nothing of it is a
repeat or an acknowledgement: then the replies that it kept, and they alone, are kept.

Input, for each call: a line of 72 bytes (twelve numbers of five digits: the bytes of the own mId, the bytes of the message, the
runs of equal words that are not 0, the lines told, the words of the table, the bytes of the buffer, the words and the bytes of the room,
the runs put into the room's words, 1 where the room is first emptied, the runs of the blocks, the words of the blocks), the own mId, the
message, the runs of the table, of the room's words and of the blocks (from, to: five digits each; the word: ten digits, and a space), a
line end. The room stays from call to call.
Output, for each call: its number, the refusal or the reply's length and its bytes, the sum of the table, the sum of the blocks, the sum
of the whole buffer, which is filled with 170 before the call, and the sums of the room's words and bytes.
"""
import collections
import os
import random
import re
import sys

sys.dont_write_bytecode = True
import command

OWN, HEAD, SENDER = b"[10.0.0.9]", b"!/1 [10.0.0.1] ", b"[10.0.0.1]"
LINES, WORDS, BUFFER, BLOCKS, ROOM_WORDS, ROOM_BYTES = 8, 1522, 16640, 256, 64, 33920
FEW = 12          # how many rows are to show the same thing
LONGEST = 300     # bytes of a message, boundaries aside
ROOM = 800000     # bytes of the input


def words(row):
    """The words of a table of the lines told."""
    return WORDS + 62 * (row.get("lines", LINES) - LINES)


def flowing(held, lines=LINES):
    """A table with the flows of each context in which every member hears every other."""
    ends, members = 31 * lines + 64, collections.Counter(v for i, v in held.items() if i < 31 * lines + 64 and v)
    flows = {}
    for c, m in members.items():
        bits = sum(1 << 8 * i + j for i in range(m) for j in range(m) if i != j)
        flows.update({2 * ends + 130 + 2 * (c - 1) + h: v for h, v in enumerate((bits % 2 ** 32, bits >> 32)) if v})
    return {**held, **flows}


def runs(pairs):
    out = []
    for i, v in sorted(pairs):
        if out and out[-1][1] == i and out[-1][2] == v:
            out[-1][1] = i + 1
        else:
            out.append([i, i + 1, v])
    return out


def blocks(row, what="blocks"):
    """The words of the blocks, 64 blocks of zeros where a row has none."""
    held = row.get(what) or {"len": BLOCKS, "words": []}
    words = [0] * held["len"]
    for i, v in held["words"]:
        words[i] = v
    return words


EMPTY = {"words_len": ROOM_WORDS, "words": [], "bytes_len": ROOM_BYTES, "bytes": []}


def record(row):
    message, own, held = bytes.fromhex(row["message"]), bytes.fromhex(row["own"]), runs(row["table"])
    lent, room = blocks(row), row.get("room") or EMPTY
    figures, kept = runs([(i, v) for i, v in enumerate(lent) if v]), [] if row.get("goes_on") else runs(room["words"])
    head = b"%05d %05d %05d %05d %05d %05d %05d %05d %05d %05d %05d %05d\n" % (
        len(own), len(message), len(held), row.get("lines", LINES), row["table_len"], row["buf"], room["words_len"], room["bytes_len"],
        len(kept), 0 if row.get("goes_on") else 1, len(figures), len(lent))
    return head + own + message + b"".join(b"%05d%05d%010d " % tuple(w) for w in held + kept + figures) + b"\n"


def room_sums(row):
    """The sums of the room's words and of its bytes after the call."""
    room = row.get("room_after") or EMPTY
    words, octets = [0] * room["words_len"], bytearray(room["bytes_len"])
    for i, v in room["words"]:
        words[i] = v
    for i, v in room["bytes"]:
        octets[i : i + len(v) // 2] = bytes.fromhex(v)
    return total(words), total(octets)


def total(numbers):
    sum_ = 1
    for v in numbers:
        sum_ = (sum_ * 65599 + v) % 2 ** 32
    return sum_


def row_text(k, row):
    reply, table = bytes.fromhex(row["reply"]), [0] * row["table_len"]
    for i, v in row["after"]:
        table[i] = v
    buffer = reply + b"\xaa" * (row["buf"] - len(reply))
    said = b"refused %d" % row["refusal"] if row["refusal"] else b"taken %d %s" % (len(reply), reply)
    return b"%d %s %d %d %d %d %d\n" % (k, said, total(table), total(blocks(row, "blocks_after")), total(buffer), *room_sums(row))


# ---- the calls of document 01

X64 = b"x" * 64
SESSION = [
    (b"T=7{C=${A=L/1/5,A=$}}", b"P=7{C=1{A=L/1/5,A=R/1}}", {4: 1, 248: 1, 624: 1, 752: 1}),
    (b"T=8{C=1{A=L/1/5}}", b"P=8{C=1{A=L/1/5{ER=433{}}}}", {4: 1, 248: 1, 624: 1, 752: 1}),
    (b"T=9{C=${MV=L/1/5}}", b"P=9{C=2{MV=L/1/5}}", {4: 2, 248: 1, 624: 1, 625: 1, 752: 1}),
    (b"T=10{C=1{S=*,A=L/2/1}}", b"P=10{C=1{S=R/1{SA{rtp/pr=0,rtp/jit=0}},A=L/2/1{ER=411{}}}}", {4: 2, 625: 1}),
    (b"T=11{C=2{O-S=L/8/31,MF=L/1/5{M{O{MO=SR}}}}}", b"P=11{C=2{S=L/8/31{ER=435{}},MF=L/1/5}}", {4: 2, 316: 3, 625: 1}),
    (b"T=12{C=2{S=L/8/31,S=L/1/5}}", b"P=12{C=2{S=L/8/31{ER=435{}}}}", {4: 2, 316: 3, 625: 1}),
]
LINE = {0: 1, 624: 1}                                                    # L/1/1 in context 1
ALL = {**{i: i + 1 for i in range(128)}, **{624 + c: 1 for c in range(128)}}    # 128 contexts of one line each
RINGS = {**{248 + i: i // 8 + 1 for i in range(64)}, **{624 + c: 1 for c in range(8)}, 752: 2**32 - 1, 753: 2**32 - 1}    # 64 ephemerals in contexts of 8
EIGHT = {**{i: 1 for i in range(8)}, 624: 1}                              # L/1/1 to L/1/8 in context 1
# A message, the reply, the table before and the table after (None: as before).
SINGLE = [
    (b"T=1{C=5{}}", b"P=1{ER=403{}}", {}, None),
    (b"T=1{}", b"P=1{ER=403{}}", {}, None),
    (b"T=1{C=5{S=*", b"P=1{ER=403{}}", {}, None),
    (b"Q=1{}", b"ER=400{}", {}, None),
    (b"T=1{C=1{PR=16}}", b"P=1{C=1{ER=449{}}}", {}, None),
    (b"T=1{C=5{PR=3}}", b"P=1{C=5{ER=411{}}}", {}, None),
    (b"T=1{C=-{A=$}}", b"P=1{C=-{ER=421{}}}", {}, None),
    (b"T=1{C=${A=R/1}}", b"P=1{C=${A=R/1{ER=430{}}}}", {}, None),
    (b"T=1{C=-{MF=*}}", b"P=1{ER=533{}}", {}, None),
    # 421 stands before 449
    (b"T=1{C=${PR=16}}", b"P=1{C=${ER=421{}}}", {}, None),
    # Loopback is 4
    (b"T=1{C=-{MF=L/1/1{M{O{MO=LB}}}}}", b"P=1{C=-{MF=L/1/1}}", {}, {312: 4}),
    # Move's wildcard never matches a line in null: L/1/2 is left where it is, and alone in null nothing matches
    (b"T=1{C=${MV=L/1/*}}", b"P=1{C=2{MV=L/1/1}}", {0: 1, 624: 1}, {0: 2, 625: 1}),
    (b"T=1{C=${MV=*}}", b"P=1{C=${MV=*{ER=431{}}}}", {}, None),
    # a wildcard's attempt that fails bears the full name, the bytes received where it is no wildcard
    (b"T=1{C=1{MV=l/2/*}}", b"P=1{C=1{MV=L/2/1{ER=434{}}}}", {**{i: 1 for i in range(8)}, 31: 2, 624: 1, 625: 1}, None),
    (b"T=1{C=1{MV=l/2/1}}", b"P=1{C=1{MV=l/2/1{ER=434{}}}}", {**{i: 1 for i in range(8)}, 31: 2, 624: 1, 625: 1}, None),
    # a wildcard that fills the context
    (b"T=1{C=${A=L/1/*}}", b"P=1{C=1{" + b",".join([b"A=L/1/%d" % n for n in range(1, 9)] + [b"A=L/1/%d{ER=434{}}" % n for n in range(9, 32)]) + b"}}",
     {}, EIGHT),
    (b"T=1{C=1{A=L/2/1}}", b"P=1{C=1{A=L/2/1{ER=434{}}}}", EIGHT, None),
    # Move of the last member into $: context 1 ends, and its number is not chosen while the Move is judged
    (b"T=2{C=${MV=L/1/1},C=${A=$}}", b"P=2{C=2{MV=L/1/1},C=1{A=R/1}}", LINE, {0: 2, 248: 1, 624: 1, 625: 1, 752: 1}),
    (b"T=2{C=1{MV=*}}", b"P=2{C=1{MV=*{ER=431{}}}}", LINE, None),
    # a chosen context that ends in its own action
    (b"T=1{C=${A=L/1/1,S=L/1/1,O-A=L/1/1,O-A=$},C=${A=$}}", b"P=1{C=1{A=L/1/1,S=L/1/1,A=L/1/1{ER=411{}},A=${ER=411{}}},C=1{A=R/1}}",
     {}, {248: 1, 624: 1, 752: 1}),
    # no context and no ephemeral left
    (b"T=1{C=${O-A=$,O-MV=L/1/1}}", b"P=1{C=${A=${ER=412{}},MV=L/1/1{ER=412{}}}}", ALL, None),
    (b"T=1{C=${O-A=$,A=L/1/1}}", b"P=1{C=9{A=${ER=432{}},A=L/1/1}}", RINGS, {**RINGS, 0: 9, 632: 1}),
    # a reply of 2,048 bytes, and one of 2,049
    (b"T=1{C=5{" + b"O-A=" + (X64 + b",O-A=") * 26 + b"x" * 24 + b"}}",
     b"P=1{C=5{" + (b"A=" + X64 + b"{ER=411{}},") * 26 + b"A=" + b"x" * 24 + b"{ER=411{}}}}", {}, None),
    (b"T=1{C=5{" + b"O-A=" + (X64 + b",O-A=") * 26 + b"x" * 25 + b"}}", b"P=1{ER=533{}}", {}, None),
    # out of service: 503 after 435 and 433, whatever state the items give, a wildcard's too; before 412 and 434
    (b"T=1{C=1{O-MV=L/1/2,O-MV=L/1/1},C=${O-MV=L/1/1,O-MV=L/1/1{M{TS{SI=IV}}},MV=*}}",
     b"P=1{C=1{MV=L/1/2{ER=435{}},MV=L/1/1{ER=433{}}},C=${MV=L/1/1{ER=503{}},MV=L/1/1{ER=503{}},MV=L/1/1{ER=503{}}}}",
     {0: 1, 312: 11, 313: 8, 624: 1}, None),
    (b"T=1{C=${O-MV=L/1/1,O-MV=L/1/2}}", b"P=1{C=${MV=L/1/1{ER=503{}},MV=L/1/2{ER=412{}}}}", {**ALL, 312: 8}, None),
    (b"T=1{C=1{O-MV=L/2/1,O-MV=L/2/2}}", b"P=1{C=1{MV=L/2/1{ER=503{}},MV=L/2/2{ER=434{}}}}", {**EIGHT, 31: 2, 32: 2, 343: 8, 625: 1}, None),
    (b"T=1{C=${MV=R/1}}", b"P=1{C=${MV=R/1{ER=503{}}}}", {248: 1, 560: 12, 624: 1, 752: 1}, None),
    # Test moves; the first that passes makes the context
    (b"T=1{C=${MV=*}}", b"P=1{C=2{MV=L/1/1{ER=503{}},MV=L/1/2,MV=L/1/3}}",
     {0: 1, 1: 1, 2: 1, 312: 8, 313: 16, 624: 1}, {0: 1, 1: 2, 2: 2, 312: 8, 313: 16, 624: 1, 625: 1}),
    # a Move that takes out of service goes, the next does not; Add of one that is out of service goes
    (b"T=1{C=${MV=L/1/1{M{TS{SI=OS}}}},C=${MV=L/1/1}}", b"P=1{C=2{MV=L/1/1},C=${MV=L/1/1{ER=503{}}}}", LINE, {0: 2, 312: 8, 625: 1}),
    (b"T=1{C=${A=L/1/1}}", b"P=1{C=1{A=L/1/1}}", {312: 8}, {0: 1, 312: 8, 624: 1}),
]


class Room:
    """A room of kept replies by the rules: the last 16, a free slot is the lowest, the oldest goes where there is none."""

    def __init__(self, words=()):
        self.words, self.octets = [0] * ROOM_WORDS, bytearray(ROOM_BYTES)
        for i, v in dict(words).items():
            self.words[i] = v

    def set_held(self, held):
        self.words[:16] = held + [0] * (16 - len(held))

    def held(self):
        return [n for n in self.words[:16] if n]

    def pair(self, n):
        return bytes(self.octets[2120 * (n - 1) : 2120 * (n - 1) + self.words[31 + n]]), self.words[15 + n]

    def keep(self, sender, id, reply):
        held = self.held()[-15:] if len(self.held()) == 16 else self.held()
        n = min(set(range(1, 17)) - set(held))
        self.set_held(held + [n])
        self.words[15 + n], self.words[31 + n], self.words[47 + n] = id, len(sender), len(reply)
        self.octets[2120 * (n - 1) : 2120 * (n - 1) + len(sender)] = sender
        self.octets[2120 * (n - 1) + 72 : 2120 * (n - 1) + 72 + len(reply)] = reply

    def drop(self, sender, first, last):
        self.set_held([n for n in self.held() if self.pair(n)[0] != sender or not first <= self.pair(n)[1] <= last])

    def recorded(self):
        pieces = [(at, self.octets[at : at + size]) for n in range(16) for at, size in ((2120 * n, 72), (2120 * n + 72, 2048))]
        return {**EMPTY, "words": [(i, v) for i, v in enumerate(self.words) if v], "bytes": [(at, piece.hex()) for at, piece in pieces if any(piece)]}


def row(message, reply, before, after, room=None, sender=SENDER):
    """A message, from an empty room unless one is given: what it leaves. A transaction that ran is kept."""
    said, id = b"!/1 " + OWN + b" " + reply, re.match(rb"P=(\d+)\{(?!ER=40)", reply)
    if room is None:
        room = Room()
        if id:
            room.keep(sender, int(id[1]), reply)
    return {"kind": "document 01", "message": (b"!/1 " + sender + b" " + message).hex(), "own": OWN.hex(), "lines": LINES, "table_len": WORDS,
            "buf": BUFFER, "refusal": 0, "reply": said.hex() if reply else "", "table": sorted(flowing(before).items()),
            "after": sorted(flowing(before if after is None else after).items()), "room_after": room.recorded()}


def session():
    """The session in one room; then its first request again, which is answered and does not run; then the replies are acknowledged."""
    rows, before, room = [], {}, Room()
    for message, reply, after in SESSION:
        room.keep(SENDER, int(message[2 : message.index(b"{")]), reply)
        rows.append({**row(message, reply, before, after, room), "goes_on": bool(rows)})
        before = after
    for message, reply, dropped in [(SESSION[0][0], SESSION[0][1], []), (b"T=8{C=5{S=*}}", SESSION[1][1], []), (b"K{8,10-11}", b"", [(8, 8), (10, 11)]),
                                    (SESSION[0][0], SESSION[0][1], []), (b"TransactionResponseAck{1-4294967295}", b"", [(1, 2 ** 32 - 1)])]:
        for first, last in dropped:
            room.drop(SENDER, first, last)
        rows.append({**row(message, reply, before, None, room), "goes_on": True})
    return rows


GONE, OTHER = b"C=9{S=*{ER=411{}}}", b"<" + b"g" * 64 + b">:65535"
# On a fresh table, in one room: a sender, a message, its reply, and what is kept (identifier, reply) or dropped (first, last), in this order.
KEPT = [(SENDER, b"T=%d{C=9{S=*}}" % n, b"P=%d{%s}" % (n, GONE), [(n, b"P=%d{%s}" % (n, GONE))]) for n in range(1, 16)] + [
    (OTHER, b"T=1{C=8{S=*}}", b"P=1{C=8{S=*{ER=411{}}}}", [(1, b"P=1{C=8{S=*{ER=411{}}}}")]),
    # a repeat of the oldest of 16, which stays the oldest; faults, which are not kept; the oldest goes, and then runs again
    (SENDER, b"T=0001{C=-{MF=ROOT}}", b"P=1{%s}" % GONE, []),
    (SENDER, b"T=16{}", b"P=16{ER=403{}}", []), (SENDER, b"T=0{C=-{MF=ROOT}}", b"P=0{ER=403{}}", []),
    (SENDER, b"T=16{C=-{MF=ROOT}}", b"P=16{C=-{MF=ROOT}}", [(16, b"P=16{C=-{MF=ROOT}}")]),
    (SENDER, b"T=1{C=-{MF=ROOT}}", b"P=1{C=-{MF=ROOT}}", [(1, b"P=1{C=-{MF=ROOT}}")]),
    # each is looked up in its turn: 17 takes the place of 3; of two with one identifier the second is a repeat
    (SENDER, b"T=17{C=-{MF=ROOT}}T=3{C=-{MF=ROOT}}T=3{}", b"P=3{ER=403{}}", []),
    (SENDER, b"T=17{C=-{MF=ROOT}}T=3{C=-{MF=ROOT}}T=3{C=9{S=*}}", b"P=17{C=-{MF=ROOT}}P=3{C=-{MF=ROOT}}P=3{C=-{MF=ROOT}}",
     [(17, b"P=17{C=-{MF=ROOT}}"), (3, b"P=3{C=-{MF=ROOT}}")]),
    # another sender's are not dropped, by the bytes of the mId; a fault drops none; room freed is used
    (b"[10.0.0.01]", b"K{1-4294967295}", b"", [range(1, 2 ** 32)]),
    (OTHER.upper(), b"T=1{C=-{MF=ROOT}}K{1}", b"P=1{C=-{MF=ROOT}}", [(1, b"P=1{C=-{MF=ROOT}}"), range(1, 2)]),
    *[(SENDER, b"K{%s}" % bad, b"ER=400{}", []) for bad in (b"", b"0", b"7-6", b"7,", b"7 -8", b"4294967296", b"00000000007", b"7-8-9")],
    (SENDER, b"K{7}K{8}T=1{", b"P=1{ER=403{}}", []),
    (SENDER, b"K{7-9,17,4294967295}", b"", [range(7, 10), range(17, 18)]),
    (SENDER, b"k { 5 }T=5{C=-{MF=ROOT}}", b"P=5{C=-{MF=ROOT}}", [range(5, 6), (5, b"P=5{C=-{MF=ROOT}}")]),
    (SENDER, b"T=5{C=9{S=*}}K{5}T=20{C=9{S=*}}", b"P=5{C=-{MF=ROOT}}P=20{%s}" % GONE, [range(5, 6), (20, b"P=20{%s}" % GONE)]),
    (SENDER, b"K{1}" * 9, b"ER=400{}", []), (SENDER, b"K{1}" * 8, b"", [range(1, 2)]),
    (OTHER, b"T=1{C=-{MF=*}}K{1}T=1{C=-{MF=*}}", b"P=1{C=8{S=*{ER=411{}}}}P=1{ER=533{}}", [range(1, 2), (1, b"P=1{ER=533{}}")]),
]
# The words of a room of no bytes but 0, and whether it is sound.
ROOMS = [({0: 17}, False), ({1: 1}, False), ({0: 1, 1: 1}, False), ({15: 1}, False), ({0: 2 ** 32 - 1}, False), ({0: 1, 1: 2}, False),
         ({0: 1, 48: 2049}, False), ({0: 1, 32: 73}, False), ({0: 16, 63: 2 ** 31}, False), ({0: 1, 48: 2048, 32: 72}, True), ({0: 1, 1: 2, 17: 1}, True),
         ({0: 1, 1: 2, 33: 1}, True), ({0: 16, 49: 2049, 33: 73}, True), ({n: 16 - n for n in range(16)} | {16 + n: n for n in range(16)}, True)]


def kept():
    rows, room = [], Room()
    for sender, message, reply, changes in KEPT:
        for change in changes:
            if isinstance(change, range):
                room.drop(sender, change.start, change.stop - 1)
            else:
                room.keep(sender, *change)
        rows.append({**row(message, reply, {}, None, room, sender), "goes_on": bool(rows)})
    return rows


def rooms():
    """A room that is not sound is told before an unfit own mId, and is left; a sound one keeps the reply."""
    rows = []
    for words, sound in ROOMS:
        room, lent = Room(words), Room(words).recorded()
        if sound:
            room.keep(SENDER, 1, b"P=1{C=-{MF=ROOT}}")
        made = row(b"T=1{C=-{MF=ROOT}}", b"P=1{C=-{MF=ROOT}}", {}, None, room)
        rows.append({**made, "room": lent} if sound else {**made, "room": lent, "refusal": 5, "reply": "", "own": b"no mId".hex()})
    return rows


def own_mids():
    """An own mId that is none, or of 65 bytes, is told after the room and before a message of no bytes; one of 64 bytes is fine."""
    made, fine = row(b"Q=1{}", b"ER=400{}", {}, None), b"a" * 64
    rows = [{**made, "own": own.hex(), "message": message.hex(), "refusal": 4, "reply": ""}
            for own in (b"no mId", b"", fine + b"a", b"[10.0.0.256]") for message in (b"", b"x")]
    return rows + [{**made, "own": fine.hex(), "reply": (b"!/1 " + fine + b" ER=400{}").hex()}, {**made, "message": "", "refusal": 1, "reply": ""}]


def own_rows():
    return session() + kept() + rooms() + own_mids() + [row(*x) for x in SINGLE] + [last(n) for n in range(1, 17)]


def last(n):
    """The last channel of n lines and the first ephemeral come into a new context."""
    ends, name = 31 * n + 64, b"L/%d/31" % n
    made = row(b"T=1{C=${A=%s,A=$}}" % name, b"P=1{C=1{A=%s,A=R/1}}" % name, {}, {})
    after = flowing({31 * n - 1: 1, 31 * n: 1, 2 * ends: 1, 2 * ends + 128: 1}, n)
    return {**made, "lines": n, "table_len": WORDS + 62 * (n - LINES), "after": sorted(after.items())}


# ---- the choice

def replies(room):
    """The kept replies of a recorded room, the oldest first: sender, identifier, reply."""
    words, octets = dict(map(tuple, room["words"])), bytearray(room["bytes_len"])
    for at, piece in room["bytes"]:
        octets[at : at + len(piece) // 2] = bytes.fromhex(piece)
    out = []
    for n in [words[i] for i in range(16) if i in words]:
        at, sender, reply = 2120 * (n - 1), words.get(31 + n, 0), words.get(47 + n, 0)
        out.append((bytes(octets[at : at + sender]), words.get(15 + n, 0), bytes(octets[at + 72 : at + 72 + reply])))
    return out


def emptied(r):
    """A row whose room has kept replies, in an empty room: if it is turned down for another reason, or reads with a fault, or all its replies
    are of transactions that ran; else none. An acknowledgement may be anywhere."""
    room, after = r.get("room") or EMPTY, r.get("room_after") or EMPTY
    if not room["bytes"] and not room["words"]:
        return r
    said = bytes.fromhex(r["reply"])[len(b"!/1  ") + len(r["own"]) // 2 :]
    if r["refusal"] == 5 or re.search(rb"\bK\b|RESPONSEACK", bytes.fromhex(r["message"]).upper()):
        return None
    held = Room()
    if not r["refusal"] and not re.fullmatch(rb"(P=\d+\{ER=403\{\}\}|ER=40[06]\{\})", said):
        old = replies(room)
        new = [one for one in replies(after) if one not in old]
        # a repeat shows in the reply, but for one whose kept reply has no bytes
        if b"".join(reply for _, _, reply in new) != said or not all(reply for _, _, reply in old):
            return None
        for one in new:
            held.keep(*one)
    return {**r, "room": EMPTY, "room_after": held.recorded()}


def row_changes(r):
    return not r["refusal"] and blocks(r) != blocks(r, "blocks_after")


def marks(r):
    """What a row shows: its kind, its refusal, the lengths lent, the codes of its reply and its reports, full tables, wildcards."""
    kind = re.sub(r"byte \d+ ", "byte ", r["kind"])
    lines = r.get("lines", LINES)
    found = {("kind", kind), ("refusal", r["refusal"]), ("lines", lines), ("table", r["table_len"]), ("buffer", r["buf"])}
    reply, message, words = bytes.fromhex(r["reply"]), bytes.fromhex(r["message"]), dict(map(tuple, r["table"]))
    if row_changes(r):
        found.add(("blocks", "renewed"))
    found |= {("blocks", "reported")} if b"SA{" in reply else set()
    found.add(("blocks", len(blocks(r))))
    found |= {("code", c.decode()) for c in re.findall(rb"ER=(\d+)", reply)}
    found |= {("report", c.decode()) for c in re.findall(rb"[{,]([A-Z]+=[A-Z$*])", reply)}
    found |= {("failed", c) for c in re.findall(rb"([A-Z]+)=[^{},]+\{ER=(\d+)", reply)}
    found |= {("wildcard", c.upper()) for c in re.findall(rb"=([A-Za-z]/(?:[0-9]+/)?\*|\*)(?=[{},])", message)}
    if re.search(rb"\b(TP|TOPOLOGY)\b", message.upper()):
        found |= {("topology", lines)} | {("topology", c.decode()) for c in re.findall(rb"C=[^{},]+\{ER=(\d+)", reply) + re.findall(rb"PR=\d+", reply)[:1]}
        found |= {("direction", c.decode()) for c in re.findall(rb"\b(IS|OW|BW|ISOLATE|ONEWAY|BOTHWAY)\b", message.upper())}
    ends = 31 * lines + 64
    found.add(("contexts", sum(1 for i in words if 2 * ends <= i < 2 * ends + 128) // 32))
    found.add(("ephemerals", sum(1 for i in words if 31 * lines <= i < ends) // 16))
    return found


def choose(rows, room):
    rows = [r for r in map(emptied, rows) if r and (r.get("room") or EMPTY)["words_len"] <= 80]
    rows = [r for r in rows if r["table_len"] <= 2100 and len(blocks(r)) <= 300 and r["buf"] <= 20000 and r.get("lines", LINES) < 100000]
    random.Random(1).shuffle(rows)
    edges = [r for r in rows if r["kind"].startswith("e") and not r["kind"].startswith("e byte ")]
    edges = [r for r in edges if not re.search(r"reply of 20(4[0-6]|5[1-9]|6)", r["kind"])]
    edges += [r for r in rows if r["table_len"] != words(r)]
    edges += sorted((r for r in rows if row_changes(r)), key=lambda r: len(record(r)))[:FEW]
    rest = [r for r in rows if r["table_len"] == words(r) and (r["kind"][0] != "e" or r["kind"].startswith("e byte "))]
    rest = sorted((r for r in rest if len(r["message"]) // 2 <= LONGEST), key=lambda r: len(record(r)) // 1000)
    have, taken, known = collections.Counter(), [], set()
    # first each thing once, but for the kinds, by the shortest rows that show it
    ordered = [(True, r) for r in sorted(edges + rest, key=lambda r: len(record(r)))] + [(False, r) for r in edges + rest]
    for once, r in ordered:
        shown = {m for m in marks(r) if m[0] != "kind"} if once else marks(r)
        few = 1 if once else FEW if len(record(r)) < 1000 else 4
        if id(r) not in known and any(have[m] < few for m in shown) and len(record(r)) <= room:
            room -= len(record(r))
            taken.append(r)
            known.add(id(r))
            have.update(marks(r))
    return taken


def main():
    words = command.parser(__doc__)
    words.add_argument("calls", metavar="CALLS.jsonl", help="recorded calls, one a line")
    rows = command.calls(words.parse_args().calls)
    own = own_rows()
    taken = own + choose(rows, ROOM - sum(len(record(r)) for r in own))
    crate = os.path.join(command.TOP, "crates", "calls_run")
    with open(os.path.join(crate, "stdin"), "wb") as f:
        f.write(b"".join(record(r) for r in taken))
    with open(os.path.join(crate, "stdout"), "wb") as f:
        f.write(b"".join(row_text(k, r) for k, r in enumerate(taken, 1)))
    shown = collections.Counter(m for r in taken for m in marks(r))
    for what in ("code", "refusal", "topology", "direction", "report", "wildcard", "lines", "table", "buffer", "blocks"):
        print(what, " ".join("%s:%d" % (c.decode() if isinstance(c, bytes) else c, n) for (k, c), n in sorted(shown.items(), key=str) if k == what))
    every = {m for r in rows for m in marks(r)}
    missing = every - set(shown)
    print(len(taken), "calls; shown by no call:", sorted(str(m) for m in missing if m[0] != "kind"), "and", sum(m[0] == "kind" for m in missing), "kinds")


if __name__ == "__main__":
    command.run(main)
