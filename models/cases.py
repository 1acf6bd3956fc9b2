#!/usr/bin/env python3
"""The cases that the program `cases` runs, and what it must print, by a model of its own: bytes are strings of binary digits.

It shares nothing with the crates but document 01's rules.
`python3 models/cases.py stdin` writes the cases, `python3 models/cases.py stdout` what must be printed; the crate's files of these names are what they wrote."""

import pathlib
import sys

from sessions import LIMIT, PARTS, Session

sys.dont_write_bytecode = True
sys.path.append(str(pathlib.Path(__file__).resolve().parent.parent / "tools"))
import vectors as outside

USABLE = 8 * 65536
LAST = 2**64 - 1
KINDS = ("probe", "response", "update", "release")


# ---- bytes and binary digits


def digits(data):
    return "".join(format(byte, "08b") for byte in data)


def undigits(text):
    return bytes(int(text[i : i + 8], 2) for i in range(0, len(text), 8))


def binary(number, width):
    return format(number, f"0{width}b") if width else ""


def packed(parts):
    """Fields of (width, number) as bytes, filled with zero bits."""
    text = "".join(binary(number, width) for width, number in parts)
    return undigits(text + "0" * (-len(text) % 8))


def mixed(total, number):
    return (total % 2**32 * 31 + number % 2**32) % 2**32


def shown(data):
    """Bytes in hexadecimal; of many, how many there are and a sum over them."""
    if len(data) <= 32:
        return "".join(f" {byte:02x}" for byte in data)
    total = 0
    for byte in data:
        total = mixed(total, byte)
    return f" {len(data)} bytes, sum {total}"


# ---- fields


def encode(value, width):
    if not 1 <= width <= 64 or not -(1 << width - 1) <= value < 1 << width - 1:
        return None
    return value % (1 << width)


def decode(number, width):
    if not 1 <= width <= 64 or number >= 1 << width:
        return None
    return number - (1 << width) if number >> width - 1 else number


def or_misfit(answer):
    return " misfit" if answer is None else f" {answer}"


def field(place, width, value, data):
    text = digits(data)
    lies = width <= 64 and place + width <= min(len(text), USABLE)
    put = lies and value < 1 << width
    if put:
        text = text[:place] + binary(value, width) + text[place + width :]
    found = int(text[place : place + width] or "0", 2) if lies else "short"
    return f"field {place} {width} {value}: {'put' if put else 'refused'}{shown(undigits(text))} {found}"


def sign(number, width):
    value = decode(number, width)
    small = value if value is not None and -(2**31) <= value < 2**31 else None
    number64 = encode(decode(number, 64), width)
    return f"sign {number} {width}:{or_misfit(value)}{or_misfit(small)}{or_misfit(number64)}"


# ---- tables and lists


class Refused(Exception):
    pass


class Bits:
    """The fields of some bytes, one by one."""

    def __init__(self, data, place=0):
        self.text, self.place = digits(data), place

    def take(self, width):
        if self.place + width > len(self.text):
            raise Refused(1)
        self.place += width
        return int(self.text[self.place - width : self.place] or "0", 2)

    def end(self):
        rest = self.text[self.place :]
        if len(rest) >= 8 or "1" in rest:
            raise Refused(4)


def parents_of(data):
    fields = Bits(data)
    count = fields.take(9)
    if not 1 <= count <= 256:
        raise Refused(2)
    parents = []
    for child in range(1, count):
        parent = fields.take((child - 1).bit_length())
        if parent >= child:
            raise Refused(3)
        parents.append(parent)
    fields.end()
    return parents


def table_of(parents):
    return packed([(9, len(parents) + 1)] + [(k.bit_length(), parent) for k, parent in enumerate(parents)])


def written(parents, out):
    """The words for writing a table into some bytes, and the bytes after."""
    data = table_of(parents)
    if len(data) > len(out):
        return f" 9 0 bytes,{shown(out)}"
    return f" 0 {len(data)} bytes,{shown(data + out[len(data) :])}"


def table(data):
    try:
        parents = parents_of(data)
    except Refused as refused:
        return f"table{shown(data)}: {refused.args[0]}"
    return f"table{shown(data)}: 0 {len(parents) + 1} nodes, back{written(parents, bytes([255]) * 256)}"


def tree(count, children, changed, out):
    entries = [(i - 1) // children % 256 if 0 < i < count and children else 0 for i in range(256)]
    if changed < 256:
        entries[changed] = 255
    unused = [entries[0]] + entries[max(count, 1) :]
    right = 1 <= count <= 256 and not any(unused) and all(entries[i] < i for i in range(1, count))
    answer = written(entries[1:count], out) if right else f" 6 0 bytes,{shown(out)}"
    return f"tree {count} {children} {changed}:{answer} session {0 if right else 6} {count if right else 0}"


def request(fields):
    kind, node = fields.take(1), fields.take(8)
    return ("write", node, decode(fields.take(32), 32)) if kind else ("combine", node)


def requests_of(data):
    fields = Bits(data)
    count = fields.take(13)
    if count > 4096:
        raise Refused(5)
    asked = [request(fields) for _ in range(count)]
    fields.end()
    return asked


def list_of(asked):
    parts = [(13, len(asked))]
    for kind, node, *value in asked:
        parts += [(1, kind == "write"), (8, node)] + [(32, encode(v, 32)) for v in value]
    return packed(parts)


def requests(data):
    try:
        asked = requests_of(data)
    except Refused as refused:
        return f"list{shown(data)}: {refused.args[0]}"
    total = 0
    for kind, node, *value in asked:
        total = mixed(total, mixed(node, encode(value[0], 32)) if value else node)
    combines = sum(kind == "combine" for kind, *_ in asked)
    return f"list{shown(data)}: 0 {len(asked)} requests, {combines} combines, sum {total}"


def item(place, data):
    fields = Bits(data, place)
    try:
        words = " ".join(map(str, request(fields))) + f" to {fields.place}"
    except Refused:
        words = "short"
    return f"item {place} of{shown(data)}: {words}"


# ---- logs


def record(message):
    kind, sender, receiver, *value = message
    return binary(KINDS.index(kind), 2) + binary(sender, 8) + binary(receiver, 8) + "".join(binary(encode(v, 40), 40) for v in value)


def entry(text, place, end):
    """The words for what is found, and the next place if it is a message."""
    if end > min(len(text), USABLE) or place > end:
        return " refused 1", None
    if place == end:
        return " end", None
    fields = Bits(b"")
    fields.text, fields.place = text[:end], place
    try:
        message = [KINDS[fields.take(2)], fields.take(8), fields.take(8)]
        if message[0] in ("response", "update"):
            message.append(decode(fields.take(40), 40))
    except Refused:
        return " refused 1", None
    return f" {' '.join(map(str, message))} to {fields.place},", fields.place


def log_written(place, message, data):
    text, room = digits(data), 18 if len(message) == 3 else 58
    if place + room > min(len(text), USABLE):
        answer, end = "refused 9", 0
    elif len(message) == 4 and encode(message[3], 40) is None:
        answer, end = "refused 11", 0
    else:
        answer = end = place + room
        text = text[:place] + record(message) + text[end:]
    words = " ".join(map(str, message))
    return f"write {words} at {place}: {answer}{shown(undigits(text))}{entry(text, place, end)[0]}"


def log_read(place, end, data):
    text, at, count, words = digits(data), place, 0, ""
    while True:
        word, following = entry(text, at, end)
        words += word
        if following is None:
            return f"read {place} {end} of{shown(data)}:{words} {count}"
        at, count = following, count + 1


# ---- sessions


def outcome(answers):
    return "\n  " + " ".join(map(str, answers))


def served(session, asked, place, room):
    """The lines of requests served one by one, up to the first that is refused."""
    words = ""
    for ask in asked:
        *answers, log = session.serve(ask, "0" * 8 * room, place, record)
        words += outcome(answers) + f" log{shown(undigits(log) + bytes(2500 - room))}"
        if answers[0]:
            break
    return words


def summed(*arrays):
    """A sum over the entries of some arrays, place by place."""
    total = 0
    for place in range(256):
        for array in arrays:
            total = mixed(total, array[place] % 2**64)
    return total


def holding(session):
    values, *pairs = (session.arrays[part] for part in PARTS[2:-1])
    return f"\n  holds {session.accepted} {summed(values)} {summed(*pairs[:3])} {summed(*pairs[3:])}"


def session_served(data, place, room, bytes_of_list):
    try:
        session = Session(parents_of(data))
    except Refused as refused:
        other = Session([0])
        other.accepted, other.arrays["values"][1] = 9, 7
        return f"session{shown(data)}: {refused.args[0]}{holding(other)}"
    try:
        asked, refusal = requests_of(bytes_of_list), 0
    except Refused as refused:
        asked, refusal = [], refused.args[0]
    words = served(session, asked, place, room)
    return f"session{shown(data)}: 0 {refusal}{words}{holding(session)}"


def list_run(data, place, room, places, bytes_of_list):
    """A whole list in one call; what is lent has a mark in every place."""
    session = Session(parents_of(data))
    log, answers = digits(bytes([170])) * room, [7] * places
    totals = [0, 0, 0, 0, 0]
    try:
        asked, refusal = requests_of(bytes_of_list), 0
        combines = sum(kind == "combine" for kind, *_ in asked)
        refusal = 10 if places < combines else 0 if session.sound() else 6
    except Refused as refused:
        refusal = refused.args[0]
    if refusal == 0:
        done = stored = sent = index = 0
        for ask in asked:
            refusal, answer, messages, following, log = session.serve(ask, log, place, record)
            if refusal:
                index = done
                break
            if ask[0] == "combine":
                answers[stored] = answer
                stored += 1
            done, sent, place = done + 1, sent + messages, following
        totals = [index, done, stored, sent, place]
    total = 0
    for answer in answers + [7] * (4096 - places):
        total = mixed(total, answer % 2**64)
    left = undigits(log) + bytes([170]) * (65600 - room)
    return f"run{outcome([refusal, *totals])} answers {total} log{shown(left)}{holding(session)}"


def vector(case):
    """What an outside case says, line by line: each request's log stands behind its line."""
    logs = {line.split()[0]: f"log {line}" for line in case.get("log.hex", [])}
    lines = []
    for index, line in enumerate(case["expected"]):
        lines.append(line)
        if str(index) in logs:
            lines.append(logs[str(index)])
    return "\n".join(lines)


def session_changed(data, part, place, value, bytes_of_list):
    session = Session(parents_of(data))
    words = served(session, requests_of(bytes_of_list), 0, 2423)
    small = {"count": 2**16, "parents": 2**8, "accepted": 2**32}
    modulus = small.get(part, {"lease": 2**8, "messages": 2**32}.get(part.split()[-1]))
    session.change(part, place, value % modulus if modulus else value)
    sound = session.sound()
    table_bytes = table_of(session.arrays["parents"][1 : session.count]) if sound else b""
    words += f" {'yes 0' if sound else 'no 6'} {len(table_bytes)}{shown(table_bytes + bytes(226 - len(table_bytes)))}"
    log = "0" * 8 * 2423
    for ask in (("combine", 0), ("write", 0, -1)):
        again = Session([])
        again.count, again.accepted, again.arrays = session.count, session.accepted, session.arrays
        *answers, log = again.serve(ask, log, 0, record)
        words += outcome(answers)
    words += outcome([0 if sound else 6, 0, 0, 0, 0, 0])
    entry = PARTS.index(part) * 65536 + place
    return f"changed {entry} {encode(value, 64)}:{words}{shown(undigits(log))}"


# ---- the cases


class Cases:
    """The cases as they are handed in, and the lines that must come of them."""

    def __init__(self):
        self.data, self.lines, self.seed = [], [], 1

    def draw(self, below):
        """A number below a bound, the same in every run."""
        self.seed = (self.seed * 6364136223846793005 + 1442695040888963407) % 2**64
        return (self.seed >> 11) % below

    def some(self, length):
        return bytes(self.draw(256) for _ in range(length))

    def add(self, letter, line, numbers=(), data=b""):
        self.data.append(outside.handed(letter, numbers, data))
        self.lines.append(line)

    def field(self, place, width, value, data):
        self.add("F", field(place, width, value, data), (place, width, value), data)

    def sign(self, number, width):
        self.add("S", sign(number, width), (number, width))

    def table(self, data):
        self.add("T", table(data), (), data)

    def tree(self, count, children, changed, room):
        out = bytes([255]) * room
        self.add("W", tree(count, children, changed, out), (count, children, changed), out)

    def list(self, data):
        self.add("L", requests(data), (), data)

    def item(self, place, data):
        self.add("I", item(place, data), (place,), data)

    def write(self, place, message, data):
        kind, sender, receiver, *value = message
        head = KINDS.index(kind) << 16 | sender << 8 | receiver
        self.add("M", log_written(place, message, data), (place, head, encode((value or [0])[0], 64)), data)

    def read(self, place, end, data):
        self.add("R", log_read(place, end, data), (place, end), data)

    def loaded(self, data, asked, place=0, room=2423):
        self.add("Q", session_served(data, place, room, asked), (len(data), place, room), data + asked)

    def session(self, parents, asked, place=0, room=2423):
        self.loaded(table_of(parents), list_of(asked), place, room)

    def changed(self, parents, asked, part, at, value):
        data, asked = table_of(parents), list_of(asked)
        entry = PARTS.index(part) * 65536 + at
        self.add("U", session_changed(data, part, at, value, asked), (len(data), entry, encode(value, 64)), data + asked)

    def run(self, parents, asked, place=0, room=65536, places=4096):
        data, asked = table_of(parents), asked if isinstance(asked, bytes) else list_of(asked)
        self.add("N", list_run(data, place, room, places, asked), (len(data), place, room + places * 2**32), data + asked)

    def vector(self, case):
        self.data.append(outside.question(case))
        self.lines.append(vector(case))

    def tree_of(self, count):
        return [self.draw(child) for child in range(1, count)]

    def asked(self, count, requests, values=2**32):
        """Requests at random nodes, more writes than combines."""
        found = []
        for _ in range(requests):
            node = self.draw(count)
            found.append(("write", node, self.draw(values) - values // 2) if self.draw(5) < 3 else ("combine", node))
        return found


def fields(cases):
    """The edges of a slice, of 64 bits and of the usable bytes; each width at three places."""
    two, long = bytes([255, 255]), bytes([255]) * 65537
    for place, width, value in ((3, 5, 0), (8, 9, 0), (0, 65, 0), (LAST, 1, 0), (LAST, 64, 0), (3, 5, 32), (0, 16, 1), (16, 0, 0), (16, 0, 1)):
        cases.field(place, width, value, two)
    for width in (64, 65, 66, LAST):
        cases.field(0, width, 1, bytes(12))
        cases.field(5, width, 0, bytes([255]) * 12)
    cases.field(0, 0, 0, b"")
    cases.field(0, 1, 0, b"")
    cases.field(524224, 64, 1, long)
    cases.field(524288, 1, 1, long)
    for width in range(65):
        for _ in range(3):
            cases.field(cases.draw(33), width, cases.draw(1 << width), cases.some(12))


def signs(cases):
    """The ends of each width, and one past them."""
    for width in (0, 1, 2, 31, 32, 33, 39, 40, 41, 63, 64, 65, LAST):
        half = 1 << min(width, 64) - 1 if width else 0
        for number in (0, 1, half - 1, half, half + 1, 2 * half - 1, 2 * half, LAST):
            cases.sign(number % 2**64, width)


def tables(cases):
    """Document 01's cases; trees of many sizes, cut, lengthened, with a filling bit or a wrong parent."""
    for case in ("8000", "008000", "0080", "01c0", "0200", "0230", "", "0000", "8080", "00c0", "0480", "04b0", "04800000", "04800001"):
        cases.table(bytes.fromhex(case))
    for count in (1, 2, 3, 4, 5, 9, 16, 17, 64, 129, 255, 256):
        for parents in ([k for k in range(count - 1)], [0] * (count - 1), [cases.draw(k + 1) for k in range(count - 1)]):
            data = table_of(parents)
            cases.table(data)
            cases.table(data[:-1])
            cases.table(data + b"\0")
            cases.table(data[:-1] + bytes([data[-1] | 1]))
            if count > 2:
                child = 2 + cases.draw(count - 2)
                wrong = [(9, count)] + [(k.bit_length(), 2 ** k.bit_length() - 1 if k + 1 == child else p) for k, p in enumerate(parents)]
                cases.table(packed(wrong))
    for length in (1, 2, 3, 9, 225, 226):
        cases.table(cases.some(length))
    cases.table(table_of([0] * 9) + bytes(65536))


def trees(cases):
    """Written into just enough bytes, one fewer, many more; out of rule in each way."""
    for count in (1, 2, 3, 17, 128, 256):
        for children in (1, 2, 255):
            length = len(table_of([0] * (count - 1)))
            for room in (length, length - 1, length + 3, 0):
                cases.tree(count, children, LAST, room)
    for count, changed in ((0, LAST), (257, LAST), (65535, LAST), (5, 0), (5, 1), (5, 4), (5, 5), (5, 255), (256, 255), (256, 254)):
        cases.tree(count, 1, changed, 226)


def lists(cases):
    """Document 01's cases; lists of many lengths, cut, lengthened, with a filling bit; the longest."""
    for case in ("000800", "8000", "0000", "000c0800000014", "8008", "", "00", "0008", "000c08000000", "000801", "000000"):
        cases.list(bytes.fromhex(case))
    for count in (0, 1, 2, 3, 7, 8, 40, 300):
        asked = []
        for _ in range(count):
            node = cases.draw(256)
            asked.append(("combine", node) if cases.draw(2) else ("write", node, cases.draw(2**32) - 2**31))
        data = list_of(asked)
        for case in (data, data[:-1], data + b"\0", data[:-1] + bytes([data[-1] | 1])):
            cases.list(case)
    writes = [("write", k % 256, -1 - k) for k in range(4096)]
    longest = list_of(writes)
    for case in (longest, longest[:-1], longest + b"\0", packed([(13, 4097)]) + longest[2:], list_of([("combine", 0)] * 4096)):
        cases.list(case)
    cases.list(list_of(writes[:5]) + bytes(65536))
    for place in (167908, 167940, LAST):
        cases.item(place, longest)
    for place in range(0, 48, 5):
        cases.item(place, bytes.fromhex("000c08ffffff84"))


def logs(cases):
    """Each kind of message, among ones and zeros, where it has room and where not; logs of several messages."""
    messages = [("probe", 0, 255), ("response", 1, 2, -(2**39)), ("update", 3, 4, 2**39 - 1), ("release", 255, 0), ("update", 0, 0, 0), ("response", 9, 8, -1)]
    for message in messages:
        room = len(record(message))
        for place in (0, 3, 7, 8):
            cases.write(place, message, bytes([255]) * 9)
            cases.write(place, message, bytes(9))
        for place in (72 - room, 73 - room, 72, 73, LAST):
            cases.write(place, message, bytes([255]) * 9)
    for value in (2**39, -(2**39) - 1, 2**63 - 1, -(2**63)):
        cases.write(0, ("update", 1, 2, value), bytes(8))
        cases.write(0, ("response", 1, 2, value), bytes(7))
    cases.write(0, ("probe", 0, 0), b"")
    for place in (524270, 524271):
        cases.write(place, ("release", 7, 8), bytes(65537))
    text = "101" + "".join(map(record, messages)) + "0" * 7
    data, end = undigits(text + "1" * (-len(text) % 8)), len(text) - 7
    for place, stop in ((3, end), (3, end - 1), (3, end + 1), (21, end), (79, 137), (79, 136), (79, 97), (0, 17), (0, 1), (end, end), (end + 1, end), (0, 0)):
        cases.read(place, stop, data)
    size = 8 * len(data)
    for place, stop in ((size, size), (size + 1, size + 1), (0, size + 1), (LAST, size), (LAST, LAST), (size, LAST), (0, LAST)):
        cases.read(place, stop, data)
    cases.read(0, 0, b"")
    cases.read(0, 1, b"")
    cases.read(524270, 524289, bytes(65537))


PATH = ([0, 1], [("combine", 0), ("write", 2, 5), ("combine", 0), ("write", 2, 7), ("write", 2, 9), ("combine", 0)])
STAR = ([0, 0, 0], [("combine", 1), ("write", 2, 4), ("combine", 0), ("write", 3, 1)])
ORDER = ([0, 0], [("combine", 1), ("combine", 0), ("write", 2, 7), ("write", 2, 9)])


def sessions(cases):
    """Document 01's cases; refused tables and lists; random trees and lists; rounds; room to the bit; the largest sums and trees."""
    for parents, asked in (PATH, STAR, ORDER):
        cases.session(parents, asked)
    for case in ("", "0000", "0230", "00c0", "808000", "01c000"):
        cases.loaded(bytes.fromhex(case), list_of(PATH[1]))
    for case in ("", "00", "8008", "000801"):
        cases.loaded(table_of(PATH[0]), bytes.fromhex(case))
    cases.session([0], [("combine", 0), ("write", 1, 3), ("write", 1, -3)] * 20)
    cases.session([], [("combine", 0), ("write", 0, -(2**31)), ("combine", 0), ("write", 1, 0)])
    for count in (2, 3, 4, 5, 6, 7, 8, 9, 12, 17, 25, 40):
        for _ in range(3):
            cases.session(cases.tree_of(count), cases.asked(count, 25))
    for place, room in ((0, 19), (0, 18), (1, 19), (0, 0), (152, 19), (153, 19), (LAST, 2423), (13, 2423), (100, 33)):
        cases.session(*PATH, place, room)
        cases.session([0, 1], [("write", 2, 5), ("write", 0, 6)], place, room)
    for node in (2, 3, 4, 255):
        cases.session(STAR[0], STAR[1] + [("combine", node), ("write", node, 1)])
    for extreme in (-(2**31), 2**31 - 1):
        for parents in ([0] * 39, list(range(39)), cases.tree_of(40)):
            cases.session(parents, [("write", node, extreme) for node in range(40)] + [("combine", 7), ("combine", 39), ("write", 7, 0), ("write", 39, extreme)])
    for parents in ([0] * 255, list(range(255)), [(i - 1) // 2 for i in range(1, 256)]):
        cases.session(parents, [("write", 255, -5), ("combine", 0), ("write", 255, 5), ("combine", 128), ("write", 0, 1), ("write", 255, 7)])


def changed(cases):
    """One entry of a session at its limit, one past it, and where it is not used."""
    parents, asked = [0, 0, 1, 1, 3], [("combine", 4), ("write", 2, 3), ("combine", 1), ("write", 5, -4)]
    for count in (0, 1, 5, 6, 7, 256, 257, 65535):
        cases.changed(parents, asked, "count", 0, count)
    for accepted in (0, 1, 2, 4, LIMIT - 1, LIMIT, LIMIT + 1, 2**32 - 1):
        cases.changed(parents, asked, "accepted", 0, accepted)
    for place in (0, 1, 2, 3, 5, 6, 255):
        for value in (0, 1, 2, 3, 255):
            cases.changed(parents, asked, "parents", place, value)
            cases.changed(parents, asked, "up lease", place, value)
            cases.changed(parents, asked, "down lease", place, value)
        for value in (0, 1, -(2**31)):
            cases.changed(parents, asked, "values", place, value)
        for value in (0, 8, 9, 2**32 - 1):
            cases.changed(parents, asked, "up messages", place, value)
            cases.changed(parents, asked, "down messages", place, value)
        for nodes in (0, 1, 2, 3, 4, 5):
            for value in (-nodes * 2**31, -nodes * 2**31 - 1, nodes * (2**31 - 1), nodes * (2**31 - 1) + 1):
                cases.changed(parents, asked, "up cache", place, value)
                cases.changed(parents, asked, "down cache", place, value)
    for value in (2**63 - 1, -(2**63)):
        cases.changed(parents, asked, "up cache", 3, value)
        cases.changed(parents, asked, "down cache", 3, value)


def runs(cases):
    """Whole lists: document 01's; empty at any place; answer places to the one; stopped by 7 and by 9, to the bit; the longest rounds."""
    for parents, asked in (PATH, STAR, ORDER):
        cases.run(parents, asked)
    for place, room in ((0, 0), (1, 0), (LAST, 65536), (524288, 65536), (524289, 65600)):
        cases.run(PATH[0], [], place, room)
    for places in (0, 2, 3, 4):
        cases.run(*PATH, places=places)
        cases.run(*PATH, room=3, places=places)
    for data in ("", "00", "8008", "000801", "80", "0000ff"):
        cases.run(PATH[0], bytes.fromhex(data), places=0)
    whole = 2 * 76 + 2 * 58 + 2 * 58 + 2 * 76 + 2 * 76
    for place in (0, 1, 7, 8):
        for room in range((place + whole) // 8 - 1, (place + whole) // 8 + 2):
            cases.run(*PATH, place, room)
    for place in (524288 - whole - 1, 524288 - whole, 524288 - whole + 1, 524288, 524289, LAST):
        cases.run(*PATH, place, 65536)
        cases.run(*PATH, place, 65600)
    for index in range(len(STAR[1]) + 1):
        for node in (4, 255):
            for ask in (("combine", node), ("write", node, 1)):
                cases.run(STAR[0], STAR[1][:index] + [ask] + STAR[1][index:])
    for count in (1, 2, 3, 5, 9, 30):
        for room in (0, 20, 40, 200, 65536):
            cases.run(cases.tree_of(count), cases.asked(count, 30), cases.draw(9), room, 30)
    cases.run([0], [("combine", 0), ("write", 1, 3), ("write", 1, -3)] * 1365)


def vectors(cases):
    """All that the program has room for."""
    for case in outside.read().values():
        if outside.size(case) <= outside.ROOM:
            cases.vector(case)


def main():
    cases = Cases()
    for part in (fields, signs, tables, trees, lists, logs, sessions, changed, runs, vectors):
        part(cases)
    if sys.argv[1:] == ["stdin"]:
        sys.stdout.buffer.write(b"".join(cases.data))
    elif sys.argv[1:] == ["stdout"]:
        print("\n".join(cases.lines))
    else:
        sys.exit(__doc__)


if __name__ == "__main__":
    main()
