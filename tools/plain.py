#!/usr/bin/env python3
"""The program's files as plain text and back, and a log as lines: a convenience outside the proofs.

Nothing of the library uses this script and no promise rests on it; tools/test_plain.py compares it with outside cases.

    python3 tools/plain.py pack FOLDER      tree.txt and requests.txt become tree.tab and requests.lst
    python3 tools/plain.py unpack FOLDER    tree.tab and requests.lst become tree.txt and requests.txt;
                                            text that is there and differs is replaced with --force only
    python3 tools/plain.py log FILE END     shows the messages of a log from bit 0, or --from PLACE, to bit END

tree.txt has `nodes N`, then a line `CHILD PARENT` for each node but 0, in any order. requests.txt has lines
`combine NODE` and `write NODE VALUE`, in order. Blank lines, and all from a # to the end of its line, are skipped.
Where something is wrong, one line says what, nothing is written and the exit status is 1.
"""

import argparse
import os
import pathlib
import re
import sys
import tempfile

NODES = 256
REQUESTS = 4096
USABLE = 65536
KINDS = ("probe", "response", "update", "release")


class Fault(Exception):
    """One line that says where something is wrong, and what."""


# ---- bytes


def packed(fields):
    """Fields of (width, number), most significant bit first, filled with zero bits to the byte."""
    bits = "".join(f"{number % 2**width:0{width}b}" for width, number in fields if width)
    bits += "0" * (-len(bits) % 8)
    return int(bits, 2).to_bytes(len(bits) // 8, "big")


class Fields:
    """The fields of a file, one behind the other, refused as the library refuses them."""

    def __init__(self, path):
        with open(path, "rb") as file:
            self.bits = "".join(f"{byte:08b}" for byte in file.read(USABLE))
        self.path, self.place = path, 0

    def refuse(self, number, reason):
        raise Fault(f"{self.path}: refused with {number}: {reason}")

    def take(self, width):
        place, self.place = self.place, self.place + width
        if self.place > len(self.bits):
            self.refuse(1, f"a field of {width} bits is due at bit {place}, and {len(self.bits) - place} are left")
        return int(self.bits[place : self.place] or "0", 2)

    def signed(self, width):
        number = self.take(width)
        return number - 2**width if number >> width - 1 else number

    def finish(self):
        rest = self.bits[self.place :]
        if len(rest) >= 8:
            self.refuse(4, "bytes are left over")
        if "1" in rest:
            self.refuse(4, "a filling bit is set")


def parent_width(child):
    return (child - 1).bit_length()


def table(parents):
    return packed([(9, len(parents) + 1)] + [(parent_width(child), parent) for child, parent in enumerate(parents, 1)])


def parents_of_table(path):
    """The parents of nodes 1, 2 and so on in a table."""
    fields = Fields(path)
    count = fields.take(9)
    if not 1 <= count <= NODES:
        fields.refuse(2, f"the node count is {count}")
    parents = []
    for child in range(1, count):
        parents.append(fields.take(parent_width(child)))
        if parents[-1] >= child:
            fields.refuse(3, f"parent {parents[-1]} is not smaller than its child {child}")
    fields.finish()
    return parents


def request_list(requests):
    """A combine is (node,), a write (node, value): the first bit is the number of values."""
    fields = [(13, len(requests))]
    for node, *values in requests:
        fields += [(1, len(values)), (8, node)] + [(32, value) for value in values]
    return packed(fields)


def requests_of_list(path):
    fields = Fields(path)
    count = fields.take(13)
    if count > REQUESTS:
        fields.refuse(5, f"the list count is {count}")
    requests = []
    for _ in range(count):
        writes, node = fields.take(1), fields.take(8)
        requests.append((node, fields.signed(32)) if writes else (node,))
    fields.finish()
    return requests


def messages_of_log(path, place, end):
    """The messages of a log as lines, up to the end or to where the log's reader refuses."""
    fields = Fields(path)
    if end > len(fields.bits):
        fields.refuse(1, f"end {end} is past the usable log of {len(fields.bits)} bits")
    if place > end:
        fields.refuse(1, f"place {place} is past end {end}")
    fields.bits, fields.place = fields.bits[:end], place
    while fields.place < end:
        kind, sender, receiver = KINDS[fields.take(2)], fields.take(8), fields.take(8)
        value = f" {fields.signed(40)}" if kind in ("response", "update") else ""
        yield f"{kind} {sender} {receiver}{value}"


# ---- text


def lines(path):
    """Where each line with words in it stands, and its words."""
    text = path.read_bytes().decode("utf-8-sig", "replace")
    for count, line in enumerate(text.split("\n"), 1):
        words = line.split("#")[0].split()
        if words:
            yield f"{path}:{count}", words


def quoted(*words):
    text = " ".join(words)
    return repr(text if len(text) <= 40 else text[:40] + "...")


def number(where, what, word, low, high):
    if not re.fullmatch("-?[0-9]{1,20}", word) or not low <= int(word) <= high:
        raise Fault(f"{where}: {what} {quoted(word)} is not a number from {low} to {high}")
    return int(word)


def parents_of_text(path):
    rest = lines(path)
    top, words = next(rest, (f"{path}:1", []))
    if len(words) != 2 or words[0] != "nodes":
        raise Fault(f"{top}: `nodes N` must come first, not {quoted(*words)}")
    count, parents = number(top, "node count", words[1], 1, NODES), {}
    for where, words in rest:
        if len(words) != 2:
            raise Fault(f"{where}: {quoted(*words)} is not `CHILD PARENT`")
        child, parent = (number(where, what, word, 0, NODES - 1) for what, word in zip(("child", "parent"), words))
        if child >= count:
            raise Fault(f"{where}: child {child} is not in a tree of {count} nodes, numbered from 0")
        if parent >= child:
            raise Fault(f"{where}: parent {parent} is not smaller than its child {child}")
        if child in parents:
            raise Fault(f"{where}: child {child} has a line already")
        parents[child] = parent
    for child in range(1, count):
        if child not in parents:
            raise Fault(f"{top}: child {child} of {count} nodes has no line")
    return [parents[child] for child in range(1, count)]


def requests_of_text(path):
    """Where each request stands, and the request."""
    found = []
    for where, words in lines(path):
        if (words[0], len(words)) not in (("combine", 2), ("write", 3)):
            raise Fault(f"{where}: {quoted(*words)} is neither `combine NODE` nor `write NODE VALUE`")
        if len(found) == REQUESTS:
            raise Fault(f"{where}: a list has at most {REQUESTS} requests")
        node = number(where, "node", words[1], 0, NODES - 1)
        values = (number(where, "value", word, -(2**31), 2**31 - 1) for word in words[2:])
        found.append((where, (node, *values)))
    return found


def tree_text(parents):
    return "".join([f"nodes {len(parents) + 1}\n"] + [f"{child} {parent}\n" for child, parent in enumerate(parents, 1)])


def requests_text(requests):
    return "".join(f"{'write' if values else 'combine'} {' '.join(map(str, (node, *values)))}\n" for node, *values in requests)


# ---- commands


def store(folder, files):
    """Writes the files aside, then moves them into place: where writing fails, the old ones stay."""
    for name in files:
        if (folder / name).is_dir():
            raise Fault(f"{folder / name}: is a folder")
    try:
        with tempfile.TemporaryDirectory(dir=folder) as aside:
            for name, data in files.items():
                pathlib.Path(aside, name).write_bytes(data)
            for name in files:
                os.replace(pathlib.Path(aside, name), folder / name)
    except OSError as error:
        raise Fault(f"{folder}: cannot write there: {error.strerror}")


def pack(folder):
    parents = parents_of_text(folder / "tree.txt")
    written = requests_of_text(folder / "requests.txt")
    store(folder, {"tree.tab": table(parents), "requests.lst": request_list([request for _, request in written])})
    for index, (where, (node, *_)) in enumerate(written):
        if node > len(parents):
            print(f"{where}: warning: node {node} is not in the tree, so rww ends there with `request {index} 7`", file=sys.stderr)
            break


def unpack(folder, force):
    texts = {"tree.txt": tree_text(parents_of_table(folder / "tree.tab")), "requests.txt": requests_text(requests_of_list(folder / "requests.lst"))}
    files = {name: text.encode() for name, text in texts.items()}
    for name, data in files.items():
        path = folder / name
        if not force and path.exists() and path.read_bytes() != data:
            raise Fault(f"{path}: is there already and differs; --force replaces it")
    store(folder, files)


def log(path, place, end):
    place, end = (number("log", what, word, 0, 2**64 - 1) for what, word in (("PLACE", place), ("END", end)))
    for line in messages_of_log(path, place, end):
        print(line)


def main(arguments):
    parser = argparse.ArgumentParser(description=__doc__, formatter_class=argparse.RawDescriptionHelpFormatter)
    commands = parser.add_subparsers(dest="command", metavar="COMMAND", required=True)
    for name in ("pack", "unpack"):
        commands.add_parser(name).add_argument("folder", metavar="FOLDER", type=pathlib.Path)
    commands.choices["unpack"].add_argument("--force", action="store_true")
    shown = commands.add_parser("log")
    shown.add_argument("path", metavar="FILE", type=pathlib.Path)
    shown.add_argument("end", metavar="END")
    shown.add_argument("--from", metavar="PLACE", dest="place", default="0")
    asked = vars(parser.parse_args(arguments))
    try:
        {"pack": pack, "unpack": unpack, "log": log}[asked.pop("command")](**asked)
        sys.stdout.flush()
    except Fault as fault:
        print(fault, file=sys.stderr)
        return 1
    except BrokenPipeError:
        os._exit(1)
    except OSError as error:
        print(f"{error.filename}: {error.strerror}", file=sys.stderr)
        return 1
    return 0


if __name__ == "__main__":
    sys.exit(main(sys.argv[1:]))
