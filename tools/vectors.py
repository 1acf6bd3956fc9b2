#!/usr/bin/env python3
"""Reads cases of outside models, and tries them on the program `cases`; vectors/README.md says how they are written.

    python3 tools/vectors.py try FOLDER     runs the cases of a folder, and shows the first line that differs

The exit status is 0 where all agree, 1 where a case differs, 2 where they could not be tried.
"""

import argparse
import itertools
import pathlib
import re
import subprocess
import sys

HOUSE = pathlib.Path(__file__).resolve().parent.parent
FOLDER = HOUSE / "vectors"
BYTES = ("tree.tab", "requests.lst")
LINES = ("expected", "log.hex")
ROOM = 65600  # the bytes of a case that the program has room for
BATCH = 1000  # the cases that one run is handed; the program takes a million, marks included
MARK = "no such case\n"


def built(name):
    """Where rt leaves a program of this repository."""
    return HOUSE / "crates" / name / "out" / name


def building(name):
    """How such a program is built."""
    return f"`rt run </dev/null` in crates/{name} builds it"


PROGRAM = built("cases")


class Fault(Exception):
    """One line that says what could not be tried, and why."""


# ---- how cases are written


def read(folder=FOLDER):
    """The files of each case of a folder by the case's name: bytes where the file has bytes, else lines."""
    if is_case(folder):
        cases = {folder.resolve().name: of_folder(folder)}
    else:
        cases = {}
        for path in sorted(filter(pathlib.Path.is_file, folder.glob("*.txt"))):
            cases.update(of_text(path))
        for path in sorted(filter(is_case, folder.glob("**/"))):
            cases[str(path.relative_to(folder))] = of_folder(path)
    for name, case in cases.items():
        if "expected" not in case:
            raise Fault(f"{name}: does not say what is expected")
    return cases


def is_case(folder):
    """Whether a folder holds any file of a case."""
    return any((folder / name).is_file() for name in BYTES + LINES)


def of_folder(folder):
    """The files of a case that is a folder."""
    there = [name for name in BYTES + LINES if (folder / name).is_file()]
    return {name: (folder / name).read_bytes() if name in BYTES else text(folder / name).splitlines() for name in there}


def of_text(path):
    """The cases of a text, each named after the text and itself."""
    before, *found = re.split(r"^case +(\S+).*", text(path), flags=re.MULTILINE)
    if of_block(path.name, before):
        raise Fault(f"{path.name}: has a file before the first case")
    cases = {}
    for own, block in zip(found[::2], found[1::2]):
        name = f"{path.name}/{own}"
        if name in cases:
            raise Fault(f"{name}: is there twice")
        cases[name] = of_block(name, block)
    return cases


def of_block(name, block):
    """The files of a case that is a block of a text."""
    case = {}
    for line in block.splitlines():
        if not line.strip() or line.startswith("#"):
            continue
        if line.startswith("  ") and case:
            section.append(line[2:])
        elif line in BYTES + LINES and line not in case:
            section = case[line] = []
        else:
            raise Fault(f"{name}: {line!r} has no place there")
    return {file: unhex(name, lines) if file in BYTES else lines for file, lines in case.items()}


def unhex(name, lines):
    """The bytes that some lines of a case show."""
    try:
        return bytes.fromhex("".join(lines))
    except ValueError:
        raise Fault(f"{name}: has bytes that are not in hexadecimal")


def text(path):
    """What a file of text holds."""
    try:
        return path.read_text("utf-8-sig")
    except UnicodeDecodeError:
        raise Fault(f"{path}: is not text")


# ---- the program


def handed(letter, numbers=(), data=b""):
    """What the program takes: a letter, the number of bytes, three numbers, the bytes."""
    words = [number.to_bytes(8, "big") for number in (*numbers, 0, 0, 0)[:3]]
    return letter.encode() + len(data).to_bytes(3, "big") + b"".join(words) + data


def size(case):
    """How many bytes the files of a case have."""
    return sum(len(case.get(name, b"")) for name in BYTES)


def question(case):
    """A case as the program takes it. A file that is not there counts as no bytes."""
    table, requests = (case.get(name, b"") for name in BYTES)
    return handed("V", (len(table), int("log.hex" in case)), table + requests)


def answers(cases):
    """The lines that the program prints of each case. Behind each it is handed an unknown letter, and marks the place by saying so."""
    data = b"".join(question(case) + handed("?") for case in cases)
    done = subprocess.run([PROGRAM], input=data, stdout=subprocess.PIPE)
    *found, rest = done.stdout.decode(errors="replace").split(MARK)
    if done.returncode or rest or len(found) != len(cases):
        raise Fault(f"{PROGRAM}: ended with status {done.returncode} after {len(found)} of {len(cases)} cases")
    return [lines.splitlines() for lines in found]


# ---- trying


def filed(lines):
    """The program's lines, each in the file of a case that it belongs to."""
    files = {name: [] for name in LINES}
    for line in lines:
        if line.startswith("log "):
            files["log.hex"].append(line[4:])
        else:
            files["expected"].append(line)
    return files


def difference(case, lines):
    """The first place where a case and the program's lines differ, or None: a number, a file, what the case says and what came."""
    came, found = filed(lines), []
    for file in LINES:
        for number, pair in enumerate(itertools.zip_longest(case.get(file, []), came[file]), 1):
            if pair[0] != pair[1]:
                found.append((number, file, *pair))
    return min(found, key=lambda place: place[0], default=None)


def differences(cases):
    """The first difference of each case that has one, by the case's name."""
    found, names = {}, list(cases)
    for start in range(0, len(names), BATCH):
        batch = names[start : start + BATCH]
        for name, lines in zip(batch, answers([cases[name] for name in batch])):
            place = difference(cases[name], lines)
            if place:
                found[name] = place
    return found


def verdict(found):
    """Whether all agree; else how many cases do not, and the first difference."""
    if not found:
        return "all agree"
    name, (number, file, *pair) = next(iter(found.items()))
    said, came = ("no line" if line is None else repr(line) for line in pair)
    return f"differing: {len(found)}; the first is {name}, line {number} of {file}\n  expected {said}\n  came     {came}"


def attempt(folder):
    """Tries the cases of a folder, says what came of it, and answers the exit status."""
    if not folder.is_dir():
        raise Fault(f"{folder}: no such folder")
    cases = read(folder)
    tried = {name: case for name, case in cases.items() if size(case) <= ROOM}
    if not tried:
        raise Fault(f"{folder}: no case{' that the program has room for' if cases else ''}")
    if not PROGRAM.exists():
        raise Fault(f"{PROGRAM}: is not there; {building('cases')}")
    found = differences(tried)
    lines = sum(len(case.get(file, [])) for case in tried.values() for file in LINES)
    print(f"compared: {len(tried)} cases, {lines} lines")
    for name, case in cases.items():
        if name not in tried:
            print(f"left out: {name}, {size(case)} bytes, for which the program has no room")
    print(verdict(found))
    return 1 if found else 0


def main(arguments):
    """Runs the command and answers its exit status."""
    parser = argparse.ArgumentParser(description=__doc__, formatter_class=argparse.RawDescriptionHelpFormatter)
    commands = parser.add_subparsers(metavar="COMMAND", required=True)
    commands.add_parser("try").add_argument("folder", metavar="FOLDER", type=pathlib.Path)
    try:
        return attempt(parser.parse_args(arguments).folder)
    except Fault as fault:
        print(fault, file=sys.stderr)
    except OSError as error:
        print(f"{error.filename}: {error.strerror}", file=sys.stderr)
    return 2


if __name__ == "__main__":
    sys.exit(main(sys.argv[1:]))
