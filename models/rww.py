#!/usr/bin/env python3
"""What `rww` must print in a folder, by the model of sessions: `python3 models/rww.py FOLDER`.

It wrote the file `expected` of each example. It tests each session as a whole before each request, so that 256 nodes and 3,000 requests take about a minute."""

import pathlib
import sys

from cases import Refused, parents_of, record, requests_of
from sessions import Session

ROOM = "0" * 19380


def content(path):
    """A file that cannot be opened counts as no bytes."""
    try:
        return path.read_bytes()
    except OSError:
        return b""


def printed(folder):
    """The lines, one by one."""
    try:
        word = "table"
        session = Session(parents_of(content(folder / "tree.tab")))
        word = "list"
        asked = requests_of(content(folder / "requests.lst"))
    except Refused as refused:
        yield f"{word} {refused.args[0]}"
        return
    total = 0
    for index, (kind, node, *value) in enumerate(asked):
        refusal, answer, messages, *_ = session.serve((kind, node, *value), ROOM, 0, record)
        if refusal:
            yield f"request {index} {refusal}"
            return
        total += messages
        yield f"W {node} {value[0]} {messages}" if value else f"C {node} {answer} {messages}"
    yield f"total {total}"


if __name__ == "__main__":
    if len(sys.argv) != 2:
        sys.exit(__doc__)
    for line in printed(pathlib.Path(sys.argv[1])):
        print(line)
