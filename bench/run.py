#!/usr/bin/env python3
"""Times the requests of this library beside those of a plain implementation, and prints a table.

    python3 bench/run.py FOLDER

FOLDER is the Cargo project of the plain implementation; `cargo run --release -- --bench` there prints
lines like `path 16 cold combine   1234 ns`. It is built in a temporary folder. The program `bench` of
this repository is proved and built first, by `rt run` in crates/bench. It takes about two minutes, and
an x86-64 processor: the toolchain compiles for that alone, and under an emulator a time says nothing.

How to read the table: a line is a request at the last node of a tree. `here` and `plain` are the
nanoseconds of one request, the best of some rounds in which both are timed; here that is the time of
many requests less that of none. Only the ratio, here by plain, means something, and only on a machine
that does nothing else.

    cold combine              on a fresh session
    free combine              after a combine at the same node: no messages
    silent write              on a fresh session: no messages
    write after combine at 0  on a fresh session, the combine is in the time
    list of combines          64 free combines in one call; the time is that of one of them
    list of writes            64 silent writes in one call, likewise
"""
import pathlib
import platform
import subprocess
import sys
import tempfile
import time

HOUSE = pathlib.Path(__file__).resolve().parent.parent
PROGRAM = HOUSE / "crates/bench/out/bench"
ROUNDS = 9
TIMES = 4000
SIZES = (16, 64, 256)
PARENTS = {"path": lambda i: i - 1, "star": lambda i: 0, "binary": lambda i: (i - 1) // 2}
LETTERS = {
    "cold combine": "C",
    "free combine": "F",
    "silent write": "S",
    "write after combine at 0": "W",
    "list of combines": "L",
    "list of writes": "V",
}
LISTED = 64
ROWS = [(tree, nodes, request) for nodes in SIZES for tree in PARENTS for request in LETTERS]


def table(tree, nodes):
    """The bytes of a tree's table: the count in 9 bits, each parent as wide as it must be, zeros to the byte."""
    bits = f"{nodes:09b}"
    for i in range(1, nodes):
        width = (i - 1).bit_length()
        bits += f"{PARENTS[tree](i):0{width}b}" if width else ""
    bits += "0" * (-len(bits) % 8)
    return bytes(int(bits[k : k + 8], 2) for k in range(0, len(bits), 8))


def here(times):
    """The nanoseconds of a run of the program with so many requests, for each row."""
    taken = {}
    for tree, nodes, request in ROWS:
        entries = table(tree, nodes)
        job = LETTERS[request].encode() + len(entries).to_bytes(3, "big") + times.to_bytes(4, "big") + entries
        start = time.perf_counter_ns()
        subprocess.run([PROGRAM], input=job, stdout=subprocess.DEVNULL, check=True)
        taken[tree, nodes, request] = time.perf_counter_ns() - start
    return taken


def plain(folder, target):
    """The nanoseconds of one request of the plain implementation, for each row."""
    cargo = ["cargo", "run", "--release", "--offline", "--quiet", "--target-dir", target, "--", "--bench"]
    lines = subprocess.run(cargo, cwd=folder, capture_output=True, text=True, check=True).stdout.splitlines()
    return {(tree, int(nodes), " ".join(request)): float(taken) for tree, nodes, *request, taken, _ in map(str.split, lines)}


def requests_in(request):
    """How many requests one call makes."""
    return LISTED if request.startswith("list of") else 1


def main():
    if len(sys.argv) != 2:
        sys.exit(__doc__)
    if platform.machine() != "x86_64":
        sys.exit(f"bench/run.py needs an x86-64 processor: on {platform.machine()} it would time an emulator")
    subprocess.run(["rt", "run"], cwd=HOUSE / "crates/bench", stdin=subprocess.DEVNULL, stdout=subprocess.DEVNULL, check=True)
    with tempfile.TemporaryDirectory() as target:
        rounds = [(here(TIMES), here(0), plain(sys.argv[1], target)) for _ in range(ROUNDS)]
    print(f"{'tree':8}{'nodes':>5}  {'request':26}{'here':>8}{'plain':>8}{'ratio':>7}")
    for row in ROWS:
        many, none, theirs = (min(times[row] for times in column) for column in zip(*rounds))
        tree, nodes, request = row
        ours = (many - none) / TIMES / requests_in(request)
        print(f"{tree:8}{nodes:5}  {request:26}{ours:8.0f}{theirs:8.0f}{ours / theirs:7.2f}")


if __name__ == "__main__":
    main()
