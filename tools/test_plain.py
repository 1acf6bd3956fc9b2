#!/usr/bin/env python3
"""Tests of tools/plain.py over the examples and the vectors, and of the program `rww` over the same.

    python3 tools/test_plain.py                    the script, and the program crates/rww/out/rww
    python3 tools/test_plain.py --program PATH     the script, and a program of one's choice

The program must be there: `rt run </dev/null` in crates/rww builds it.

It takes some seconds, and leaves nothing behind."""

import collections
import pathlib
import subprocess
import sys
import unittest

sys.dont_write_bytecode = True
import plain
import testing
import vectors
import wrong_texts

HOUSE = pathlib.Path(__file__).resolve().parent.parent
PROGRAM = vectors.built("rww")
EXAMPLES = ("path", "star", "room")
TEXTS = ("tree.txt", "requests.txt")
BYTES = vectors.BYTES


def run(*arguments):
    """What a command of the script comes to."""
    return testing.run(plain.main, *arguments)


def held(folder):
    """All that a folder holds."""
    return {path.name: path.read_bytes() if path.is_file() else None for path in folder.iterdir()}


def width(message):
    """The bits of a message that is shown as a line."""
    return 58 if len(message.split()) == 4 else 18


class Case(testing.Case):
    def example(self, name, names):
        return {file: (HOUSE / "examples" / name / file).read_bytes() for file in names}

    def refused(self, folder, *arguments):
        """The one line that a command says where it refuses, without the folder; it must leave everything as it was."""
        before = held(folder)
        status, shown, error = run(*arguments)
        self.assertEqual((status, shown, held(folder)), (1, [], before))
        self.assertEqual((error.count("\n"), error[-1:]), (1, "\n"))
        self.assertTrue(error.startswith(f"{folder}/"), error)
        return error[len(f"{folder}/") : -1]


class Pack(Case):
    def packed(self, tree, requests):
        folder = self.folder({"tree.txt": tree, "requests.txt": requests})
        self.assertEqual(run("pack", folder), (0, [], ""))
        return tuple(held(folder)[name] for name in BYTES)

    def test_examples(self):
        for name in EXAMPLES:
            with self.subTest(name):
                self.assertEqual(self.packed(*self.example(name, TEXTS).values()), tuple(self.example(name, BYTES).values()))

    def test_room_is_what_its_script_makes(self):
        for name, text in self.example("room", TEXTS).items():
            made = subprocess.run([sys.executable, HOUSE / "examples/room.py", name[:-4]], capture_output=True, check=True).stdout
            self.assertEqual(made, text, name)

    def test_document_01(self):
        for tree, table in (("nodes 1", "0080"), ("nodes 3\n1 0\n2 1", "01c0"), ("nodes 4\n1 0\n2 0\n3 0", "0200")):
            self.assertEqual(self.packed(tree, "")[0].hex(), table)
        for requests, data in (("", "0000"), ("write 2 5", "000c0800000014"), ("combine 0", "000800")):
            self.assertEqual(self.packed("nodes 3\n1 0\n2 1", requests)[1].hex(), data)

    def test_how_text_may_look(self):
        tree = "\ufeff# a comment é\r\n\r\n  nodes\t4 # four\r\n3 2\r\n1 0\r\n2 01#\r\n"
        self.assertEqual(self.packed(tree, "#\n\n \nwrite 3 -0"), self.packed("nodes 4\n1 0\n2 1\n3 2\n", "write 3 0\n"))
        self.assertEqual(self.packed(b"nodes 1 # \xff\x00", b""), self.packed("nodes 1", ""))

    def test_node_that_is_not_in_the_tree(self):
        folder = self.folder({"tree.txt": "nodes 2\n1 0", "requests.txt": "combine 1\n\nwrite 2 5\ncombine 9\n"})
        status, shown, error = run("pack", folder)
        self.assertEqual((status, shown), (0, []))
        self.assertEqual(error, f"{folder}/requests.txt:3: warning: node 2 is not in the tree, so rww ends there with `request 1 7`\n")

    def wrong(self, name, cases):
        for text, line, words in cases:
            with self.subTest(text[:60]):
                files = {"tree.txt": "nodes 3\n1 0\n2 1\n", "requests.txt": "combine 0\n", "tree.tab": "old", "requests.lst": "old"}
                folder = self.folder({**files, name: text})
                said = self.refused(folder, "pack", folder)
                self.assertTrue(said.startswith(f"{name}:{line}: "), said)
                self.assertIn(words, said)

    def test_wrong_trees(self):
        self.wrong("tree.txt", wrong_texts.TREES)

    def test_wrong_requests(self):
        self.wrong("requests.txt", wrong_texts.REQUESTS)

    def test_most_that_fits(self):
        ends = "write 255 -2147483648\nwrite 255 2147483647\n" * 2048
        table, data = self.packed("nodes 256\n" + "".join(f"{i} {i - 1}\n" for i in range(1, 256)), ends)
        self.assertEqual((len(table), len(data)), (225, 20994))

    def test_files_that_cannot_be_opened_or_replaced(self):
        for name in TEXTS:
            files = {"tree.txt": "nodes 1", "requests.txt": "", "tree.tab": "old"}
            del files[name]
            folder = self.folder(files)
            self.assertEqual(self.refused(folder, "pack", folder), f"{name}: No such file or directory")
        folder = self.folder({"tree.txt": "nodes 1", "requests.txt": "", "tree.tab": "old"})
        (folder / "requests.lst").mkdir()
        self.assertEqual(self.refused(folder, "pack", folder), "requests.lst: is a folder")


class Unpack(Case):
    def returns(self, files):
        """Bytes that are unpacked pack to themselves; answers what pack says of them."""
        folder = self.folder(files)
        self.assertEqual(run("unpack", folder), (0, [], ""))
        text = {name: held(folder)[name] for name in TEXTS}
        again = self.folder(text)
        status, shown, error = run("pack", again)
        self.assertEqual((status, shown, held(again)), (0, [], {**text, **files}))
        return error

    def test_examples(self):
        for name in EXAMPLES:
            with self.subTest(name):
                self.assertEqual(self.returns(self.example(name, BYTES)), "")

    def test_canonical_text(self):
        folder = self.folder(self.example("star", BYTES))
        run("unpack", folder)
        self.assertEqual((folder / "tree.txt").read_text(), "nodes 4\n1 0\n2 0\n3 0\n")
        self.assertEqual((folder / "requests.txt").read_text(), "combine 1\nwrite 2 4\ncombine 0\nwrite 3 1\ncombine 1\n")

    def test_vectors(self):
        for name, case in self.vectors.items():
            with self.subTest(name):
                files = {file: case[file] for file in BYTES if file in case}
                word, *numbers = case["expected"][-1].split()
                if word in ("table", "list"):
                    file = dict(zip(("table", "list"), BYTES))[word]
                    folder = self.folder(files)
                    reason = f"refused with {numbers[0]}: " if file in files else "No such file or directory"
                    self.assertTrue(self.refused(folder, "unpack", folder).startswith(f"{file}: {reason}"))
                else:
                    warned = f"with `request {numbers[0]} 7`\n" if word == "request" else ""
                    said = self.returns(files)
                    self.assertTrue(said.endswith(warned) and bool(said) == bool(warned), said)

    def test_text_is_kept(self):
        for name in TEXTS:
            folder = self.folder({**self.example("star", BYTES), name: "# by hand\n"})
            self.assertEqual(self.refused(folder, "unpack", folder), f"{name}: is there already and differs; --force replaces it")
            self.assertEqual(run("unpack", folder, "--force"), (0, [], ""))
            self.assertEqual(run("unpack", folder), (0, [], ""))
            self.assertNotIn(b"by hand", held(folder)[name])


class Log(Case):
    def shown(self, data, end, *options):
        return run("log", self.folder({"log": data}) / "log", end, *options)

    def star(self):
        """What document 01 says of the star's first combine and last write, and the bits that they log."""
        logs = [line.split() for line in self.vectors["edges.txt/edge-star"]["log.hex"]]
        first = ["probe 1 0", "probe 0 2", "response 2 0 0", "probe 0 3", "response 3 0 0", "response 0 1 0"]
        last = ["update 3 0 1", "update 0 1 5", "release 1 0"]
        return [(lines, int(bits), bytes.fromhex(data)) for lines, (_, bits, data) in ((first, logs[0]), (last, logs[3]))]

    def test_document_01(self):
        self.assertEqual(self.shown(bytes.fromhex("000040"), 18), (0, ["probe 0 1"], ""))
        self.assertEqual(self.shown(bytes.fromhex("4040 3fffffffffc0"), 58), (0, ["response 1 0 -1"], ""))
        for lines, bits, data in self.star():
            self.assertEqual(self.shown(data, bits), (0, lines, ""))

    def test_every_place_and_every_cut(self):
        for lines, bits, data in self.star():
            ends = [0]
            for line in lines:
                ends.append(ends[-1] + width(line))
            path = self.folder({"log": data}) / "log"
            for end in range(bits + 1):
                whole = sum(bound <= end for bound in ends) - 1
                status, shown, error = run("log", path, end)
                self.assertEqual((status, shown), (int(end not in ends), lines[:whole]))
                self.assertEqual(error.startswith(f"{path}: refused with 1: "), end not in ends)
            for index, place in enumerate(ends):
                self.assertEqual(run("log", path, bits, "--from", place), (0, lines[index:], ""))

    def test_places_and_ends_out_of_rule(self):
        long = bytes(65537)
        self.assertEqual(self.shown(long, 524286), (0, ["probe 0 0"] * 29127, ""))
        self.assertEqual(self.shown(long, 524288, "--from", 524288), (0, [], ""))
        for data, end, place, words in (
            (long, 524289, 0, "end 524289 is past the usable log of 524288 bits"),
            (b"\0\0\0", 25, 0, "end 25 is past the usable log of 24 bits"),
            (b"\0\0\0", 2**64 - 1, 2**64 - 1, "past the usable log"),
            (b"\0\0\0", 18, 19, "place 19 is past end 18"),
            (b"", 0, 1, "place 1 is past end 0"),
        ):
            folder = self.folder({"log": data})
            said = self.refused(folder, "log", folder / "log", end, "--from", place)
            self.assertEqual((said[:21], words in said), ("log: refused with 1: ", True))
        for end in ("x", "-1", 2**64):
            self.assertEqual(self.shown(b"", end), (1, [], f"log: END '{end}' is not a number from 0 to {2**64 - 1}\n"))

    def test_vectors(self):
        """Logs of a case's requests one behind the other: each has as many messages as the program prints of it, and their bits."""
        for name, case in self.vectors.items():
            logs = [(int(index), int(bits), bytes.fromhex(data.strip("-"))) for index, bits, data in map(str.split, case.get("log.hex", []))]
            digits = "".join("".join(f"{byte:08b}" for byte in data)[:bits] for _, bits, data in logs)
            filled = digits + "0" * (-len(digits) % 8)
            whole = bytes(int(filled[k : k + 8], 2) for k in range(0, len(filled), 8))
            status, shown, error = self.shown(whole, len(digits))
            self.assertEqual((status, error), (0, ""), name)
            for index, bits, _ in logs:
                count = int(case["expected"][index].split()[-1])
                messages, shown = shown[:count], shown[count:]
                self.assertEqual((len(messages), sum(map(width, messages))), (count, bits), f"{name} {index}")
            self.assertEqual(shown, [], name)


class Command(Case):
    def test_from_anywhere(self):
        folder = self.folder(self.example("path", TEXTS))
        for arguments, status, error in ((["pack", "."], 0, b""), (["unpack", "."], 1, b"tree.txt: is there"), ([], 2, b"usage: ")):
            done = subprocess.run([sys.executable, HOUSE / "tools/plain.py", *arguments], cwd=folder, capture_output=True)
            self.assertEqual((done.returncode, done.stdout, done.stderr[: len(error)]), (status, b"", error))
        self.assertEqual({name: held(folder)[name] for name in BYTES}, self.example("path", BYTES))


class Vectors(Case):
    def test_all_are_there(self):
        groups = collections.Counter(name.split("/")[0] for name in self.vectors)
        self.assertEqual(groups, {"edges.txt": 47, "good.txt": 100, "damaged.txt": 100})
        self.assertTrue(all({"expected"} <= set(case) <= {*BYTES, "expected", "log.hex"} for case in self.vectors.values()))
        self.assertEqual(self.vectors["edges.txt/edge-rounds-1365"]["expected"][-1], "total 6825")


class Program(Case):
    def printed(self, files):
        return subprocess.run([PROGRAM], cwd=self.folder(files), stdout=subprocess.PIPE, timeout=120).stdout

    def test_no_files(self):
        self.assertEqual(self.printed({}), b"table 1\n")

    def test_examples(self):
        for name in EXAMPLES:
            with self.subTest(name):
                self.assertEqual(self.printed(self.example(name, BYTES)), self.example(name, ["expected"])["expected"])

    def test_vectors(self):
        for name, case in self.vectors.items():
            with self.subTest(name):
                expected = "".join(f"{line}\n" for line in case["expected"])
                self.assertEqual(self.printed({file: case[file] for file in BYTES if file in case}), expected.encode())


if __name__ == "__main__":
    PROGRAM = testing.program(__doc__, PROGRAM)
    unittest.main()
