#!/usr/bin/env python3
"""Tests of tools/vectors.py, which tries cases on the program `cases`: agreeing, differing and malformed ones, as text and as folders.

    python3 tools/test_vectors.py                    with the program crates/cases/out/cases
    python3 tools/test_vectors.py --program PATH     with a program of one's choice

The program must be there: `rt run </dev/null` in crates/cases builds it.

It takes some seconds, and leaves nothing behind."""

import copy
import subprocess
import sys
import unittest
import unittest.mock

sys.dont_write_bytecode = True
import testing
import vectors

NAMES = ("edge-order", "edge-path", "edge-star")


def as_text(cases):
    """Some cases as the blocks of one text."""
    blocks = ["# cases\n"]
    for name, case in cases.items():
        blocks.append(f"case {name} with a note")
        for file, content in case.items():
            blocks += [file, *(f"  {line}" for line in ([content.hex()] if file in vectors.BYTES else content))]
        blocks.append("")
    return {"own.txt": "\n".join(blocks)}


def as_folders(cases):
    """Some cases as the files of folders, one level down."""
    files = {}
    for name, case in cases.items():
        for file, content in case.items():
            files[f"own/{name}/{file}"] = content if file in vectors.BYTES else "".join(f"{line}\n" for line in content)
    return files


FORMS = ((as_text, "own.txt"), (as_folders, "own"))


class Trying(testing.Case):
    def tried(self, folder):
        """What comes of trying the cases of a folder."""
        return testing.run(vectors.main, "try", folder)

    def own(self):
        """Three cases, by names of their own."""
        return {name: copy.deepcopy(self.vectors[f"edges.txt/{name}"]) for name in NAMES}


class Program(Trying):
    def agree(self, folder, cases, lines):
        """All cases of a folder agree, and none is overlooked."""
        self.assertEqual(self.tried(folder), (0, [f"compared: {cases} cases, {lines} lines", "all agree"], ""))

    def differ(self, cases, count, name, place, said, came):
        """Some cases differ, in either form; the first is shown, with the line where it does."""
        lines = sum(len(case.get(file, [])) for case in cases.values() for file in vectors.LINES)
        for form, group in FORMS:
            found = f"differing: {count}; the first is {group}/{name}, {place}"
            shown = [f"compared: 3 cases, {lines} lines", found, f"  expected {said}", f"  came     {came}"]
            self.assertEqual(self.tried(self.folder(form(cases))), (1, shown, ""))

    def test_vectors(self):
        """All that are stored, as text and as folders, in one run and in three; one is too long for the program."""
        long = "left out: edges.txt/edge-table-long, 100227 bytes, for which the program has no room"
        for folder, batch in ((vectors.FOLDER, vectors.BATCH), (self.folder(as_folders(self.vectors)) / "own", 100)):
            with self.subTest(folder), unittest.mock.patch.object(vectors, "BATCH", batch):
                self.assertEqual(self.tried(folder), (0, ["compared: 246 cases, 37809 lines", long, "all agree"], ""))

    def test_both_forms_at_once(self):
        self.agree(self.folder({**as_text(self.own()), **as_folders(self.own())}), 6, 62)

    def test_text_of_another_system(self):
        self.agree(self.folder({"own.txt": "\ufeff" + as_text(self.own())["own.txt"].replace("\n", "\r\n")}), 3, 31)

    def test_examples(self):
        """Folders with other texts beside the files of a case; one of them alone."""
        self.agree(vectors.HOUSE / "examples", 3, 3014)
        self.agree(vectors.HOUSE / "examples/path", 1, 7)

    def test_changes(self):
        """Each change of one case is found, at the line where it shows first."""
        path = self.own()["edge-path"]
        lines, logs = path["expected"], path["log.hex"]
        for file, changed, place, said, came in (
            ("expected", [*lines[:2], "C 0 6 0", *lines[3:]], "line 3 of expected", "'C 0 6 0'", "'C 0 5 0'"),
            ("expected", [f"{line} " for line in lines], "line 1 of expected", "'C 0 0 4 '", "'C 0 0 4'"),
            ("expected", [*lines, "total 16"], "line 8 of expected", "'total 16'", "no line"),
            ("expected", lines[:-1], "line 7 of expected", "no line", "'total 16'"),
            ("expected", [], "line 1 of expected", "no line", "'C 0 0 4'"),
            ("log.hex", [*logs[:2], "2 0 00", *logs[3:]], "line 3 of log.hex", "'2 0 00'", "'2 0 -'"),
            ("log.hex", [*logs, "6 0 -"], "line 7 of log.hex", "'6 0 -'", "no line"),
            ("log.hex", [], "line 1 of log.hex", "no line", repr(logs[0])),
            ("tree.tab", None, "line 1 of expected", "'C 0 0 4'", "'table 1'"),
            ("requests.lst", None, "line 1 of expected", "'C 0 0 4'", "'list 1'"),
            ("requests.lst", b"", "line 1 of expected", "'C 0 0 4'", "'list 1'"),
        ):
            with self.subTest(f"{file} {changed}"):
                cases = self.own()
                cases["edge-path"][file] = changed
                if changed is None:
                    del cases["edge-path"][file]
                self.differ(cases, 1, "edge-path", place, said, came)

    def test_logs_that_are_not_stated(self):
        cases = self.own()
        del cases["edge-path"]["log.hex"]
        self.agree(self.folder(as_text(cases)), 3, 25)

    def test_several_differ(self):
        """The first of two cases, and in it the log of a request before the line of a later one."""
        cases = self.own()
        cases["edge-star"]["expected"] = ["list 1"]
        cases["edge-path"]["log.hex"][1] = cases["edge-path"]["expected"][2] = "else"
        for batch in (1, 2, 3):
            with unittest.mock.patch.object(vectors, "BATCH", batch):
                self.differ(cases, 2, "edge-path", "line 2 of log.hex", "'else'", "'1 116 808040000000016010000000000050'")


class Refused(Trying):
    def refused(self, folder, words):
        """Nothing is tried, and one line says why."""
        status, shown, error = self.tried(folder)
        self.assertEqual((status, shown, error.count("\n")), (2, [], 1))
        self.assertTrue(error.startswith(words), error)

    def test_no_cases(self):
        for files in ({}, {"own.txt": "# none\n"}, {"note": "none", "own/note": "none"}):
            folder = self.folder(files)
            self.refused(folder, f"{folder}: no case\n")

    def test_no_folder(self):
        folder = self.folder(as_text(self.own()))
        for name in ("other", "own.txt"):
            self.refused(folder / name, f"{folder / name}: no such folder")

    def test_no_room(self):
        case = {**self.own()["edge-star"], "tree.tab": bytes(vectors.ROOM)}
        folder = self.folder(as_folders({"long": case}))
        self.refused(folder, f"{folder}: no case that the program has room for\n")

    def test_malformed_texts(self):
        """One case among right ones; it is named."""
        right = as_text(self.own())["own.txt"]
        for block, words in (
            ("tree.tab\n  0080\nlog.hex\n", "own.txt/x: does not say"),
            ("expected\n  total 0\nlog.hx\n", "own.txt/x: 'log.hx' has"),
            ("expected\n total 0\n", "own.txt/x: ' total 0' has"),
            ("  total 0\nexpected\n", "own.txt/x: '  total 0' has"),
            ("expected\n  total 0\nexpected\n", "own.txt/x: 'expected' has"),
            ("expected\n  total 0\ncase\n", "own.txt/x: 'case' has"),
            ("tree.tab\n  008\nexpected\n", "own.txt/x: has bytes"),
            ("requests.lst\n  0x\nexpected\n", "own.txt/x: has bytes"),
            ("expected\n  total 0\ncase edge-star\n", "own.txt/edge-star: is there twice"),
        ):
            with self.subTest(block):
                self.refused(self.folder({"own.txt": f"case x\n{block}{right}"}), words)
        self.refused(self.folder({"own.txt": f"expected\n  total 0\n{right}"}), "own.txt: has a file")
        self.refused(self.folder({"own.txt": f"some words\n{right}"}), "own.txt: 'some words' has")
        folder = self.folder({"own.txt": b"# \xff\n" + right.encode()})
        self.refused(folder, f"{folder}/own.txt: is not text")

    def test_malformed_folders(self):
        """One case among right ones; it is named."""
        for file in vectors.BYTES + ("log.hex",):
            self.refused(self.folder({**as_folders(self.own()), f"own/x/{file}": ""}), "own/x: does not say")
        for file in vectors.LINES:
            folder = self.folder({**as_folders(self.own()), "own/x/expected": "table 1\n", f"own/x/{file}": b"\xff\n"})
            self.refused(folder, f"{folder}/own/x/{file}: is not text")

    def test_from_anywhere(self):
        """As a command, in another folder."""
        folder = self.folder({"own/x/log.hex": ""})
        said = {"own/x": b"x: does not say", "own": b"x: does not say", ".": b"own/x: does not say"}
        for arguments, words in (*((["try", path], words) for path, words in said.items()), (["try"], b"usage: "), ([], b"usage: ")):
            done = subprocess.run([sys.executable, vectors.HOUSE / "tools/vectors.py", *arguments], cwd=folder, capture_output=True)
            self.assertEqual((done.returncode, done.stdout, done.stderr[: len(words)]), (2, b"", words))

    def test_no_program(self):
        folder = self.folder(as_text(self.own()))
        with unittest.mock.patch.object(vectors, "PROGRAM", folder / "cases"):
            self.refused(folder, f"{folder}/cases: is not there; `rt run </dev/null` in crates/cases builds it")

    def test_programs_that_fail(self):
        """One that ends before the last case, says more than it is asked, or fails."""
        folder, mark = self.folder(as_text({name: {"expected": []} for name in "abc"})), vectors.MARK.encode()
        for status, printed, count in ((0, b"", 0), (0, 2 * mark, 2), (0, 3 * mark + b"total", 3), (0, 4 * mark, 4), (1, 3 * mark, 3)):
            done = subprocess.CompletedProcess([], status, printed)
            with unittest.mock.patch.object(vectors, "PROGRAM", folder), unittest.mock.patch("subprocess.run", return_value=done):
                self.refused(folder, f"{folder}: ended with status {status} after {count} of 3 cases\n")


if __name__ == "__main__":
    vectors.PROGRAM = testing.program(__doc__, vectors.PROGRAM)
    unittest.main()
