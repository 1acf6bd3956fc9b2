"""What the tests of tools/ share."""

import argparse
import contextlib
import io
import pathlib
import sys
import tempfile
import unittest

import vectors


def run(main, *arguments):
    """The exit status of a command, its lines on standard output, and its text on standard error."""
    out, error = io.StringIO(), io.StringIO()
    with contextlib.redirect_stdout(out), contextlib.redirect_stderr(error):
        status = main([str(argument) for argument in arguments])
    return status, out.getvalue().splitlines(), error.getvalue()


class Case(unittest.TestCase):
    @classmethod
    def setUpClass(cls):
        cls.vectors = vectors.read()

    def folder(self, files):
        """A new folder with some files, of bytes or of text."""
        made = tempfile.TemporaryDirectory()
        self.addCleanup(made.cleanup)
        for name, content in files.items():
            path = pathlib.Path(made.name, name)
            path.parent.mkdir(parents=True, exist_ok=True)
            path.write_bytes(content.encode() if isinstance(content, str) else content)
        return pathlib.Path(made.name)


def program(about, usual):
    """The program that the command line names, or the usual one; it must be there. The other options are left to unittest."""
    parser = argparse.ArgumentParser(description=about, formatter_class=argparse.RawDescriptionHelpFormatter)
    parser.add_argument("--program", type=pathlib.Path, metavar="PATH")
    known, sys.argv[1:] = parser.parse_known_args()
    found = known.program or usual
    if not found.exists():
        sys.exit(f"{found}: is not there" + ("" if known.program else f"; {vectors.building(usual.name)}"))
    return found.resolve()
