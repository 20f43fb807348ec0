"""A temporary folder with made-up files, for the tests of the tools."""
import contextlib
import io
import os
import pathlib
import sys
import tempfile
import unittest

sys.dont_write_bytecode = True
TOOLS = pathlib.Path(__file__).resolve().parent.parent
sys.path.insert(0, str(TOOLS))


class Scratch(unittest.TestCase):
    """A test that runs in an empty folder, in which `write` makes files."""

    def setUp(self):
        folder, home = tempfile.TemporaryDirectory(), os.getcwd()
        self.addCleanup(folder.cleanup)
        self.addCleanup(os.chdir, home)
        self.top = pathlib.Path(os.path.realpath(folder.name))
        os.chdir(self.top)

    def write(self, files):
        for path, text in files.items():
            place = self.top / path
            place.parent.mkdir(parents=True, exist_ok=True)
            place.write_text(text)


def printed(call, *values):
    """What a call returns, and the lines that it prints."""
    out = io.StringIO()
    with contextlib.redirect_stdout(out):
        result = call(*values)
    return result, out.getvalue().splitlines()
