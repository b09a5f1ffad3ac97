"""What the tests of the built program share: where it is, and how one of its words is run."""
import os
import pty
import subprocess
import tempfile
import unittest
from typing import NamedTuple

TOP = os.path.dirname(os.path.dirname(os.path.abspath(__file__)))


# The program, as the gate or `rt run` builds it, and then each of its words that has options of its own.
PCEF = (os.path.join(TOP, "crates", "pcef_cli", "out", "pcef_cli"),)
PCEF_CHECK = (*PCEF, "check")
PCEF_MANY = (*PCEF, "many")
PCEF_CAPTURE = (*PCEF, "capture")
PCEF_PAGE = (*PCEF, "page")
PCEF_GX = (*PCEF, "gx")


def name_of(program):
    """What stands before what a program says: its name, and its word."""
    return " ".join(["pcef", *program[1:]])


class Ended(NamedTuple):
    """How a program ended: its exit status, and what it wrote on standard output and on standard error."""

    status: int
    wrote: bytes
    said: bytes


def octets(text):
    return text if isinstance(text, bytes) else text.encode()


class ProgramTest(unittest.TestCase):
    """A test that runs programs in a folder of its own."""

    maxDiff = None

    def setUp(self):
        room = tempfile.TemporaryDirectory()
        self.addCleanup(room.cleanup)
        self.room = room.name

    def write(self, name, content):
        """Makes a file in the folder."""
        with open(os.path.join(self.room, name), "wb") as file:
            file.write(octets(content))

    def run_on(self, program, words, given="", environment=None):
        """How the program ends on these words and on `given` as its standard input."""
        ran = subprocess.run(
            [*program, *words],
            input=octets(given),
            stdout=subprocess.PIPE,
            stderr=subprocess.PIPE,
            cwd=self.room,
            env=environment,
            timeout=60,
        )
        return Ended(ran.returncode, ran.stdout, ran.stderr)

    def shown_on_a_terminal(self, program, words, given):
        """What the program says where standard error is a terminal, on a file of the folder as its standard input."""
        master, terminal = pty.openpty()
        with open(os.path.join(self.room, given), "rb") as file, open(terminal, "wb") as shown:
            subprocess.run(
                [*program, *words], stdin=file, stdout=subprocess.DEVNULL, stderr=shown, cwd=self.room, timeout=60
            )
        try:
            return os.read(master, 10000).decode()
        except OSError:
            # Nothing was said.
            return ""
        finally:
            os.close(master)

    def ends(self, program, words, given="", status=0, wrote="", said=""):
        """Expects that the program ends so."""
        came = self.run_on(program, words, given)
        self.assertEqual(came, Ended(status, octets(wrote), octets(said)))


def lines(*texts):
    """The texts as lines, each ended by a line feed."""
    return "".join(f"{text}\n" for text in texts)
