"""Programs between streams that fail or come in parts, as `streams.c` says."""
import os
import subprocess
import tempfile

from programs import TOP, ProgramTest


class PreloadTest(ProgramTest):
    """A test that starts programs with a library before all others, whose source stands beside this file."""

    source = ""

    @classmethod
    def setUpClass(cls):
        super().setUpClass()
        folder = tempfile.TemporaryDirectory()
        cls.addClassCleanup(folder.cleanup)
        cls.library = os.path.join(folder.name, "preloaded.so")
        source = os.path.join(TOP, "tests", cls.source)
        compiler = os.environ.get("CC", "cc")
        subprocess.run([compiler, "-O2", "-shared", "-fPIC", "-o", cls.library, source], check=True)


class StreamTest(PreloadTest):
    source = "streams.c"

    def run_failing(self, program, given, **limits):
        """How a program ends between streams with these limits, and the calls that failed."""
        calls = os.path.join(self.room, "calls")
        environment = {"LD_PRELOAD": self.library, "CALLS": calls}
        environment.update((name, str(limit)) for name, limit in limits.items())
        came = self.run_on(program[0], program[1:], given, environment)
        if not os.path.exists(calls):
            return came, ""
        with open(calls, encoding="ascii") as file:
            failed = file.read()
        os.remove(calls)
        return came, failed
