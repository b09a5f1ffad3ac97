"""`pcef many` where threads can't be started, and where its first thread finds no memory, as `threads.c` says."""
import os

from commands import ATTACH, SHOW, line, profile
from programs import PCEF_MANY, Ended, lines, octets
from streams import PreloadTest

# Threads that serve; one more reads.
SERVING = 4
WORDS = ["--threads", str(SERVING), "profile.toml"]
GIVEN = lines(*[f"s{n} {asked}" for n in range(64) for asked in (line(do="open"), ATTACH, *[SHOW] * 100)])


class Threads(PreloadTest):
    source = "threads.c"

    def setUp(self):
        super().setUp()
        self.write("profile.toml", profile())

    def run_lacking(self, **lacks):
        """How the program ends where it lacks this."""
        environment = {"LD_PRELOAD": self.library}
        environment.update((name, str(value)) for name, value in lacks.items())
        return self.run_on(PCEF_MANY, WORDS, GIVEN, environment)

    def test_threads_end_where_a_further_one_cannot_be_started(self):
        left = os.path.join(self.room, "left")
        for threads in range(SERVING + 1):
            with self.subTest(threads=threads):
                came = self.run_lacking(THREADS=threads, LEFT=left)
                self.assertEqual(came, Ended(3, b"", octets(lines("want of memory"))))
                self.assertEqual(os.path.getsize(left), 1)

    def test_no_memory_where_threads_are_joined(self):
        alone = self.run_on(PCEF_MANY, ["profile.toml"], GIVEN)
        self.assertEqual(alone.status, 0)
        came = self.run_lacking(THREADS=SERVING + 1, NO_MEMORY=1)
        self.assertEqual((came.status, came.said), (0, b""))
        self.assertEqual(sorted(came.wrote.splitlines()), sorted(alone.wrote.splitlines()))
