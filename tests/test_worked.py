"""Scripts and pools over the built-in rules, with answers that were worked out by hand.

`tests/worked` has them: of a script `NAME.jsonl` and `NAME.answers.jsonl`; of a pool its orders in `NAME.pool`, the
words behind `pcef pool` in `NAME.words`, where PROFILE stands for the profile, and in `NAME.answers` what is printed.
More scripts, which name no built-in rule, stand in `crates/tests_examples/data`, some with a profile of their own. Its
`args` names each of them, and `tests_examples` plays them behind a lock.
"""
import glob
import os

from programs import PCEF, TOP, ProgramTest

WORKED = os.path.join(TOP, "tests", "worked")
PROFILE = os.path.join(TOP, "examples", "profile.toml")
EXAMPLES = os.path.join(TOP, "crates", "tests_examples")


def read(name, folder=WORKED):
    with open(os.path.join(folder, name), "rb") as file:
        return file.read()


def named(ending, folder=WORKED):
    """The names of the files with this ending, without it."""
    found = glob.glob(os.path.join(folder, "*" + ending))
    return sorted(os.path.basename(path)[: -len(ending)] for path in found)


class WorkedTest(ProgramTest):
    def test_each_script_is_answered_as_worked_out(self):
        names = named(".answers.jsonl")
        self.assertGreater(len(names), 0)
        for name in names:
            with self.subTest(name):
                self.ends(PCEF, ["script", PROFILE], read(name + ".jsonl"), wrote=read(name + ".answers.jsonl"))

    def test_each_example_is_answered_as_worked_out(self):
        data = os.path.join(EXAMPLES, "data")
        words = read("args", EXAMPLES).decode().split()
        names = [word for word in words if os.path.exists(os.path.join(data, word + ".jsonl"))]
        self.assertEqual(sorted(names), named(".answers.jsonl", data))
        for name in names:
            with self.subTest(name):
                own = os.path.join(data, name + ".toml")
                profile = own if os.path.exists(own) else os.path.join(data, "profile.toml")
                answers = read(name + ".answers.jsonl", data)
                ended = self.run_on(PCEF, ["script", profile], read(name + ".jsonl", data))
                self.assertEqual((ended.status, ended.wrote), (1 if b'"fault":' in answers else 0, answers))

    def test_each_pool_is_answered_as_worked_out(self):
        names = named(".pool")
        self.assertGreater(len(names), 1)
        for name in names:
            with self.subTest(name):
                words = read(name + ".words").decode().replace("PROFILE", PROFILE).split()
                self.ends(PCEF, ["pool", *words], read(name + ".pool"), wrote=read(name + ".answers"))
