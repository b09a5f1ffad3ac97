"""The words of `pcef`: what is usage, what stands below it, and what is help."""
import os
import shutil
import subprocess

from commands import profile
from programs import PCEF, PCEF_CAPTURE, PCEF_CHECK, PCEF_GX, PCEF_MANY, PCEF_PAGE, TOP, ProgramTest, lines, name_of

USAGE = "usage: pcef script PROFILE | pcef run PROFILE WORKERS | pcef pool UP DOWN PROFILE..."

# The words that have options of their own.
OTHERS = PCEF_CAPTURE, PCEF_CHECK, PCEF_GX, PCEF_MANY, PCEF_PAGE

# Words that ask for help. What stands behind is passed over.
HELP = [["--help"], ["-h"], ["--help", "a"], ["script", "--help"], ["run", "-h", "a"], ["pool", "--help", "1", "2"]]
HELP += [["help"], ["help", "script"], ["help", "run", "a"], ["help", "pool"], ["help", "help"], ["help", "--help"]]

THERE_ARE = "there are script, run, pool, check, many, capture, page and gx."

# Words that ask for nothing, and what stands below the usage.
NAMED = [
    ([], "A command is missing: script, run, pool, check, many, capture, page or gx."),
    (["scripts", "a"], f"There is no command 'scripts': {THERE_ARE}"),
    (["help", "scripts"], f"There is no command 'scripts': {THERE_ARE}"),
    # The words are whole, and stand first.
    (["manyy", "profile.toml"], f"There is no command 'manyy': {THERE_ARE}"),
    (["Many", "profile.toml"], f"There is no command 'Many': {THERE_ARE}"),
    (["", "many"], f"There is no command '': {THERE_ARE}"),
    (["--threads", "many"], f"There is no command '--threads': {THERE_ARE}"),
    (["script"], "script takes PROFILE: 1 word, found 0."),
    (["run", "a"], "run takes PROFILE and WORKERS: 2 words, found 1."),
    (["run", "a", "17"], "WORKERS is 1 to 16, found '17'."),
    (["run", "a", "\u00e4"], "WORKERS is 1 to 16, found other text."),
    (["pool", "1", "2"], "pool takes UP, DOWN and 1 to 64 profiles: 3 to 66 words, found 2."),
    (["pool", "01", "x", "a"], "UP is 0 to 1099511627775 bit/s, found '01'."),
    (["pool", "1", "x", "a"], "DOWN is 0 to 1099511627775 bit/s, found 'x'."),
    # As many profiles as there may be, and one more, which makes too many words.
    (["pool", "1", "x"] + ["a"] * 64, "DOWN is 0 to 1099511627775 bit/s, found 'x'."),
    (["pool", "1", "x"] + ["a"] * 65, "pool takes UP, DOWN and 1 to 64 profiles: 3 to 66 words, found 67."),
    # A word is shown where it has 80 bytes at most.
    (["pool", "1", "x" * 80, "a"], f"DOWN is 0 to 1099511627775 bit/s, found '{'x' * 80}'."),
    (["pool", "1", "x" * 81, "a"], "DOWN is 0 to 1099511627775 bit/s, found other text."),
]

NO_WORKERS = ["0", "17", "01", "+1", "", "20", "1 ", "999999999999999999999"]

NO_RATES = ["", "00", "01", "+1", "-1", "1 ", "1e3", "1099511627776", "99999999999999999999999"]


class Words(ProgramTest):
    def is_usage(self, words, given="x"):
        """Expects usage, and returns what stands below its first line."""
        came = self.run_on(PCEF, words, given)
        first, *below = came.said.decode().splitlines()
        self.assertEqual((came.status, came.wrote, first), (2, b"", USAGE))
        return below

    def test_words_that_ask_for_nothing_are_named(self):
        for words, named in NAMED:
            with self.subTest(words=words):
                self.assertEqual(self.is_usage(words)[0], named)

    def test_usage_and_help_tell_by_what_the_program_was_proved(self):
        proved = "with rattle-kit-13f logic dac8208d650f15bf"
        self.assertIn(proved, "\n".join(self.is_usage([])))
        below = "\n".join(self.is_usage([])[1:])
        for words in HELP:
            with self.subTest(words=words):
                self.ends(PCEF, words, "x", wrote=f"{USAGE}\n{below}\n")

    def test_help_names_each_word(self):
        said = self.run_on(PCEF, ["--help"]).wrote.decode()
        for word in ["script", "run", "pool", *[program[-1] for program in OTHERS]]:
            self.assertRegex(said, rf"(?m)^  {word} ")

    def test_each_word_has_a_version(self):
        for program in OTHERS:
            for word in "--version", "-V":
                with self.subTest(program=program, word=word):
                    self.ends(program, [word], wrote=f"{name_of(program)} 1.0.0\n")

    def test_each_word_has_help_of_its_own(self):
        for program in OTHERS:
            with self.subTest(program=program):
                came = self.run_on(program, ["--help"])
                self.assertEqual((came.status, came.said), (0, b""))
                self.assertIn(f"\nUsage: {name_of(program)} ", came.wrote.decode())
                # What stands behind the word isn't looked at.
                for words in ["help", program[-1]], ["help", program[-1], b"a\xff"], [program[-1], "-h"]:
                    self.assertEqual(self.run_on(PCEF, words), came)

    def test_words_that_are_no_text(self):
        for program in OTHERS:
            with self.subTest(program=program):
                self.ends(program, [b"a\xff"], status=2, said=lines("usage: an argument isn't UTF-8"))

    def test_each_word_on_files_of_its_own(self):
        """Each folder of `tests/words` has the words, the files and the input of a call, and what is written for it."""
        folder = os.path.join(TOP, "tests", "words")
        self.assertEqual(sorted(os.listdir(folder)), sorted(program[-1] for program in OTHERS))
        for program in OTHERS:
            own = os.path.join(folder, program[-1])

            def read(name):
                place = os.path.join(own, name)
                with open(place if os.path.exists(place) else os.devnull, "rb") as file:
                    return file.read()

            with self.subTest(program=program):
                shutil.copytree(os.path.join(own, "data"), self.room, dirs_exist_ok=True)
                came = self.run_on(program, read("args").decode().splitlines(), read("stdin"))
                self.assertEqual((came.status, came.wrote), (int(read("status") or 0), read("stdout")))

    def test_the_version(self):
        for words in ["--version"], ["-V"], ["--version", "profile.toml"], ["--version", "--help"]:
            with self.subTest(words=words):
                self.ends(PCEF, words, "x", wrote="pcef 1.0.0\n")

    def test_words_that_look_like_help_and_ask_for_none(self):
        for words in ["scripts", "--help"], ["--helped"], ["-H"], ["run", "a", "--help"], ["pool", "1", "--help"]:
            with self.subTest(words=words):
                self.is_usage(words)
        said = "read fault\npcef: ./--help: No such file or directory (os error 2)\n"
        self.ends(PCEF, ["script", "./--help"], status=4, said=said)
        said = "read fault\npcef: --version: No such file or directory (os error 2)\n"
        self.ends(PCEF, ["script", "--version"], status=4, said=said)

    def help_on(self, program, stream):
        """How the program ends that writes its help on a stream, and what it says."""
        with stream:
            ran = subprocess.run([*program, "--help"], stdout=stream, stderr=subprocess.PIPE, timeout=60)
        return ran.returncode, ran.stderr.decode()

    def test_help_that_nobody_takes(self):
        self.assertEqual(self.help_on(PCEF, open("/dev/full", "wb")), (4, "write fault\n"))
        for program in OTHERS:
            said = f"{name_of(program)}: standard output: No space left on device (os error 28)"
            with self.subTest(program=program):
                self.assertEqual(self.help_on(program, open("/dev/full", "wb")), (4, lines("write fault", said)))

    def test_help_whose_reader_has_left(self):
        for program in PCEF, *OTHERS:
            with self.subTest(program=program):
                reader, writer = os.pipe()
                os.close(reader)
                said = "write fault\n" if program == PCEF else ""
                self.assertEqual(self.help_on(program, os.fdopen(writer, "wb")), (4, said))

    def test_numbers_of_workers(self):
        for workers in NO_WORKERS:
            with self.subTest(workers=workers):
                self.is_usage(["run", "profile.toml", workers])

    def test_rates_of_a_pool(self):
        for rate in NO_RATES:
            with self.subTest(rate=rate):
                self.is_usage(["pool", rate, "1", "profile.toml"])
                self.is_usage(["pool", "1", rate, "profile.toml"])

    def test_a_file_that_is_not_there(self):
        said = "read fault\npcef: profile.toml: No such file or directory (os error 2)\n"
        self.ends(PCEF, ["script", "profile.toml"], status=4, said=said)

    def test_a_name_that_is_no_text(self):
        said = "read fault\npcef: a\ufffd: the name isn't UTF-8\n"
        self.ends(PCEF, ["script", b"a\xff"], status=4, said=said)
        self.is_usage([b"scripts", b"a\xff"])

    def test_profiles_are_looked_at_in_their_order(self):
        self.write("cut.toml", "rows = 0\n")
        missing = "pcef: b.toml: No such file or directory (os error 2)"
        came = self.run_on(PCEF, ["pool", "9", "9", "cut.toml", "b.toml"], "x")
        self.assertEqual((came.status, came.wrote), (1, b""))
        self.assertEqual(came.said.decode().splitlines()[0], "profile fault 3")
        self.assertTrue(came.said.decode().splitlines()[1].startswith("pcef: cut.toml: Missing: ue: "))
        said = f"read fault\n{missing}\n"
        self.ends(PCEF, ["pool", "9", "9", "b.toml", "cut.toml"], "x", status=4, said=said)

    def test_each_command_with_as_much_as_it_takes(self):
        self.write("profile.toml", profile())
        self.ends(PCEF, ["script", "profile.toml"])
        counts = "rows 0 abandoned 0 dropped 0\ncommands 0 refused 0\nreports usage 0 access 0 inactive 0\n"
        self.ends(PCEF, ["run", "profile.toml", "16"], wrote=counts)
        most = "1099511627775"
        self.ends(PCEF, ["pool", most, most] + ["profile.toml"] * 64, wrote="granted up 0 down 0\n")
