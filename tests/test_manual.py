"""The man pages and completions that `packaging/manual` makes of what the program says of itself."""
import os
import re
import subprocess

from programs import PCEF, PCEF_CAPTURE, PCEF_CHECK, PCEF_GX, PCEF_MANY, PCEF_PAGE, TOP, ProgramTest

MANUAL = os.path.join(TOP, "packaging", "manual")

# The words that have options, each with how it is called.
WORDS = {program[-1]: program for program in (PCEF_CHECK, PCEF_MANY, PCEF_CAPTURE, PCEF_PAGE, PCEF_GX)}

# The completions, under the folder: for bash, zsh and fish.
COMPLETIONS = [
    "share/bash-completion/completions/pcef",
    "share/zsh/site-functions/_pcef",
    "share/fish/vendor_completions.d/pcef.fish",
]


def plain(page):
    """The text of a man page without its marks."""
    return page.replace("\\-", "-").replace("\\&", "").replace("\\e", "\\")


class Manual(ProgramTest):
    def setUp(self):
        super().setUp()
        ran = subprocess.run([MANUAL, self.room], cwd=TOP, stdout=subprocess.PIPE, stderr=subprocess.PIPE)
        self.assertEqual((ran.returncode, ran.stdout, ran.stderr), (0, b"", b""))

    def read(self, place):
        with open(os.path.join(self.room, place), encoding="utf-8") as file:
            return file.read()

    def page_of(self, name):
        return plain(self.read(f"share/man/man1/{name}.1"))

    def test_each_word_has_a_page_of_all_that_it_says(self):
        for word, program in WORDS.items():
            with self.subTest(word=word):
                said = self.run_on(program, ["--help"]).wrote.decode()
                page = " ".join(self.page_of(f"pcef-{word}").split())
                for words in re.split(r"\s{2,}|\n", said):
                    if words and not re.match(r"Usage: |Arguments:|Options:", words):
                        self.assertIn(" ".join(words.split()), page)

    def test_the_page_of_the_program_has_its_help_and_names_the_others(self):
        page = self.page_of("pcef")
        said = self.run_on(PCEF, ["--help"]).wrote.decode()
        self.assertIn(said[said.index("usage: "):].rstrip("\n"), page)
        for word in WORDS:
            self.assertIn(f"pcef-{word}(1)", page)

    def test_each_option_is_completed(self):
        for word, program in WORDS.items():
            said = self.run_on(program, ["--help"]).wrote.decode()
            options = re.findall(r"^ +(?:-\w, )?--([\w-]+)", said, re.M)
            self.assertIn("help", options)
            for place in COMPLETIONS:
                text = self.read(place)
                with self.subTest(word=word, place=place):
                    self.assertIn(word, text)
                    for option in options:
                        self.assertRegex(text, rf"(--| -l ){option}\b")

    def completed(self, *words):
        """What bash offers behind the program's name for the last of these words, which has just begun."""
        script = '. "$1"; shift; COMP_WORDS=(pcef "$@"); COMP_CWORD=$#; _pcef; printf "%s\\n" "${COMPREPLY[@]}"'
        place = os.path.join(self.room, COMPLETIONS[0])
        return subprocess.check_output(["bash", "-c", script, "bash", place, *words], cwd=self.room).decode().split()

    def test_bash_completes_words_and_files(self):
        self.write("script.jsonl", "")
        self.assertEqual(self.completed("page", "--fo"), ["--format"])
        self.assertEqual(self.completed("page", "script"), ["script.jsonl"])
        self.assertEqual(self.completed("many", "--th"), ["--threads"])
        self.assertEqual(self.completed("script", "sc"), ["script.jsonl"])
        self.assertEqual(self.completed("sc"), ["script"])
        self.assertEqual(self.completed("po"), ["pool"])
        self.assertEqual(self.completed("--"), ["--help", "--version"])
        self.assertEqual(self.completed("help", "ma"), ["many"])
