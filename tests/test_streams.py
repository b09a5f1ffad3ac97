"""Standard input and standard output that fail, after each octet in turn; and who waits for an answer gets it."""
import errno
import select
import subprocess

from commands import ATTACH, DNS_ANSWER, FLUSH, MONITOR, SHOW, WEB, line, profile, take
from programs import PCEF, PCEF_MANY, Ended, lines, octets
from streams import StreamTest

# The lines of a session, each with its answer: a rule and its key, a worker with a packet, and what is shown then.
SESSION = [
    (WEB, '{"bearer":5,"generation":1,"ok":true,"reports":[]}'),
    (MONITOR, '{"generation":2,"ok":true,"reports":[]}'),
    (ATTACH, '{"generation":2,"ok":true,"worker":0}'),
    (take(DNS_ANSWER), '{"ok":true,"waiting":1}'),
    (
        FLUSH,
        '{"ok":true,"reports":[],"verdicts":[{"bearer":5,"generation":2,"rule":"web","verdict":"Passed"}]}',
    ),
    (
        SHOW,
        '{"active":["web"],"bearers":[{"down":0,"id":5,"rules":1,"up":0}],"generation":2,'
        '"keys":[{"key":"vid","on":true,"reported":0,"unreported":28}]}',
    ),
]

# A line at fault, a blank line, and two more.
AT_FAULT = [
    ("[1]", '{"fault":4,"name":"NotObject"}'),
    (" ", ""),
    (ATTACH, '{"generation":0,"ok":true,"worker":0}'),
    (line(do="refresh", worker=1), '{"name":"NoWorker","refused":0}'),
]

# Lines of two sessions.
MANY = [
    ('a {"do":"open"}', 'a {"ok":true}'),
    ('b {"do":"attach"}', 'b {"name":"NoSession","refused":0}'),
    ('a {"do":"attach"}', 'a {"generation":0,"ok":true,"worker":0}'),
    ("x", '- {"fault":1,"name":"BadName"}'),
    ('a {"do":"end"}', 'a {"ok":true}'),
]

SCRIPT = [PCEF, "script", "profile.toml"]
SESSIONS = [PCEF_MANY, "profile.toml"]

# The program and its words, its lines, and its status where nothing fails.
PLAYED = [(SCRIPT, SESSION, 0), (SCRIPT, AT_FAULT, 1), (SESSIONS, MANY, 1)]

# What is said of streams that fail.
UNREAD = {
    PCEF: lines("read fault", "pcef: standard input fails; the whole lines of a script before that are answered"),
    PCEF_MANY: lines("read fault", "pcef many: standard input failed"),
}
UNWRITTEN = {
    PCEF: lines("write fault"),
    PCEF_MANY: lines("write fault", "pcef many: standard output takes no more"),
}

# How many octets of lines a program reads at once.
BLOCK = 8192

# How many octets a call takes at most, and the error of a call that takes none; 0 is none.
FAILING_WRITES = [(1, errno.EIO), (7, 0), (1000, errno.EIO)]


def given_by(played):
    return lines(*[given for given, _ in played])


def answers_to(played):
    return "".join(f"{answer}\n" for _, answer in played if answer)


def answers_within(played, octets):
    """The answers to the lines that end within so many octets."""
    answers, end = "", 0
    for given, answer in played:
        end += len(given) + 1
        if end <= octets and answer:
            answers += f"{answer}\n"
    return answers


class Streams(StreamTest):
    def setUp(self):
        super().setUp()
        self.write("profile.toml", profile())

    def test_a_reader_that_fails_leaves_the_answers_to_whole_lines(self):
        for program, played, _ in PLAYED:
            given = given_by(played)
            for room in range(len(given) + 1):
                with self.subTest(program=program[0], room=room):
                    came, failed = self.run_failing(program, given, READ_ROOM=room, READ_STEP=1, FAILS_ONCE=1)
                    due = answers_within(played, room)
                    self.assertEqual((came.status, came.wrote.decode(), failed), (4, due, "r"))
                    self.assertEqual(came.said.decode(), UNREAD[program[0]])

    def test_a_writer_that_fails_has_a_front_of_the_answers(self):
        for program, played, status in PLAYED:
            given, answers = given_by(played), answers_to(played)
            for step, error in FAILING_WRITES:
                for room in range(len(answers)):
                    with self.subTest(program=program[0], step=step, error=error, room=room):
                        limits = {"WRITE_ROOM": room, "WRITE_STEP": step, "WRITE_ERROR": error}
                        came, failed = self.run_failing(program, given, **limits)
                        # What a buffer still holds isn't offered again as the program ends.
                        due = Ended(4, octets(answers[:room]), octets(UNWRITTEN[program[0]]))
                        self.assertEqual((came, failed), (due, "w"))
                came, failed = self.run_failing(program, given, WRITE_ROOM=len(answers), WRITE_STEP=step)
                self.assertEqual((came, failed), (Ended(status, answers.encode(), b""), ""))

    def test_a_call_that_is_interrupted_is_not_made_again(self):
        for program, played, _ in PLAYED:
            given, answers = given_by(played), answers_to(played)
            for once in {"FAILS_ONCE": 1}, {}:
                with self.subTest(program=program[0], once=once):
                    came, failed = self.run_failing(program, given, WRITE_ROOM=20, WRITE_ERROR=errno.EINTR, **once)
                    due = Ended(4, octets(answers[:20]), octets(UNWRITTEN[program[0]]))
                    self.assertEqual((came, failed), (due, "w"))
                    came, failed = self.run_failing(program, given, READ_ROOM=20, READ_ERROR=errno.EINTR, **once)
                    due = Ended(4, octets(answers_within(played, 20)), octets(UNREAD[program[0]]))
                    self.assertEqual((came, failed), (due, "r"))

    def test_a_run_or_a_pool_that_cannot_read_or_write(self):
        for words in ["run", "profile.toml", "1"], ["pool", "9", "9", "profile.toml"]:
            with self.subTest(words=words):
                came, failed = self.run_failing([PCEF, *words], " \n", READ_ROOM=1)
                said = came.said.decode().splitlines()
                self.assertEqual((came.status, came.wrote, said[0], failed), (4, b"", "read fault", "r"))
                came, failed = self.run_failing([PCEF, *words], "", WRITE_ROOM=0)
                said = came.said.decode().splitlines()
                self.assertEqual((came.status, came.wrote, said[0], failed[0]), (4, b"", "write fault", "w"))

    def test_threads_between_streams_that_fail(self):
        given = lines(*[asked for name in "abcdef" for asked in (f'{name} {{"do":"open"}}', f"{name} {ATTACH}")])
        alone, _ = self.run_failing(SESSIONS, given)
        self.assertEqual(alone.status, 0)
        program = [PCEF_MANY, "--threads", "4", "profile.toml"]
        due = sorted(alone.wrote.splitlines())
        # All lines but the last one, which isn't whole.
        came, _ = self.run_failing(program, given, READ_ROOM=len(given) - 1, READ_STEP=5)
        self.assertEqual((came.status, len(came.wrote.splitlines())), (4, len(due) - 1))
        came, _ = self.run_failing(program, given, READ_STEP=1)
        self.assertEqual((came.status, sorted(came.wrote.splitlines())), (0, due))
        for room in 0, 30, len(alone.wrote) - 1:
            with self.subTest(room=room):
                came, _ = self.run_failing(program, given, WRITE_ROOM=room)
                self.assertEqual((came.status, len(came.wrote)), (4, room))

    def test_a_profile_is_refused_before_anything_is_read(self):
        for qci, status, said in (77, 1, "profile fault 5"), (1, 1, "profile fault 6"), (9, 4, "read fault"):
            with self.subTest(qci=qci):
                self.write("profile.toml", profile(qci=qci))
                came, failed = self.run_failing(SCRIPT, "x", READ_ROOM=0)
                self.assertEqual((came.status, came.said.decode().splitlines()[0]), (status, said))
                self.assertEqual(failed, "r" if said == "read fault" else "")

    def test_who_waits_for_an_answer_gets_it(self):
        for program, asked, answer in [
            (SCRIPT, b"x\n", b'{"fault":3,"name":"NotJson"}\n'),
            (SESSIONS, b"x\n", b'- {"fault":1,"name":"BadName"}\n'),
        ]:
            with self.subTest(program=program[0]):
                pipe = subprocess.PIPE
                with subprocess.Popen([*program[0], *program[1:]], stdin=pipe, stdout=pipe, cwd=self.room, bufsize=0) as asking:
                    # The last line fills all that is read at once.
                    for given in asked, asked, asked.rjust(BLOCK):
                        asking.stdin.write(given)
                        self.assertEqual(self.waited_for(asking.stdout), answer)
                    asking.stdin.close()
                    self.assertEqual((asking.stdout.read(), asking.wait()), (b"", 1))

    def waited_for(self, stream):
        """The next line of a stream, or nothing where none comes in a minute."""
        return stream.readline() if select.select([stream], [], [], 60)[0] else b""
