"""Lines of many sessions for `pcef many`, in one thread and in several."""
import json
import os
import re
import select
import subprocess
import time
from collections import Counter

from commands import ATTACH, DNS, DNS_ANSWER, FLUSH, SHOW, WEB, install, line, profile, take
from programs import PCEF, PCEF_MANY, ProgramTest, lines

OPEN = line(do="open")
END = line(do="end")
OK = '{"ok":true}'
NO_SESSION = '{"name":"NoSession","refused":0}'
SESSION_IS_OPEN = '{"name":"SessionIsOpen","refused":1}'
UNKNOWN_FIELD = '{"fault":6,"name":"UnknownField"}'
BAD_UE = '{"fault":8,"field":"ue","name":"BadField"}'
BAD_NAME = '- {"fault":1,"name":"BadName"}\n'
LINE_TOO_LONG = '{"fault":1,"name":"LineTooLong"}'

# The longest rest of a line behind its name, in bytes, as of a line of a script.
LONGEST = 262144

# A session's lines between its `open` and its `end`: a rule with a key, a packet that counts, one beyond the address,
# and two lines at fault.
SCRIPT = [
    WEB,
    line(do="triggers", events=["USAGE_REPORT"]),
    line(do="monitor", key="vid", grant=20),
    ATTACH,
    take(DNS_ANSWER),
    line(do="opens"),
    take("4500001c0000000040110000c63364070a0000030035138800080000"),
    FLUSH,
    line(do="finish", worker=0),
    line(do="install"),
    SHOW,
    line(do="terminate"),
]

# Lines without a name, a space or a rest.
NAMELESS = [
    "{}",
    f" {OPEN}",
    "a",
    "a ",
    "a  \t\r",
    f"\ta {OPEN}",
    f"a\tb {OPEN}",
    f"\x7f {OPEN}",
    f"\u00e9 {OPEN}",
    f"- {OPEN}",
    f"- {SHOW}",
]

# Lines that open or end a session, or are at fault, and the answers where it is closed and where it is open.
AT_FAULT = [
    ('{"do":"open","no":1}', UNKNOWN_FIELD, UNKNOWN_FIELD),
    ('{"do":"end","ue":"10.0.0.9"}', UNKNOWN_FIELD, UNKNOWN_FIELD),
    ('{"do":"open","ue":7}', BAD_UE, BAD_UE),
    ('{"do":"open","ue":"10.0.0"}', BAD_UE, BAD_UE),
    ("[1]", NO_SESSION, '{"fault":4,"name":"NotObject"}'),
    ('{"do":"opened"}', NO_SESSION, '{"fault":5,"name":"UnknownDo"}'),
    ("open", NO_SESSION, '{"fault":3,"name":"NotJson"}'),
]

NAMES = ["a", "b", "c", "~", "!-~subscriber", "--"]


def of_every_form():
    """Lines of every form: of several names, without a name, blank, and one that no line feed ends."""
    given = ""
    for rest in SHOW, OPEN, ATTACH, take(DNS_ANSWER), "[1]", FLUSH, END:
        for name in NAMES:
            given += f"{name} {rest}\n\n \t\r\n"
        given += f"nameless\n {OPEN}\na \n\u00e9 {OPEN}\n- {rest}\n"
    return given + f"a {OPEN}"


def under(name, answers):
    """The answers under a name, without it, in their order."""
    front = f"{name} "
    return [answer[len(front) :] for answer in answers.splitlines() if answer.startswith(front)]


class Many(ProgramTest):
    def setUp(self):
        super().setUp()
        self.write("profile.toml", profile())

    def serve(self, given, threads=1, status=None):
        """The answers to lines."""
        came = self.run_on(PCEF_MANY, ["--threads", str(threads), "profile.toml"], given)
        self.assertEqual(came.said, b"")
        if status is not None:
            self.assertEqual(came.status, status)
        return came.wrote.decode()

    def test_progress_over_a_file_is_shown_on_a_terminal(self):
        self.write("lines", "".join(f"s{number} {OPEN}\n" for number in range(20000)))
        for threads in "1", "3":
            with self.subTest(threads=threads):
                came = self.shown_on_a_terminal(PCEF_MANY, ["--threads", threads, "profile.toml"], "lines")
                parts = [int(part) for part in re.findall(r"(\d+) %\r", came)]
                self.assertEqual((parts, parts[-1]), (sorted(set(parts)), 100))
                self.assertEqual(came, "".join(f"{part} %\r" for part in parts) + "     \r")

    def test_no_progress_is_shown_over_a_pipe(self):
        self.write("none", "")
        self.assertEqual(self.shown_on_a_terminal(PCEF_MANY, ["profile.toml"], "none"), "")
        came = self.run_on(PCEF_MANY, ["profile.toml"], f"s {OPEN}\n")
        self.assertEqual((came.status, came.said), (0, b""))

    def test_a_session_comes_and_goes(self):
        steps = [
            (f"a {SHOW}", f"a {NO_SESSION}"),
            (f"a {END}", f"a {NO_SESSION}"),
            (f"a {OPEN}", f"a {OK}"),
            (f"a {ATTACH}", 'a {"generation":0,"ok":true,"worker":0}'),
            ('a {"do":"open","ue":"10.0.0.9"}', f"a {SESSION_IS_OPEN}"),
            (f"b {ATTACH}", f"b {NO_SESSION}"),
            ("", None),
            (" \t\r", None),
            (f"a {ATTACH}", 'a {"generation":0,"ok":true,"worker":1}'),
            (f"a {END}", f"a {OK}"),
            (f"a {ATTACH}", f"a {NO_SESSION}"),
            ('a  { "do" : "\\u006fpen" } ', f"a {OK}"),
            (f"a {ATTACH}", 'a {"generation":0,"ok":true,"worker":0}'),
        ]
        given = lines(*[given for given, _ in steps])
        due = lines(*[answer for _, answer in steps if answer])
        self.assertEqual(self.serve(given, status=0), due)
        # No line feed need end the last line.
        self.assertEqual(self.serve(given[:-1], status=0), due)

    def test_sessions_that_take_turns_answer_as_scripts_of_their_own(self):
        script = self.run_on(PCEF, ["script", "profile.toml"], lines(*SCRIPT))
        self.assertEqual((script.status, script.said), (1, b""))
        own = [OK, *script.wrote.decode().splitlines(), OK]
        self.assertEqual(len(own), len(SCRIPT) + 2)
        names = ["a", "~!subscriber-imsi-262011234567890", "b"]
        whole = [OPEN, *SCRIPT, END]
        # Each session begins two turns later than the one before it.
        turns = [
            f"{name} {whole[turn - 2 * place]}"
            for turn in range(len(whole) + 4)
            for place, name in enumerate(names)
            if 0 <= turn - 2 * place < len(whole)
        ]
        for threads in 1, 2, 4:
            answers = self.serve(lines(*turns), threads, status=1)
            for name in names:
                with self.subTest(threads=threads, name=name):
                    self.assertEqual(under(name, answers), own)

    def test_an_address_takes_the_place_of_the_profiles(self):
        packet = take("4500001c0000000040110000c63364070a0000090035138800080000")
        for opening, verdict in [
            ('{"do":"open"}', "Stray"),
            ('{"do":"open","ue":"10.0.0.9"}', "Unmatched"),
            ('{"ue":"2001:db8::1","do":"open"}', "Stray"),
        ]:
            with self.subTest(opening=opening):
                given = lines(*[f"a {rest}" for rest in (opening, ATTACH, packet, FLUSH)])
                verdicts = f'[{{"generation":0,"verdict":"{verdict}"}}]'
                due = f'a {{"ok":true,"reports":[],"verdicts":{verdicts}}}'
                self.assertEqual(self.serve(given, status=0).splitlines()[-1], due)

    def test_lines_at_fault_where_a_session_is_closed_and_where_it_is_open(self):
        for rest, closed, opened in AT_FAULT:
            with self.subTest(rest=rest):
                given = lines(f"a {rest}", f"b {OPEN}", f"b {rest}", f"b {END}")
                due = lines(f"a {closed}", f"b {OK}", f"b {opened}", f"b {OK}")
                self.assertEqual(self.serve(given, status=1), due)

    def test_a_line_needs_name_space_and_rest(self):
        for nameless in NAMELESS:
            with self.subTest(nameless=nameless):
                self.assertEqual(self.serve(nameless, status=1), BAD_NAME)

    def test_a_name_has_at_most_64_octets(self):
        for letter in "!~-":
            for length in 2 if letter == "-" else 1, 64:
                name = letter * length
                self.assertEqual(self.serve(f"{name} {OPEN}", status=0), f"{name} {OK}\n")
            self.assertEqual(self.serve(f"{letter * 65} {OPEN}", status=1), BAD_NAME)

    def test_a_dash_is_no_name(self):
        # So a dash before an answer always says that the line has no name.
        given = lines(f"- {OPEN}", f"-- {OPEN}", f"-a {SHOW}", f"a- {SHOW}", f"- {END}", f"-- {END}", "nameless")
        due = f"{BAD_NAME}-- {OK}\n-a {NO_SESSION}\na- {NO_SESSION}\n{BAD_NAME}-- {OK}\n{BAD_NAME}"
        self.assertEqual(self.serve(given, status=1), due)

    def test_the_longest_rest_of_a_line(self):
        for length in 1, 64:
            name = "n" * length
            for octets, status, due in [
                (LONGEST, 0, SESSION_IS_OPEN),
                (LONGEST + 1, 1, LINE_TOO_LONG),
                (600000, 1, LINE_TOO_LONG),
            ]:
                with self.subTest(length=length, octets=octets):
                    given = f"{name} {OPEN}\n{name} {OPEN.rjust(octets)}"
                    self.assertEqual(self.serve(given, status=status), f"{name} {OK}\n{name} {due}\n")

    def test_threads_answer_as_one_does(self):
        given = of_every_form()
        alone = self.serve(given, status=1)
        for threads in 2, 4, 7, 64:
            answers = self.serve(given, threads, status=1)
            self.assertEqual(sorted(answers.splitlines()), sorted(alone.splitlines()))
            for name in NAMES:
                with self.subTest(threads=threads, name=name):
                    self.assertEqual(under(name, answers), under(name, alone))

    def test_a_line_may_be_longer_than_what_is_read_at_once(self):
        given = lines(*[f"{name} {OPEN.rjust(150000)}" for name in NAMES])
        given += lines(f"{'n' * 200000} {OPEN}", f"a {ATTACH}")
        attached = 'a {"generation":0,"ok":true,"worker":0}'
        due = [f"{name} {OK}" for name in NAMES] + [BAD_NAME.rstrip(), attached]
        for threads in 1, 4:
            with self.subTest(threads=threads):
                answers = self.serve(given, threads, status=1).splitlines()
                self.assertEqual(sorted(answers), sorted(due))
                self.assertLess(answers.index(f"a {OK}"), answers.index(attached))

    def start(self, threads, output=subprocess.PIPE, given=subprocess.PIPE):
        """The program in so many threads, between these streams."""
        words = [*PCEF_MANY, "--threads", str(threads), "profile.toml"]
        pipe = subprocess.PIPE
        process = subprocess.Popen(words, stdin=given, stdout=output, stderr=pipe, cwd=self.room, bufsize=0)
        self.addCleanup(process.communicate)
        self.addCleanup(process.kill)
        return process

    def start_with_full_output(self, threads):
        with open("/dev/full", "wb") as full:
            return self.start(threads, full)

    def test_output_that_fails_in_one_thread_ends_those_that_wait_for_lines(self):
        # Only one name has a line, so the other threads wait.
        process = self.start_with_full_output(4)
        process.stdin.write(f"a {OPEN}\n".encode())
        self.assertEqual(process.wait(60), 4)

    def test_output_that_fails_ends_the_program_before_its_lines_are_read(self):
        # All lines are one thread's, and more than its ring holds: the thread that reads waits for room.
        process = self.start_with_full_output(4)
        process.communicate(f"a {OPEN}\n".encode() * 200000, 60)
        self.assertEqual(process.returncode, 4)

    def test_a_last_line_whose_answer_is_not_written(self):
        # No line feed ends it, so its answer is written at the very end.
        for threads in 1, 4:
            with self.subTest(threads=threads):
                process = self.start_with_full_output(threads)
                _, said = process.communicate(f"a {OPEN}".encode(), 60)
                self.assertEqual((process.returncode, said.splitlines()[:1]), (4, [b"write fault"]))

    def test_each_line_wakes_its_thread(self):
        process = self.start(4)
        for turn in range(5000):
            name = f"s{turn % 16}"
            process.stdin.write(f"{name} {SHOW}\n".encode())
            self.assertTrue(select.select([process.stdout], [], [], 60)[0], f"line {turn} has no answer")
            self.assertEqual(os.read(process.stdout.fileno(), 1000), f"{name} {NO_SESSION}\n".encode())

    def test_long_answers_of_threads_never_mix(self):
        # A thread writes the answers to 8,192 octets of lines at once: some 36,000 octets.
        names = [f"s{number}" for number in range(64)]
        given = lines(*[f"{name} {OPEN}" for name in names], *[f"{name} {SHOW}" for _ in range(400) for name in names])
        bearers = '[{"down":0,"id":5,"rules":0,"up":0}]'
        shown = f'{{"active":[],"bearers":{bearers},"generation":0,"keys":[]}}'
        due = [f"{name} {OK}" for name in names] + [f"{name} {shown}" for name in names] * 400
        wrong = Counter(self.serve(given, 8, status=0).splitlines())
        wrong.subtract(due)
        self.assertEqual([answer for answer, many in wrong.items() if many][:4], [])

    def seconds_of(self, process):
        """The processor time that it took so far."""
        with open(f"/proc/{process.pid}/stat", encoding="ascii") as file:
            numbers = file.read().rsplit(")", 1)[1].split()
        return (int(numbers[11]) + int(numbers[12])) / os.sysconf("SC_CLK_TCK")

    def comes_to_rest(self, process):
        """Whether it takes no processor time in one of many half seconds."""
        for _ in range(20):
            before = self.seconds_of(process)
            time.sleep(0.5)
            if self.seconds_of(process) - before < 0.05:
                return True
        return False

    def test_threads_that_wait_take_no_processor_time(self):
        self.write("given", f"a {OPEN}\n" + f"a {SHOW}\n" * 500000)
        for threads in 1, 4:
            with self.subTest("No line comes.", threads=threads):
                process = self.start(threads)
                process.stdin.write(f"a {OPEN}\n".encode())
                self.assertTrue(self.comes_to_rest(process))
            with self.subTest("Nobody reads.", threads=threads):
                with open(os.path.join(self.room, "given"), "rb") as given:
                    process = self.start(threads, given=given)
                self.assertTrue(self.comes_to_rest(process))

    def test_a_reader_that_leaves_is_no_fault_to_report(self):
        reader, writer = os.pipe()
        os.close(reader)
        for threads in 1, 4:
            with self.subTest(threads=threads):
                process = self.start(threads, output=writer)
                _, said = process.communicate(f"a {OPEN}\n".encode(), 60)
                self.assertEqual((process.returncode, said), (4, b""))
        os.close(writer)


def totals_of(answers, still_open):
    """The samples that metrics have of answers, by what the answers say."""
    came = [json.loads(answer.split(" ", 1)[1]) for answer in answers.splitlines()]
    verdicts = Counter(verdict["verdict"] for answer in came for verdict in answer.get("verdicts", []))
    refused = Counter(answer["name"] for answer in came if "refused" in answer or "fault" in answer)
    octets = sum(report.get("octets", 0) for answer in came for report in answer.get("reports", []))
    samples = {f'pcef_packets_total{{verdict="{verdict}"}}': verdicts[verdict] for verdict in VERDICTS}
    samples.update({f'pcef_refused_lines_total{{name="{name}"}}': count for name, count in refused.items()})
    samples["pcef_open_sessions"] = still_open
    samples["pcef_lines_total"] = len(came)
    samples["pcef_reported_bytes_total"] = octets
    return samples


VERDICTS = ["Passed", "Gated", "Unmatched", "Stray"]


class Metrics(ProgramTest):
    def setUp(self):
        super().setUp()
        self.write("profile.toml", profile())

    def samples(self):
        """The samples in the file of metrics, without that of the memory."""
        with open(os.path.join(self.room, "metrics"), encoding="ascii") as file:
            lines_of_file = [line.rsplit(" ", 1) for line in file.read().splitlines() if not line.startswith("#")]
        samples = {name: int(number) for name, number in lines_of_file}
        self.assertGreater(samples.pop("pcef_resident_memory_bytes"), 1000000)
        return samples

    def test_the_totals_are_those_of_the_answers(self):
        names = [f"s{number}" for number in range(40)]
        given = lines(*[f"{name} {rest}" for rest in [SHOW, OPEN, OPEN, *SCRIPT] for name in names])
        given += lines(*[f"{name} {END}" for name in names[:7]], "nameless", f"s0 {SHOW}", f"s1 {OPEN}")
        # Verdicts without a report, by a rule whose name looks like one.
        odd = install('a","verdict":"Gated"}', filters=[DNS])
        given += lines(*[f"odd {rest}" for rest in [OPEN, odd, ATTACH, *[take(DNS_ANSWER)] * 3, FLUSH]])
        for threads in 1, 4:
            with self.subTest(threads=threads):
                words = ["--threads", str(threads), "--metrics", "metrics", "profile.toml"]
                came = self.run_on(PCEF_MANY, words, given)
                self.assertEqual((came.status, came.said), (1, b""))
                totals = totals_of(came.wrote.decode(), still_open=40 - 7 + 1 + 1)
                # Each of the forty has a packet that passed, one that is stray, and a report of 28 octets.
                self.assertEqual(totals['pcef_packets_total{verdict="Passed"}'], 40 + 3)
                self.assertEqual(totals["pcef_reported_bytes_total"], 40 * 28)
                self.assertEqual(self.samples(), totals)
                self.assertEqual(sorted(os.listdir(self.room)), ["metrics", "profile.toml"])

    def start_keeping(self, threads):
        words = [*PCEF_MANY, "--threads", str(threads), "--metrics", "metrics", "--every", "1", "profile.toml"]
        with open(os.path.join(self.room, "answers"), "wb") as answers:
            process = subprocess.Popen(words, stdin=subprocess.PIPE, stdout=answers, cwd=self.room, bufsize=0)
        self.addCleanup(process.wait)
        self.addCleanup(process.kill)
        return process

    def comes(self, name, number):
        """Whether a sample has this number in 20 seconds."""
        for _ in range(200):
            path = os.path.join(self.room, "metrics")
            if os.path.exists(path) and self.samples()[name] == number:
                return True
            time.sleep(0.1)
        return False

    def test_the_file_is_kept_up_to_date_while_no_line_comes(self):
        for threads in 1, 4:
            with self.subTest(threads=threads):
                process = self.start_keeping(threads)
                self.assertTrue(self.comes("pcef_open_sessions", 0))
                process.stdin.write(f"a {OPEN}\nb {OPEN}\n".encode())
                self.assertTrue(self.comes("pcef_open_sessions", 2))
                process.stdin.write(f"b {END}\n".encode())
                self.assertTrue(self.comes("pcef_open_sessions", 1))
                process.stdin.close()
                self.assertEqual(process.wait(60), 0)

    def test_a_file_that_cannot_be_written(self):
        said = lines("write fault", "pcef many: nowhere/metrics: No such file or directory (os error 2)")
        self.ends(PCEF_MANY, ["--metrics", "nowhere/metrics", "profile.toml"], f"a {OPEN}", 4, said=said)

    def test_the_seconds_between_two_writes(self):
        for seconds in "0", "86401", "x", "-1", "1.5":
            came = self.run_on(PCEF_MANY, ["--metrics", "metrics", f"--every={seconds}", "profile.toml"])
            self.assertEqual((came.status, came.wrote), (2, b""))

    def test_every_metric_is_told_with_its_kind(self):
        self.run_on(PCEF_MANY, ["--metrics", "metrics", "profile.toml"], f"a {SHOW}")
        with open(os.path.join(self.room, "metrics"), encoding="ascii") as file:
            text = file.read()
        kinds = dict(re.findall(r"^# TYPE (\S+) (\S+)$", text, re.M))
        self.assertEqual(set(kinds), set(re.findall(r"^# HELP (\S+) .+\.$", text, re.M)))
        for name, kind in kinds.items():
            self.assertEqual(kind, "counter" if name.endswith("_total") else "gauge")
