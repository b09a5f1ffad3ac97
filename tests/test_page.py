"""What `pcef page` shows of scripts with answers: their pairing, packets, keys and rates, worked out by hand."""
import os
import re
import subprocess

from commands import ATTACH, DNS_ANSWER, FLUSH, SHOW, line, take
from programs import PCEF_PAGE, ProgramTest, lines

# An answer is a line of JSON too.
answer = line

# A packet of one octet, which has no header.
SHORT = "00"

# The largest number of octets.
MOST = 2**64 - 1

COLUMNS = "line,worker,direction,octets,answered,generation,verdict,rule,bearer"

# The metrics, each with what it is.
FAMILIES = [
    ("pcef_packets_total", "counter", "Packets by their rule and verdict."),
    ("pcef_passed_bytes_total", "counter", "Octets of packets that passed by a rule, each way."),
    ("pcef_reported_bytes_total", "counter", "Octets that usage reports have for a key."),
    ("pcef_unreported_bytes", "gauge", "Octets of a key that no report has, by the last show."),
    ("pcef_refused_lines_total", "counter", "Lines that were refused or at fault."),
    ("pcef_guaranteed_bytes_per_second", "gauge", "Guaranteed rates of a bearer, each way."),
    ("pcef_generation", "gauge", "The newest generation."),
]


def metrics(form, generation, **samples):
    """The metrics with these samples, by the names of their families without `pcef_`."""
    text = ""
    samples["generation"] = [("", generation)]
    for name, kind, about in FAMILIES:
        text += f"# HELP {name} {about}\n"
        if kind == "gauge" or form == "prometheus":
            text += f"# TYPE {name} {kind}\n"
        for labels, number in samples.get(name[5:], []):
            text += f"{name}{{{labels}}} {number}\n" if labels else f"{name} {number}\n"
    return text + "# EOF\n" if form == "openmetrics" else text


def with_thousands(number):
    return f"{number:,}"


def facts(answered=0, packets=0, reports=0, refused=0, generation=0):
    """The counts below the title of a page."""
    names = "Lines with an answer", "Packets with a verdict", "Reports of usage", "Lines refused or at fault"
    counts = answered, packets, reports, refused, generation
    return [(name, with_thousands(count)) for name, count in zip((*names, "Newest generation"), counts)]


def rows_of(page):
    """The rows of the tables on a page."""
    cells = [re.findall("<td.*?>(.*?)</td>", row) for row in re.findall("<tr>(.*?)</tr>", page)]
    return [" | ".join(row) for row in cells if row]


class ReportTest(ProgramTest):
    def report(self, form, script, answers, *words):
        """How the program ends on a script and its answers."""
        self.write("script", script)
        self.write("answers", answers)
        return self.run_on(PCEF_PAGE, ["--format", form, *words, "script", "answers"])

    def shown(self, form, script, answers, *words):
        """What is shown of a script and its answers in a form."""
        came = self.report(form, script, answers, *words)
        self.assertEqual((came.status, came.said), (0, b""))
        return came.wrote.decode()

    def has_packets(self, script, answers, *records):
        """Expects these records of packets with their verdicts."""
        self.assertEqual(self.shown("csv", script, answers), lines(COLUMNS, *records))

    def has_metrics(self, script, answers, generation=0, **samples):
        """Expects these metrics, in both forms."""
        for form in "openmetrics", "prometheus":
            with self.subTest(form=form):
                self.assertEqual(self.shown(form, script, answers), metrics(form, generation, **samples))

    def has_page(self, script, answers, rows=(), **counts):
        """Expects these counts on the page, and the rows of its tables."""
        page = self.shown("html", script, answers)
        self.assertEqual(re.findall("<dt>(.*?)</dt><dd>(.*?)</dd>", page), facts(**counts))
        self.assertEqual(rows_of(page), list(rows))

    def is_apart(self, script, answers, fault, seeming=""):
        """Expects this fault of files that don't belong together, and what they seem to be."""
        came = self.report("csv", script, answers)
        advice = "pcef page: script has to be the script, and answers what pcef script wrote for it"
        said = lines(fault, advice) + seeming
        self.assertEqual((came.status, came.wrote, came.said.decode()), (1, b"", said))


ATTACHED = answer(generation=0, ok=True, worker=0)
OK = answer(ok=True)

# A script with blank lines, its answers, and how many lines have an answer.
BLANK_LINES = [
    (f"{ATTACH}\n", f"{ATTACHED}\n", 1),
    (ATTACH, f"{ATTACHED}\n", 1),
    (f"\n \t\r\n{ATTACH}\n\n", f"{ATTACHED}\n", 1),
    ("\n[]\n\n[]\n", f"{OK}\n\n{OK}", 2),
    ("\n[]\n\n[]\n", OK, 1),
]

# Two lines behind a blank one, and what is no answer to the first.
TWO = lines("", ATTACH, SHOW)
NO_ANSWERS = [b"ok", b"[]", b"null", b'{"ok":true', b'{"ok":true}}', b'"\xff"']

# Lines that are no JSON.
NOT_JSON = [b"do", b"\xff", b'{"do":\0}', b"{}{}"]


class Pairing(ReportTest):
    def test_an_empty_script_has_no_figures(self):
        for script in "", "\n", " \t\r\n\n \n", f"{ATTACH}\n{SHOW}":
            for answers in "", "\n\n", " \r\n":
                with self.subTest(script=script, answers=answers):
                    self.has_page(script, answers)
                    self.has_packets(script, answers)
                    self.has_metrics(script, answers)

    def test_blank_lines_have_numbers_and_no_answers(self):
        for script, answers, answered in BLANK_LINES:
            with self.subTest(script=script, answers=answers):
                self.has_page(script, answers, answered=answered)

    def test_spaces_are_a_blank_line_up_to_262144(self):
        too_long = answer(fault=1, name="LineTooLong")
        self.has_page(" " * 262144, "")
        self.is_apart(" " * 262144, lines(too_long), "there are more answers than lines")
        rows = ["LineTooLong | fault | 1 | 1 | 1 | 1"]
        self.has_page(" " * 262145, lines(too_long), rows=rows, answered=1, refused=1)

    def test_what_is_no_answer_is_reported_with_its_line(self):
        for answers in NO_ANSWERS:
            with self.subTest(answers=answers):
                self.is_apart(TWO, answers, "the answer to line 2 isn't one")
        exchanged = lines("the answers are lines of a script: are the files exchanged?")
        self.is_apart(TWO, ATTACH, "the answer to line 2 isn't one", exchanged)
        self.is_apart(TWO, lines(ATTACHED, "read fault", OK), "the answer to line 3 isn't one")
        self.is_apart(TWO, lines(ATTACHED, OK, OK), "there are more answers than lines")
        self.is_apart("\n", "ok", "there are more answers than lines")

    def test_a_line_that_is_no_json_is_at_fault_or_has_no_answer(self):
        for script in NOT_JSON:
            with self.subTest(script=script):
                rows = ["NotJson | fault | 3 | 1 | 1 | 1"]
                self.has_page(script, answer(fault=3, name="NotJson"), rows=rows, answered=1, refused=1)
                self.is_apart(script, OK, "the answer to line 1 isn't one")

    def test_refusals_and_faults_are_kept_apart(self):
        script = lines(line(do="remove", name="web"), "", "[1]", ATTACH, "x") + "{}"
        answers = lines(
            answer(name="UnknownRule", refused=5),
            answer(fault=4, name="NotObject"),
            ATTACHED,
            answer(fault=3, name="NotJson"),
            answer(refused=0),
        )
        rows = [
            "UnknownRule | refused | 5 | 1 | 1 | 1",
            "NotObject | fault | 4 | 1 | 3 | 3",
            "NotJson | fault | 3 | 1 | 5 | 5",
            " | refused | 0 | 1 | 6 | 6",
        ]
        self.has_page(script, answers, rows, answered=5, refused=4)

    def test_equal_refusals_are_one_row(self):
        named = [("Full", "refused", 12), ("Full", "fault", 12), ("Full", "refused", 13), ("Full", "refused", 12)]
        answers = lines(*[answer(**{"name": name, kind: number}) for name, kind, number in named])
        rows = ["Full | refused | 12 | 2 | 1 | 4", "Full | fault | 12 | 1 | 2 | 2", "Full | refused | 13 | 1 | 3 | 3"]
        self.has_page(lines("[]", "[]", "[]", "[]"), answers, rows, answered=4, refused=4)


# Two workers: the first takes a packet of 28 octets up, one of 60 down and one of 28 down, the second one of 48 octets
# of IPv6 up. The second is flushed first.
UP = "4500001c00000000401100000a000002c63364071388003500080000"
UP_6 = "600000000008114020010db800000000000000000000000220010db80001000000000000000000531388003500080000"
DOWN_60 = "4500003c0000000040110000c63364070a0000020035138800280000" + 32 * "00"
SCRIPT = lines(
    ATTACH,
    ATTACH,
    take(UP, 0, "up"),
    take(UP_6, 1, "up"),
    take(DOWN_60, 0),
    take(DNS_ANSWER, 0),
    line(do="flush", worker=1),
    line(do="finish", worker=0),
)

ANSWERS = lines(
    answer(generation=0, ok=True, worker=0),
    answer(generation=0, ok=True, worker=1),
    answer(ok=True, waiting=1),
    answer(ok=True, waiting=1),
    answer(ok=True, waiting=2),
    answer(ok=True, waiting=3),
    answer(ok=True, reports=[], verdicts=[{"bearer": 6, "generation": 2, "rule": "voice", "verdict": "Passed"}]),
    answer(
        ok=True,
        reports=[],
        rows=3,
        verdicts=[
            {"generation": 3, "rule": "web", "verdict": "Gated"},
            {"bearer": 5, "generation": 3, "rule": "web", "verdict": "Passed"},
            {"generation": 3, "verdict": "Stray"},
        ],
    ),
)

RECORDS = [
    "4,1,up,48,7,2,Passed,voice,6",
    "3,0,up,28,8,3,Gated,web,",
    "5,0,down,60,8,3,Passed,web,5",
    "6,0,down,28,8,3,Stray,,",
]


def taken(count):
    """The answer to a packet that a worker takes."""
    return answer(ok=True, waiting=count)


def judged(*verdicts, generation=0):
    """The answer with these verdicts, by no rule."""
    return answer(ok=True, verdicts=[{"generation": generation, "verdict": verdict} for verdict in verdicts])


class Packets(ReportTest):
    def test_each_verdict_goes_to_the_first_packet_of_its_worker(self):
        self.has_packets(SCRIPT, ANSWERS, *RECORDS)

    def test_the_octets_of_packets_that_passed_are_those_of_their_rule(self):
        packets = [
            ('rule="voice",verdict="Passed"', 1),
            ('rule="web",verdict="Passed"', 1),
            ('rule="web",verdict="Gated"', 1),
            ('rule="",verdict="Stray"', 1),
        ]
        octets = [
            ('rule="voice",direction="up"', 48),
            ('rule="web",direction="up"', 0),
            ('rule="voice",direction="down"', 0),
            ('rule="web",direction="down"', 60),
        ]
        self.has_metrics(SCRIPT, ANSWERS, packets_total=packets, passed_bytes_total=octets)

    def test_the_rules_have_their_packets_and_octets_each_way(self):
        rows = ["voice | 6 | 1 | 48 | 0 | 0 | 0", "web | 5 | 0 | 0 | 1 | 60 | 1"]
        self.has_page(SCRIPT, ANSWERS, rows, answered=8, packets=4)

    def test_packets_stand_where_they_were_taken(self):
        page = self.shown("html", SCRIPT, ANSWERS)
        # Of 8 lines on 60 bars of 6 columns each, lines 3 to 6 take packets.
        bars = sorted(int(bar) for bar in re.findall(r'<rect class="v\d" x="(\d+)"', page))
        self.assertEqual(bars, [6 * (59 * line // 8) for line in (3, 4, 5, 6)])

    def test_verdicts_that_have_no_packet_are_at_fault(self):
        script = SCRIPT + lines(take(SHORT, 2, "up"), line(do="flush", worker=2))
        answers = ANSWERS + lines(taken(1))
        one = judged("Unmatched", generation=3)
        self.has_packets(script, answers + one, *RECORDS, "9,2,up,0,10,3,Unmatched,,")
        self.has_packets(script, answers + judged(), *RECORDS)
        refused = answer(name="RowsFull", refused=2, verdicts=[{"verdict": "Lost"}])
        self.has_packets(script, answers + refused, *RECORDS)
        for other in judged("Lost", generation=3), answer(ok=True, verdicts=[{"verdict": "Unmatched"}] * 2):
            with self.subTest(other=other):
                self.is_apart(script, answers + other, "the answer to line 10 has verdicts on other packets")

    def test_packets_that_a_worker_abandons_have_no_verdict(self):
        script = lines(
            take(SHORT, 0, "up"),
            take(SHORT, 1, "up"),
            line(do="abandon", worker=0),
            take(SHORT, 0),
            line(do="flush", worker=0),
            line(do="flush", worker=1),
        )
        abandoned = answer(abandoned=1, ok=True, rows=0)
        answers = lines(taken(1), taken(1), abandoned, taken(1), judged("Unmatched"), judged("Stray"))
        self.has_packets(script, answers, "4,0,down,0,5,0,Unmatched,,", "2,1,up,0,6,0,Stray,,")

    def test_the_packets_of_a_worker_keep_their_order(self):
        script = lines(take(SHORT, 0, "up"), take(SHORT, 0, "up"), take(SHORT, 0), line(do="flush", worker=0))
        answers = lines(taken(1), taken(2), taken(3), judged("Unmatched", "Stray", "Unmatched"))
        records = ["1,0,up,0,4,0,Unmatched,,", "2,0,up,0,4,0,Stray,,", "3,0,down,0,4,0,Unmatched,,"]
        self.has_packets(script, answers, *records)


def granted(key, octets):
    """The line that gives a key a grant."""
    return line(do="monitor", key=key, grant=octets)


def done(generation, *reports, **more):
    """The answer to a command with these reports: of a key by a cause, with a number and octets."""
    names = "cause", "key", "number", "octets"
    return answer(generation=generation, ok=True, reports=[dict(zip(names, report)) for report in reports], **more)


def key_of(name, is_on, reported, unreported):
    """How a key is shown."""
    return {"key": name, "on": is_on, "reported": reported, "unreported": unreported}


# Two keys with grants, of which a third is refused; reports of both with one answer; and what is shown twice.
KEYS = lines(
    granted("vid", 100),
    granted("web", 7),
    granted("full", 9),
    "",
    SHOW,
    line(do="report", key="vid"),
    granted("vid", MOST),
    line(do="terminate"),
    SHOW,
)

# The reports at the end of the session, an access event among them.
TERMINATED = [
    {"event": "RAT_CHANGE", "number": 1, "value": "eutran"},
    {"cause": "Terminated", "key": "web", "number": 2, "octets": 5},
    {"cause": "Terminated", "key": "vid", "number": 3, "octets": MOST - 28},
]

KEYS_ANSWERED = lines(
    done(1),
    done(2),
    answer(name="KeysFull", refused=6),
    answer(active=[], bearers=[], generation=2, keys=[key_of("vid", True, 0, 28)]),
    done(2, ("Requested", "vid", 0, 28)),
    done(3),
    answer(generation=4, ok=True, reports=TERMINATED),
    answer(active=[], bearers=[], generation=4, keys=[key_of("vid", False, MOST, 0), key_of("web", False, 5, 1)]),
)

# Reports of which the octets of a key have no sum below 2^64.
BEYOND = answer(reports=[{"key": "vid", "octets": MOST}, {"key": "vid", "octets": 1}, {"key": "web", "octets": 2}])


class Keys(ReportTest):
    def test_keys_have_their_grants_reports_and_last_state(self):
        rows = [
            f"vid | 2 | 2 | {MOST:,} | 0 (off)",
            "web | 1 | 1 | 5 | 1 (off)",
            "vid | 1 | grant | 100",
            "web | 2 | grant | 7",
            "vid | 6 | Requested | 28",
            f"vid | 7 | grant | {MOST:,}",
            "web | 8 | Terminated | 5",
            f"vid | 8 | Terminated | {MOST - 28:,}",
            "KeysFull | refused | 6 | 1 | 3 | 3",
        ]
        self.has_page(KEYS, KEYS_ANSWERED, rows, answered=8, reports=3, refused=1, generation=4)

    def test_sums_of_octets_are_exact_below_2_to_the_64(self):
        self.has_metrics(
            KEYS,
            KEYS_ANSWERED,
            4,
            reported_bytes_total=[('key="vid"', MOST), ('key="web"', 5)],
            unreported_bytes=[('key="vid"', 0), ('key="web"', 1)],
            refused_lines_total=[('name="KeysFull"', 1)],
        )

    def test_a_larger_sum_is_named_or_left_out(self):
        rows = [
            "vid | 0 | 2 | 2^64 or more | ",
            "web | 0 | 1 | 2 | ",
            f"vid | 1 |  | {MOST:,}",
            "vid | 1 |  | 1",
            "web | 1 |  | 2",
        ]
        self.has_page("[]", BEYOND, rows=rows, answered=1, reports=3)
        self.has_metrics("[]", BEYOND, reported_bytes_total=[('key="web"', 2)])


def guaranteed(name, up, down):
    """The line that installs a rule with these guaranteed rates."""
    return line(do="install", rule={"name": name, "gbr": {"up": up, "down": down}})


class Rates(ReportTest):
    def test_rates_are_sums_of_the_rules_that_are_active(self):
        script = lines(
            guaranteed("a", 64, 32),
            guaranteed("b", 6, 2),
            guaranteed("c", 9, 9),
            guaranteed("a", 60, 32),
            line(do="activate", name="pre-ef"),
            line(do="remove", name="b"),
            guaranteed("d", 1, 0),
            line(do="lose", bearer=7),
            line(do="close"),
        )
        answers = lines(
            answer(bearer=6, generation=1, ok=True),
            answer(bearer=6, generation=2, ok=True),
            answer(name="OverCapacityUp", refused=17),
            answer(bearer=6, generation=3, ok=True),
            answer(bearer=5, generation=4, ok=True),
            answer(generation=5, ok=True),
            answer(bearer=7, generation=6, ok=True),
            answer(generation=7, ok=True),
            answer(generation=8, ok=True),
        )
        rows = [
            "1 | 6 | 64 | 32",
            "2 | 6 | 70 | 34",
            "3 | 6 | 66 | 34",
            "5 | 6 | 60 | 32",
            "6 | 7 | 1 | 0",
            "7 | 7 | 0 | 0",
            "8 | 6 | 0 | 0",
            "OverCapacityUp | refused | 17 | 1 | 3 | 3",
        ]
        self.has_page(script, answers, rows, answered=9, refused=1, generation=8)


class Sessions(ReportTest):
    """A rule with rates, a grant, two packets with verdicts, a report, a refusal, and what is shown, in every form."""

    script = lines(
        guaranteed("a", 64, 32),
        granted("vid", 100),
        take(DNS_ANSWER),
        take(DNS_ANSWER),
        line(do="flush", worker=0),
        line(do="remove", name="b"),
        SHOW,
    )
    answers = lines(
        done(1, bearer=6),
        done(2),
        taken(1),
        taken(2),
        answer(
            ok=True,
            reports=[{"cause": "Threshold", "key": "vid", "number": 0, "octets": 100}],
            verdicts=[
                {"bearer": 6, "generation": 2, "rule": "a", "verdict": "Passed"},
                {"generation": 2, "verdict": "Unmatched"},
            ],
        ),
        answer(name="UnknownRule", refused=5),
        answer(active=["a"], bearers=[], generation=2, keys=[key_of("vid", True, 100, 0)]),
    )

    def test_the_page(self):
        rows = [
            "a | 6 | 0 | 0 | 1 | 28 | 0",
            "vid | 1 | 1 | 100 | 0 (on)",
            "vid | 2 | grant | 100",
            "vid | 5 | Threshold | 100",
            "1 | 6 | 64 | 32",
            "UnknownRule | refused | 5 | 1 | 6 | 6",
        ]
        counts = {"answered": 7, "packets": 2, "reports": 1, "refused": 1, "generation": 2}
        self.has_page(self.script, self.answers, rows, **counts)

    def test_the_packets(self):
        self.has_packets(self.script, self.answers, "3,0,down,28,5,2,Passed,a,6", "4,0,down,28,5,2,Unmatched,,")

    def test_the_metrics(self):
        self.has_metrics(
            self.script,
            self.answers,
            2,
            packets_total=[('rule="a",verdict="Passed"', 1), ('rule="",verdict="Unmatched"', 1)],
            passed_bytes_total=[('rule="a",direction="up"', 0), ('rule="a",direction="down"', 28)],
            reported_bytes_total=[('key="vid"', 100)],
            unreported_bytes=[('key="vid"', 0)],
            refused_lines_total=[('name="UnknownRule"', 1)],
            guaranteed_bytes_per_second=[('bearer="6",direction="up"', 8), ('bearer="6",direction="down"', 4)],
        )


# The times of the four packets of SCRIPT, with their frames.
TIMES = ["1700000000.000000001 1", "1700000000.500000000 2", "1700000002.000000001 9", "1700000001.000000000 10"]

# Lines that are no times.
NO_TIMES = [
    "1.123456789",
    "1.123456789 ",
    "1.123456789  1",
    "1.12345678 1",
    "1.1234567890 1",
    ".123456789 1",
    "1,123456789 1",
    "-1.123456789 1",
    "+1.123456789 1",
    "12345678901.123456789 1",
    "1.12345678x 1",
    "1.123456789 +1",
    "1.123456789 1 ",
    "1.123456789 12345678901234567890",
    "\u0661.123456789 1",
]


class Times(ReportTest):
    def timed(self, form, script, answers, times):
        """How the program ends on a script with these times."""
        self.write("times", times)
        return self.report(form, script, answers, "--times", "times")

    def test_packets_have_their_times_and_frames(self):
        records = [f"{record},{TIMES[place].replace(' ', ',')}" for record, place in zip(RECORDS, (1, 0, 2, 3))]
        due = lines(f"{COLUMNS},time,frame", *records)
        for times in lines(*TIMES), "\r\n".join(TIMES), "\n" + "\n\n".join(TIMES):
            came = self.timed("csv", SCRIPT, ANSWERS, times.replace("\r", ""))
            self.assertEqual((came.status, came.said, came.wrote.decode()), (0, b"", due))

    def test_the_page_goes_along_seconds(self):
        came = self.timed("html", SCRIPT, ANSWERS, lines(*TIMES))
        page = came.wrote.decode()
        self.assertNotIn("line of the script", page)
        self.assertIn(". The first packet came 1700000000.000000001 seconds after the beginning of 1970, UTC</p>", page)
        # The last packet by its time came 2 s behind the first one.
        ticks = ["0.0", "0.5", "1.0", "1.5", "2.0"]
        self.assertEqual(re.findall(r'<span class="x".*?>(.*?)</span>', page)[:5], ticks)
        bars = sorted(int(bar) for bar in re.findall(r'<rect class="v\d" x="(\d+)"', page))
        due = [6 * (59 * nanoseconds // 2000000000) for nanoseconds in (0, 499999999, 999999999, 2000000000)]
        self.assertEqual(bars, due)

    def test_the_metrics_have_the_time_of_the_last_packet(self):
        came = self.timed("prometheus", SCRIPT, ANSWERS, lines(*TIMES))
        name = "pcef_last_packet_timestamp_seconds"
        about = [f"# HELP {name} When the last packet was recorded.", f"# TYPE {name} gauge"]
        self.assertEqual(came.wrote.decode().splitlines()[-3:], [*about, f"{name} 1700000002.000000001"])

    def is_untimed(self, times, fault, script=SCRIPT, answers=ANSWERS):
        came = self.timed("csv", script, answers, times)
        said = lines(fault, "pcef page: times has to be what pcef capture --times wrote")
        self.assertEqual((came.status, came.wrote, came.said.decode()), (1, b"", said))

    def test_there_is_a_time_for_each_take_line(self):
        fewer = "there are fewer times than take lines: line %s has none"
        more = "there are more times than take lines: line %s of the times has none"
        self.is_untimed("", fewer % 3)
        self.is_untimed(lines(*TIMES[:3]), fewer % 6)
        self.is_untimed(lines("", *TIMES, "", TIMES[0]), more % 7)
        # Packets that have no answer yet have times too, and so have those that were refused.
        script = SCRIPT + lines(take(SHORT), "", take(SHORT))
        self.is_untimed(lines(*TIMES, TIMES[0]), fewer % 11, script)
        refused = ANSWERS + answer(name="BatchFull", refused=1)
        self.is_untimed(lines(*TIMES, TIMES[0]), fewer % 11, script, refused)

    def test_a_line_that_is_no_time_is_reported_with_its_number(self):
        fault = "line 3 of the times isn't seconds with nine digits behind the point, a space and a frame's number"
        for time in NO_TIMES:
            with self.subTest(time=time):
                self.is_untimed(lines("", TIMES[0], time, *TIMES[2:]), fault)


def named(name, text):
    """Lines, each behind this name."""
    return [f"{name} {line}" for line in text.splitlines()]


OPEN = line(do="open", ue="10.0.0.9")
END = line(do="end")


class OneOfMany(ReportTest):
    def many(self):
        """The lines of three sessions, with their answers: a ended and was opened again."""
        first = lines(line(do="open"), take(UP), END), lines(OK, taken(1), OK)
        a = lines(OPEN) + SCRIPT, lines(OK) + ANSWERS
        script = named("a", first[0]) + ["b " + OPEN, ""] + named("a", a[0]) + ["b " + ATTACH, "nameless", "aa " + SHOW]
        answers = named("a", first[1]) + ["b " + OK] + named("a", a[1])
        no_session = answer(name="NoSession", refused=0)
        answers += ["b " + ATTACHED, '- {"fault":1,"name":"BadName"}', f"aa {no_session}"]
        return lines(*script), lines(*answers)

    def test_the_last_session_of_a_name_is_shown(self):
        script, answers = self.many()
        # Its first line is line 6 of all, and so line 3 of SCRIPT is line 9.
        records = []
        for record in RECORDS:
            number, worker, direction, octets, answered, *rest = record.split(",")
            later = [str(int(number) + 6), worker, direction, octets, str(int(answered) + 6)]
            records.append(",".join([*later, *rest]))
        self.assertEqual(self.shown("csv", script, answers, "--session", "a"), lines(COLUMNS, *records))

    def test_each_sample_has_the_name_of_the_session(self):
        script, answers = self.many()
        shown = self.shown("prometheus", script, answers, "--session", "a")
        samples = [sample for sample in shown.splitlines() if not sample.startswith("#")]
        self.assertEqual(samples[0], 'pcef_packets_total{session="a",rule="voice",verdict="Passed"} 1')
        self.assertEqual(samples[-1], 'pcef_generation{session="a"} 0')
        self.assertTrue(all('{session="a"' in sample for sample in samples))
        odd = 'a"b\\c'
        shown = self.shown("prometheus", lines(*named(odd, OPEN)), lines(*named(odd, OK)), "--session", odd)
        self.assertIn('pcef_generation{session="a\\"b\\\\c"} 0\n', shown)

    def test_the_title_has_the_name_and_the_address(self):
        script, answers = self.many()
        for name, words, title in [
            ("a", [], "Session a of 10.0.0.9"),
            ("a", ["--profile", "profile"], "Session a of 10.0.0.9"),
        ]:
            self.write("profile", 'ue = "10.0.0.2"')
            page = self.shown("html", script, answers, "--session", name, *words)
            self.assertEqual(re.findall("<title>(.*?)</title>", page)[0], title)
            self.assertEqual(re.findall("<h1>(.*?)</h1>", page), [title])

    def test_the_times_are_those_of_all_sessions(self):
        script, answers = self.many()
        self.write("times", lines("1600000000.000000000 1", *TIMES))
        came = self.shown("csv", script, answers, "--session", "a", "--times", "times")
        self.assertEqual([row.split(",")[-1] for row in came.splitlines()[1:]], ["2", "1", "9", "10"])
        page = self.shown("html", script, answers, "--session", "a", "--times", "times")
        # The packet of the first session under this name, years before, isn't its own.
        self.assertEqual(re.findall(r'<span class="x".*?>(.*?)</span>', page)[4], "2.0")

    def test_a_name_that_was_never_opened(self):
        script, answers = self.many()
        for name in "aa", "c", "", "-":
            came = self.report("csv", script, answers, "--session", name)
            advice = f"pcef page: no open of {name} in script was answered by ok"
            self.assertEqual((came.status, came.said.decode()), (1, lines(f"there is no session {name}", advice)))


class Words(ReportTest):
    def test_the_title_has_address_profile_and_files(self):
        self.write("profile", 'ue = "2001:db8::/64"\nrows = 1')
        page = self.shown("html", SCRIPT, ANSWERS, "--profile", "profile")
        self.assertIn("<h1>Session of 2001:db8::/64</h1>", page)
        self.assertIn('<p class="from">Profile profile, script script, answers answers</p>', page)
        self.assertIn("<h1>Session in script</h1>", self.shown("html", SCRIPT, ANSWERS))

    def test_a_profile_without_an_address(self):
        for profile in "", "ue = 7", "ue", b"\xff":
            self.write("profile", profile)
            came = self.report("html", SCRIPT, ANSWERS, "--profile", "profile")
            said = lines("profile fault", 'pcef page: profile: an address is expected, as ue = "10.0.0.2"')
            self.assertEqual((came.status, came.said.decode()), (1, said))

    def test_one_file_may_be_standard_input(self):
        self.write("script", SCRIPT)
        self.write("answers", ANSWERS)
        self.write("-", "a file")
        due = lines(COLUMNS, *RECORDS)
        self.ends(PCEF_PAGE, ["--format", "csv", "script", "-"], ANSWERS, wrote=due)
        self.ends(PCEF_PAGE, ["--format", "csv", "-", "answers"], SCRIPT, wrote=due)
        said = lines("usage: only one of the files can be - for standard input")
        self.ends(PCEF_PAGE, ["--format", "csv", "-", "-"], SCRIPT, 2, said=said)
        self.ends(PCEF_PAGE, ["--times", "-", "-", "answers"], SCRIPT, 2, said=said)

    def test_a_file_that_is_not_there(self):
        said = lines("read fault", "pcef page: nowhere: No such file or directory (os error 2)")
        self.ends(PCEF_PAGE, ["nowhere", "answers"], status=4, said=said)

    def test_a_reader_that_leaves_is_no_fault_to_report(self):
        self.write("script", SCRIPT)
        self.write("answers", ANSWERS)
        reader, writer = os.pipe()
        os.close(reader)
        words = [*PCEF_PAGE, "script", "answers"]
        process = subprocess.Popen(words, stdout=writer, stderr=subprocess.PIPE, cwd=self.room)
        os.close(writer)
        _, said = process.communicate(timeout=60)
        self.assertEqual((process.returncode, said), (4, b""))


class Pages(ReportTest):
    def test_progress_over_large_files_of_many_sessions_is_shown_on_a_terminal(self):
        blank = (b" " * 1023 + b"\n") * 33000
        self.write("lines", b's {"do":"open"}\n' + blank)
        self.write("answers", 's {"ok":true}\n')
        parts = "".join(f"{part} %\r" for part in range(1, 101))
        words = ["--session", "s", "--format", "prometheus", "lines", "answers"]
        self.assertEqual(self.shown_on_a_terminal(PCEF_PAGE, words, "answers"), f"{parts}     \r")
        self.assertEqual(self.run_on(PCEF_PAGE, words).said, b"")

    def test_a_long_session_has_a_small_page(self):
        packets = "".join(take(DNS_ANSWER) + "\n" + FLUSH + "\n" for _ in range(20000))
        report = '{"cause":"Threshold","key":"k%d","octets":7}'
        verdict = '{"bearer":%d,"rule":"r%d","verdict":"Passed"}'
        flushed = f'{{"ok":true,"reports":[{report}],"verdicts":[{verdict}]}}\n'
        answers = "".join(taken(1) + "\n" + flushed % (n % 64, 5 + n % 11, n % 64) for n in range(20000))
        self.assertLess(len(self.shown("html", packets, answers)), 200000)

    def test_a_session_without_packets_keys_or_rates_has_no_chart(self):
        page = self.shown("html", ATTACH, ATTACHED)
        self.assertNotIn("<svg", page)
        for text in "No packet has a verdict.", "No rule decided a packet.", "No key has a grant or a report.":
            self.assertIn(text, page)

    def test_numbers_have_thousands_and_axes_have_ticks(self):
        answers = answer(reports=[{"key": "vid", "octets": 130852449}])
        page = self.shown("html", "[]", answers)
        self.assertIn("reported 130,852,449</span>", page)
        ticks = ["0", "50 M", "100 M", "150 M"]
        self.assertEqual(re.findall(r'<span class="y".*?>(.*?)</span>', page)[:4], ticks)

    def test_a_grant_is_a_step_above_what_was_reported(self):
        script = lines(granted("k", 60), "[]", granted("k", 30), "[]")
        report = {"key": "k", "octets": 70, "cause": "Threshold"}
        answers = lines(done(1), answer(ok=True, reports=[report]), done(2), OK)
        page = self.shown("html", script, answers)
        paths = dict(re.findall(r'<path class="(s0 far|s0) " d="M0 160(.*?)"/>', page.split("<h3>")[1]))
        # Up to 100 octets on 160 units, 4 lines on 360 columns: 60 at line 1, 70 from line 2 on, 100 at line 3.
        self.assertEqual(paths["s0 far"], "H90V64H180V48H270V0H360")
        self.assertEqual(paths["s0"], "H90H180V48H270H360")
