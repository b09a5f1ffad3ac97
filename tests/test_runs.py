"""Runs of `pcef run` over workers in threads, whose packets, octets and reports were counted by hand."""
import re

from commands import CLOSE, DNS, DNS_ANSWER, MONITOR, WEB, install, line, profile, take
from programs import PCEF, ProgramTest, lines

# A packet of 28 octets for each of two workers.
FIRST = take(DNS_ANSWER, worker=0)
SECOND = take(DNS_ANSWER, worker=1)

REPORT = line(do="report", key="vid")
STOP = line(do="stop", key="vid")


def guaranteed(name, precedence):
    """The line that installs a rule with guaranteed rates."""
    gbr = {"up": 64000, "down": 64000}
    return install(name, precedence=precedence, filters=["permit out 6 from any to any"], qci=1, level=2, gbr=gbr)


# Numbers of workers, a line behind others that fit, and what is said of it.
UNFIT = [
    (1, SECOND, "NoWorker: column 23: worker is 1: 0 is expected"),
    (2, take(DNS_ANSWER, worker=2, direction="up"), "NoWorker: column 23: worker is 2: 0 to 1 is expected"),
    (2, '{"do":"attach"}', 'NotOfRun: column 7: do is "attach": a command or take is expected'),
    (2, '  {"do":"show"}', 'NotOfRun: column 9: do is "show": a command or take is expected'),
    (2, "x", 'NotJson: column 1: "x" stands where a JSON object is expected'),
    (2, "[1]", "NotObject: the line is a list: an object is expected"),
    (2, '{"do":"instal"}', 'UnknownDo: column 7: do is "instal": did you mean "install"?'),
    (2, '{"do":"stop","keys":"vid"}', 'UnknownField: column 21: keys is unknown: did you mean "key"?'),
    (
        2,
        '{"do":"stop"}',
        "MissingField: key is missing: a text of 1 to 64 characters without blanks is expected",
    ),
    (
        2,
        '{"do":"stop","key":5}',
        "BadField: column 20: key is 5: a text of 1 to 64 characters without blanks is expected",
    ),
    (
        2,
        '{"do":"stop","key":"a b"}',
        'BadName: column 20: key is "a b": 1 to 64 characters of ASCII without blanks are expected',
    ),
    (
        2,
        take("4x", direction="up"),
        "BadHex: column 45: packet: character 2 is 'x': pairs of hexadecimal digits alone, as 4500, are expected",
    ),
    (2, take("45", direction="up"), "BadPacket: column 45: packet has 1 octet: the header of IPv4 alone has 20"),
]


class Runs(ProgramTest):
    def setUp(self):
        super().setUp()
        self.write("profile.toml", profile())

    def run_ends(self, workers, given, **ended):
        self.ends(PCEF, ["run", "profile.toml", str(workers)], lines(*given), **ended)

    def counts(self, workers, given):
        """The counts that a run prints, line by line."""
        came = self.run_on(PCEF, ["run", "profile.toml", str(workers)], lines(*given))
        self.assertEqual((came.status, came.said), (0, b""))
        return came.wrote.decode().splitlines()

    def test_each_packet_counts_for_its_rule_and_for_the_session(self):
        wrote = lines(
            "rows 2 abandoned 0 dropped 0",
            "commands 3 refused 0",
            "reports usage 0 access 0 inactive 0",
            "key vid counted 56 reported 0 unreported 56",
            "key all counted 56 reported 0 unreported 56",
        )
        session = line(do="monitor", key="all", grant=1000, level="session")
        self.run_ends(2, [WEB, MONITOR, session, FIRST, SECOND], wrote=wrote)

    def test_a_report_among_the_packets(self):
        *counts, key = self.counts(2, [WEB, MONITOR, FIRST, SECOND, REPORT])
        self.assertEqual(
            counts,
            ["rows 2 abandoned 0 dropped 0", "commands 3 refused 0", "reports usage 1 access 0 inactive 0"],
        )
        ends = ["reported 0 unreported 56", "reported 28 unreported 28", "reported 56 unreported 0"]
        self.assertIn(key, [f"key vid counted 56 {end}" for end in ends])

    def test_reports_of_each_kind_are_counted(self):
        given = [
            line(do="triggers", events=["RAT_CHANGE"]),
            WEB,
            guaranteed("voice", 50),
            guaranteed("fax", 51),
            guaranteed("text", 52),
            MONITOR,
            line(do="notice", event="RAT_CHANGE", value="eutran"),
            line(do="notice", event="RAT_CHANGE", value="utran"),
            line(do="notice", event="PLMN_CHANGE", value="26201"),
            line(do="lose", bearer=6),
            line(do="lose", bearer=6),
            line(do="activate", name="nope"),
            "",
            FIRST,
            line(do="remove", name="nope"),
            STOP,
        ]
        counts = [
            "rows 1 abandoned 0 dropped 0",
            "commands 11 refused 3",
            "reports usage 1 access 2 inactive 3",
        ]
        # One packet isn't spread among two commands: it is sent behind both, and by then its key is off.
        self.assertEqual(self.counts(1, given), [*counts, "key vid counted 0 reported 0 unreported 0"])

    def test_blank_lines_and_commands_behind_the_packets(self):
        wrote = lines(
            "rows 2 abandoned 0 dropped 0",
            "commands 2 refused 0",
            "reports usage 1 access 0 inactive 0",
            "key vid counted 0 reported 0 unreported 0",
        )
        self.run_ends(2, [MONITOR, "", FIRST, STOP, " \t\r", SECOND], wrote=wrote)

    def test_the_first_unfit_line_is_reported(self):
        for workers, unfit, message in UNFIT:
            with self.subTest(message=message):
                said = lines("line 4 fault", f"pcef: {message}", "pcef: nothing was run")
                self.run_ends(workers, [WEB, "", FIRST, unfit, "x"], status=1, said=said)

    def test_a_session_that_is_closed_before_its_packets(self):
        said = lines("run fault 5", "pcef: a worker wasn't attached: the session was closed before the first packet")
        for given in [WEB, MONITOR, CLOSE, FIRST, SECOND], [WEB, MONITOR, "", "", CLOSE]:
            with self.subTest(given=given):
                self.run_ends(2, given, status=4, said=said)

    def test_a_packet_behind_which_the_ring_ends(self):
        # While the commands are given, the worker waits for a packet, and its ring ends at once.
        for _ in range(200):
            counts = self.counts(1, [FIRST] + [MONITOR] * 20)
            self.assertEqual(counts[:2], ["rows 1 abandoned 0 dropped 0", "commands 20 refused 0"])

    def test_sixteen_workers_drop_no_packet(self):
        packets = [take(DNS_ANSWER, worker=worker) for worker in range(16)] * 40
        for _ in range(10):
            self.assertEqual(self.counts(16, packets)[0], "rows 640 abandoned 0 dropped 0")

    def test_a_rule_reaches_the_workers_among_the_packets(self):
        # The rule is installed once 100 packets were sent, of which 64 at most are in the ring still: 36 were judged
        # before at least. The worker takes 32 more at most till it reads the new table: 132 were judged before at most.
        grant = line(do="monitor", key="vid", grant=1000000)
        counts = self.counts(1, [grant] + [FIRST] * 100 + [WEB] + [FIRST] * 100)
        self.assertEqual(counts[0], "rows 200 abandoned 0 dropped 0")
        counted = int(re.fullmatch(r"key vid counted (\d+) reported 0 unreported \1", counts[-1]).group(1))
        self.assertIn(200 - counted // 28, range(36, 133))

    def test_each_packet_of_a_full_session_is_accounted_for(self):
        # A first flush of one row is taken over, and each other one is refused: the worker gives the rows of that up,
        # and drops what comes later.
        self.write("profile.toml", profile(rows=1))
        counts = self.counts(1, [FIRST] * 100)
        numbers = re.fullmatch(r"rows (\d+) abandoned (\d+) dropped (\d+)", counts[0]).groups()
        self.assertEqual(sum(map(int, numbers)), 100)
        self.assertLessEqual(int(numbers[0]), 1)
