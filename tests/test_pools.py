"""Sessions on a pool: what `pcef pool` answers, and how it ends."""
from commands import CLOSE, install, line, profile
from programs import PCEF, ProgramTest, lines

NO_NUMBER = "NoNumber: the number of a session, as 0 or 12, and one space are expected before a command"

# Lines that are no orders for two sessions, and the message for each.
WRONG = [
    ("x", NO_NUMBER),
    ("0", NO_NUMBER),
    ("0 ", "NotJson: column 3: the line ends where a JSON object is expected"),
    ("0 x", 'NotJson: column 3: "x" stands where a JSON object is expected'),
    ("2 " + CLOSE, "NoSession: the session is 2: 0 to 1 is expected"),
    ("64 " + CLOSE, "NoSession: the session is 64: 0 to 1 is expected"),
    ("00 " + CLOSE, NO_NUMBER),
    ("01 " + CLOSE, NO_NUMBER),
    ("+1 " + CLOSE, NO_NUMBER),
    ("100 " + CLOSE, NO_NUMBER),
    (" 0 " + CLOSE, NO_NUMBER),
    ("0\t" + CLOSE, NO_NUMBER),
    (CLOSE, NO_NUMBER),
    ('0 {"do":"attach"}', 'NotOfPool: column 9: do is "attach": a command is expected'),
    ('0 {"do":"show"}', 'NotOfPool: column 9: do is "show": a command is expected'),
    (
        '0 {"do":"remove"}',
        "MissingField: name is missing: a text of 1 to 64 characters without blanks is expected",
    ),
    (
        '1 {"do":"stop","key":5}',
        "BadField: column 22: key is 5: a text of 1 to 64 characters without blanks is expected",
    ),
]

POOL_UP = '{"name":"PoolUp","refused":21}'


def voice(up, down):
    """The line that installs `voice` with these guaranteed rates."""
    return install("voice", precedence=50, qci=1, level=2, gbr={"up": up, "down": down})


def bound(generation):
    return f'{{"bearer":6,"generation":{generation},"ok":true,"reports":[]}}'


REMOVAL = line(do="remove", name="voice")


class Pools(ProgramTest):
    def setUp(self):
        super().setUp()
        self.write("profile.toml", profile())

    def pool(self, capacity, sessions, *given, **ended):
        words = ["pool", str(capacity), str(capacity)] + ["profile.toml"] * sessions
        self.ends(PCEF, words, lines(*given), **ended)

    def test_blank_lines_stand_between_the_orders_of_two_sessions(self):
        self.pool(
            100000,
            2,
            "0 " + voice(64000, 64000),
            "",
            "1 " + voice(64000, 64000),
            " \t\r",
            "0 " + REMOVAL,
            "1 " + voice(64000, 64000),
            wrote=lines(
                bound(1),
                POOL_UP,
                '{"generation":2,"ok":true,"reports":[]}',
                bound(1),
                "granted up 64000 down 64000",
            ),
        )

    def test_a_pool_without_room(self):
        self.pool(0, 1, "0 " + voice(1, 0), wrote=lines(POOL_UP, "granted up 0 down 0"))

    def test_the_last_of_sixty_four_sessions(self):
        self.pool(9, 64, "63 " + voice(7, 9), wrote=lines(bound(1), "granted up 7 down 9"))

    def test_the_first_line_that_is_no_order_is_reported(self):
        for wrong, message in WRONG:
            with self.subTest(wrong=wrong):
                said = lines("line 3 fault", f"pcef: {message}", "pcef: nothing was run")
                self.pool(9, 2, "0 " + voice(1, 1), "", wrong, "y", status=1, said=said)

    def test_a_pool_with_one_session_has_number_0(self):
        said = lines("line 1 fault", "pcef: NoSession: the session is 1: 0 is expected", "pcef: nothing was run")
        self.pool(9, 1, "1 " + CLOSE, status=1, said=said)

    def test_commands_of_one_session_leave_the_other_alone(self):
        stopped = '[{"cause":"Disabled","key":"vid","number":0,"octets":0}]'
        self.pool(
            9,
            2,
            "0 " + CLOSE,
            "0  " + CLOSE + " \r",
            "1 " + line(do="monitor", key="vid", grant=1000),
            "1 " + line(do="stop", key="vid"),
            wrote=lines(
                '{"generation":1,"ok":true,"reports":[]}',
                '{"name":"Closed","refused":2}',
                '{"generation":1,"ok":true,"reports":[]}',
                f'{{"generation":2,"ok":true,"reports":{stopped}}}',
                "granted up 0 down 0",
            ),
        )
