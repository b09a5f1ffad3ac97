"""Scripts of `pcef script`: lines that are cut, empty or too long, and limits of a session."""
from commands import ATTACH, DNS, FLUSH, MONITOR, SHOW, WEB, install, line, profile, take
from programs import PCEF, ProgramTest, lines

NOT_JSON = '{"fault":3,"name":"NotJson"}'

# The longest line of a script, in bytes.
LONGEST = 262144


class Scripts(ProgramTest):
    def setUp(self):
        super().setUp()
        self.write("profile.toml", profile())

    def script(self, given, **ended):
        self.ends(PCEF, ["script", "profile.toml"], given, **ended)

    def ends_with(self, given, *answers):
        """Expects that these are the last answers to the lines."""
        came = self.run_on(PCEF, ["script", "profile.toml"], lines(*given))
        self.assertEqual((came.status, came.said), (0, b""))
        self.assertEqual(tuple(came.wrote.decode().splitlines()[-len(answers) :]), answers)

    def test_scripts_end_with_1_where_a_line_is_at_fault(self):
        self.script(ATTACH, wrote='{"generation":0,"ok":true,"worker":0}\n')
        self.script("x", status=1, wrote=f"{NOT_JSON}\n")
        self.script("")

    def test_each_front_of_a_line_is_not_json(self):
        self.script(WEB, wrote='{"bearer":5,"generation":1,"ok":true,"reports":[]}\n')
        fronts = [WEB[:end] for end in range(1, len(WEB))]
        self.script(lines(*fronts), status=1, wrote=lines(*[NOT_JSON] * len(fronts)))

    def test_the_longest_line(self):
        self.script(" " * LONGEST + "\n")
        nothing = '{"active":[],"bearers":[{"down":0,"id":5,"rules":0,"up":0}],"generation":0,"keys":[]}'
        wrote = lines('{"fault":1,"name":"LineTooLong"}', nothing)
        self.script(lines(" " * (LONGEST + 1), SHOW), status=1, wrote=wrote)

    def test_64_rules_are_active_and_no_more(self):
        # Each rule has as many filters as it may have: the index of the last table has 1,024 lines.
        rules = [install(f"n{number}", filters=[DNS] * 16) for number in range(1, 65)]
        self.ends_with(
            rules + [line(do="activate", name="pre-dns")],
            '{"bearer":5,"generation":64,"ok":true,"reports":[]}',
            '{"name":"RulesFull","refused":11}',
        )

    def test_a_rule_whose_key_finds_no_slot(self):
        keys = [line(do="monitor", key=f"k{number}", grant=1) for number in range(1, 9)]
        self.ends_with(
            keys + [line(do="activate", name="pre-dns"), line(do="activate", name="pre-rest")],
            '{"name":"KeysFull","refused":12}',
            '{"bearer":5,"generation":9,"ok":true,"reports":[]}',
        )

    def test_a_rule_that_finds_no_bearer(self):
        rules = [install(f"r{level}", qci=8, level=level) for level in range(1, 11)]
        self.ends_with(
            rules + [line(do="activate", name="pre-ef")],
            '{"bearer":15,"generation":10,"ok":true,"reports":[]}',
            '{"name":"TooManyBearers","refused":16}',
        )

    def test_what_changes_nothing_takes_no_command(self):
        self.write("profile.toml", profile(commands=2))
        unchanged = '{"bearer":5,"generation":1,"ok":true,"reports":[],"unchanged":true}'
        dns = line(do="activate", name="pre-dns")
        self.ends_with(
            [dns, dns, dns, line(do="activate", name="pre-rest"), dns],
            '{"bearer":5,"generation":1,"ok":true,"reports":[]}',
            unchanged,
            unchanged,
            '{"bearer":5,"generation":2,"ok":true,"reports":[]}',
            '{"name":"CommandsFull","refused":3}',
        )

    def test_a_session_with_a_packet(self):
        packet = "4500001c0000000040110000c63364070a0000020035138800080000"
        self.ends_with(
            [WEB, MONITOR, ATTACH, take(packet), FLUSH, SHOW],
            '{"bearer":5,"generation":1,"ok":true,"reports":[]}',
            '{"generation":2,"ok":true,"reports":[]}',
            '{"generation":2,"ok":true,"worker":0}',
            '{"ok":true,"waiting":1}',
            '{"ok":true,"reports":[],"verdicts":'
            '[{"bearer":5,"generation":2,"rule":"web","verdict":"Passed"}]}',
            '{"active":["web"],"bearers":[{"down":0,"id":5,"rules":1,"up":0}],"generation":2,'
            '"keys":[{"key":"vid","on":true,"reported":0,"unreported":28}]}',
        )

    def test_names_are_escaped_in_answers(self):
        packet = "4500001c0000000040110000c63364070a0000020035138800080000"
        self.ends_with(
            [install('a"b\\c', gate="DISABLED"), ATTACH, take(packet), FLUSH],
            '{"ok":true,"reports":[],"verdicts":[{"generation":1,"rule":"a\\"b\\\\c","verdict":"Gated"}]}',
        )
