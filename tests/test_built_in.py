"""The rules that are predefined in the built-in catalog: what each detects, and scripts that activate them.

The answers were worked out by hand.
"""
from commands import ATTACH, DNS, DNS_ANSWER, FLUSH, REFRESH, SHOW, install, line, profile, take
from programs import PCEF, ProgramTest, lines

# Packets, and which of `pre-dns`, `pre-ef` and `pre-rest` detect them.
DETECTED = [
    ("down", DNS_ANSWER, ("pre-dns", "pre-rest")),
    # The packet that it answers.
    ("up", "4500001c00000000401100000a000002c63364071388003500080000", ("pre-dns", "pre-rest")),
    # With DSCP 46.
    ("down", "45b8001c0000000040110000c63364070a0000020035138800080000", ("pre-dns", "pre-ef", "pre-rest")),
    # Of TCP.
    ("down", "4500001c0000000040060000c63364070a0000020035138800080000", ("pre-dns", "pre-rest")),
    # From port 54 to port 53.
    ("down", "4500001c0000000040110000c63364070a0000020036003500080000", ("pre-rest",)),
    # A later fragment, which has no ports.
    ("down", "4500001c0000000140110000c63364070a0000020035138800080000", ("pre-rest",)),
]

# A packet from port 54 with DSCP 46.
EXPEDITED = "45b8001c0000000040110000c63364070a0000020036138800080000"

# Packets from 2001:db8::7 port 53 to 2001:db8::2 port 5000: of UDP with DSCP 46, the same from port 54, a later
# fragment, and of TCP behind hop-by-hop options.
ADDRESSES_V6 = "20010db800000000000000000000000720010db8000000000000000000000002"
DNS_V6 = f"6b80000000081140{ADDRESSES_V6}0035138800080000"
EXPEDITED_V6 = f"6b80000000081140{ADDRESSES_V6}0036138800080000"
FRAGMENT_V6 = f"6000000000102c40{ADDRESSES_V6}11000008000000010035138800080000"
TCP_V6 = f"6000000000100040{ADDRESSES_V6}06000104000000000035138800080000"

# Names of the predefined rules, and a name that none has.
ACTIVATE_DNS = line(do="activate", name="pre-dns")
ACTIVATE_EXPEDITED = line(do="activate", name="pre-ef")
ACTIVATE_REMAINING = line(do="activate", name="pre-rest")


def bound(generation, bearer=5, more=""):
    """The answer to a rule that is bound."""
    return f'{{"bearer":{bearer},"generation":{generation},"ok":true,"reports":[]{more}}}'


def done(generation):
    """The answer to another command."""
    return f'{{"generation":{generation},"ok":true,"reports":[]}}'


def passed(generation, rule, bearer=5):
    return f'{{"bearer":{bearer},"generation":{generation},"rule":"{rule}","verdict":"Passed"}}'


def flushed(*verdicts, reports=""):
    return f'{{"ok":true,"reports":[{reports}],"verdicts":[{",".join(verdicts)}]}}'


def waiting(number):
    return f'{{"ok":true,"waiting":{number}}}'


UNCHANGED = ',"unchanged":true'


class BuiltIn(ProgramTest):
    def play(self, *steps, text=None):
        """Expects the answer beside each line."""
        self.write("profile.toml", text or profile())
        given, answers = zip(*steps)
        self.ends(PCEF, ["script", "profile.toml"], lines(*given), wrote=lines(*answers))

    def test_what_each_rule_detects(self):
        for direction, packet, rules in DETECTED:
            for rule in "pre-dns", "pre-ef", "pre-rest":
                with self.subTest(packet=packet, rule=rule):
                    bearer = 6 if rule == "pre-ef" else 5
                    unmatched = '{"generation":1,"verdict":"Unmatched"}'
                    self.play(
                        (line(do="activate", name=rule), bound(1, bearer)),
                        (ATTACH, '{"generation":1,"ok":true,"worker":0}'),
                        (take(packet, direction=direction), waiting(1)),
                        (FLUSH, flushed(passed(1, rule, bearer) if rule in rules else unmatched)),
                    )

    def test_an_active_rule_stays_as_it_is(self):
        keys = '"keys":[{"key":"dns","on":false,"reported":0,"unreported":0}]'
        self.play(
            (ACTIVATE_DNS, bound(1)),
            (ACTIVATE_DNS, bound(1, more=UNCHANGED)),
            (line(do="activate", name="nope"), '{"name":"UnknownRule","refused":5}'),
            (install("pre-dns", filters=[DNS]), '{"name":"NameIsPredefined","refused":4}'),
            (ACTIVATE_EXPEDITED, bound(2, 6)),
            (ACTIVATE_EXPEDITED, bound(2, 6, UNCHANGED)),
            (
                SHOW,
                '{"active":["pre-dns","pre-ef"],"bearers":[{"down":0,"id":5,"rules":1,"up":0},'
                f'{{"down":0,"id":6,"rules":1,"up":0}}],"generation":2,{keys}}}',
            ),
            (line(do="remove", name="pre-ef"), done(3)),
            (line(do="remove", name="pre-ef"), '{"name":"UnknownRule","refused":5}'),
            (
                SHOW,
                '{"active":["pre-dns"],"bearers":[{"down":0,"id":5,"rules":1,"up":0}],"generation":3,' + keys + "}",
            ),
        )

    def test_at_the_same_precedence_an_installed_rule_goes_before_a_predefined_one(self):
        self.play(
            (ACTIVATE_DNS, bound(1)),
            (install("zz", precedence=50, filters=[DNS]), bound(2)),
            (ATTACH, '{"generation":2,"ok":true,"worker":0}'),
            (take(DNS_ANSWER), waiting(1)),
            (install("zz", precedence=51, filters=[DNS]), bound(3)),
            (REFRESH, '{"generation":3,"ok":true}'),
            (take(DNS_ANSWER), waiting(2)),
            (FLUSH, flushed(passed(2, "zz"), passed(3, "pre-dns"))),
        )

    def test_a_worker_that_refreshes_judges_by_the_modified_rules(self):
        self.play(
            (install("a", precedence=10), bound(1)),
            (install("b", precedence=20, filters=[DNS]), bound(2)),
            (ATTACH, '{"generation":2,"ok":true,"worker":0}'),
            (take(DNS_ANSWER), waiting(1)),
            (install("b", precedence=5, filters=[DNS]), bound(3)),
            (REFRESH, '{"generation":3,"ok":true}'),
            (take(DNS_ANSWER), waiting(2)),
            (line(do="remove", name="b"), done(4)),
            (install("a", precedence=50), bound(5)),
            (ACTIVATE_DNS, bound(6)),
            (REFRESH, '{"generation":6,"ok":true}'),
            (take(DNS_ANSWER), waiting(3)),
            (install("a", precedence=51), bound(7)),
            (REFRESH, '{"generation":7,"ok":true}'),
            (take(DNS_ANSWER), waiting(4)),
            (FLUSH, flushed(passed(2, "a"), passed(3, "b"), passed(6, "a"), passed(7, "pre-dns"))),
        )

    def test_predefined_rules_judge_and_count(self):
        self.play(
            (ACTIVATE_REMAINING, bound(1)),
            (ACTIVATE_EXPEDITED, bound(2, 6)),
            (ACTIVATE_DNS, bound(3)),
            (line(do="monitor", key="dns", grant=1000), done(4)),
            (ATTACH, '{"generation":4,"ok":true,"worker":0}'),
            (take(DNS_ANSWER), waiting(1)),
            (take(EXPEDITED), waiting(2)),
            (FLUSH, flushed(passed(4, "pre-dns"), passed(4, "pre-ef", 6))),
            (
                line(do="remove", name="pre-dns"),
                '{"generation":5,"ok":true,"reports":[{"cause":"RulesGone","key":"dns","number":0,"octets":28}]}',
            ),
            (
                SHOW,
                '{"active":["pre-ef","pre-rest"],"bearers":[{"down":0,"id":5,"rules":1,"up":0},'
                '{"down":0,"id":6,"rules":1,"up":0}],"generation":5,'
                '"keys":[{"key":"dns","on":false,"reported":28,"unreported":0}]}',
            ),
        )

    def test_they_judge_packets_of_version_6_whose_octets_reach_a_grant(self):
        self.play(
            (ACTIVATE_EXPEDITED, bound(1, 6)),
            (ACTIVATE_DNS, bound(2)),
            (line(do="monitor", key="dns", grant=104), done(3)),
            (line(do="triggers", events=["USAGE_REPORT"]), done(3)),
            (ATTACH, '{"generation":3,"ok":true,"worker":0}'),
            (take(DNS_V6), waiting(1)),
            (take(EXPEDITED_V6), waiting(2)),
            (take(FRAGMENT_V6), waiting(3)),
            (take(TCP_V6), waiting(4)),
            (
                FLUSH,
                flushed(
                    passed(3, "pre-dns"),
                    passed(3, "pre-ef", 6),
                    '{"generation":3,"verdict":"Unmatched"}',
                    passed(3, "pre-dns"),
                    reports='{"cause":"Threshold","key":"dns","number":0,"octets":104}',
                ),
            ),
            text=profile(ue='"2001:db8::2"', rows=4, commands=4),
        )

    def test_a_predefined_name_is_never_installed(self):
        self.play(
            (install("pre-ef", filters=[DNS]), '{"name":"NameIsPredefined","refused":4}'),
            (
                SHOW,
                '{"active":[],"bearers":[{"down":0,"id":5,"rules":0,"up":0}],"generation":0,"keys":[]}',
            ),
        )
