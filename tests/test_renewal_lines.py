"""The lines that `pcef many` shows for a session: their text, and that a new session which is given them is like it."""
import json
import random

from commands import ATTACH, CLOSE, DNS_ANSWER, FLUSH, MONITOR, SHOW, WEB, install, line, profile, take
from programs import PCEF, PCEF_MANY, ProgramTest, lines

OPEN = line(do="open")
END = line(do="end")
RENEW = line(do="renew")
LINES = line(do="lines")
FINISH = line(do="finish", worker=0)

DONE = '{"ok":true}'
NO_SESSION = '{"name":"NoSession","refused":0}'
TERMINATED = '{"name":"Terminated","refused":1}'
UNKNOWN_FIELD = '{"fault":6,"name":"UnknownField"}'
UNKNOWN_DO = '{"fault":5,"name":"UnknownDo"}'

OUT_OF_REACH = 2**64 - 1
PREDEFINED = ["pre-dns", "pre-ef", "pre-rest"]
EVENTS = ["USAGE_REPORT", "RAT_CHANGE", "PLMN_CHANGE", "USER_LOCATION_CHANGE", "UE_TIME_ZONE_CHANGE"]
KEYS = ["k1", "k2", 'k"3', "k\\4", "~", "session-key"]
GATES = ["ENABLED-UPLINK", "ENABLED-DOWNLINK", "ENABLED", "DISABLED"]


def shown(*texts):
    """The answer that shows these lines."""
    return '{"lines":[' + ",".join(texts) + '],"ok":true}'


def opened(address):
    return line(do="open", ue=address)


class Sampler:
    """Random lines of a session, and what is to be shown of its rules and subscriptions."""

    def __init__(self, seed):
        self.random = random.Random(seed)
        self.rules = {}
        self.events = []

    def pick(self, *choices):
        return self.random.choice(choices)

    def address(self):
        """A text of an address, how it is shown, and its width."""
        if self.random.random() < 0.5:
            octets = [self.random.randrange(256) for _ in range(4)]
            return ".".join(f"{octet:0{self.random.randint(1, 3)}}" for octet in octets), ".".join(map(str, octets)), 32
        groups = [self.pick(0, self.random.randrange(65536)) for _ in range(8)]
        if self.random.random() < 0.5:
            gap = self.random.randint(0, 6)
            groups[gap : gap + 2] = [0, 0]
            given = ":".join(f"{group:X}" for group in groups[:gap]) + "::" + ":".join(f"{group:04x}" for group in groups[gap + 2 :])
        else:
            given = ":".join(f"{group:x}" for group in groups)
        return given, ":".join(f"{group:x}" for group in groups), 128

    def place(self):
        """A text of a filter's place, and how it is shown."""
        kind = self.random.randrange(4)
        if kind < 2:
            return ("any", "any") if kind else ("assigned", "assigned")
        given, due, width = self.address()
        bits = self.random.randint(0, width)
        return (given, f"{due}/{width}") if kind == 2 else (f"{given}/{bits:02}", f"{due}/{bits}")

    def ports(self):
        """A list of ports behind a place, and how it is shown."""
        given, due = [], []
        for _ in range(self.pick(0, 0, 1, 3, 8)):
            first = self.pick(0, 65535, self.random.randrange(65536))
            last = self.pick(first, first, self.random.randint(first, 65535))
            given.append(f"{first}-{last}" if first != last or self.random.random() < 0.5 else f"{first:05}")
            due.append(f"{first}-{last}" if first != last else f"{first}")
        return (" " + ",".join(given), " " + ",".join(due)) if given else ("", "")

    def filter(self):
        """A filter, and how it is shown."""
        direction = self.pick("in", "out", "out")
        proto = self.pick("ip", "0", "17", "255", str(self.random.randrange(256)))
        sides = [self.place(), self.ports(), self.place(), self.ports()]
        texts = [f"permit {direction} {proto} from {a}{b} to {c}{d}" for a, b, c, d in zip(*sides)]
        given, due = {"text": texts[0].replace(" ", self.pick(" ", "  ", "\t"))}, {"text": texts[1]}
        if direction == "out" and self.random.random() < 0.5:
            given["flow"] = due["flow"] = self.pick("downlink", "uplink", "bidirectional")
        return given, due

    def rule(self):
        """The line that installs a rule. How it is shown is kept by its name."""
        name = self.pick("r1", "r2", 'r"3', "r\\4", "{5}", "r" * 64)
        filters = [self.filter() for _ in range(self.pick(1, 1, 2, 16))]
        bit_rate = self.random.random() < 0.4
        parts = {
            "name": name,
            "precedence": self.pick(0, 2**32 - 1, self.random.randrange(1000)),
            "filters": [given for given, _ in filters],
            "qci": self.pick(1, 2) if bit_rate else self.pick(5, 9),
            "arp": {"level": self.random.randint(1, 15), "capability": self.pick(True, False), "vulnerability": self.pick(True, False)},
        }
        if bit_rate:
            parts["gbr"] = {"up": self.pick(0, 64000), "down": self.pick(2**32 - 1, 0, 1)}
        parts["gate"] = self.pick(*GATES)
        if self.random.random() < 0.6:
            parts["key"] = self.pick(*KEYS[:-1])
        self.rules.setdefault(name, []).append({**parts, "filters": [due for _, due in filters]})
        # The fields of a line come in any order.
        fields = list(parts.items())
        self.random.shuffle(fields)
        return line(do="install", rule=dict(fields))

    def step(self):
        kind = self.random.randrange(20)
        if kind < 7:
            return self.rule()
        if kind < 9:
            return line(do="activate", name=self.pick(*PREDEFINED))
        if kind < 12:
            key, grant = self.pick(*KEYS), self.pick(1, 20, 28, 30, 1000, OUT_OF_REACH)
            level = {"level": "session"} if key == "session-key" else self.pick({}, {"level": "rule"})
            return line(do="monitor", key=key, grant=grant, **level)
        if kind < 13:
            self.events = self.random.sample(EVENTS, self.random.randint(0, 5))
            return line(do="triggers", events=self.events)
        if kind < 14:
            return line(do="remove", name=self.pick("r1", "r2", "pre-dns"))
        if kind < 15:
            return line(do="lose", bearer=self.random.randint(6, 9))
        if kind < 16:
            return line(do="stop", key=self.pick(*KEYS))
        if kind < 19:
            return self.pick(take(DNS_ANSWER), FLUSH)
        return line(do="refresh", worker=0)

    def session(self):
        """The lines of a session from its `open` on, whose worker has left."""
        ue = {} if self.random.random() < 0.3 else {"ue": self.address()[0]}
        steps = [self.step() for _ in range(self.random.randint(0, 40))]
        closing = [CLOSE] if self.random.random() < 0.15 else []
        return [line(do="open", **ue), ATTACH, *steps, *closing, FINISH]


class RenewalLines(ProgramTest):
    def run_lines(self, given, **parts):
        """The answers to lines behind names."""
        self.write("profile.toml", profile(**parts))
        came = self.run_on(PCEF_MANY, ["profile.toml"], lines(*given))
        self.assertEqual(came.said, b"")
        return came.wrote.decode().splitlines()

    def answers(self, given, **parts):
        """The answers to lines of one session."""
        return [answer[2:] for answer in self.run_lines([f"s {text}" for text in given], **parts)]

    def test_lines_are_shown_or_it_is_said_why_not(self):
        steps = [
            (LINES, NO_SESSION),
            ('{"do":"lines","ue":"10.0.0.9"}', UNKNOWN_FIELD),
            (OPEN, DONE),
            (LINES, shown(opened("10.0.0.2"))),
            (' { "do" : "\\u006cines" } ', shown(opened("10.0.0.2"))),
            ('{"do":"lines","all":true}', UNKNOWN_FIELD),
            ('{"do":"line"}', UNKNOWN_DO),
            (ATTACH, '{"generation":0,"ok":true,"worker":0}'),
            (LINES, shown(opened("10.0.0.2"))),
            (CLOSE, '{"generation":1,"ok":true,"reports":[]}'),
            (LINES, shown(opened("10.0.0.2"), CLOSE)),
            (line(do="abandon", worker=0), '{"abandoned":0,"ok":true,"rows":0}'),
            (line(do="terminate"), '{"generation":2,"ok":true,"reports":[]}'),
            (LINES, TERMINATED),
            (END, DONE),
            (LINES, NO_SESSION),
            (line(do="open", ue="2001:DB8::0a"), DONE),
            (LINES, shown(opened("2001:db8:0:0:0:0:0:a"))),
        ]
        self.assertEqual(self.answers([given for given, _ in steps]), [due for _, due in steps])

    def test_it_is_no_word_of_a_script(self):
        self.write("profile.toml", profile())
        self.ends(PCEF, ["script", "profile.toml"], lines(LINES), status=1, wrote=lines(UNKNOWN_DO))

    def test_the_lines_of_a_worked_session(self):
        arp = {"level": 2, "capability": True, "vulnerability": False}
        filters = [
            {"text": "permit out 17 from 203.0.113.0/24 53,1000-2000 to assigned 7-7", "flow": "bidirectional"},
            {"text": "permit in 6 from any to 2001:db8::/32"},
            {"text": "permit out ip from 0.0.0.0/0 to 192.0.2.1"},
        ]
        voice = {"name": 'a"b', "precedence": 7, "filters": filters, "qci": 1, "arp": arp, "gbr": {"up": 64000, "down": 128000}, "gate": "ENABLED", "key": "vid"}
        given = [
            opened("192.0.2.9"),
            line(do="install", rule=voice),
            WEB,
            line(do="monitor", key="vid", grant=1000),
            line(do="activate", name="pre-dns"),
            line(do="monitor", key="all", grant=5000, level="session"),
            line(do="triggers", events=["PLMN_CHANGE", "USAGE_REPORT"]),
            line(do="monitor", key="off", grant=10),
            line(do="stop", key="off"),
            LINES,
        ]
        due = shown(
            '{"do":"open","ue":"192.0.2.9"}',
            '{"do":"monitor","key":"vid","grant":1000,"level":"rule"}',
            '{"do":"monitor","key":"all","grant":5000,"level":"session"}',
            '{"do":"triggers","events":["USAGE_REPORT","PLMN_CHANGE"]}',
            '{"do":"install","rule":{"name":"web","precedence":100,"filters":[{"text":"permit out 17 from any 53 to assigned"}],"qci":9,'
            '"arp":{"level":8,"capability":false,"vulnerability":true},"gate":"ENABLED","key":"vid"}}',
            '{"do":"activate","name":"pre-dns"}',
            '{"do":"install","rule":{"name":"a\\"b","precedence":7,"filters":['
            '{"text":"permit out 17 from 203.0.113.0/24 53,1000-2000 to assigned 7","flow":"bidirectional"},'
            '{"text":"permit in 6 from any to 2001:db8:0:0:0:0:0:0/32"},'
            '{"text":"permit out ip from 0.0.0.0/0 to 192.0.2.1/32"}],"qci":1,'
            '"arp":{"level":2,"capability":true,"vulnerability":false},"gbr":{"up":64000,"down":128000},"gate":"ENABLED","key":"vid"}}',
        )
        self.assertEqual(self.answers(given)[-1], due)

    def test_they_have_what_is_left_of_a_grant(self):
        before = [OPEN, WEB, MONITOR, ATTACH, take(DNS_ANSWER), FLUSH]
        told = self.answers([*before, LINES, line(do="monitor", key="vid", grant=28), line(do="triggers", events=["USAGE_REPORT"]), LINES])
        self.assertEqual(json.loads(told[6])["lines"][1]["grant"], 1000 - 28)
        # The grant of 28 octets was reached with the subscription: the key is on, and is to report no more.
        self.assertEqual(json.loads(told[8])["reports"][0]["cause"], "Threshold")
        self.assertEqual(json.loads(told[9])["lines"][1]["grant"], OUT_OF_REACH)

    def test_they_change_nothing(self):
        given = Sampler(7).session() + [SHOW, RENEW, SHOW, line(do="terminate"), SHOW]
        between = [text for one in given for text in (one, LINES)]
        self.assertEqual(self.answers(between)[::2], self.answers(given))

    def test_another_session_stays_as_it_is(self):
        given = [f"a {OPEN}", f"b {OPEN}", f"a {WEB}", f"b {LINES}", f"a {LINES}", f"c {LINES}", f"b {END}", f"b {LINES}"]
        told = self.run_lines(given)
        self.assertEqual([told[3], told[5], told[7]], [f"b {shown(opened('10.0.0.2'))}", f"c {NO_SESSION}", f"b {NO_SESSION}"])
        self.assertEqual(len(json.loads(told[4][2:])["lines"]), 2)

    def test_a_session_that_is_given_them_is_like_the_first(self):
        samplers = [Sampler(seed) for seed in range(150)]
        room = {"rows": 1000, "commands": 1000, "up": 2**32 - 1, "down": 2**32 - 1}
        given = [f"s{n} {text}" for n, sampler in enumerate(samplers) for text in [*sampler.session(), LINES, RENEW, SHOW, LINES]]
        told = {}
        for answer in self.run_lines(given, **room):
            name, text = answer.split(" ", 1)
            told.setdefault(name, []).append(text)
        found = dict.fromkeys(["install", "activate", "monitor", "triggers", "close", "flow", "gbr"], 0)
        again = []
        for n, sampler in enumerate(samplers):
            first, renewed, _, second = told[f"s{n}"][-4:]
            self.assertIn('"ok":true', renewed)
            self.assertEqual(first, second)
            of_session = json.loads(first)["lines"]
            again += [f"t{n} {line(**one)}" for one in of_session] + [f"t{n} {SHOW}", f"t{n} {LINES}"]
            subscribed = [one["events"] for one in of_session if one["do"] == "triggers"]
            self.assertEqual(subscribed, [sorted(sampler.events, key=EVENTS.index)] if sampler.events else [])
            for one in of_session[1:]:
                found[one["do"]] += 1
                if one["do"] == "install":
                    self.assertIn(one["rule"], sampler.rules[one["rule"]["name"]])
                    found["gbr"] += "gbr" in one["rule"]
                    found["flow"] += any("flow" in filter for filter in one["rule"]["filters"])
        self.assertGreater(min(found.values()), 15, found)
        like = {}
        for answer in self.run_lines(again, **room):
            name, text = answer.split(" ", 1)
            self.assertNotIn("refused", text)
            self.assertNotIn("fault", text)
            like.setdefault(name, []).append(text)
        for n in range(len(samplers)):
            self.assertEqual(like[f"t{n}"][-2:], told[f"s{n}"][-2:])
