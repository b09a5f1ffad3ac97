"""Profiles: the range of each number, and what is reported of a profile at fault."""
from commands import install, profile
from programs import PCEF, ProgramTest, lines

# What a profile may have.
WITHIN = [
    {"rows": 1},
    {"rows": 4294967295},
    {"commands": 1},
    {"commands": 1000000},
    {"declared": '{qci = 10, kind = "GBR"}'},
    {"declared": '{qci = 254, kind = "GBR"}'},
    {"qci": 5},
    {"level": 1},
    {"level": 15},
    {"up": 0, "down": 0},
    {"up": 1099511627775, "down": 1099511627775},
]

# What none may have, and what is reported.
BEYOND = [
    ({"rows": 0}, "rows = 0: a whole number from 1 to 4294967295"),
    ({"rows": 4294967296}, "rows = 4294967296: a whole number from 1 to 4294967295"),
    ({"commands": 0}, "commands = 0: a whole number from 1 to 1000000"),
    ({"commands": 1000001}, "commands = 1000001: a whole number from 1 to 1000000"),
    ({"declared": '{qci = 9, kind = "GBR"}'}, "declared[1].qci = 9: a whole number from 10 to 254"),
    ({"declared": '{qci = 255, kind = "GBR"}'}, "declared[1].qci = 255: a whole number from 10 to 254"),
    ({"qci": -1}, "default.qci = -1: a whole number from 0 to 255"),
    ({"qci": 256}, "default.qci = 256: a whole number from 0 to 255"),
    ({"level": 0}, "default.level = 0: a whole number from 1 to 15"),
    ({"level": 16}, "default.level = 16: a whole number from 1 to 15"),
    ({"up": -1}, "capacity.up = -1: a whole number of bit/s from 0 to 1099511627775"),
    ({"up": 1099511627776}, "capacity.up = 1099511627776: a whole number of bit/s from 0 to 1099511627775"),
    ({"down": -1}, "capacity.down = -1: a whole number of bit/s from 0 to 1099511627775"),
    ({"down": 1099511627776}, "capacity.down = 1099511627776: a whole number of bit/s from 0 to 1099511627775"),
    ({"ue": '"10.0.0"'}, 'ue = "10.0.0": an address in quotes, as "10.0.0.2" or "2001:db8::2",'),
    ({"ue": '"2001:db8::2/64"'}, 'ue = "2001:db8::2/64": an address in quotes, as "10.0.0.2" or "2001:db8::2",'),
    (
        {"declared": '{qci = 77, kind = "GBR"}, {qci = 78, kind = "Gbr"}'},
        'declared[2].kind = "Gbr": "GBR" or "NON-GBR"',
    ),
    ({"declared": '{qci = 77, kind = "GBR"}, {qci = 77, kind = "GBR"}'}, "declared[2].qci = 77: each QCI once"),
    ({"declared": "5"}, "declared[1] = 5: a table"),
]

# The number and the message of each other fault.
OTHER_FAULTS = [
    (profile().replace("rows =", "rows"), 1, "NotToml: line 2: rows 1000: key with no value, expected `=`"),
    (
        "row = 1\n" + profile(),
        2,
        "UnknownKey: row: ue, rows, commands, default, capacity or declared is expected",
    ),
    (profile().replace("rows = 1000\n", ""), 3, "Missing: rows: a whole number from 1 to 4294967295 is expected"),
    (
        profile(qci=100),
        5,
        "UnknownQci: default.qci = 100: a QCI that is standard or declared is expected",
    ),
    (profile(qci=1), 6, "DefaultIsGbr: default.qci = 1: a QCI without guaranteed bit rate is expected"),
]


class Profiles(ProgramTest):
    def script(self, text, given="", **ended):
        """Expects how a script ends on this profile."""
        self.write("profile.toml", text)
        self.ends(PCEF, ["script", "profile.toml"], given, **ended)

    def test_each_number_within_its_range(self):
        for parts in WITHIN:
            with self.subTest(parts=parts):
                self.script(profile(**parts))

    def test_each_value_beyond_its_range(self):
        for parts, expected in BEYOND:
            with self.subTest(parts=parts):
                said = f"profile fault 4\npcef: profile.toml: BadValue: {expected} is expected\n"
                self.script(profile(**parts), "x", status=1, said=said)

    def test_other_faults(self):
        for text, number, message in OTHER_FAULTS:
            with self.subTest(message=message):
                self.script(text, "x", status=1, said=f"profile fault {number}\npcef: profile.toml: {message}\n")

    def test_a_declared_qci_is_known_and_no_other(self):
        given = lines(install("web", qci=77, level=2), install("other", qci=78, level=2))
        wrote = lines(
            '{"bearer":6,"generation":1,"ok":true,"reports":[]}',
            '{"name":"UnknownQci","refused":13}',
        )
        self.script(profile(declared='{qci = 77, kind = "NON-GBR"}'), given, wrote=wrote)
