"""Rules of both versions of IP, the narrower networks first, and packets at the bounds of each network."""
from ipaddress import ip_address

from commands import ATTACH, FLUSH, install, profile, take
from programs import PCEF, ProgramTest, lines

# Each rule has one filter, but for the last one: with its sixteen the filters are too many to be searched one by one.
RULES = [
    ("host", ["permit out ip from 2001:db8::7 to assigned"]),
    ("two", ["permit out ip from 2001:db8::8/127 to assigned"]),
    ("bits61", ["permit out ip from 2001:db8:0:8::/61 to assigned"]),
    ("bits44", ["permit out ip from 2001:db8:10::/44 to assigned"]),
    ("bits35", ["permit out ip from 2001:db8:2000::/35 to assigned"]),
    ("bits29", ["permit out ip from 2001:db8::/29 to assigned"]),
    ("net4", ["permit out ip from 198.51.100.0/24 to assigned"]),
    ("all4", ["permit out ip from 0.0.0.0/0 to any"]),
    ("all6", ["permit out ip from ::/0 to any"]),
    ("up", ["permit in ip from assigned to any"]),
    ("padding", ["permit out 253 from 192.0.2.1 to assigned"] * 16),
]

UE_4 = "10.0.0.2"
UE_6 = "2001:db8::2"

# A remote address, and the rule that lets its packet pass down to a session of version 6.
REMOTES = [
    ("2001:db8::7", "host"),
    ("2001:db8::6", "bits29"),
    ("2001:db8::8", "two"),
    ("2001:db8::9", "two"),
    ("2001:db8::a", "bits29"),
    ("2001:db8:0:7::7", "bits29"),
    ("2001:db8:0:8::7", "bits61"),
    ("2001:db8:0:f:ffff::8", "bits61"),
    ("2001:db8:0:10::7", "bits29"),
    ("2001:db8:f:ffff::7", "bits29"),
    ("2001:db8:10::7", "bits44"),
    ("2001:db8:1f:ffff::7", "bits44"),
    ("2001:db8:20::7", "bits29"),
    ("2001:db8:2000::7", "bits35"),
    ("2001:db8:4000::7", "bits29"),
    ("2001:dbf:ffff::7", "bits29"),
    ("2001:db7:ffff::7", "all6"),
    ("2001:dc0::7", "all6"),
]

# The session's address, a packet's direction, source and target, and the rule that lets it pass; none if it is a stray.
SESSIONS = [
    (UE_6, "down", "2001:db8::7", UE_6, "host"),
    (UE_6, "down", "2001:db8::7", "2001:db8::dead", "host"),
    (UE_6, "down", "2001:db8::7", "2001:db8:0:1::2", None),
    (UE_6, "up", UE_6, "2001:db8::7", "up"),
    (UE_6, "up", "2001:db8::dead", "2001:db8::7", "up"),
    (UE_6, "up", "2001:db8:0:1::2", "2001:db8::7", None),
    # Packets of the other version.
    (UE_6, "down", "198.51.100.7", UE_4, None),
    (UE_6, "up", UE_4, "198.51.100.7", None),
    (UE_4, "down", "2001:db8::7", UE_6, None),
    (UE_4, "up", UE_6, "2001:db8::7", None),
    (UE_4, "down", "198.51.100.7", UE_4, "net4"),
    (UE_4, "down", "203.0.113.7", UE_4, "all4"),
]


def packet(source, target):
    """A UDP packet between two addresses of one version, from port 53 to port 5000."""
    source, target = ip_address(source), ip_address(target)
    front = "6000000000081140" if source.version == 6 else "4500001c0000000040110000"
    return front + source.packed.hex() + target.packed.hex() + "0035138800080000"


def verdict(rule):
    generation = len(RULES)
    if rule is None:
        return f'{{"generation":{generation},"verdict":"Stray"}}'
    return f'{{"bearer":5,"generation":{generation},"rule":"{rule}","verdict":"Passed"}}'


class Networks(ProgramTest):
    def judged(self, ue, packets, rules):
        """Expects that these rules let the packets of a session pass."""
        self.write("profile.toml", profile(ue=f'"{ue}"'))
        given = [install(name, precedence=10 + place, filters=texts) for place, (name, texts) in enumerate(RULES)]
        came = self.run_on(PCEF, ["script", "profile.toml"], lines(*given, ATTACH, *packets, FLUSH))
        self.assertEqual((came.status, came.said), (0, b""))
        verdicts = ",".join(map(verdict, rules))
        due = f'{{"ok":true,"reports":[],"verdicts":[{verdicts}]}}'
        self.assertEqual(came.wrote.decode().splitlines()[-1], due)

    def test_remote_addresses_at_the_bounds_of_networks(self):
        packets = [take(packet(remote, UE_6)) for remote, _ in REMOTES]
        self.judged(UE_6, packets, [rule for _, rule in REMOTES])

    def test_sides_of_packets_of_both_versions(self):
        for ue, direction, source, target, rule in SESSIONS:
            with self.subTest(ue=ue, source=source, target=target):
                self.judged(ue, [take(packet(source, target), direction=direction)], [rule])
