"""The lines that `pcef capture --sessions` writes for the sessions of a map, in one pass; and faults of maps."""
import os
import random
import struct

from captures import DOWN, DOWN_6, CaptureTest, counted, header, record, said, taken
from commands import line
from programs import PCEF_CAPTURE, PCEF_MANY, TOP, Ended, lines
from tunnels import datagram, message, outer

# A packet between two sessions of version 4, and one from a session to itself.
BETWEEN = DOWN[:12] + bytes([10, 0, 0, 1]) + DOWN[16:]
ITSELF = DOWN[:12] + bytes([10, 0, 0, 2]) + DOWN[16:]

# What is said of each fault of a map.
FAULTS = {
    "BadLine": "a line is a session's name, one space, and its address",
    "BadName": "a name has 1 to 64 octets from 0x21 to 0x7E, and isn't - alone",
    "BadAddress": "an address is expected, as 10.0.0.2 or 2001:db8::2",
    "NameTwice": "the name stands in an earlier line, too",
    "AddressTwice": "the address stands in an earlier line, too; in version 6 so does each one of its /64",
    "NoSessions": "the map has no session",
}

# Maps at fault: the fault, and the number of its line.
FAULTY = [
    (b"", "NoSessions", 1),
    (b"\n \t\r\n", "NoSessions", 3),
    (b"a", "BadLine", 1),
    (b"a 10.0.0.2\nb\n", "BadLine", 2),
    (b" 10.0.0.2", "BadName", 1),
    (b"- 10.0.0.2", "BadName", 1),
    (b"a\x7f 10.0.0.2", "BadName", 1),
    (b"\xc3\xa4 10.0.0.2", "BadName", 1),
    (b"a" * 65 + b" 10.0.0.2", "BadName", 1),
    (b"a\t10.0.0.2", "BadLine", 1),
    (b"a  10.0.0.2", "BadAddress", 1),
    (b"a 10.0.0.2 ", "BadAddress", 1),
    (b"a 10.0.0.256", "BadAddress", 1),
    (b"a 10.0.0.2\n\nb 10.0.0.3\na 10.0.0.4\n", "NameTwice", 4),
    (b"a 10.0.0.2\nb 10.0.0.2\n", "AddressTwice", 2),
    (b"a 2001:db8::2\nb 2001:db8::ffff:3\n", "AddressTwice", 2),
    (b"a 10.0.0.2\na 10.0.0.2\n", "NameTwice", 2),
]


def of(name, text):
    """Each line of a text behind a session's name."""
    return "".join(f"{name} {one}\n" for one in text.splitlines())


def flushes(*names):
    return "".join(of(name, line(do="flush", worker=0)) for name in names)


def udp(source, target, size):
    """A packet of version 4 between two addresses, numbers of 32 bits."""
    return struct.pack("!BBHHHBBHII", 0x45, 0, size, 1, 0, 64, 17, 0, source, target) + bytes(size - 20)


class Sessions(CaptureTest):
    def writes(self, sessions, capture, wrote, words=(), **counts):
        """Expects these lines for the sessions of a map."""
        self.write("map", sessions)
        came = self.run_on(PCEF_CAPTURE, ["--sessions", "map", *words, "-"], capture)
        told = counted(**counts).replace("the session's address: is --ue", "an address of the map: is --sessions")
        self.assertEqual(came, Ended(0, wrote.encode(), told.encode()))

    def test_a_packet_of_two_sessions(self):
        capture = header() + record(BETWEEN) + record(ITSELF) + record(DOWN)
        wrote = of("a", taken(BETWEEN, direction="up")) + of("b", taken(BETWEEN) + taken(ITSELF, direction="up"))
        self.writes("b 10.0.0.2\na 10.0.0.1\n", capture, wrote + of("b", taken(DOWN)) + flushes("b", "a"), taken=3)

    def test_sessions_of_both_versions(self):
        capture = header() + record(DOWN_6) + record(DOWN) + record(ITSELF[:16] + bytes(4) + ITSELF[20:])
        wrote = of("--", taken(DOWN_6)) + of("~" * 64, taken(DOWN))
        wrote += of("~" * 64, taken(ITSELF[:16] + bytes(4) + ITSELF[20:], direction="up"))
        self.writes("-- 2001:db8::2\r\n \r\n\n" + "~" * 64 + " 10.0.0.2", capture, wrote + flushes("--", "~" * 64), taken=3)

    def test_no_packet_of_any_session(self):
        self.writes("a 10.9.9.9\n", header() + record(DOWN), "", neither=1)

    def test_faults_of_maps(self):
        for sessions, fault, number in FAULTY:
            with self.subTest(sessions=sessions):
                self.write("map", sessions)
                told = lines(f"map fault {fault}", said(f"map:{number}: {FAULTS[fault]}"))
                self.ends(PCEF_CAPTURE, ["--sessions", "map", "no file"], status=1, said=told)
        told = lines("read fault", said("no map: No such file or directory (os error 2)"))
        self.ends(PCEF_CAPTURE, ["--sessions", "no map", "no file"], status=4, said=told)

    def test_each_session_has_the_lines_of_a_script_of_its_own(self):
        random.seed(1)
        users = [0x0A000000 + number for number in range(12)]
        frames = []
        for _ in range(3000):
            packet = udp(random.choice(users), random.choice(users + [7]), random.randrange(20, 60))
            frames.append(record(packet[: random.choice([19, 30, 60, 60])], len(packet)))
        capture = header() + b"".join(frames)
        self.write("map", "".join(f"user-{user & 255} 10.0.0.{user & 255}\n" for user in users))
        for words in [], ["--pad"], ["--workers", "3", "--batch", "5"], ["--workers", "16", "--batch", "1", "--pad"]:
            came = self.run_on(PCEF_CAPTURE, ["--sessions", "map", *words, "-"], capture)
            self.assertEqual(came.status, 0)
            for user in users:
                name, ue = f"user-{user & 255}", f"10.0.0.{user & 255}"
                alone = self.run_on(PCEF_CAPTURE, ["--ue", ue, *words, "-"], capture).wrote.decode()
                behind = [one for one in came.wrote.decode().splitlines(True) if one.startswith(name + " ")]
                self.assertEqual("".join(behind), of(name, alone))

    def test_times_have_a_line_for_each_line_of_a_packet(self):
        self.write("map", "b 10.0.0.2\na 10.0.0.1\n")
        capture = header() + record(DOWN_6) + record(BETWEEN) + record(DOWN)
        self.assertEqual(self.run_on(PCEF_CAPTURE, ["--sessions", "map", "--times", "times", "-"], capture).status, 0)
        with open(os.path.join(self.room, "times"), encoding="ascii") as file:
            self.assertEqual(file.read(), lines("1.000002000 2", "1.000002000 2", "1.000002000 3"))

    def test_sessions_in_tunnels(self):
        self.write("map", "b 10.0.0.2\na 10.0.0.1\n")
        capture = header() + record(outer(datagram(message(BETWEEN)))) + record(DOWN)
        came = self.run_on(PCEF_CAPTURE, ["--sessions", "map", "--gtp", "-"], capture)
        wrote = of("a", taken(BETWEEN, direction="up")) + of("b", taken(BETWEEN)) + flushes("b", "a")
        self.assertEqual((came.status, came.wrote), (0, wrote.encode()))

    def test_many_sessions_answer_as_scripts_of_their_own(self):
        examples = os.path.join(TOP, "examples")
        with open(os.path.join(examples, "browsing.jsonl"), encoding="ascii") as file:
            rules = file.read()
        with open(os.path.join(examples, "browsing.answers.jsonl"), encoding="ascii") as file:
            due = lines(line(ok=True)) + file.read()
        self.write("map", "other 10.0.0.3\nuser 10.0.0.2\n")
        words = ["--sessions", "map", os.path.join(examples, "browsing.pcap")]
        packets = self.run_on(PCEF_CAPTURE, words).wrote.decode()
        opened = of("user", lines(line(do="open", ue="10.0.0.2")) + rules) + of("other", lines(line(do="open")) + rules)
        came = self.run_on(PCEF_MANY, [os.path.join(examples, "profile.toml")], opened + packets)
        self.assertEqual((came.status, came.said), (0, b""))
        behind = [one for one in came.wrote.decode().splitlines(True) if one.startswith("user ")]
        self.assertEqual("".join(behind), of("user", due))

    def test_ten_thousand_sessions(self):
        users = [0x0A000000 + number for number in range(10000)]
        sessions = [f"s{user} {user >> 24}.{user >> 16 & 255}.{user >> 8 & 255}.{user & 255}\n" for user in users]
        packets = [udp(user, 7, 20) for user in reversed(users)]
        wrote = "".join(of(f"s{user}", taken(packet, direction="up")) for user, packet in zip(reversed(users), packets))
        wrote += flushes(*[f"s{user}" for user in users])
        capture = header() + b"".join(record(packet) for packet in packets)
        self.writes("".join(sessions), capture, wrote, taken=10000)
