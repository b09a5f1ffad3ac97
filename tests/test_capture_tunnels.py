"""The packets that `pcef capture --gtp` takes of tunnels, and those that it passes over. That tshark 4.0.17 reads the
same TEIDs and inner addresses of `CARRIED` was seen when the test was written."""
import os

from captures import DOWN, DOWN_6, UE, UE_6, CaptureTest, changed, counted, flushed, header, record, said, taken
from programs import PCEF_CAPTURE, Ended, lines
from tunnels import CONTAINER, CONTAINER_DOWN, CONTAINER_UP, FRAGMENT, RAN, RAN_CONTAINER
from tunnels import datagram, message, optional, outer, outer_6

# Packets of the sessions that go up: those that go down, with their addresses exchanged.
UP = DOWN[:12] + DOWN[16:20] + DOWN[12:16] + DOWN[20:]
UP_6 = DOWN_6[:8] + DOWN_6[24:40] + DOWN_6[8:24] + DOWN_6[40:]


def carried(packet):
    """Messages that carry a packet: without more, with each flag, and with extension headers."""
    return [
        message(packet, 1),
        message(optional(sequence=7) + packet, 2, flags=2),
        message(optional(number=9) + packet, 3, flags=1),
        message(optional(kind=0x85) + packet, 4, flags=2),
        message(optional() + packet, 5, flags=4),
        message(optional(kind=CONTAINER) + CONTAINER_UP + b"\0" + packet, 0xFFFFFFFF, flags=4),
        message(optional(7, 9, CONTAINER) + CONTAINER_DOWN + b"\0" + packet, 0x80000000, flags=7),
        message(optional(kind=CONTAINER) + CONTAINER_UP + bytes([RAN_CONTAINER]) + RAN + b"\0" + packet, 8, flags=6),
        message(packet, 9, version=0x38),
        message(packet, 10) + b"behind",
    ]


# The outer packets of both versions with these messages, of packets of either version and direction.
CARRIED = [
    (envelope(datagram(one)), packet)
    for envelope in (outer, outer_6, lambda payload: outer(payload, options=b"\1\1\1\1"))
    for packet in (DOWN, UP, DOWN_6, UP_6)
    for one in carried(packet)
]

# The counts of frames that have no packet of a tunnel, in the order in which they are printed.
REASONS = [
    "not GTP-U",
    "fragments",
    "other messages",
    "other tunnels",
    "short headers",
    "other versions",
    "wrong lengths",
    "wrong extension headers",
]

WHOLE = message(DOWN)
EXTENDED = optional(kind=CONTAINER)

# Outer packets without a packet of a tunnel, and how they are counted.
PASSED_OVER = [
    (DOWN, "not GTP-U"),
    (DOWN_6, "not GTP-U"),
    (outer(datagram(WHOLE, port=2153)), "not GTP-U"),
    (outer(datagram(WHOLE)[:7]), "not GTP-U"),
    (outer(datagram(WHOLE), protocol=6), "not GTP-U"),
    (outer_6(datagram(WHOLE), protocol=6), "not GTP-U"),
    (outer_6(bytes([6, 0, 0, 1, 0, 0, 0, 1]) + datagram(WHOLE), FRAGMENT), "not GTP-U"),
    (outer(datagram(WHOLE), fragment=0x2000), "fragments"),
    (outer(datagram(WHOLE), fragment=1), "fragments"),
    (outer_6(bytes([17, 0, 0, 1, 0, 0, 0, 1]) + datagram(WHOLE), FRAGMENT), "fragments"),
    (outer(datagram(message(optional(), kind=1, flags=2))), "other messages"),
    (outer(datagram(message(b"", kind=254))), "other messages"),
    (outer_6(datagram(message(b"\x10\0\0\0\1", kind=26))), "other messages"),
    (outer(datagram(message(b"\x10\0\0\0\1", kind=26, length=99))), "other messages"),
    (outer(datagram(b"")), "short headers"),
    (outer(datagram(WHOLE[:7])), "short headers"),
    (outer(datagram(message(b"\0\0\0", flags=2))), "short headers"),
    (outer(datagram(message(DOWN, flags=4, length=3))), "short headers"),
    (outer(datagram(message(DOWN, version=0x10))), "other versions"),
    (outer(datagram(message(DOWN, version=0x20))), "other versions"),
    (outer(datagram(message(DOWN, version=0x50))), "other versions"),
    (outer(datagram(message(DOWN, length=len(DOWN) + 1))), "wrong lengths"),
    (outer(datagram(WHOLE, length=len(WHOLE) + 9)), "wrong lengths"),
    (outer_6(datagram(WHOLE, length=7)), "wrong lengths"),
    (outer(datagram(message(EXTENDED + b"\0" + DOWN, flags=4))), "wrong extension headers"),
    (outer(datagram(message(EXTENDED, flags=4))), "wrong extension headers"),
    (outer(datagram(message(EXTENDED + b"\1\0\0", flags=4))), "wrong extension headers"),
    (outer(datagram(message(EXTENDED + CONTAINER_UP + b"\x85" + DOWN[:1] * 4, flags=4))), "wrong extension headers"),
]


def told(taken=0, not_ip=0, cut=0, neither=0, pads=False, **reasons):
    """What is said of the frames that were read."""
    first, *warnings = counted(taken, not_ip, cut, neither, pads, tunnels=True).splitlines()
    read = taken + not_ip + cut + neither + sum(reasons.values())
    counts = [f"{reason} {reasons.get(named(reason), 0)}" for reason in REASONS]
    first = f"read {read}," + first.partition(",")[2]
    if read and reasons.get("not_GTP_U") == read:
        warnings.append(said("no frame has a packet of a tunnel: without --gtp the packets outside are taken"))
    return lines(first, ", ".join(counts), *warnings)


def named(reason):
    return reason.replace(" ", "_").replace("-", "_")


class Tunnels(CaptureTest):
    def takes(self, frames, wrote, words=(), ue=UE, **counts):
        """Expects these lines and counts of raw frames."""
        capture = header() + b"".join(record(frame) for frame in frames)
        came = self.run_on(PCEF_CAPTURE, ["--ue", ue, "--gtp", *words, "-"], capture)
        self.assertEqual(came, Ended(0, wrote.encode(), told(pads="--pad" in words, **counts).encode()))

    def test_packets_in_tunnels_of_all_forms(self):
        for ue, up, down in ((UE, UP, DOWN), (UE_6, UP_6, DOWN_6)):
            of_session = [packet for _, packet in CARRIED if packet in (up, down)]
            wrote = ""
            for number, packet in enumerate(of_session, start=1):
                wrote += taken(packet, direction="up" if packet == up else "down")
                wrote += flushed() if number % 32 == 0 or number == len(of_session) else ""
            frames = [frame for frame, _ in CARRIED]
            self.takes(frames, wrote, ue=ue, taken=60, neither=60)

    def test_frames_without_a_packet_of_a_tunnel(self):
        for number, (frame, reason) in enumerate(PASSED_OVER):
            with self.subTest(number=number, reason=reason):
                self.takes([frame], "", **{named(reason): 1})

    def test_outer_and_inner_packets_at_fault(self):
        self.takes([outer(datagram(WHOLE))[:-1], b"", b"\x50" * 60], "", not_ip=3)
        self.takes([outer(datagram(message(inner))) for inner in (b"", b"\x50" * 40, DOWN[:27])], "", not_ip=3)

    def test_one_tunnel_alone(self):
        frames = [outer(datagram(one)) for one in carried(DOWN)]
        self.takes(frames, taken(DOWN) + flushed(), ["--teid", "4294967295"], taken=1, other_tunnels=9)
        self.takes(frames, "", ["--teid", "0"], other_tunnels=10)

    def test_a_teid_asks_for_tunnels_itself(self):
        capture = header() + record(outer(datagram(WHOLE)))
        came = self.run_on(PCEF_CAPTURE, ["--ue", UE, "--teid", "1", "-"], capture)
        self.assertEqual(came, Ended(0, (taken(DOWN) + flushed()).encode(), told(taken=1).encode()))

    def test_a_frame_that_was_recorded_in_part(self):
        whole = outer(datagram(message(DOWN)))
        capture = header() + record(whole[:60], len(whole)) + record(whole[:19], len(whole))
        came = self.run_on(PCEF_CAPTURE, ["--ue", UE, "--gtp", "-"], capture)
        self.assertEqual(came, Ended(0, b"", told(cut=2).encode()))
        wrote = taken(DOWN[:24] + bytes(4)) + flushed()
        came = self.run_on(PCEF_CAPTURE, ["--ue", UE, "--gtp", "--pad", "-"], capture)
        self.assertEqual(came, Ended(0, wrote.encode(), told(taken=1, cut=1, pads=True).encode()))

    def test_times_are_those_of_the_outer_frames(self):
        frames = [DOWN, outer(datagram(WHOLE)), outer(datagram(message(b"", kind=254))), outer(datagram(WHOLE))]
        capture = header() + b"".join(record(frame) for frame in frames)
        words = ["--ue", UE, "--gtp", "--times", "times", "-"]
        self.assertEqual(self.run_on(PCEF_CAPTURE, words, capture).status, 0)
        with open(os.path.join(self.room, "times"), encoding="ascii") as file:
            self.assertEqual(file.read(), lines("1.000002000 2", "1.000002000 4"))

    def test_any_octets_end_well(self):
        for place in range(len(WHOLE)):
            for octet in 0, 1, 0x7F, 0x80, 0xFF:
                frame = changed(outer(datagram(WHOLE)), 28 + place, octet)
                came = self.run_on(PCEF_CAPTURE, ["--ue", UE, "--gtp", "-"], header() + record(frame))
                self.assertEqual(came.status, 0)
