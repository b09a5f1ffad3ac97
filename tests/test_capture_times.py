"""The times that `pcef capture --times` writes: of classic files in either order and unit, and of files of blocks by
the options of their interfaces."""
import os
import struct

from captures import BIG, DOWN, LITTLE, RAW, UE, CaptureTest, block, counted, flushed, header, record, said, taken
from programs import PCEF_CAPTURE, Ended, lines

SECTION = block(0x0A0D0D0A, struct.pack("<IHHq", 0x1A2B3C4D, 1, 0, -1))

# Microseconds since 1970.
UNITS = 0x0005_F5E1_2345_6789

# Nanoseconds since 1970.
NANOSECONDS = 1700000000123456789


def option(code, value):
    """An option of a block, little endian."""
    return struct.pack("<HH", code, len(value)) + value + bytes(-len(value) % 4)


def unit(octet):
    """The option for the unit of times."""
    return option(9, bytes([octet]))


def offset(seconds):
    """The option for the seconds that are added to times."""
    return option(14, struct.pack("<q", seconds))


# The options of an interface, the units after which a frame of it came, and the time that tshark 4.0.17 shows of this
# frame as `frame.time_epoch`.
INTERFACES = [
    (b"", UNITS, "1677722191.751049000"),
    (unit(6), UNITS, "1677722191.751049000"),
    (unit(9), NANOSECONDS, "1700000000.123456789"),
    (unit(3), 1700000000123, "1700000000.123000000"),
    (unit(0), 1700000000, "1700000000.000000000"),
    (unit(12), NANOSECONDS, "1700000.000123456"),
    (unit(0x80 | 10), 1700000000 * 2**10 + 777, "1700000000.758789062"),
    (unit(0x80 | 20), 1700000000 * 2**20 + 999999, "1700000000.953673362"),
    (unit(0x80 | 30), 1700000000 * 2**30 + 123456789, "1700000000.114978094"),
    (offset(3600), UNITS, "1677725791.751049000"),
    (offset(-3600), UNITS, "1677718591.751049000"),
    (unit(9) + offset(1000000000), 700000000123456789, "1700000000.123456789"),
    (option(1, b"abc") + unit(9) + option(0, b""), NANOSECONDS, "1700000000.123456789"),
    (unit(9) + unit(6), NANOSECONDS, "1700000000.123456789"),
    (option(9, b"\x09\x00"), UNITS, "1677722191.751049000"),
    (option(0, b"") + unit(9), UNITS, "1677722191.751049000"),
]

# Options of interfaces whose frames have no time: before 1970, and in units of which a second has 2 ^ 64 or more.
NO_TIMES = [offset(-2000000000), unit(20), unit(0x80 | 64), unit(127), unit(255)]


def interface(options):
    """The description of an interface of raw frames."""
    return block(1, struct.pack("<HHI", RAW, 0, 0) + options)


def enhanced(number, units, frame=DOWN):
    """An enhanced packet block."""
    lengths = struct.pack("<II", len(frame), len(frame))
    return block(6, struct.pack("<III", number, units >> 32, units & 0xFFFFFFFF) + lengths + frame)


def obsolete(number, units, frame=DOWN):
    """An obsolete packet block."""
    lengths = struct.pack("<II", len(frame), len(frame))
    return block(2, struct.pack("<HHII", number, 0, units >> 32, units & 0xFFFFFFFF) + lengths + frame)


def simple(frame=DOWN):
    """A simple packet block."""
    return block(3, struct.pack("<I", len(frame)) + frame)


def block_of(order, kind, body):
    """A block in either order."""
    length = len(body) + 12
    return struct.pack(order + "II", kind, length) + body + struct.pack(order + "I", length)


class Times(CaptureTest):
    def times_of(self, capture, words=("--ue", UE), status=0):
        """What the program writes of a capture: its lines, its times, and what it says."""
        came = self.run_on(PCEF_CAPTURE, [*words, "--times", "times", "-"], capture)
        self.assertEqual(came.status, status, came.said)
        with open(os.path.join(self.room, "times"), encoding="ascii") as file:
            return came.wrote.decode(), file.read(), came.said.decode()

    def test_classic_files_of_both_orders_and_units(self):
        units = [(0xA1B2C3D4, "1700000000.123456000"), (0xA1B23C4D, "1700000000.000123456")]
        for order in BIG, LITTLE:
            for magic, time in units:
                with self.subTest(order=order, magic=magic):
                    front = struct.pack(order + "IHHIIII", magic, 2, 4, 0, 0, 262144, RAW)
                    frame = struct.pack(order + "IIII", 1700000000, 123456, len(DOWN), len(DOWN)) + DOWN
                    _, times, _ = self.times_of(front + frame)
                    self.assertEqual(times, lines(f"{time} 1"))

    def test_a_fraction_of_more_than_a_second(self):
        capture = header() + struct.pack(">IIII", 5, 2**32 - 1, len(DOWN), len(DOWN)) + DOWN
        self.assertEqual(self.times_of(capture)[1], lines("4299.967295000 1"))

    def test_interfaces_with_clocks_of_their_own(self):
        described = b"".join(interface(options) for options, _, _ in INTERFACES)
        frames = b"".join(enhanced(number, units) for number, (_, units, _) in enumerate(INTERFACES))
        old = b"".join(obsolete(number, units) for number, (_, units, _) in enumerate(INTERFACES))
        due = [time for _, _, time in INTERFACES] * 2
        _, times, _ = self.times_of(SECTION + described + frames + old)
        self.assertEqual(times, lines(*[f"{time} {number}" for number, time in enumerate(due, start=1)]))

    def test_a_section_of_the_other_order(self):
        section = block_of(BIG, 0x0A0D0D0A, struct.pack(">IHHq", 0x1A2B3C4D, 1, 0, -1))
        options = struct.pack(">HHB3xHHq", 9, 1, 9, 14, 8, -1)
        described = block_of(BIG, 1, struct.pack(">HHI", RAW, 0, 0) + options)
        lengths = struct.pack(">II", len(DOWN), len(DOWN))
        units = struct.pack(">III", 0, NANOSECONDS >> 32, NANOSECONDS & 0xFFFFFFFF)
        frame = block_of(BIG, 6, units + lengths + DOWN)
        _, times, _ = self.times_of(SECTION + interface(b"") + enhanced(0, UNITS) + section + described + frame)
        self.assertEqual(times, lines("1677722191.751049000 1", "1699999999.123456789 2"))

    def test_only_frames_that_are_taken_have_a_line_and_need_a_time(self):
        stranger = DOWN[:16] + bytes([10, 9, 9, 9]) + DOWN[20:]
        capture = SECTION + interface(b"") + simple(stranger) + enhanced(0, UNITS, stranger) + enhanced(0, UNITS)
        wrote, times, told = self.times_of(capture)
        self.assertEqual(times, lines("1677722191.751049000 3"))
        self.assertEqual(wrote, taken(DOWN) + flushed())
        self.assertEqual(told, counted(taken=1, neither=2))

    def test_frames_without_a_time(self):
        for what, capture in [("simple", interface(b"") + enhanced(0, UNITS) + simple())] + [
            (options, interface(b"") + interface(options) + enhanced(0, UNITS) + enhanced(1, UNITS))
            for options in NO_TIMES
        ]:
            with self.subTest(what=what):
                wrote, times, told = self.times_of(SECTION + capture, status=1)
                self.assertEqual(told, lines("time fault", said("Standard input: frame 2 has no time: leave --times out")))
                self.assertEqual(times, lines("1677722191.751049000 1"))
                self.assertEqual(wrote, taken(DOWN))
                self.reads(SECTION + capture, taken(DOWN) * 2 + flushed(), taken=2)

    def test_times_change_no_line(self):
        frames = [DOWN] * 70
        capture = header() + b"".join(record(frame) for frame in frames)
        words = ["--ue", UE, "--workers", "3", "--batch", "7"]
        wrote, times, told = self.times_of(capture, words)
        self.assertEqual(Ended(0, wrote.encode(), told.encode()), self.run_on(PCEF_CAPTURE, [*words, "-"], capture))
        self.assertEqual(times, lines(*[f"1.000002000 {number}" for number in range(1, 71)]))

    def test_times_over_what_is_read(self):
        capture = header() + record(DOWN)
        self.write("a.pcap", capture)
        self.write("map", "a 10.0.0.2\n")
        told = lines("usage: --times names a file that is read")
        self.ends(PCEF_CAPTURE, ["--ue", UE, "--times", "a.pcap", "a.pcap"], status=2, said=told)
        self.ends(PCEF_CAPTURE, ["--sessions", "map", "--times", "map", "a.pcap"], status=2, said=told)
        with open(os.path.join(self.room, "a.pcap"), "rb") as file:
            self.assertEqual(file.read(), capture)

    def test_times_that_cannot_be_written(self):
        capture = header() + record(DOWN)
        came = self.run_on(PCEF_CAPTURE, ["--ue", UE, "--times", "no/times", "-"], capture)
        told = lines("write fault", said("no/times: No such file or directory (os error 2)"))
        self.assertEqual(came, Ended(4, b"", told.encode()))
        full = self.run_on(PCEF_CAPTURE, ["--ue", UE, "--times", "/dev/full", "-"], capture)
        told = lines("write fault", said("/dev/full: No space left on device (os error 28)"))
        self.assertEqual((full.status, full.said), (4, told.encode()))
