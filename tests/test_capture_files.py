"""Capture files made by hand from the published formats: both orders, both scales, and files that end anywhere."""
import struct

from captures import BIG, COOKED, COOKED_2, DOWN, ETHERNET, LITTLE, LOOP, NULL, RAW, CaptureTest
from captures import block, changed, fault, flushed, header, read_to, record, refused, taken

# How many octets a read gives at most.
STEPS = [1, 7, 8192]

# What is said of octets that begin no capture.
EMPTY = "it is empty: tcpdump -w FILE writes a capture"
TEXT = "text: a capture is expected, as tcpdump -w FILE writes it, or text2pcap of a dump in hexadecimal"


def begins(octets):
    """What is said of a file that begins with these octets, of which it has four at most."""
    known = "a capture begins with d4 c3 b2 a1 or 4d 3c b2 a1, with these turned round, or with 0a 0d 0d 0a"
    return fault(1, f"it begins with {octets.hex(' ')}: {known}")


def version(found, read):
    return fault(3, f"its version is {found}: of {read} read")


def link_type(number):
    return fault(4, f"its number is {number}: 0, 1, 12, 14, 101, 108, 113, 228, 229 and 276 are read")


class FileTest(CaptureTest):
    def fronts_end(self, capture, due):
        """Expects that the program ends so on each front of a capture, the empty one first, in parts of any length."""
        self.assertEqual(len(due), len(capture) + 1)
        for length, ended in enumerate(due):
            for step in STEPS:
                with self.subTest(length=length, step=step):
                    came, _ = self.reads_by(step, capture[:length])
                    self.assertEqual(came, ended)


# Two raw frames of three and no octets, big endian, microseconds; the first had nine on the line.
CLASSIC_BIG = bytes.fromhex(
    "a1b2c3d4 0002 0004 00000000 00000000 00000040 00000065"
    "00000001 00000002 00000003 00000009 454647"
    "00000001 00000003 00000000 00000000"
)

# One Ethernet frame of two octets, little endian, nanoseconds, with a checksum length in the link type.
CLASSIC_LITTLE = bytes.fromhex(
    "4d3cb2a1 0200 0400 00000000 00000000 40000000 01000024"
    "01000000 02000000 02000000 00010000 4849"
)

# Two raw frames of 28 octets, big endian, and the lines of each.
TWO_PACKETS = header() + record(DOWN) + record(DOWN)
LINES = taken(DOWN) + flushed()

# Headers at fault.
HEADERS = [
    (changed(CLASSIC_BIG, 0, 0xA2), begins(b"\xa2\xb2\xc3\xd4")),
    (CLASSIC_BIG[:3], begins(b"\xa1\xb2\xc3")),
    (CLASSIC_BIG[:23], fault(2)),
    (changed(CLASSIC_BIG, 5, 3), version("3.4", "libpcap's format 2.4 is")),
    (changed(CLASSIC_BIG, 7, 3), version("2.3", "libpcap's format 2.4 is")),
    (changed(CLASSIC_BIG, 23, 102), link_type(102)),
]

# The type of IPv4, and a header of each kind of link before it, as a little-endian machine records it.
IPV4 = b"\x08\x00"
LINKS = [
    (NULL, b"\x02\x00\x00\x00"),
    (ETHERNET, bytes(12) + IPV4),
    (12, b""),
    (14, b""),
    (RAW, b""),
    (228, b""),
    (229, b""),
    (LOOP, b"\x00\x00\x00\x02"),
    (COOKED, bytes(14) + IPV4),
    (COOKED_2, IPV4 + bytes(18)),
]

# How a classic file ends before its header is whole.
HEADER_ENDS = [refused(fault(1, EMPTY))]
HEADER_ENDS += [refused(begins(CLASSIC_BIG[:length])) for length in range(1, 4)]
HEADER_ENDS += [refused(fault(2))] * 20


class ClassicFiles(FileTest):
    def test_headers_of_both_orders_and_scales(self):
        big_nanoseconds = changed(changed(CLASSIC_BIG, 2, 0x3C), 3, 0x4D)
        little_microseconds = changed(changed(CLASSIC_LITTLE, 0, 0xD4), 1, 0xC3)
        self.reads(CLASSIC_BIG, cut=1, not_ip=1)
        self.reads(CLASSIC_LITTLE, not_ip=1)
        self.reads(big_nanoseconds, cut=1, not_ip=1)
        self.reads(little_microseconds, not_ip=1)

    def test_whole_packets_of_both_orders(self):
        for order in BIG, LITTLE:
            with self.subTest(order=order):
                capture = header(order) + record(DOWN, order=order) + record(DOWN, 60, order)
                self.reads(capture, taken(DOWN) * 2 + flushed(), taken=2)

    def test_faults_of_headers(self):
        for capture, ended in HEADERS:
            with self.subTest(ended=ended):
                self.refuses(capture, ended)

    def test_links_of_numbers(self):
        for number, link in LINKS:
            with self.subTest(number=number):
                capture = header(LITTLE, number) + record(link + DOWN, order=LITTLE)
                self.reads(capture, taken(DOWN) + flushed(), taken=1)
        self.refuses(header(LITTLE, 147), link_type(147))

    def test_a_file_that_ends_anywhere(self):
        due = HEADER_ENDS + [read_to()]
        due += [read_to(fault(5))] * 15 + [read_to(fault(6))] * 3 + [read_to(cut=1)]
        due += [read_to(fault(5), cut=1)] * 15 + [read_to(cut=1, not_ip=1)]
        self.fronts_end(CLASSIC_BIG, due)

    def test_whole_packets_before_an_end_anywhere(self):
        due = HEADER_ENDS + [read_to()]
        due += [read_to(fault(5))] * 15 + [read_to(fault(6))] * 28 + [read_to("", LINES, taken=1)]
        due += [read_to(fault(5), LINES, taken=1)] * 15 + [read_to(fault(6), LINES, taken=1)] * 28
        due += [read_to("", LINES * 2, taken=2)]
        self.fronts_end(TWO_PACKETS, due)

    def test_records_beyond_the_limit(self):
        # Of the packet there is one octet.
        longest = header() + struct.pack(">IIII", 1, 2, 262144, 28) + b"\x45"
        too_long = header() + struct.pack(">IIII", 1, 2, 262145, 28) + b"\x45"
        for step in 3, 8192:
            with self.subTest(step=step):
                self.assertEqual(self.reads_by(step, longest), (read_to(fault(6)), ""))
                self.assertEqual(self.reads_by(step, too_long), (read_to(fault(11)), ""))
        # What is too long is reported before more is read.
        self.assertEqual(self.reads_by(8192, longest, READ_ROOM=len(longest))[1], "r")
        self.assertEqual(self.reads_by(8192, too_long, READ_ROOM=len(too_long)), (read_to(fault(11)), ""))


# A little-endian section with two interfaces, Ethernet and raw; an enhanced packet of the second, a block with names, a
# simple packet and an obsolete one of the first.
BLOCKS_LITTLE = bytes.fromhex(
    "0a0d0d0a 1c000000 4d3c2b1a 0100 0000 ffffffffffffffff 1c000000"
    "01000000 14000000 0100 0000 00000400 14000000"
    "01000000 14000000 6500 0000 00000000 14000000"
    "06000000 24000000 01000000 0102030405060708 03000000 09000000 45464700 24000000"
    "04000000 10000000 00000000 10000000"
    "03000000 14000000 02000000 48490000 14000000"
    "02000000 24000000 0000 0100 0102030405060708 01000000 05000000 4a000000 24000000"
)

# The section header of this file, and its interface of Ethernet.
SECTION, INTERFACE = BLOCKS_LITTLE[:28], BLOCKS_LITTLE[28:48]

# A big-endian section with a raw interface that records two octets at most, and a simple packet of nine; then a
# little-endian section with a packet, but without an interface.
BLOCKS_BIG = bytes.fromhex(
    "0a0d0d0a 0000001c 1a2b3c4d 0001 0000 0000000000000068 0000001c"
    "00000001 00000014 0065 0000 00000002 00000014"
    "00000003 00000014 00000009 45460000 00000014"
    "0a0d0d0a 1c000000 4d3c2b1a 0100 0000 ffffffffffffffff 1c000000"
    "06000000 24000000 00000000 0102030405060708 03000000 09000000 45464700 24000000"
)

# The counts of the first packets of the little-endian file.
ONE, TWO, THREE = {"cut": 1}, {"cut": 1, "not_ip": 1}, {"cut": 1, "not_ip": 2}

# The place of another octet in the little-endian file, the octet, the counts of what is read then, and the fault.
CHANGES = [
    (4, 29, {}, fault(8)),
    (4, 8, {}, fault(8)),
    (8, 0x4C, {}, fault(9)),
    (12, 2, {}, version("2.0", "pcapng 1.0 and 1.2 are")),
    (14, 1, {}, version("1.1", "pcapng 1.0 and 1.2 are")),
    (14, 2, THREE, ""),
    (24, 32, {}, fault(8)),
    (36, 102, {}, link_type(102)),
    (68, 5, {"not_ip": 2}, ""),
    (76, 2, {}, fault(10)),
    (88, 4, THREE, ""),
    (88, 5, {}, fault(6)),
    (128, 5, ONE, fault(6)),
    (148, 2, TWO, fault(10)),
    (172, 32, TWO, fault(8)),
]


def ends_of_blocks():
    """How the little-endian file ends, by its length."""
    due, before = [], {}
    for length, counts in (28, {}), (20, {}), (20, {}), (36, ONE), (16, ONE), (20, TWO), (36, THREE):
        due += [read_to(**before)] + [read_to(fault(7), **before)] * (length - 1)
        before = counts
    due.append(read_to(**before))
    # With fewer than four octets it is no capture.
    due[:4] = [refused(fault(1, EMPTY))] + [refused(fault(1, TEXT))] * 3
    return due


def section_of(interfaces, number):
    """A section with so many interfaces, and a packet of the one with this number."""
    return SECTION + INTERFACE * interfaces + BLOCKS_LITTLE[68:76] + struct.pack("<I", number) + BLOCKS_LITTLE[80:104]


class FilesOfBlocks(FileTest):
    def test_packets_of_all_kinds_of_blocks(self):
        self.reads(BLOCKS_LITTLE, cut=1, not_ip=2)

    def test_whole_packets_of_all_kinds_of_blocks(self):
        # Two octets stand in a block behind an Ethernet frame of 42, and no more than 42 are recorded.
        frame = bytes(12) + IPV4 + DOWN
        for order in BIG, LITTLE:
            bodies = [
                (0x0A0D0D0A, struct.pack(order + "IHHq", 0x1A2B3C4D, 1, 0, -1)),
                (1, struct.pack(order + "HHI", ETHERNET, 0, 42)),
                (1, struct.pack(order + "HHI", RAW, 0, 0)),
                (6, struct.pack(order + "IQII", 1, 0, 28, 28) + DOWN),
                (3, struct.pack(order + "I", 60) + frame),
                (2, struct.pack(order + "HHQII", 0, 0, 0, 42, 42) + frame),
            ]
            with self.subTest(order=order):
                capture = b"".join(block(kind, body, order) for kind, body in bodies)
                self.reads(capture, taken(DOWN) * 3 + flushed(), taken=3)

    def test_another_section_has_its_own_order_and_interfaces(self):
        self.reads(BLOCKS_BIG, cut=1, ended=fault(10))

    def test_files_of_blocks_that_end_anywhere(self):
        self.fronts_end(BLOCKS_LITTLE, ends_of_blocks())

    def test_an_unknown_interface_behind_an_end_anywhere(self):
        self.fronts_end(changed(BLOCKS_LITTLE, 148, 9), ends_of_blocks()[:-1] + [read_to(fault(10), **TWO)])

    def test_blocks_at_fault(self):
        for place, octet, counts, ended in CHANGES:
            with self.subTest(place=place, octet=octet):
                self.reads(changed(BLOCKS_LITTLE, place, octet), ended=ended, **counts)

    def test_empty_blocks(self):
        # Blocks of a type that isn't read may be empty.
        for kind, ended in (1, fault(8)), (2, fault(8)), (3, fault(8)), (6, fault(8)), (7, ""):
            with self.subTest(kind=kind):
                self.reads(SECTION + block(kind, b""), ended=ended)

    def test_no_section_header(self):
        self.refuses(BLOCKS_LITTLE[28:], begins(b"\x01\x00\x00\x00"))

    def test_blocks_beyond_the_limit(self):
        # Of the block there are twelve octets.
        longest = SECTION + struct.pack("<III", 6, 16777216, 0)
        too_long = SECTION + struct.pack("<III", 6, 16777220, 0)
        for step in 3, 8192:
            with self.subTest(step=step):
                self.assertEqual(self.reads_by(step, longest), (read_to(fault(7)), ""))
                self.assertEqual(self.reads_by(step, too_long), (read_to(fault(11)), ""))

    def test_a_section_has_65536_interfaces_and_no_more(self):
        # Another section has interfaces of its own.
        two = section_of(65536, 65535) + section_of(65536, 0)
        self.reads(two, not_ip=2)
        fewer = "tshark -F pcap -r FILE -w NEW makes a capture of it without interfaces, if all have one link type"
        self.reads(two + section_of(65537, 0), not_ip=2, ended=fault(12, fewer))
