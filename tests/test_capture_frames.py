"""Frames of every link, with and without a packet in them; and packets whole and in part, of either version."""
from captures import BIG, COOKED, COOKED_2, DOWN, DOWN_6, ETHERNET, LITTLE, LOOP, NULL, RAW, UE, UE_6, CaptureTest
from captures import changed, flushed, header, record, taken

# The two addresses before the type of an Ethernet frame, and what stands before the type of a cooked one.
ADDRESSES = "0102030405060708090a0b0c"
COOKED_FRONT = "0000 0001 0006 010203040506 0000"

# What stands behind the type of a frame with the second cooked header.
COOKED_2_REST = "0000 00000003 0001 00 06 010203040506 0000"

# The link, the order of the machine that recorded, and the header of a frame in which a packet of version 4 is found.
FOUND_4 = [
    (ETHERNET, LITTLE, f"{ADDRESSES} 0800"),
    (ETHERNET, LITTLE, f"{ADDRESSES} 8100 0005 0800"),
    (ETHERNET, LITTLE, f"{ADDRESSES} 88a8 0007 8100 0005 0800"),
    (ETHERNET, LITTLE, f"{ADDRESSES} 9100 0007 0800"),
    (RAW, BIG, ""),
    (NULL, BIG, "00000002"),
    (NULL, LITTLE, "02000000"),
    (LOOP, LITTLE, "00000002"),
    (COOKED, LITTLE, f"{COOKED_FRONT} 0800"),
    (COOKED, LITTLE, f"{COOKED_FRONT} 8100 0005 0800"),
    (COOKED_2, LITTLE, f"0800 {COOKED_2_REST}"),
    # The packet is what it is, whatever its type says.
    (ETHERNET, LITTLE, f"{ADDRESSES} 86dd"),
]

# The same where none is found.
NOT_FOUND_4 = [
    (ETHERNET, LITTLE, f"{ADDRESSES} 8100 0007 8100 0005 8100 0005 0800"),
    (ETHERNET, LITTLE, f"{ADDRESSES} 0806"),
    (NULL, BIG, "02000000"),
    (LOOP, LITTLE, "02000000"),
    (COOKED, LITTLE, f"0800 {COOKED_2_REST}"),
    (COOKED_2, LITTLE, f"{COOKED_FRONT} 0800"),
]

# The same where a packet of version 6 is found, behind the family that each system has for it too.
FOUND_6 = [
    (ETHERNET, LITTLE, f"{ADDRESSES} 86dd"),
    (ETHERNET, LITTLE, f"{ADDRESSES} 8100 0005 86dd"),
    (COOKED, LITTLE, f"{COOKED_FRONT} 86dd"),
    (COOKED_2, LITTLE, f"86dd {COOKED_2_REST}"),
    (RAW, LITTLE, ""),
    (ETHERNET, LITTLE, f"{ADDRESSES} 0800"),
    (NULL, BIG, "00000018"),
    (NULL, LITTLE, "1c000000"),
    (NULL, LITTLE, "1e000000"),
    (LOOP, LITTLE, "00000018"),
]

# The same where none is found.
NOT_FOUND_6 = [
    (ETHERNET, LITTLE, f"{ADDRESSES} 86de"),
    (LOOP, LITTLE, "1e000000"),
    (NULL, BIG, "0000000a"),
    (NULL, BIG, "0000001d"),
]

# A link, a header that was cut, and what the frame is: behind a whole header stands a packet that was cut.
CUT_HEADERS = [
    (ETHERNET, f"{ADDRESSES} 08", "not_ip"),
    (ETHERNET, f"{ADDRESSES} 0800", "cut"),
    (ETHERNET, f"{ADDRESSES} 8100 0005 08", "not_ip"),
    (NULL, "000000", "not_ip"),
    (COOKED_2, "0800 0000 00000003 0001 00 06 010203040506 00", "not_ip"),
]


class Frames(CaptureTest):
    def expect(self, rows, packet, ue, wrote, **counts):
        """Expects the same lines and counts for the packet behind each header."""
        for link, order, front in rows:
            with self.subTest(link=link, order=order, front=front):
                capture = header(order, link) + record(bytes.fromhex(front) + packet, order=order)
                self.reads(capture, wrote, ue=ue, **counts)

    def test_version_4_behind_every_link(self):
        self.expect(FOUND_4, DOWN, UE, taken(DOWN) + flushed(), taken=1)

    def test_frames_without_a_packet_of_version_4(self):
        self.expect(NOT_FOUND_4, DOWN, UE, "", not_ip=1)

    def test_version_6_behind_its_type_and_families(self):
        self.expect(FOUND_6, DOWN_6, UE_6, taken(DOWN_6) + flushed(), taken=1)

    def test_frames_without_a_packet_of_version_6(self):
        self.expect(NOT_FOUND_6, DOWN_6, UE_6, "", not_ip=1)

    def test_cut_link_headers(self):
        for link, front, outcome in CUT_HEADERS:
            with self.subTest(link=link, front=front):
                self.reads(header(BIG, link) + record(bytes.fromhex(front), 64), **{outcome: 1})


# A UDP packet of 56 octets from 2001:db8:1::53 to 2001:db8::77: DSCP 46, and hop-by-hop options of eight octets before
# the ports 53 and 5000.
OPTIONS_6 = bytes.fromhex(
    "6b80000000100040 20010db8000100000000000000000053 20010db8000000000000000000000077"
    "1100010400000000 0035138800080000"
)

# A fragment header of offset 1, with more to come, in place of the options.
FRAGMENT_6 = changed(changed(OPTIONS_6, 6, 44), 43, 9)

# The packet with options that end beyond it, by one unit of eight octets and by the most; and with options behind
# options, of which there is no octet.
WRONG_6 = [changed(OPTIONS_6, 41, 2), changed(OPTIONS_6, 41, 0xFF), changed(OPTIONS_6, 40, 0)]

# A session in the next network of 64 bits.
NEXT_6 = "2001:db8:0:1::2"


class Packets(CaptureTest):
    def frame(self, frame, on_line=None, link=RAW, **due):
        """Expects this of a frame that had so many octets on the line, or as many as it has."""
        self.reads(header(link=link) + record(frame, on_line), **due)

    def test_each_side_and_neither(self):
        self.frame(DOWN, wrote=taken(DOWN) + flushed(), taken=1)
        self.frame(DOWN, ue="198.51.100.7", wrote=taken(DOWN, direction="up") + flushed(), taken=1)
        self.frame(DOWN, ue="10.0.0.3", neither=1)
        self.frame(DOWN, ue="0.0.0.1", neither=1)

    def test_each_side_and_neither_of_version_6(self):
        # Another host of the session's network is the session's, and one of the next network isn't.
        wrote = taken(OPTIONS_6) + flushed()
        self.frame(OPTIONS_6, ue=UE_6, wrote=wrote, taken=1)
        self.frame(OPTIONS_6, ue=NEXT_6, neither=1)
        wrote = taken(OPTIONS_6, direction="up") + flushed()
        self.frame(OPTIONS_6, ue="2001:db8:1::53", wrote=wrote, taken=1)
        # The address 2001:db8:: begins with these four octets.
        self.frame(OPTIONS_6, ue="32.1.13.184", neither=1)
        # A fragment beyond the first has a direction too.
        self.frame(FRAGMENT_6, ue=UE_6, wrote=taken(FRAGMENT_6) + flushed(), taken=1)

    def test_packets_in_part(self):
        self.frame(DOWN[:27], 27, not_ip=1)
        self.frame(DOWN[:27], 28, cut=1)
        self.frame(DOWN[:24], 24, not_ip=1)
        self.frame(DOWN[:24], 28, cut=1)
        # No version but 4 and 6 is cut.
        self.frame(b"\x50\x00", 60, not_ip=1)
        # A packet is no Ethernet frame.
        self.frame(DOWN, link=ETHERNET, not_ip=1)

    def test_packets_in_part_of_version_6(self):
        for length in 55, 48, 39:
            with self.subTest(length=length):
                self.frame(OPTIONS_6[:length], length, ue=UE_6, not_ip=1)
                self.frame(OPTIONS_6[:length], 56, ue=UE_6, cut=1)
        self.frame(OPTIONS_6[:2], 56, ue=UE_6, cut=1)

    def test_wrong_extension_headers(self):
        for packet in WRONG_6:
            with self.subTest(packet=packet.hex()):
                self.frame(packet, ue=UE_6, not_ip=1)
                self.frame(packet, 57, ue=UE_6, cut=1)
                self.frame(packet, 57, ue=UE_6, words=["--pad"], cut=1)

    def test_what_lacks_of_a_packet_is_filled_in(self):
        filled = DOWN[:24] + bytes(4)
        self.frame(DOWN[:24], 28, words=["--pad"], wrote=taken(filled) + flushed(), taken=1)
        # Where the header wasn't recorded, nothing is filled in.
        self.frame(DOWN[:19], 28, words=["--pad"], cut=1)

    def test_what_lacks_of_a_packet_of_version_6_is_filled_in(self):
        filled = OPTIONS_6[:48] + bytes(8)
        self.frame(OPTIONS_6[:48], 56, ue=UE_6, words=["--pad"], wrote=taken(filled) + flushed(), taken=1)
        # A whole packet stays as it is.
        self.frame(OPTIONS_6, 57, ue=UE_6, words=["--pad"], wrote=taken(OPTIONS_6) + flushed(), taken=1)
        # Where the fixed header wasn't recorded, nothing is filled in.
        self.frame(OPTIONS_6[:39], 56, ue=UE_6, words=["--pad"], cut=1)
