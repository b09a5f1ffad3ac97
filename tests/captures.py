"""What the tests of `pcef capture` share: captures made by hand, and what the program writes and says of them."""
import struct

from commands import DNS_ANSWER, line, take
from programs import PCEF_CAPTURE, Ended, lines
from streams import StreamTest

# The orders of a number's octets, as `struct` writes them.
BIG = ">"
LITTLE = "<"

# Numbers of link types.
NULL, ETHERNET, RAW, LOOP, COOKED, COOKED_2 = 0, 1, 101, 108, 113, 276

# Sessions of either version.
UE = "10.0.0.2"
UE_6 = "2001:db8::2"

# A UDP packet of 28 octets from 198.51.100.7 port 53 to 10.0.0.2 port 5000.
DOWN = bytes.fromhex(DNS_ANSWER)

# A UDP packet of 48 octets from 2001:db8:1::53 port 53 to 2001:db8::77 port 5000.
DOWN_6 = bytes.fromhex(
    "6000000000081140 20010db8000100000000000000000053 20010db8000000000000000000000077 0035138800080000"
)

# What is said of each fault of a capture, the first of which has the number 1.
FAULTS = [
    "the file is no capture",
    "the file ends within its header",
    "the version of the format is unknown",
    "the link type is unknown",
    "the file ends within the header of a record",
    "the file or the block ends within a packet",
    "the file ends within a block",
    "the length of a block is wrong",
    "the order of the numbers of a section is unknown",
    "the interface of a packet isn't described",
    "a record or a block is longer than is read",
    "a section describes more than 65536 interfaces",
]

# What is said of frames that were recorded in part.
CUT = "cut frames were recorded in part, as by a snap length: --pad fills their packets with zeros"

# What is said below most faults.
ANEW = "it is cut or damaged there: copy or capture it anew; the lines of the packets before that are written"


def said(text):
    """A line of the program, below the first one."""
    return f"pcef capture: {text}"


def fault(number, hint=ANEW):
    """What is said of the fault of a capture."""
    return lines(f"capture fault {number}", said(f"Standard input: {FAULTS[number - 1]}"), said(hint))


def counted(taken=0, not_ip=0, cut=0, neither=0, pads=False, tunnels=False):
    """What is said of the frames that were read."""
    read = taken + not_ip + cut + neither
    counts = lines(f"read {read}, taken {taken}, not IP {not_ip}, cut {cut}, on neither side {neither}")
    if neither and not taken and not cut:
        further = "" if tunnels else " --gtp takes those in GTP-U tunnels"
        counts += lines(said(f"no packet has the session's address: is --ue right?{further}"))
    if cut and not pads:
        counts += lines(said(CUT))
    return counts


def taken(packet, worker=0, direction="down"):
    """The line of a packet."""
    return lines(take(packet.hex(), worker, direction))


def flushed(worker=0):
    """The line of a flush."""
    return lines(line(do="flush", worker=worker))


def changed(octets, place, octet):
    """The octets with another one at a place."""
    return octets[:place] + bytes([octet]) + octets[place + 1 :]


def header(order=BIG, link=RAW):
    """The header of a classic file with times in microseconds."""
    return struct.pack(order + "IHHIIII", 0xA1B2C3D4, 2, 4, 0, 0, 262144, link)


def record(frame, on_line=None, order=BIG):
    """A record of a classic file. The frame had as many octets on the line as it has, or this number."""
    length = len(frame) if on_line is None else on_line
    return struct.pack(order + "IIII", 1, 2, len(frame), length) + frame


def block(kind, body, order=LITTLE):
    """A block of a pcapng file, with octets behind its body up to a multiple of four."""
    filled = body + bytes(-len(body) % 4)
    length = len(filled) + 12
    return struct.pack(order + "II", kind, length) + filled + struct.pack(order + "I", length)


def read_to(ended="", wrote="", **counts):
    """How the program ends on a capture that is read up to this fault, or to its end where none is given."""
    return Ended(1 if ended else 0, wrote.encode(), (counted(**counts) + ended).encode())


def refused(ended):
    """How the program ends on a capture whose first octets have this fault: nothing is counted."""
    return Ended(1, b"", ended.encode())


class CaptureTest(StreamTest):
    def reads(self, capture, wrote="", ended="", ue=UE, words=(), **counts):
        """Expects that a capture is read up to this fault or to its end, with these lines and counts."""
        came = self.run_on(PCEF_CAPTURE, ["--ue", ue, *words, "-"], capture)
        self.assertEqual(came, read_to(ended, wrote, pads="--pad" in words, **counts))

    def refuses(self, capture, ended):
        """Expects this fault of a capture's first octets."""
        self.assertEqual(self.run_on(PCEF_CAPTURE, ["--ue", UE, "-"], capture), refused(ended))

    def reads_by(self, step, capture, **limits):
        """How the program ends, with a flush for each packet, where a read gives so many octets at most; and which
        calls failed."""
        words = ["--ue", UE, "--batch", "1", "-"]
        return self.run_failing([PCEF_CAPTURE, *words], capture, READ_STEP=step, **limits)
