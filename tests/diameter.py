"""Diameter messages for the tests of `pcef gx` (RFC 6733, TS 29.212), and a PCRF that speaks with it over pipes."""
import struct
import subprocess
import threading

from programs import PCEF_GX, Ended

BASE, GX = 0, 16777238
THREE_GPP = 10415
CER, RAR, CCR, DWR, DPR = 257, 258, 272, 280, 282
REQUEST, PROXIABLE, ERROR, AGAIN = 0x80, 0x40, 0x20, 0x10

SESSION, HOST, REALM = b"gw.example.net;1;1", b"gw.example.net", b"example.net"
PCRF = b"pcrf.example.net"


def avp(code, data, vendor=0, mandatory=True):
    """An AVP: a number has 32 bits, a list is a group."""
    if isinstance(data, int):
        data = struct.pack(">I", data)
    elif isinstance(data, list):
        data = b"".join(data)
    flags = (0x80 if vendor else 0) | (0x40 if mandatory else 0)
    front = struct.pack(">II", code, flags << 24 | (12 if vendor else 8) + len(data))
    if vendor:
        front += struct.pack(">I", vendor)
    return front + data + bytes(-len(data) % 4)


def gx(code, data, mandatory=True):
    """An AVP of 3GPP."""
    return avp(code, data, THREE_GPP, mandatory)


def message(flags, command, application, number, *avps):
    """A message; both its identifiers are the number, or a pair has them."""
    hop_by_hop, end_to_end = number if isinstance(number, tuple) else (number, number)
    behind = b"".join(avps)
    front = struct.pack(">II", 1 << 24 | 20 + len(behind), flags << 24 | command)
    return front + struct.pack(">III", application, hop_by_hop, end_to_end) + behind


def origin(host, realm=REALM):
    return [avp(264, host), avp(296, realm)]


def result(number):
    return avp(268, number)


def cer(number, address=b"\0\1\x7f\0\0\1"):
    """What the filter sends first."""
    application = avp(260, [avp(266, THREE_GPP), avp(258, GX)])
    told = [avp(257, address), avp(266, 0), avp(269, b"Cipallta", mandatory=False), avp(265, THREE_GPP), application]
    return message(REQUEST, CER, BASE, number, *origin(HOST), *told)


def cea(number, code=2001):
    return message(0, CER, BASE, number, result(code), *origin(PCRF))


def ccr(number, kind, count, *avps, session=SESSION):
    """A CCR of a session: its type and number, and the AVPs behind them."""
    front = [avp(263, session), avp(258, GX), *origin(HOST), avp(283, REALM), avp(416, kind), avp(415, count)]
    return message(REQUEST | PROXIABLE, CCR, GX, number, *front, *avps)


def cca(number, kind, count, *avps, code=2001, session=SESSION):
    front = [avp(263, session), result(code), *origin(PCRF), avp(258, GX), avp(416, kind), avp(415, count)]
    return message(PROXIABLE, CCR, GX, number, *front, *avps)


def rar(number, *avps, session=SESSION):
    front = [avp(263, session), avp(258, GX), *origin(PCRF), avp(283, REALM), avp(293, HOST), avp(285, 0)]
    return message(REQUEST | PROXIABLE, RAR, GX, number, *front, *avps)


def raa(number, *avps, code=2001, session=SESSION):
    return message(PROXIABLE, RAR, GX, number, avp(263, session), result(code), *origin(HOST), *avps)


def qos(qci, level, capability, vulnerability):
    """A QCI and an Allocation-Retention-Priority, whose words say 0 for yes."""
    arp = [gx(1046, level), gx(1047, capability), gx(1048, vulnerability)]
    return [gx(1028, qci), gx(1034, arp)]


# What the first CCR of examples/profile.toml tells: 10.0.0.2, 3GPP-EPS, QCI 9 with priority 8, which may not pre-empt and
# may be pre-empted.
PROPOSAL = [avp(8, b"\x0a\0\0\2"), gx(1027, 5), gx(1049, qos(9, 8, 1, 0), mandatory=False)]


class Filter:
    """A filter that runs, and its PCRF."""

    def __init__(self, test, *words, session=SESSION, profile="profile.toml"):
        self.test = test
        first = ["--session-id", session.decode()] if session else []
        realms = ["--origin-realm", REALM.decode(), "--destination-realm", REALM.decode()]
        names = ["--origin-host", HOST.decode(), *realms]
        last = [profile] if profile else []
        self.process = subprocess.Popen(
            [*PCEF_GX, *first, *names, "--first-number", "7", *words, *last],
            stdin=subprocess.PIPE,
            stdout=subprocess.PIPE,
            stderr=subprocess.PIPE,
            cwd=test.room,
        )
        # A filter that says nothing more is ended.
        self.watch = threading.Timer(30, self.process.kill)
        self.watch.start()
        test.addCleanup(self.close)

    def close(self):
        self.watch.cancel()
        self.process.kill()
        self.process.wait()
        for stream in (self.process.stdin, self.process.stdout, self.process.stderr):
            stream.close()

    def send(self, *octets):
        self.process.stdin.write(b"".join(octets))
        self.process.stdin.flush()

    def hears(self, *expected):
        """Expects these messages next."""
        for one in expected:
            front = self.process.stdout.read(4)
            came = front + self.process.stdout.read(struct.unpack(">I", front)[0] % (1 << 24) - 4) if front else b""
            self.test.assertEqual(came.hex(), one.hex())

    def ends(self, status, said="", wrote=b""):
        """Closes the input, and expects this end."""
        came, errors = self.process.communicate()
        self.watch.cancel()
        ended = Ended(self.process.returncode, came.hex(), errors)
        self.test.assertEqual(ended, Ended(status, wrote.hex(), said.encode()))

    def opened(self, *granted):
        """Exchanges capabilities, and opens the session by a CCA with these AVPs."""
        self.hears(cer(7))
        self.send(cea(7))
        self.hears(ccr(8, 1, 0, *PROPOSAL))
        self.send(cca(8, 1, 0, *granted))
        return self

    def over(self, number, count, *avps):
        """Expects the last CCR, and answers it; then the node takes leave."""
        self.hears(ccr(number, 3, count, *avps))
        self.send(cca(number, 3, count))
        self.hears(message(REQUEST, DPR, BASE, number + 1, *origin(HOST), avp(273, 2)))
        self.send(message(0, DPR, BASE, number + 1, result(2001), *origin(PCRF)))
