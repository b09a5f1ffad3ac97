"""`pcef gx`, a PCEF over Gx on standard input and output: its messages octet for octet, its lines, its ends."""
import errno
import os
import struct
import time

from commands import ATTACH, DNS, DNS_ANSWER, FLUSH, line, profile, take
from diameter import (
    BASE, CCR, DPR, DWR, ERROR, GX, HOST, PCRF, PROPOSAL, PROXIABLE, RAR, REQUEST, SESSION, Filter, avp, cca, ccr,
    cea, cer, gx, message, origin, qos, raa, rar, result,
)
from programs import ProgramTest, lines

# A rule for DNS answers that counts for the key `vid`, and a grant of 50 octets for it.
RULE = [
    gx(1005, b"web"),
    gx(1058, [gx(507, DNS.encode()), gx(1080, 1, mandatory=False)], mandatory=False),
    gx(511, 2),
    gx(1016, qos(9, 8, 1, 0)),
    gx(1010, 100),
    gx(1066, b"vid", mandatory=False),
]
INSTALL = gx(1001, [gx(1003, RULE)])
MONITOR = gx(1067, [
    gx(1066, b"vid", mandatory=False), avp(431, [avp(421, struct.pack(">Q", 50))]), gx(1068, 1, mandatory=False),
], mandatory=False)

ENDED = lines("read fault", "pcef gx: standard input ended before the session")


def usage(key, octets):
    """A Usage-Monitoring-Information of so many octets of both directions."""
    used = avp(446, [avp(421, struct.pack(">Q", octets))])
    return gx(1067, [gx(1066, key, mandatory=False), used], mandatory=False)


def report(name, failure):
    """A Charging-Rule-Report of a rule that isn't active."""
    return gx(1018, [gx(1005, name), gx(1019, 1), gx(1031, failure)])


def refused(number, *reports):
    """A RAA with these reports of rules that couldn't be had."""
    failed = avp(297, [avp(266, 10415), avp(298, 5142)])
    return message(PROXIABLE, RAR, GX, number, avp(263, SESSION), failed, *origin(HOST), *reports)


class GxFilterTest(ProgramTest):
    """A filter, and a PCRF over pipes."""

    def setUp(self):
        super().setUp()
        self.write("profile.toml", profile())

    def feeding(self):
        """The FIFO of lines, once the filter reads it."""
        path, until = os.path.join(self.room, "lines"), time.monotonic() + 20
        while True:
            try:
                feed = os.open(path, os.O_WRONLY | os.O_NONBLOCK)
            except OSError as error:
                if error.errno != errno.ENXIO or time.monotonic() > until:
                    raise
                time.sleep(0.01)
            else:
                os.set_blocking(feed, True)
                return os.fdopen(feed, "w", buffering=1)

    def with_lines(self, *words):
        os.mkfifo(os.path.join(self.room, "lines"))
        return Filter(self, "--packets", "lines", *words)


class Dialogue(GxFilterTest):
    def test_a_session_from_its_cer_to_its_dpr(self):
        filter_ = Filter(self).opened()
        filter_.send(rar(1000, INSTALL))
        filter_.hears(raa(1000))
        filter_.send(rar(1001, gx(1045, 0)))
        filter_.hears(raa(1001))
        filter_.over(9, 1)
        filter_.ends(0)

    def test_the_cer_that_freediameter_took(self):
        # Worked by hand, and taken by freeDiameter 1.2.1: examples/gx/README.md.
        filter_ = Filter(self, "--address", "192.0.2.7")
        told = filter_.process.stdout.read(152)
        self.assertEqual(told.hex(), (
            "01000098800001010000000000000007" "00000007" "000001084000001667772e6578616d706c652e6e6574000000000128"
            "400000136578616d706c652e6e657400000001014000000e0001c000020700000000010a4000000c000000000000010d"
            "00000010436970616c6c7461000001094000000c000028af00000104400000200000010a4000000c000028af00000102"
            "4000000c01000016"))

    def test_what_is_told_of_the_access(self):
        words = ["--destination-host", PCRF.decode(), "--apn", "internet", "--subscriber", "001010000000001"]
        filter_ = Filter(self, *words)
        filter_.hears(cer(7))
        filter_.send(cea(7))
        imsi = avp(443, [avp(450, 1), avp(444, b"001010000000001")])
        proposal = [avp(8, b"\x0a\0\0\2"), gx(1027, 5), gx(1049, qos(9, 8, 1, 0), mandatory=False)]
        filter_.hears(ccr(8, 1, 0, *proposal, avp(293, PCRF), imsi, avp(30, b"internet")))

    def test_a_session_of_ipv6(self):
        self.write("profile.toml", profile(ue='"2001:db8::2"'))
        filter_ = Filter(self, "--address", "2001:db8::1")
        filter_.hears(cer(7, struct.pack(">HIIQ", 2, 0x20010DB8, 0, 1)))
        filter_.send(cea(7))
        prefix = avp(97, b"\0\x40" + struct.pack(">II", 0x20010DB8, 0))
        filter_.hears(ccr(8, 1, 0, prefix, gx(1027, 5), gx(1049, qos(9, 8, 1, 0), mandatory=False)))

    def test_the_same_rar_twice(self):
        filter_ = Filter(self).opened()
        remove = gx(1002, [gx(1005, b"web")])
        filter_.send(rar(1000, INSTALL))
        filter_.hears(raa(1000))
        filter_.send(rar(1001, remove))
        filter_.hears(raa(1001))
        # The rule is gone: a removal that is done finds none, and the first one isn't done again.
        filter_.send(rar((1501, 1001), remove))
        filter_.hears(raa((1501, 1001)))
        filter_.send(rar(1002, remove))
        filter_.hears(refused(1002, report(b"web", 1)))

    def test_a_rule_that_fails_and_one_that_does_not(self):
        filter_ = Filter(self).opened(INSTALL)
        filter_.send(rar(1000, gx(1001, [gx(1005, b"pre-dns"), gx(1005, b"nope")])))
        filter_.hears(refused(1000, report(b"nope", 1)))
        filter_.send(rar(1001, gx(1002, [gx(1005, b"pre-dns"), gx(1005, b"web")])))
        filter_.hears(raa(1001))

    def test_a_ccr_that_fails_is_sent_anew_behind_the_next_message(self):
        filter_ = Filter(self).opened(gx(1001, [gx(1005, b"nope")]))
        told = [report(b"nope", 1)]
        filter_.hears(ccr(9, 2, 1, *told))
        filter_.send(cca(9, 2, 1, code=5012), rar(1000))
        filter_.hears(raa(1000), ccr(10, 2, 2, *told))
        filter_.send(cca(10, 2, 2), rar(1001))
        filter_.hears(raa(1001))

    def test_a_ccr_that_a_node_on_the_way_refuses(self):
        filter_ = Filter(self).opened(gx(1001, [gx(1005, b"nope")]))
        told = [report(b"nope", 1)]
        filter_.hears(ccr(9, 2, 1, *told))
        # DIAMETER_TOO_BUSY, without a Session-Id, a CC-Request-Type and a CC-Request-Number.
        filter_.send(message(PROXIABLE | ERROR, CCR, GX, 9, result(3004), *origin(PCRF)))
        filter_.send(message(REQUEST, DWR, BASE, 70, *origin(PCRF)))
        filter_.hears(message(0, DWR, BASE, 70, result(2001), *origin(HOST)), ccr(10, 2, 2, *told))
        # With other identifiers it answers nothing.
        filter_.send(message(PROXIABLE | ERROR, CCR, GX, 9, result(3004), *origin(PCRF)))
        filter_.send(cca(10, 2, 2), rar(1001))
        filter_.hears(raa(1001))

    def test_watchdogs(self):
        filter_ = Filter(self).opened()
        filter_.send(message(REQUEST, DWR, BASE, 70, *origin(PCRF), avp(278, 5)))
        filter_.hears(message(0, DWR, BASE, 70, result(2001), *origin(HOST)))

    def test_messages_in_parts_and_messages_at_once(self):
        filter_ = Filter(self)
        filter_.hears(cer(7))
        for octet in cea(7):
            filter_.send(bytes([octet]))
        filter_.hears(ccr(8, 1, 0, *[avp(8, b"\x0a\0\0\2"), gx(1027, 5), gx(1049, qos(9, 8, 1, 0), mandatory=False)]))
        watchdog = message(REQUEST, DWR, BASE, 70, *origin(PCRF))
        filter_.send(cca(8, 1, 0), rar(1000, INSTALL), watchdog, rar(1001))
        filter_.hears(raa(1000), message(0, DWR, BASE, 70, result(2001), *origin(HOST)), raa(1001))

    def test_the_pcrf_takes_leave(self):
        filter_ = Filter(self).opened()
        filter_.send(message(REQUEST, DPR, BASE, 71, *origin(PCRF), avp(273, 0)))
        filter_.hears(message(0, DPR, BASE, 71, result(2001), *origin(HOST)))
        filter_.ends(4, lines("read fault", "pcef gx: the PCRF disconnected before the end of the session"))

    def test_the_pcrf_takes_leave_behind_the_session(self):
        filter_ = Filter(self).opened()
        filter_.send(rar(1000, gx(1045, 0)))
        filter_.hears(raa(1000), ccr(9, 3, 1))
        filter_.send(cca(9, 3, 1), message(REQUEST, DPR, BASE, 71, *origin(PCRF), avp(273, 0)))
        filter_.hears(message(REQUEST, DPR, BASE, 10, *origin(HOST), avp(273, 2)))
        filter_.hears(message(0, DPR, BASE, 71, result(2001), *origin(HOST)))
        filter_.ends(0)

    def test_requests_that_nobody_serves(self):
        filter_ = Filter(self).opened()
        filter_.send(message(REQUEST, 271, BASE, 80, *origin(PCRF)))
        filter_.hears(message(ERROR, 271, BASE, 80, result(3001), *origin(HOST)))
        filter_.send(message(REQUEST | PROXIABLE, CCR, 4, 81, avp(263, b"x"), *origin(PCRF)))
        filter_.hears(message(PROXIABLE | ERROR, CCR, 4, 81, avp(263, b"x"), result(3007), *origin(HOST)))

    def test_a_rar_of_another_session(self):
        filter_ = Filter(self).opened()
        filter_.send(rar(1000, session=b"other;1"))
        filter_.hears(raa(1000, code=5002, session=b"other;1"))

    def test_an_answer_that_nothing_asked_for(self):
        filter_ = Filter(self).opened()
        filter_.send(cca(8, 1, 0), cca(40, 2, 9), message(0, 274, BASE, 90, result(2001)), cea(7), rar(1000))
        filter_.hears(raa(1000))


class Lines(GxFilterTest):
    def test_packets_to_a_threshold_and_the_end(self):
        filter_ = self.with_lines().opened(INSTALL, MONITOR, gx(1006, 33))
        with self.feeding() as feed:
            feed.write(lines(ATTACH, take(DNS_ANSWER), FLUSH))
            feed.write(lines(take(DNS_ANSWER), FLUSH))
            filter_.hears(ccr(9, 2, 1, gx(1006, 33), usage(b"vid", 56)))
            filter_.send(cca(9, 2, 1, MONITOR))
            feed.write(lines(take(DNS_ANSWER), line(do="end")))
        filter_.over(10, 2, usage(b"vid", 28))
        filter_.ends(0)

    def test_a_grant_that_is_used_up_and_no_other(self):
        filter_ = self.with_lines().opened(INSTALL, MONITOR, gx(1006, 33))
        with self.feeding() as feed:
            feed.write(lines(ATTACH, take(DNS_ANSWER), take(DNS_ANSWER), FLUSH))
            filter_.hears(ccr(9, 2, 1, gx(1006, 33), usage(b"vid", 56)))
            filter_.send(cca(9, 2, 1))
            filter_.hears(ccr(10, 2, 2, gx(1006, 33), usage(b"vid", 0)))
            filter_.send(cca(10, 2, 2))
            feed.write(lines(line(do="refresh", worker=0), take(DNS_ANSWER), line(do="end")))
        filter_.over(11, 3)
        filter_.ends(0)

    def test_an_event_of_the_access(self):
        filter_ = self.with_lines().opened(gx(1006, 2))
        with self.feeding() as feed:
            feed.write(lines(line(do="notice", event="RAT_CHANGE", value="%00%00%03%EC")))
            filter_.hears(ccr(9, 2, 1, gx(1006, 2), gx(1032, 1004, mandatory=False)))

    def test_the_fifo_may_be_opened_again(self):
        filter_ = self.with_lines().opened(INSTALL, MONITOR)
        for given in (ATTACH, take(DNS_ANSWER), line(do="end")):
            with self.feeding() as feed:
                feed.write(lines(given))
        filter_.hears(ccr(9, 3, 1, usage(b"vid", 28)))

    def test_lines_of_a_file(self):
        # Its last line has no line feed.
        self.write("lines", lines(ATTACH, take(DNS_ANSWER), "") + line(do="end"))
        filter_ = Filter(self, "--packets", "lines").opened(INSTALL, MONITOR)
        filter_.over(9, 1, usage(b"vid", 28))
        filter_.ends(0)

    def test_lines_at_fault(self):
        given = lines("{}", " \t\r", line(do="end", now=True), "x" * 300000, line(do="end"))
        self.write("lines", given)
        filter_ = Filter(self, "--packets", "lines").opened()
        filter_.over(9, 1)
        filter_.ends(1, lines(
            'line 1 fault {"fault":5,"name":"UnknownDo"}',
            'line 3 fault {"fault":5,"name":"UnknownDo"}',
            'line 4 fault {"fault":1,"name":"LineTooLong"}',
        ))

    def test_the_end_finishes_workers_and_abandons_one_without_room(self):
        self.write("profile.toml", profile(rows=1))
        given = lines(ATTACH, ATTACH, take(DNS_ANSWER), take(DNS_ANSWER), line(do="end"))
        self.write("lines", given)
        filter_ = Filter(self, "--packets", "lines").opened(INSTALL)
        filter_.over(9, 1)
        filter_.ends(0)


class Ends(GxFilterTest):
    """Connections and programs that end early."""

    def test_the_input_ends(self):
        filter_ = Filter(self)
        filter_.hears(cer(7))
        filter_.ends(4, ENDED)

    def test_the_input_ends_in_a_session(self):
        filter_ = Filter(self).opened()
        filter_.send(cca(8, 1, 0)[:30])
        filter_.ends(4, ENDED)

    def test_the_input_ends_behind_the_session(self):
        filter_ = Filter(self).opened()
        filter_.send(rar(1000, gx(1045, 0)))
        filter_.hears(raa(1000), ccr(9, 3, 1))
        filter_.send(cca(9, 3, 1))
        filter_.hears(message(REQUEST, DPR, BASE, 10, *origin(HOST), avp(273, 2)))
        filter_.ends(0)

    def test_streams_that_are_lost(self):
        lost = "what came is no message, and where the next one begins can't be told"
        said = lines("read fault", f"pcef gx: {lost}")
        for octets in (b"HTTP/1.1 400 Bad Request", struct.pack(">I", 1 << 24 | 16), struct.pack(">I", 1 << 24 | 65540),
                       struct.pack(">I", 1 << 24 | 22)):
            with self.subTest(octets=octets):
                filter_ = Filter(self)
                filter_.hears(cer(7))
                filter_.send(octets)
                filter_.ends(4, said)

    def test_another_message_than_a_cea(self):
        filter_ = Filter(self)
        filter_.hears(cer(7))
        filter_.send(message(REQUEST, DWR, BASE, 70, *origin(PCRF)))
        filter_.ends(4, lines("read fault", "pcef gx: the PCRF sent another message than a CEA first"))

    def test_a_connection_that_is_refused(self):
        filter_ = Filter(self)
        filter_.hears(cer(7))
        filter_.send(cea(7, 5010))
        filter_.ends(4, lines("read fault", "pcef gx: the PCRF refuses the connection by Result-Code 5010"))

    def test_a_session_that_is_refused(self):
        filter_ = Filter(self)
        filter_.hears(cer(7))
        filter_.send(cea(7))
        filter_.hears(ccr(8, 1, 0, *PROPOSAL))
        filter_.send(cca(8, 1, 0, code=5003))
        filter_.hears(message(REQUEST, DPR, BASE, 9, *origin(HOST), avp(273, 2)))
        filter_.ends(4, lines("session 1 fault the PCRF refuses it by Result-Code 5003"))

    def test_a_session_that_a_node_on_the_way_refuses(self):
        filter_ = Filter(self)
        filter_.hears(cer(7))
        filter_.send(cea(7))
        filter_.hears(ccr(8, 1, 0, *PROPOSAL))
        # As freeDiameter answers a CCR that lacks what it wants.
        failed = avp(279, [avp(461, b"\0")])
        filter_.send(message(PROXIABLE, CCR, GX, 8, avp(263, SESSION), *origin(PCRF), result(5005), failed))
        filter_.hears(message(REQUEST, DPR, BASE, 9, *origin(HOST), avp(273, 2)))
        filter_.ends(4, lines("session 1 fault the PCRF refuses it by Result-Code 5005"))

    def test_a_session_that_cannot_be_opened(self):
        # A default bearer with the QCI 1 of a guaranteed rate.
        filter_ = Filter(self).opened(gx(1049, qos(1, 8, 1, 0), mandatory=False))
        filter_.over(9, 1)
        filter_.ends(4, lines("session 1 fault the default QCI has a guaranteed bit rate"))

    def test_words(self):
        for words, said in (
            (["--address", "here"], "usage: --address is no address\n"),
            (["--subscriber", "00101x"], "usage: --subscriber has 1 to 15 digits\n"),
            (["--subscriber", ""], "usage: --subscriber has 1 to 15 digits\n"),
            (["--apn", "a" * 1025], "usage: a name has more than 1024 octets\n"),
            (["--first-number", "4294967296"], None),
            (["--sessions", "sessions"], None),
        ):
            with self.subTest(words=words):
                filter_ = Filter(self, *words)
                told, errors = filter_.process.communicate()
                self.assertEqual((filter_.process.returncode, told), (2, b""))
                self.assertEqual(errors.decode() if said else None, said)

    def test_files(self):
        self.write("bad.toml", profile(rows=0))
        for words, file, status, said in (
            ([], "none.toml", 4, ["read fault", "pcef gx: none.toml: No such file or directory (os error 2)"]),
            (["--packets", "none"], "profile.toml", 4,
             ["read fault", "pcef gx: none: No such file or directory (os error 2)"]),
            ([], "bad.toml", 1, [
                "profile fault 4",
                "pcef gx: bad.toml: BadValue: rows = 0: a whole number from 1 to 4294967295 is expected",
            ]),
        ):
            with self.subTest(file=file):
                Filter(self, *words, profile=file).ends(status, lines(*said))


class Many(GxFilterTest):
    """Many sessions over one connection."""

    def listed(self, count, *words):
        """A filter of so many sessions, each with a profile of its own."""
        for number in range(1, count + 1):
            self.write(f"{number}.toml", profile(ue=f'"10.0.{number >> 8}.{number & 255}"'))
        self.write("sessions", lines(*(f"gw;{number} {number}.toml" for number in range(1, count + 1))))
        filter_ = Filter(self, "--sessions", "sessions", *words, session=None, profile=None)
        filter_.hears(cer(7))
        filter_.send(cea(7))
        return filter_

    def proposed(self, number):
        return [avp(8, bytes([10, 0, number >> 8, number & 255])), *PROPOSAL[1:]]

    def test_a_thousand_sessions(self):
        os.mkfifo(os.path.join(self.room, "lines"))
        count = 1000
        filter_ = self.listed(count, "--packets", "lines")
        # 32 first CCRs are out at a time.
        for number in range(1, 33):
            filter_.hears(ccr(7 + number, 1, 0, *self.proposed(number), session=b"gw;%d" % number))
        for number in range(1, count + 1):
            filter_.send(cca(7 + number, 1, 0, INSTALL, MONITOR, session=b"gw;%d" % number))
            if number + 32 <= count:
                after = number + 32
                filter_.hears(ccr(7 + after, 1, 0, *self.proposed(after), session=b"gw;%d" % after))
        with self.feeding() as feed:
            for number in (1, 500, 1000):
                packet = DNS_ANSWER[:32] + "0a00%04x" % number + DNS_ANSWER[40:]
                feed.write(lines(f"{number} {ATTACH}", f"{number} {take(packet)}", f"{number} {line(do='end')}"))
                session = b"gw;%d" % number
                last = {1: 1008, 500: 1009, 1000: 1010}[number]
                filter_.hears(ccr(last, 3, 1, usage(b"vid", 28), session=session))
                filter_.send(cca(last, 3, 1, session=session))
        for number in (2, 999):
            session = b"gw;%d" % number
            filter_.send(rar(5000 + number, gx(1006, 33), session=session))
            filter_.hears(raa(5000 + number, session=session))
        filter_.send(rar(7000, session=b"gw;1001"))
        filter_.hears(raa(7000, code=5002, session=b"gw;1001"))
        filter_.ends(4, ENDED)

    def test_all_end(self):
        filter_ = self.listed(2)
        for number in (1, 2):
            filter_.hears(ccr(7 + number, 1, 0, *self.proposed(number), session=b"gw;%d" % number))
        filter_.send(cca(9, 1, 0, session=b"gw;2"), cca(8, 1, 0, code=4010, session=b"gw;1"))
        filter_.send(rar(1000, gx(1045, 0), session=b"gw;2"))
        filter_.hears(raa(1000, session=b"gw;2"), ccr(10, 3, 1, session=b"gw;2"))
        filter_.send(cca(10, 3, 1, session=b"gw;2"))
        filter_.hears(message(REQUEST, DPR, BASE, 11, *origin(HOST), avp(273, 2)))
        filter_.send(message(0, DPR, BASE, 11, result(2001), *origin(PCRF)))
        filter_.ends(4, lines("session 1 fault the PCRF refuses it by Result-Code 4010"))

    def test_names_of_lines(self):
        ends = [f"{number} {line(do='end')}" for number in (1, 2)]
        self.write("lines", lines("{}", "0 {}", "01 {}", "3 {}", "1", " \t", "x {}", "2 {}", *ends))
        filter_ = self.listed(2, "--packets", "lines")
        for number in (1, 2):
            filter_.hears(ccr(7 + number, 1, 0, *self.proposed(number), session=b"gw;%d" % number))
        filter_.send(*(cca(7 + number, 1, 0, session=b"gw;%d" % number) for number in (1, 2)))
        for number in (1, 2):
            filter_.hears(ccr(9 + number, 3, 1, session=b"gw;%d" % number))
        filter_.send(*(cca(9 + number, 3, 1, session=b"gw;%d" % number) for number in (1, 2)))
        filter_.hears(message(REQUEST, DPR, BASE, 12, *origin(HOST), avp(273, 2)))
        bad, none = '{"fault":1,"name":"BadName"}', '{"name":"NoSession","refused":0}'
        said = [(1, bad), (2, bad), (3, bad), (4, none), (5, bad), (7, bad), (8, '{"fault":5,"name":"UnknownDo"}')]
        filter_.ends(1, lines(*(f"line {number} fault {answer}" for number, answer in said)))

    def test_files_of_sessions(self):
        for text, status, said in (
            ("", 2, ["usage: --sessions names no session"]),
            ("gw;1 profile.toml\ngw;2\n", 1, [
                "line 2 fault",
                "pcef gx: sessions: a Session-Id, a space and the path of a profile are expected",
            ]),
            ("gw;1 profile.toml\ngw;1 profile.toml\n", 1, [
                "line 2 fault", "pcef gx: sessions: the Session-Id stands in an earlier line",
            ]),
            ("gw;1 none.toml\n", 4, [
                "read fault", "pcef gx: none.toml: No such file or directory (os error 2)",
            ]),
        ):
            with self.subTest(text=text):
                self.write("sessions", text)
                Filter(self, "--sessions", "sessions", session=None, profile=None).ends(status, lines(*said))
