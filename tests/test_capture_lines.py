"""The lines that `pcef capture` writes: of packets, by workers in turn, by its words, and while packets come."""
import os
import select
import subprocess

from captures import DOWN, DOWN_6, UE, UE_6, CaptureTest, counted, flushed, header, record, said, taken
from programs import PCEF_CAPTURE, Ended, lines

# A UDP packet of 28 octets from 10.0.0.1 port 53 to 10.0.0.2 port 5000.
BETWEEN = DOWN[:12] + bytes([10, 0, 0, 1]) + DOWN[16:]

# Two packets as they come from a recorder, and the lines of each where it has a flush of its own.
RECORDED = header() + record(DOWN) + record(DOWN)
LINES = taken(DOWN) + flushed()

# What is said where standard input fails.
UNREAD = lines("read fault", said("Standard input: Input/output error (os error 5)"))

# Texts that are no address.
NO_ADDRESSES = ["2001:db8::2::", "2001:db8::2/64", "::10.0.0.2", "", "2001:db8::g"]

# Words without a capture, and how they might be right.
MISSING = [
    ([], "<FILE>"),
    (["--ue", "10.0.0.2"], "--ue <ADDRESS> <FILE>"),
]


def capture_of(*frames):
    """A capture of raw frames, each of which had 28 octets on the line."""
    return header() + b"".join(record(frame, 28) for frame in frames)


def in_turn(packets, direction="down", workers=1, batch=32):
    """The lines of the packets, of which each worker takes a batch in turn."""
    wrote = ""
    for turn, first in enumerate(range(0, len(packets), batch)):
        worker = turn % workers
        wrote += "".join(taken(packet, worker, direction) for packet in packets[first : first + batch])
        wrote += flushed(worker)
    return wrote


class Lines(CaptureTest):
    def test_the_line_of_a_packet(self):
        wrote = (
            '{"do":"take","worker":0,"dir":"down",'
            '"packet":"4500001c0000000040110000c63364070a0000020035138800080000"}\n'
            '{"do":"flush","worker":0}\n'
        )
        self.reads(capture_of(DOWN), wrote, taken=1)

    def test_lines_of_a_session_of_version_6(self):
        frames = [(DOWN_6, 28), (DOWN, 28), (DOWN_6[:46], 48), (DOWN_6[:39], 48)]
        capture = header() + b"".join(record(frame, on_line) for frame, on_line in frames)
        wrote = taken(DOWN_6) * 2 + flushed()
        self.reads(capture, wrote, ue=UE_6, words=["--pad"], taken=2, neither=1, cut=1)

    def test_a_packet_in_part_is_left_out_or_padded(self):
        self.reads(capture_of(DOWN[:26]), cut=1)
        self.reads(capture_of(DOWN[:26]), LINES, words=["--pad"], taken=1)
        self.reads(capture_of(DOWN[:3]), words=["--pad"], cut=1)

    def test_frames_without_a_line(self):
        self.reads(capture_of(DOWN, b"\x60" * 28), ue="10.0.0.1", neither=1, not_ip=1)

    def test_workers_in_turn(self):
        wrote = taken(DOWN, 0) * 32 + flushed(0) + taken(DOWN, 1) * 32 + flushed(1) + taken(DOWN, 0) * 6 + flushed(0)
        self.reads(capture_of(*[DOWN] * 70), wrote, words=["--workers", "2"], taken=70)


class Words(CaptureTest):
    def asks(self, words, wrote, given="", **counts):
        """Expects that the program takes the words, and these lines and counts."""
        pads = "--pad" in words and "--" not in words
        self.ends(PCEF_CAPTURE, words, given, wrote=wrote, said=counted(pads=pads, **counts))

    def test_what_words_ask_for(self):
        # A packet more than 16 workers take in a turn, one that was cut, and packets of version 6.
        packets = [BETWEEN] * 513
        padded = packets + [BETWEEN[:24] + bytes(4)]
        capture = capture_of(*packets, BETWEEN[:24], *[DOWN_6] * 33)
        self.write("a.pcap", capture)
        self.write("--pad", capture)
        counts = {"taken": 513, "cut": 1, "neither": 33}
        self.asks(["--ue", "10.0.0.2", "a.pcap"], in_turn(packets), **counts)
        words = ["a.pcap", "--workers=16", "--ue=10.0.0.1", "--pad"]
        self.asks(words, in_turn(padded, "up", workers=16), taken=514, neither=33)
        self.asks(["--ue", "10.0.0.2", "--workers", "3", "--", "--pad"], in_turn(packets, workers=3), **counts)
        self.asks(["--ue", "2001:DB8::2", "a.pcap"], in_turn([DOWN_6] * 33), taken=33, cut=1, neither=513)
        self.asks(["--ue", "010.0.0.2", "--batch=1", "-"], in_turn(packets, batch=1), capture, **counts)

    def test_a_text_that_is_no_address(self):
        for text in NO_ADDRESSES:
            with self.subTest(text=text):
                said = lines(f'usage: --ue "{text}": an address is expected, as 10.0.0.2 or 2001:db8::2')
                self.ends(PCEF_CAPTURE, ["a.pcap", "--ue", text], status=2, said=said)

    def test_words_that_are_missing(self):
        for words, right in MISSING:
            with self.subTest(words=words):
                said = lines(
                    "error: the following required arguments were not provided:",
                    "  <FILE>",
                    "",
                    f"Usage: pcef capture {right}",
                    "",
                    "For more information, try '--help'.",
                )
                self.ends(PCEF_CAPTURE, words, status=2, said=said)


    def test_words_without_a_session_or_with_two_ways_to_name_them(self):
        said = lines("usage: --ue ADDRESS or --sessions MAP is expected")
        self.ends(PCEF_CAPTURE, ["a.pcap"], status=2, said=said)
        said = lines("usage: --ue and --sessions exclude each other")
        self.ends(PCEF_CAPTURE, ["a.pcap", "--ue", UE, "--sessions", "map"], status=2, said=said)

    def test_a_teid_of_more_than_32_bits(self):
        for text in "4294967296", "-1", "0x1a", "":
            with self.subTest(text=text):
                came = self.run_on(PCEF_CAPTURE, ["--ue", UE, f"--teid={text}", "a.pcap"])
                self.assertEqual((came.status, came.wrote), (2, b""))


class Streams(CaptureTest):
    def test_lines_of_whole_packets_stand_where_the_reader_fails(self):
        for room in range(len(RECORDED) + 1):
            with self.subTest(room=room):
                came, failed = self.reads_by(5, RECORDED, READ_ROOM=room)
                packets = (room >= 68) + (room >= 112)
                self.assertEqual(came, Ended(4, (LINES * packets).encode(), UNREAD.encode()))
                self.assertEqual(failed, "r")

    def test_a_pipe_that_its_reader_closed_is_no_fault(self):
        self.write("map", "a 10.0.0.2\n")
        for words in ["--ue", UE], ["--sessions", "map"]:
            reader, writer = os.pipe()
            os.close(reader)
            with self.subTest(words=words), open(writer, "wb") as closed:
                ran = subprocess.run(
                    [*PCEF_CAPTURE, *words, "-"],
                    input=RECORDED,
                    stdout=closed,
                    stderr=subprocess.PIPE,
                    cwd=self.room,
                    timeout=60,
                )
                self.assertEqual((ran.returncode, ran.stderr), (4, b""))

    def test_progress_is_shown_on_a_terminal_and_nowhere_else(self):
        self.write("a.pcap", capture_of(*[DOWN] * 2000))
        parts = "".join(f"{part} %\r" for part in (9, 18, 27, 37, 46, 55, 65, 74, 83, 93, 100))
        # The last part is taken away before the counts are said.
        for words, due in (["a.pcap"], f"{parts}     \r"), (["-"], ""):
            with self.subTest(words=words):
                came = self.shown_on_a_terminal(PCEF_CAPTURE, ["--ue", UE, *words], "a.pcap")
                self.assertEqual(came, due + counted(taken=2000).replace("\n", "\r\n"))

    def test_a_full_disk_is_a_fault(self):
        told = lines("write fault", said("Standard output: No space left on device (os error 28)"))
        with open("/dev/full", "wb") as full:
            ran = subprocess.run([*PCEF_CAPTURE, "--ue", UE, "-"], input=RECORDED, stdout=full, stderr=subprocess.PIPE)
        self.assertEqual((ran.returncode, ran.stderr), (4, told.encode()))

    def test_a_line_is_flushed_before_more_is_read(self):
        pipe = subprocess.PIPE
        words = [*PCEF_CAPTURE, "--ue", UE, "--batch", "1", "-"]
        with subprocess.Popen(words, stdin=pipe, stdout=pipe, stderr=pipe, bufsize=0) as recorded:
            for length, octet in enumerate(RECORDED, start=1):
                recorded.stdin.write(bytes([octet]))
                if length in (68, 112):
                    self.assertEqual(self.waited_for(recorded.stdout, 132), LINES)
            recorded.stdin.close()
            ended = recorded.stdout.read(), recorded.stderr.read(), recorded.wait()
            self.assertEqual(ended, (b"", counted(taken=2).encode(), 0))

    def waited_for(self, stream, length):
        """So many octets of a stream, or what comes of them in a minute."""
        came = b""
        while len(came) < length and select.select([stream], [], [], 60)[0]:
            part = stream.read(length - len(came))
            if not part:
                break
            came += part
        return came.decode()
