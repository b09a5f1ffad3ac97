"""Binary frames for `pcef many --frames`: each has the answer of the line that it means."""
import os
import random
import re

import frames
from commands import ATTACH, DNS_ANSWER, FLUSH, SHOW, WEB, line, profile, take
from programs import PCEF_MANY, TOP, ProgramTest, lines

OPEN = line(do="open")
END = line(do="end")
PACKET = bytes.fromhex(DNS_ANSWER)

# A frame with each fault.
MALFORMED = [
    ("BadName", frames.named(b"", frames.LINE, b"{}")),
    ("BadName", frames.named(b"-", frames.FLUSH, b"\0")),
    ("BadName", frames.named(b"a b", frames.FLUSH, b"\0")),
    ("BadName", frames.named(b"\x7f", 9, b"\0")),
    ("BadName", frames.named(65 * b"a", frames.FLUSH, b"\0")),
    ("ShortFrame", b"\0"),
    ("ShortFrame", b"\x01"),
    ("ShortFrame", b"\x01a"),
    ("ShortFrame", b"\x03a\x02\0"),
    ("ShortFrame", frames.named(b"a", frames.FLUSH)),
    ("ShortFrame", frames.named(b"a", frames.TAKE)),
    ("ShortFrame", frames.named(b"a", frames.TAKE, b"\0")),
    ("LongFrame", frames.named(b"a", frames.FLUSH, b"\0\0")),
    ("LongFrame", frames.named(b"a", frames.TAKE, b"\0\0" + bytes(65576))),
    ("UnknownKind", frames.named(b"a", 3, b"\0")),
    ("UnknownKind", frames.named(b"a", 255)),
    ("BadWorker", frames.named(b"a", frames.FLUSH, b"\x10")),
    ("BadWorker", frames.named(b"a", frames.TAKE, b"\xff\x02")),
    ("BadDirection", frames.named(b"a", frames.TAKE, b"\x0f\x02" + PACKET)),
    ("BadLine", frames.named(b"a", frames.LINE)),
    ("BadLine", frames.named(b"a", frames.LINE, b" \t\r")),
    ("BadLine", frames.named(b"a", frames.LINE, b'{"do":\n"show"}')),
]


def random_frame(numbers):
    """A frame, mostly a right one."""
    name = b"s%d" % numbers.randrange(20)
    kind = numbers.choice([frames.TAKE] * 6 + [frames.FLUSH] * 2 + [frames.LINE])
    if kind == frames.LINE:
        return frames.named(name, kind, numbers.choice([OPEN, ATTACH, WEB, SHOW, FLUSH, END, take(DNS_ANSWER), "[1]", "x", " "]).encode())
    worker = bytes([numbers.choice([0, 0, 0, 1, 15, 16])])
    if kind == frames.FLUSH:
        return frames.named(name, kind, worker)
    packet = PACKET if numbers.randrange(4) else numbers.randbytes(numbers.randrange(60))
    return frames.named(name, kind, worker + bytes([numbers.choice([0, 1, 1, 1, 2])]) + packet)


def changed(numbers, frame):
    """The frame with octets changed, gone or added."""
    frame = bytearray(frame)
    for _ in range(numbers.randrange(1, 4)):
        place = numbers.randrange(len(frame) + 1)
        frame[place : place + numbers.randrange(2)] = numbers.randbytes(numbers.randrange(2))
    return bytes(frame) or b"\0"


class Frames(ProgramTest):
    def setUp(self):
        super().setUp()
        self.write("profile.toml", profile())

    def answers_to_lines(self, given):
        """The answers to lines, each with its line feed."""
        came = self.run_on(PCEF_MANY, ["profile.toml"], b"".join(line + b"\n" for line in given))
        answers = came.wrote.splitlines(keepends=True)
        self.assertEqual((came.said, len(answers)), (b"", len(given)))
        return came.status, answers

    def due(self, octets):
        """The status and the answers that are due to an input, by those of the lines that it means."""
        meant = frames.meanings(octets)
        status, answers = self.answers_to_lines([line for line, fault in meant if fault is None])
        rest = iter(answers)
        wrote = b"".join(next(rest) if fault is None else frames.said(fault) for _, fault in meant)
        return max(status, any(fault is not None for _, fault in meant)), wrote

    def check(self, octets, *words):
        """Serves frames, and compares the answers with those of their lines."""
        came = self.run_on(PCEF_MANY, ["--frames", *words, "profile.toml"], octets)
        self.assertEqual((came.status, came.wrote, came.said), (*self.due(octets), b""))
        return came.wrote

    def test_frames_have_the_answers_of_lines(self):
        given = [
            frames.line(b"a", OPEN.encode()),
            frames.line(b"a", WEB.encode()),
            frames.line(b"a", line(do="triggers", events=["USAGE_REPORT"]).encode()),
            frames.line(b"a", b' { "do" : "monitor" , "key" : "vid" , "grant" : 20 } '),
            frames.line(b"a", ATTACH.encode()),
            frames.take(b"a", PACKET),
            frames.take(b"a", PACKET, direction=0),
            frames.take(b"a", PACKET[:19]),
            frames.take(b"a", b""),
            frames.take(b"a", PACKET, worker=1),
            frames.take(b"b", PACKET),
            frames.flush(b"a"),
            frames.flush(b"a", worker=15),
            frames.flush(b"b"),
            frames.line(b"a", SHOW.encode()),
            frames.line(b"a", take(DNS_ANSWER).encode()),
            frames.line(b"a", FLUSH.encode()),
            frames.line(64 * b"~", b"\xff"),
            frames.line(b"a", b'{"do":"end"}'),
            frames.take(b"a", PACKET),
        ]
        wrote = self.check(b"".join(given))
        self.assertEqual(wrote.count(b"\n"), len(given))
        self.assertIn(b'"reports":[{"cause":"Threshold"', wrote)

    def test_no_octets_have_no_answer(self):
        self.assertEqual(self.run_on(PCEF_MANY, ["--frames", "profile.toml"], b""), (0, b"", b""))

    def test_a_malformed_frame_is_answered_and_passed_over(self):
        opened = frames.line(b"a", OPEN.encode())
        for fault, frame in MALFORMED:
            with self.subTest(fault=fault, frame=frame[:20]):
                wrote = self.check(opened + frames.framed(frame) + frames.flush(b"a"))
                first, second, third = wrote.splitlines(keepends=True)
                self.assertEqual((first, second), (b'a {"ok":true}\n', frames.said(fault)))
                self.assertIn(b"NoWorker", third)

    def test_every_fault_is_tried(self):
        tried = {fault for fault, _ in MALFORMED} | {"BadLength", "CutFrame"}
        self.assertEqual(tried, set(frames.FAULTS))

    def test_nothing_is_read_behind_a_bad_length(self):
        opened = frames.line(b"a", OPEN.encode())
        for length in 0, frames.LONGEST + 1, 0xFFFFFFFF:
            with self.subTest(length=length):
                wrote = self.check(opened + length.to_bytes(4, "big") + opened)
                self.assertEqual(wrote, b'a {"ok":true}\n' + frames.said("BadLength"))

    def test_an_input_may_end_after_each_octet(self):
        given = frames.line(b"a", OPEN.encode()) + frames.take(b"a", PACKET) + frames.flush(b"a")
        for end in range(len(given) + 1):
            with self.subTest(end=end):
                self.check(given[:end])

    def test_the_longest_frames(self):
        self.check(frames.framed(frames.named(b"a", frames.LINE, bytes(frames.LONGEST - 3))) + frames.flush(b"a"))
        text = b"{}" + bytes(262143) + b" "
        for most in 262144, 262145:
            self.check(frames.line(b"a", OPEN.encode()) + frames.line(b"a", text[:most]) + frames.flush(b"a"))
        self.check(frames.line(b"a", OPEN.encode()) + frames.take(b"a", PACKET + bytes(65575 - len(PACKET))) + frames.flush(b"a"))

    def test_frames_are_for_one_thread(self):
        came = self.run_on(PCEF_MANY, ["--frames", "--threads", "2", "profile.toml"])
        self.assertEqual((came.status, came.wrote), (2, b""))
        self.assertIn(b"the argument '--frames' cannot be used with '--threads <N>'", came.said)

    def test_totals_count_frames(self):
        given = frames.line(b"a", OPEN.encode()) + frames.flush(b"a", worker=16) + frames.flush(b"a")
        self.check(given, "--metrics", "totals")
        with open(os.path.join(self.room, "totals"), encoding="utf-8") as file:
            totals = file.read()
        for row in "pcef_open_sessions 1", "pcef_lines_total 3", 'name="BadWorker"':
            self.assertIn(row, totals)

    def test_every_worker_and_direction(self):
        given = frames.line(b"a", OPEN.encode()) + 3 * frames.line(b"a", ATTACH.encode())
        for worker in range(256):
            for direction in 0, 1, 2, 255:
                given += frames.take(b"a", PACKET, worker=worker, direction=direction)
            given += frames.flush(b"a", worker=worker)
        self.check(given)

    def test_the_example_of_the_formats_page(self):
        with open(os.path.join(TOP, "docs", "FORMATS.md"), encoding="utf-8") as file:
            page = file.read()
        (shown,) = re.findall(r"```text\n((?:[0-9a-f ]+  .*\n)+)```\n\n```text\n((?:.*\n)+?)```", page)
        octets = b"".join(bytes.fromhex(row.split("  ")[0]) for row in shown[0].splitlines())
        self.assertEqual(self.check(octets).decode(), shown[1])

    def test_many_random_frames(self):
        numbers = random.Random(7)
        given, size = [], 0
        while size < 10**7:
            frame = random_frame(numbers)
            if numbers.randrange(8) == 0:
                frame = changed(numbers, frame)
            given.append(frames.framed(frame))
            size += len(given[-1])
        self.check(b"".join(given))

    def test_random_octets(self):
        numbers = random.Random(8)
        for _ in range(200):
            octets = bytearray(b"".join(frames.framed(random_frame(numbers)) for _ in range(numbers.randrange(12))))
            for _ in range(numbers.randrange(6)):
                place = numbers.randrange(len(octets) + 1)
                octets[place : place + numbers.randrange(3)] = numbers.randbytes(numbers.randrange(3))
            self.check(bytes(octets))
            self.check(numbers.randbytes(numbers.randrange(100)))
