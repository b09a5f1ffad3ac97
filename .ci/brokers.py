"""The two engines that .ci/scale-out plays: Kafka, whose brokers are librdkafka's own for tests, and Redis Streams."""
import os
import re
import signal
import socket
import subprocess
import sys
import time
import zlib

HERE = "examples/scale_out"
PROFILE = "examples/profile.toml"
PCEF = os.path.abspath(os.environ.get("PCEF", "crates/pcef_cli/out/pcef_cli"))
PARTITIONS = 4


def fail(text):
    sys.exit(f"scale-out: {text}")


def await_for(seconds, what, holds):
    """Tries until something holds, and gives it."""
    until = time.monotonic() + seconds
    while time.monotonic() < until:
        found = holds()
        if found:
            return found
        time.sleep(0.02)
    return fail(f"{what} didn't come in {seconds} seconds")


class Engine:
    """What both engines have: a folder, and processes that are ended with it."""

    def __init__(self, room):
        self.room, self.started = room, []
        self.client = os.path.join(room, self.source)
        words = [os.environ.get("CC", "cc"), "-std=gnu11", "-O2", "-Wall", "-Wextra", "-Werror", "-o", self.client]
        sources = [f"{HERE}/{name}.c" for name in (self.source, "sessions", "program")]
        if subprocess.run([*words, *sources, self.library, "-ljansson"]).returncode:
            fail(f"{self.source}.c isn't built")

    def start(self, *words, pcef=PCEF, **environment):
        """Starts a program, which writes to a file of its own, `said`."""
        with open(os.path.join(self.room, f"said.{len(self.started)}"), "wb") as said:
            environment = {**os.environ, "PCEF": pcef, **environment}
            process = subprocess.Popen(words, stdin=subprocess.DEVNULL, stdout=said, stderr=said, env=environment)
            process.said = said.name
        self.started.append(process)
        return process

    def serve(self, partition, **environment):
        return self.start(self.client, *self.where, str(partition), PROFILE, **environment)

    def ends(self, what, process, due, says=""):
        """A client ends, with this status, and says so."""
        try:
            status = process.wait(20)
        except subprocess.TimeoutExpired:
            fail(f"{self.name}: a client {what} doesn't end")
        with open(process.said, encoding="utf-8") as said:
            said = said.read()
        if status != due or says not in said:
            fail(f"{self.name}: a client {what} ends with status {status} where {due} is due, and says: {said}")

    def ended_by_term(self, process, status):
        process.send_signal(signal.SIGTERM)
        self.ends("that gets TERM", process, status)

    def end(self):
        for process in self.started:
            process.kill()
            process.wait()

    def answers_to(self, partition):
        """The place, key and text of each answer to a partition's lines, as they lie."""
        return [answer[1:] for answer in self.answers() if answer[0] == partition]

    def has_answered(self, partition, count):
        """Whether the partition's first lines all have an answer."""
        return len({place for place, _, _ in self.answers_to(partition) if place < count}) == count


class Kafka(Engine):
    name, source, library = "Kafka", "serve", "-lrdkafka"
    wants = ["kcat", "/usr/include/librdkafka/rdkafka.h"]

    def __init__(self, room):
        super().__init__(room)
        mock = ["-b", "mock:9092", "-X", "test.mock.num.brokers=3", "-d", "mock"]
        said = self.start("kcat", "-C", "-t", "idle", "-p", "0", *mock).said

        def listening():
            with open(said, encoding="utf-8") as file:
                return re.search(r"bootstrap\.servers=([0-9.:,]+)", file.read())
        self.brokers = await_for(20, "the brokers", listening).group(1)
        self.where = [self.brokers]
        # The brokers make a topic when it is asked for.
        for topic in ("lines", "answers", "sessions"):
            await_for(20, topic, lambda: b'"partitions":[{' in self.kcat("-L", "-J", "-t", topic))

    def kcat(self, *words, stdin=b""):
        words = ["kcat", "-q", "-b", self.brokers, *words]
        return subprocess.run(words, input=stdin, stdout=subprocess.PIPE, stderr=subprocess.DEVNULL).stdout

    def send(self, partition, key, value):
        file = os.path.join(self.room, "message")
        with open(file, "wb") as message:
            message.write(value)
        words = [] if key is None else ["-k", key]
        self.kcat("-P", "-t", "lines", "-p", str(partition), *words, file)

    def send_all(self, lines, partition=None):
        """Sends lines to one partition, or to those that the names pick."""
        if partition is None:
            subprocess.run([f"{HERE}/send_lines", self.brokers], input=b"".join(lines), check=True)
        else:
            tabbed = b"".join(line.replace(b" ", b"\t", 1) for line in lines)
            self.kcat("-P", "-t", "lines", "-p", str(partition), "-K", "\t", stdin=tabbed)

    def first_kept(self, partition):
        """The place of the first line that the partition keeps."""
        return int(re.search(rb"offset (\d+)", self.kcat("-Q", "-t", f"lines:{partition}:-2")).group(1))

    def drop(self, partition, firsts, fill):
        """Lets go of older lines, so that one of these is the first, by lines that fill the partition; gives these."""
        filled = []
        while self.first_kept(partition) < firsts[0]:
            self.send_all(fill, partition)
            filled += fill
        if self.first_kept(partition) not in firsts:
            fail(f"{self.name}: the brokers dropped lines up to {self.first_kept(partition)}, which is none of {firsts}")
        return filled

    def drop_too_much(self, partition, fill):
        places = [int(record.split(b" ")[0]) for record in self.records(partition).values()]
        self.drop(partition, range(min(places) + 1, max(places) + 100), fill)

    def place(self, _partition, place):
        """The place behind a line, as records have it."""
        return b"%d" % (place + 1)

    def record(self, partition, name, record):
        """Writes a record, or that there is none."""
        if record is None:
            self.kcat("-P", "-t", "sessions", "-p", str(partition), "-K", "\t", "-Z", stdin=name + b"\t\n")
            return
        file = os.path.join(self.room, "message")
        with open(file, "wb") as message:
            message.write(record)
        self.kcat("-P", "-t", "sessions", "-p", str(partition), "-k", name, file)

    def records(self, partition):
        """The newest record of each name."""
        told = self.kcat("-C", "-e", "-t", "sessions", "-p", str(partition), "-o", "beginning", "-f", "%k %S %s\n")
        newest = {name: (size, record) for name, size, record in (line.split(b" ", 2) for line in told.splitlines())}
        return {name: record for name, (size, record) in newest.items() if size != b"-1"}

    def arrivals(self):
        """The partition and place of each answer, at once when it comes."""
        words = ["kcat", "-q", "-u", "-b", self.brokers, "-C", "-t", "answers", "-o", "beginning", "-f", "%h %s\n"]
        with subprocess.Popen([*words, "-X", "fetch.wait.max.ms=20"], stdout=subprocess.PIPE) as watcher:
            try:
                for line in watcher.stdout:
                    partition, place, _ = line.split(b" ", 2)
                    yield int(partition[len("partition="):]), int(place)
            finally:
                watcher.kill()

    def answers(self):
        told, at = self.kcat("-C", "-e", "-t", "answers", "-o", "beginning", "-f", "%h %K %S\n%k%s"), 0
        while at < len(told):
            end = told.index(b"\n", at)
            partition, key, value = map(int, told[at:end].replace(b"partition=", b"").split())
            at, has_key = end + 1, key >= 0
            key = max(key, 0)
            place, text = told[at + key:at + key + value].split(b" ", 1)
            yield partition, int(place), told[at:at + key] if has_key else None, text
            at += key + value

    def answers_so_far(self):
        return subprocess.run([f"{HERE}/answers_so_far", self.brokers], stdout=subprocess.PIPE, check=True).stdout


class Streams(Engine):
    name, source, library = "Redis Streams", "serve_stream", "-lhiredis"
    wants = ["redis-server", "/usr/include/hiredis/hiredis.h"]

    def __init__(self, room):
        super().__init__(room)
        with socket.socket() as free:
            free.bind(("127.0.0.1", 0))
            port = free.getsockname()[1]
        self.where, self.sent, self.places = ["127.0.0.1", str(port)], [0] * PARTITIONS, {}
        self.start("redis-server", "--port", str(port), "--save", "", "--dir", room, "--bind", "127.0.0.1")
        self.socket = await_for(20, "Redis", lambda: self.connected(port))
        self.replies = self.socket.makefile("rb")

    @staticmethod
    def connected(port):
        try:
            return socket.create_connection(("127.0.0.1", port))
        except ConnectionRefusedError:
            return None

    def reply(self):
        line = self.replies.readline()
        if line[:1] == b"$":
            return self.replies.read(int(line[1:]) + 2)[:-2] if line != b"$-1\r\n" else None
        if line[:1] == b"*":
            return [self.reply() for _ in range(int(line[1:]))]
        return line[1:-2]

    def call(self, *commands):
        """The replies to commands, each a list of words."""
        text = b""
        for words in commands:
            text += b"*%d\r\n" % len(words) + b"".join(b"$%d\r\n%s\r\n" % (len(word), word) for word in words)
        self.socket.sendall(text)
        return [self.reply() for _ in commands]

    def add(self, entries):
        """Adds entries, each a partition, a key and a value. Their places are counted from 0 on, as offsets are."""
        commands = [[b"XADD", b"lines:%d" % partition, b"*", *([] if key is None else [b"name", key]), b"line", value]
                    for partition, key, value in entries]
        for (partition, _, _), entry in zip(entries, self.call(*commands)):
            self.places[b"lines:%d/%s" % (partition, entry)] = partition, self.sent[partition]
            self.sent[partition] += 1

    def send(self, partition, key, value):
        self.add([(partition, key, value)])

    def send_all(self, lines, partition=None):
        """Sends lines to one partition, or to those that the names pick."""
        entries = [line.rstrip(b"\n").split(b" ", 1) for line in lines]
        entries = [(zlib.crc32(name) % PARTITIONS if partition is None else partition, name, line)
                   for name, line in entries]
        for first in range(0, len(entries), 1000):
            self.add(entries[first:first + 1000])

    def drop(self, partition, firsts, _fill):
        """Lets go of older lines, so that the last of these is the first, as docs/SCALING.md has it; sends no line."""
        least = min((record.split(b" ")[0] for record in self.records(partition).values()), key=self.numbers)
        if least != self.place(partition, firsts[-1]):
            fail(f"{self.name}: the least record is of {least}, where {self.place(partition, firsts[-1])} is due")
        self.call([b"XTRIM", b"lines:%d" % partition, b"MINID", least])
        return []

    def drop_too_much(self, partition, _fill):
        self.call([b"XTRIM", b"lines:%d" % partition, b"MAXLEN", b"1"])

    @staticmethod
    def numbers(entry):
        return [int(number) for number in entry.split(b"-")]

    def place(self, partition, place):
        """The place behind a line, as records have it."""
        return {at: entry for entry, at in self.places.items()}[partition, place].split(b"/")[1]

    def record(self, partition, name, record):
        """Writes a record, or that there is none."""
        key = b"sessions:%d" % partition
        self.call([b"HDEL", key, name] if record is None else [b"HSET", key, name, record])

    def records(self, partition):
        """The record of each name."""
        told = self.call([b"HGETALL", b"sessions:%d" % partition])[0]
        return dict(zip(told[::2], told[1::2]))

    def arrivals(self):
        """The partition and place of each answer, at once when it comes."""
        last = b"0"
        while True:
            for _, entries in self.call([b"XREAD", b"BLOCK", b"0", b"STREAMS", b"answers", last])[0]:
                for last, fields in entries:
                    yield self.places[fields[3]]

    def answers(self):
        for _, (_, name, _, at, _, text) in self.call([b"XRANGE", b"answers", b"-", b"+"])[0]:
            yield (*self.places[at], name, text)

    def answers_so_far(self):
        told = sorted((name, at, text) for _, at, name, text in self.answers())
        return b"".join(b"%s %s\n" % (name, text) for name, _, text in told)
