"""What .ci/scale-out plays of processes that begin again by the records of their sessions."""
import json
import os
import random
import signal
import subprocess
import time

from brokers import PCEF, PROFILE, Kafka, await_for, fail

KILLS, MOVES, SESSIONS = 25, 10, 1000
AT_MOST = 2.0


class Life:
    """What is sent under one name. Its lines mostly fit what came before, and now and then they don't."""

    def __init__(self, name, dice, ends):
        self.name, self.dice, self.ends = name, dice, ends
        self.is_open, self.is_over, self.workers, self.next = False, False, [], 0

    def begin(self):
        self.is_open, self.is_over, self.workers, self.next = True, False, [], 0
        return {"do": "open", **self.dice.choice([{}, {}, {}, {"ue": "10.0.0.2"}, {"ue": "2001:db8::2"}])}

    def end(self):
        self.is_open = False
        return {"do": "end"}

    def renew(self):
        if self.workers and self.dice.random() < 0.9:
            return self.finish()
        if not self.workers:
            self.next = 0
        return {"do": "renew"}

    def attach(self):
        if self.next == 16:
            return self.renew()
        self.workers.append(self.next)
        self.next += 1
        return {"do": "attach"}

    def worker(self):
        return self.dice.choice(self.workers or [0])

    def take(self):
        if not self.workers and self.dice.random() < 0.9:
            return self.attach()
        length = self.dice.randrange(28, 90)
        packet = f"4500{length:04x}0000000040110000c63364070a0000020035138800080000" + "00" * (length - 28)
        return {"do": "take", "worker": self.worker(), "dir": "down", "packet": packet}

    def finish(self):
        worker = self.worker()
        self.workers = [other for other in self.workers if other != worker]
        return {"do": "finish", "worker": worker}

    def install(self):
        qci = self.dice.choice([1, 2, 5, 9, 9])
        rule = {"name": self.dice.choice("rst"), "precedence": self.dice.randrange(300), "qci": qci, "gate": "ENABLED",
                "arp": {"level": self.dice.randrange(1, 4), "capability": False, "vulnerability": True},
                "filters": [{"text": self.dice.choice(["permit out 17 from any 53 to assigned",
                                                       "permit out ip from any to assigned"])}]}
        rule.update({"key": key} if (key := self.dice.choice(["vid", "vid", "web", None])) else {})
        return {"do": "install", "rule": {**rule, "gbr": {"up": 1000, "down": 2000}} if qci < 5 else rule}

    def command(self):
        key = self.dice.choice(["vid", "web", "all"])
        return self.dice.choice([
            {"do": "remove", "name": self.dice.choice("rst")}, {"do": "activate", "name": "pre-rest"},
            {"do": "monitor", "key": key, "grant": self.dice.randrange(1, 200)}, {"do": "stop", "key": key},
            {"do": "monitor", "key": "all", "grant": self.dice.randrange(1, 400), "level": "session"},
            {"do": "monitor", "key": key, "grant": 90}, {"do": "report", "key": key},
            *[{"do": "triggers", "events": ["USAGE_REPORT", "RAT_CHANGE"]}] * 3, {"do": "lose", "bearer": 6},
            {"do": "notice", "event": "RAT_CHANGE", "value": "eutran"}, {"do": "open"}])

    def over(self):
        self.is_over = True
        return {"do": self.dice.choice(["close", "terminate"])}

    def line(self):
        """The next line; the word stands in it as it is, with an escape, or behind another one that doesn't count."""
        if not self.is_open and self.dice.random() < 0.8:
            said = self.begin()
        else:
            steps = [(self.take, 30), (self.attach, 5), (self.finish, 7), (self.renew, 12), (self.install, 8),
                     (self.command, 12), (lambda: {"do": "show"}, 4), (self.over, 0.5),
                     (lambda: {"do": "flush", "worker": self.worker()}, 10), (self.end, 30 if self.is_over else self.ends)]
            said = self.dice.choices([step for step, _ in steps], [weight for _, weight in steps])[0]()
        text = json.dumps(said)
        odd = self.dice.random()
        if odd < 0.05:
            text = text.replace('"do"', r'"\u0064o"')
        elif odd < 0.1:
            text = text.replace(f'"do": "{said["do"][0]}', f'"do": "\\u00{ord(said["do"][0]):02x}', 1)
        elif odd < 0.15:
            text = '{"do": "a\\u0000b", "do": 99999999999999999999, ' + text[1:]
        return f"{self.name} {text}\n".encode()


def lives(seed, count, names=12, ends=1.5):
    """Lines of sessions that take turns."""
    dice = random.Random(seed)
    all_lives = [Life(f"life-{number}", dice, ends) for number in range(names)]
    return [dice.choice(all_lives).line() for _ in range(count)]


def due_answers(lines):
    told = subprocess.run([PCEF, "many", PROFILE], input=b"".join(lines), stdout=subprocess.PIPE, check=True).stdout
    return [tuple(answer.split(b" ", 1)) for answer in told.splitlines()]


def octets(answers):
    """The sum of what answers report."""
    said = [json.loads(text) for _, text in answers]
    return sum(report.get("octets", 0) for answer in said for report in answer.get("reports", []))


def compare(engine, partition, lines):
    """Each line has the answer that one process gives, also where it comes twice. Gives how many came twice, and the
    octets that were reported, each answer taken once."""
    due, came = due_answers(lines), engine.answers_to(partition)
    other = [(place, name, text, due[place]) for place, name, text in came if (name, text) != due[place]]
    if other:
        fail(f"{engine.name}: {len(other)} answers differ from those of one process: {other[:3]}")
    lost = set(range(len(lines))) - {place for place, _, _ in came}
    if lost:
        fail(f"{engine.name}: {len(lost)} lines have no answer: {sorted(lost)[:9]}")
    twice = len(came) - len(lines)
    if twice and not isinstance(engine, Kafka):
        fail(f"{engine.name}: {twice} answers came twice")
    told = octets({place: (name, text) for place, name, text in came}.values())
    if told != octets(due):
        fail(f"{engine.name}: {told} octets are reported, where {octets(due)} are due")
    return twice, told


def before(engine, name, filter_words):
    """The program behind a filter of its lines."""
    file = os.path.join(engine.room, name)
    with open(file, "w", encoding="utf-8") as text:
        text.write(f"""#!/bin/sh
{filter_words} | '{PCEF}' "$@"
""")
    os.chmod(file, 0o700)
    return file


def begun(engine, partition, lines):
    """Each open session has a record of its last `open` or `renew` that was done, and no other one has any."""
    due = {}
    for place, (line, (name, answer)) in enumerate(zip(lines, due_answers(lines))):
        word = json.loads(line.split(b" ", 1)[1])["do"]
        if word in ("open", "renew") and json.loads(answer).get("ok"):
            due[name] = engine.place(partition, place)
        if word == "end":
            due.pop(name, None)
    came = {name: record.split(b" ", 1)[0] for name, record in engine.records(partition).items()}
    if came != due:
        fail(f"{engine.name}: the records are of {came}, where {due} are due")


def killer(engine):
    """The library that kills a client at a step."""
    file = os.path.join(engine.room, "kill-at.so")
    words = [os.environ.get("CC", "cc"), "-shared", "-fPIC", "-O2", "-o", file, ".ci/kill-at.c", "-ldl"]
    if subprocess.run(words).returncode:
        fail("kill-at.c isn't built")
    return file


def killed(engine, partition, lines, seed):
    """Processes are killed one after the other: when their program has got some lines, before a message is sent, before
    or behind a wait for the engine. Some have a program without the word `lines`. Gives the number of lines."""
    dice, library, at = random.Random(seed), killer(engine), 0
    without = before(engine, "without", """sed -u 's/ {"do":"lines"}$/ {"do":"unknown"}/'""")
    for _ in range(KILLS):
        size = dice.randrange(10, 100)
        steps = {"line": size, "send": size, "wait": 10} if isinstance(engine, Kafka) else {"line": size, "wait": 9 * size}
        kind = dice.choice(list(steps))
        how = {"LD_PRELOAD": library, "KILL_AT": f"{kind} {dice.randrange(steps[kind]) + 1}"}
        how.update({"KILL_LATE": "1"} if dice.random() < 0.5 else {})
        how.update({"many": without} if dice.random() < 0.15 else {})
        some = at + dice.randrange(size)
        engine.send_all(lines[at:some], partition)
        process = engine.serve(partition, **how)
        engine.send_all(lines[some:at + size], partition)
        try:
            process.wait(2)
        except subprocess.TimeoutExpired:
            process.kill()
        engine.ends("that is killed", process, -9)
        at += size
    engine.send_all(lines[at:at + 300], partition)
    process = engine.serve(partition)
    await_for(20, f"{engine.name}: the answers behind {KILLS} kills",
              lambda: engine.has_answered(partition, at + 300))
    engine.ended_by_term(process, 0)
    return at + 300


def killed_at_random_places(engine):
    """Partitions of two sessions, which end often, and of a dozen: the first begin again behind late lines."""
    for partition, names, ends in ((0, 12, 1.5), (1, 2, 8)):
        lines = lives(12, 4000, names, ends)
        count = killed(engine, partition, lines, 11 + partition)
        twice, told = compare(engine, partition, lines[:count])
        begun(engine, partition, lines[:count])
        print(f"{engine.name}: {KILLS} processes, one after the other, are killed in {count} lines of {names} names: "
              f"answers as in one process, {told} octets reported, {twice} answers twice", flush=True)


def moved(engine):
    """A partition goes from process to process, each ended by TERM while lines come."""
    dice, lines, at = random.Random(13), lives(14, 2000), 0
    for _ in range(MOVES):
        size = dice.randrange(100, 200)
        engine.send_all(lines[at:at + size], 2)
        process = engine.serve(2)
        time.sleep(dice.random() * (1.5 if isinstance(engine, Kafka) else 0.05))
        process.terminate()
        # One that doesn't catch it yet has begun nothing.
        if process.wait(20) not in (0, -signal.SIGTERM):
            fail(f"{engine.name}: a client that gets TERM ends with status {process.returncode}")
        at += size
    process = engine.serve(2)
    await_for(20, f"{engine.name}: the answers of a moved partition", lambda: engine.has_answered(2, at))
    engine.ended_by_term(process, 0)
    twice, told = compare(engine, 2, lines[:at])
    if twice:
        fail(f"{engine.name}: {twice} answers of a moved partition came twice")
    print(f"{engine.name}: a partition moves {MOVES} times in {at} lines: answers as in one process, {told} octets "
          "reported, none twice", flush=True)


def said(name, *steps):
    return [f"{name} {json.dumps(step)}\n".encode() for step in steps]


def life(name):
    """A session that counts, and is renewed."""
    web = {"name": "web", "precedence": 100, "filters": [{"text": "permit out 17 from any 53 to assigned"}], "qci": 9,
           "arp": {"level": 8, "capability": False, "vulnerability": True}, "gate": "ENABLED", "key": "vid"}
    packet = "4500001c0000000040110000c63364070a0000020035138800080000"
    take = {"do": "take", "worker": 0, "dir": "down", "packet": packet}
    begin = said(name, {"do": "open"}, {"do": "install", "rule": web}, {"do": "triggers", "events": ["USAGE_REPORT"]},
                 {"do": "monitor", "key": "vid", "grant": 50})
    packets = said(name, {"do": "attach"}, take, take, {"do": "flush", "worker": 0}, take,
                   {"do": "finish", "worker": 0})
    renew = [name.encode() + rb' {"\u0064o": "\u0072enew"}' + b"\n"]
    return begin, packets, renew, said(name, {"do": "show"})


def passed_over(engine):
    """Of a session that was renewed the program gets its list and the lines behind, and none of the lines before."""
    begin, packets, renew, show = life("renewed")
    first, behind = life("first"), packets + show * 3
    lines = first[0] + begin + packets + show * 1000 + renew + behind + first[1]
    engine.send_all(lines, 2)
    process = engine.serve(2)
    await_for(20, "the answers", lambda: engine.has_answered(2, len(lines)))
    engine.ended_by_term(process, 0)
    records = engine.records(2)
    listed = sum(len(json.loads(record.split(b" ", 1)[1])) for record in records.values())
    # The record of `first` was written behind its `open`.
    due = listed + len(first[0]) - 1 + len(behind) + len(first[1]) + 1
    file = os.path.join(engine.room, "got")
    program = before(engine, "counting", f"tee '{file}'")
    engine.send_all(show, 2)
    process = engine.serve(2, pcef=program)
    await_for(20, "the answer behind", lambda: engine.has_answered(2, len(lines) + 1))
    engine.ended_by_term(process, 0)
    compare(engine, 2, lines + show)
    with open(file, "rb") as got:
        got = len(got.readlines())
    if got != due:
        fail(f"{engine.name}: a program got {got} lines, where {due} are due, of {len(lines) + 1}")
    print(f"{engine.name}: of {len(lines) + 1} lines a process that begins again plays {got}", flush=True)


def seconds_to_answer(engine, partition, lines, fresh):
    """How long it takes from the start of a process to the answer of a line that waits for it; adds the line."""
    engine.send_all(fresh, partition)
    arrivals = engine.arrivals()
    for _ in engine.answers():
        next(arrivals)
    since = time.monotonic()
    process = engine.serve(partition)
    if next(arrivals) != (partition, len(lines)):
        fail(f"{engine.name}: another answer than that of a fresh line comes first")
    took = time.monotonic() - since
    engine.ended_by_term(process, 0)
    lines += fresh
    return took


def a_thousand_again(engine):
    """Sessions that are all renewed answer again within two seconds."""
    steps = [step for part in life("x")[:3] for step in part]
    lines = [step.replace(b"x", b"again-%d" % number, 1) for step in steps for number in range(SESSIONS)]
    engine.send_all(lines, 3)
    process = engine.serve(3)
    await_for(60, "the answers", lambda: engine.has_answered(3, len(lines)))
    engine.ended_by_term(process, 0)
    took = min(seconds_to_answer(engine, 3, lines, said("again-0", {"do": "show"})) for _ in range(2))
    compare(engine, 3, lines)
    if took > AT_MOST:
        fail(f"{engine.name}: {SESSIONS} renewed sessions answer again after {took:.2f} s")
    print(f"{engine.name}: {SESSIONS} renewed sessions answer again {took:.2f} s after the start of a process (the "
          "better of two)", flush=True)


def older_lines_are_dropped(engine):
    """Lines before the renewals go, those of an ended session with them. Then one line more goes than may."""
    parts = [life(name) for name in ("kept", "too", "ended")]
    old = [line for begin, packets, _, _ in parts for line in begin + packets] + said("ended", {"do": "end"})
    renewals = [line for _, _, renew, _ in parts[:2] for line in renew]
    behind = [line for _, packets, _, show in parts for line in packets + show] + said("late", {"do": "open"})
    # A long line, for the brokers drop what is beyond 5 MB of a partition.
    fill = [b"kept " + b" " * 200000 + b'{"do":"show"}\n'] * 5
    lines = old + fill * 4 + renewals
    engine.send_all(lines, 0)
    process = engine.serve(0)
    await_for(20, "the answers before", lambda: engine.has_answered(0, len(lines)))
    engine.ended_by_term(process, 0)
    lines += engine.drop(0, range(len(old), len(lines) - len(renewals) + 1), fill)
    engine.send_all(behind, 0)
    process = engine.serve(0)
    lines += behind
    await_for(20, "the answers behind", lambda: engine.has_answered(0, len(lines)))
    engine.ended_by_term(process, 0)
    compare(engine, 0, lines)
    engine.drop_too_much(0, fill)
    engine.ends("whose lines are gone", engine.serve(0), 4, "lines of an open session are gone")
    print(f"{engine.name}: lines before the renewals are dropped, and answers are as before; where more lines are "
          "dropped, a client ends with 4", flush=True)


def odd_records(engine):
    """Records that don't fit the lines, or hold no list, end a client with 4."""
    engine.send_all(said("a", {"do": "show"}), 1)
    process = engine.serve(1)
    await_for(20, "the answer", lambda: engine.has_answered(1, 1))
    engine.ended_by_term(process, 0)
    here, open_it, show = engine.place(1, 0), b'{"do":"open"}', b'{"do":"show"}'
    odd = [(b"9999999999999999 [" + open_it + b"]", "was made anew"), (here + b" [" + show + b"]", "NoSession"),
           (here + b" [" + open_it + b"," + open_it + b"]", "SessionIsOpen"), (here + b" []", "no list"),
           (here + b" [" + open_it, "no list"), (here, "no list"), (here + b" [{\"do\":\"open\"}]]", "no list"),
           (here + b" [\n" + open_it + b"]", "no list"), (b"\xff", "")]
    for record, says in odd:
        engine.record(1, b"x", record)
        engine.ends(f"with the record {record}", engine.serve(1), 4, says)
    engine.record(1, b"x", None)
    process = engine.serve(1)
    engine.send_all(said("a", {"do": "show"}), 1)
    await_for(20, "the answer without odd records", lambda: engine.has_answered(1, 2))
    engine.ended_by_term(process, 0)
    print(f"{engine.name}: {len(odd)} odd records end a client with 4", flush=True)
