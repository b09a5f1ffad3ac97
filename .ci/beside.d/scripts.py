"""Lines of scripts, of runs and of many sessions, for the programs that read them."""
import random
import struct

PROFILE = """ue = "10.0.0.2"
rows = 4000000000
commands = 100000

[default]
qci = 9
level = 8
capability = false
vulnerability = true

[capacity]
up = 1000000
down = 2000000
"""

FLUSH = '{"do":"flush","worker":0}'
ATTACH = '{"do":"attach"}'


def rule(name, precedence, texts, key=""):
    filters = ",".join(f'{{"text":"{text}"}}' for text in texts)
    key = f',"key":"{key}"' if key else ""
    return (f'{{"do":"install","rule":{{"name":"{name}","precedence":{precedence},"filters":[{filters}],"qci":9,'
            f'"arp":{{"level":8,"capability":false,"vulnerability":true}},"gate":"ENABLED"{key}}}}}')


def monitor(key):
    return f'{{"do":"monitor","key":"{key}","grant":1000000000000}}'


def packet(port, proto=17, length=28):
    """A downlink packet from this port of 198.51.100.7, in hexadecimal digits."""
    head = struct.pack(">BBHHHBBH4s4s", 0x45, 0, length, 0, 0, 64, proto, 0, bytes((198, 51, 100, 7)), bytes((10, 0, 0, 2)))
    return (head + struct.pack(">HHHH", port, 5000, length - 20, 0) + bytes(length - 28)).hex()


def take(port, **how):
    return f'{{"do":"take","worker":0,"dir":"down","packet":"{packet(port, **how)}"}}'


def eight_filters(number, first=0):
    """Filters of a rule: one port each of a network of its own."""
    return [f"permit out 17 from any {1000 + 8 * number + place + first} to assigned" for place in range(8)]


def one_rule():
    return [rule("web", 100, ["permit out 17 from any 53 to assigned"], "vid"), monitor("vid")]


def many_rules():
    return [rule(f"r{number}", number + 1, eight_filters(number), "vid") for number in range(64)] + [monitor("vid")]


def with_takes(setup, count, ports, longest=28):
    """A script with `take` lines, and a `flush` behind every 32."""
    pick = random.Random(9)
    lines = [*setup, ATTACH]
    for number in range(count):
        lines.append(take(pick.choice(ports), length=pick.randint(40, longest) if longest > 28 else 28))
        if number % 32 == 31:
            lines.append(FLUSH)
    return lines


def changes(setup, count, lines_of):
    """A session with all these rules, and `count` lines that change one of them in turn."""
    return [*setup, *(lines_of(number) for number in range(count))]


def run_lines(count):
    """Lines of `pcef run`: packets of one rule, which has a key."""
    return [*one_rule(), *[take(53)] * count]


# ---- many sessions

TAKES = [take(53), take(443), take(53), take(99)]


def many_setup(sessions):
    steps = ['{"do":"open"}', rule("web", 100, ["permit out 17 from any 53 to assigned"], "vid"),
             rule("pages", 101, ["permit out 17 from any 443 to assigned"], "vid"), monitor("vid"), ATTACH]
    return [f"s{number} {step}" for step in steps for number in range(sessions)]


def many_work(sessions, count):
    """For sessions at random: four `take` lines and a `flush` in turn, or a `flush` where 32 packets wait."""
    pick = random.Random(41)
    waiting = [0] * sessions
    for number in range(count):
        session = pick.randrange(sessions)
        if number % 5 == 4 or waiting[session] == 32:
            waiting[session] = 0
            yield session, None
        else:
            waiting[session] += 1
            yield session, number % 5


def many_lines(sessions, count):
    for session, which in many_work(sessions, count):
        yield f"s{session} {FLUSH if which is None else TAKES[which]}"


def frame(name, kind, body):
    """A frame of `pcef many --frames` (docs/FORMATS.md, 'Many sessions')."""
    inner = bytes([len(name)]) + name + bytes([kind]) + body
    return struct.pack(">I", len(inner)) + inner


def many_setup_frames(sessions):
    for line in many_setup(sessions):
        name, text = line.encode().split(b" ", 1)
        yield frame(name, 0, text)


def many_frames(sessions, count):
    bodies = [bytes([0, 1]) + bytes.fromhex(packet(port)) for port in (53, 443, 53, 99)]
    for session, which in many_work(sessions, count):
        name = b"s%d" % session
        yield frame(name, 2, bytes([0])) if which is None else frame(name, 1, bodies[which])
