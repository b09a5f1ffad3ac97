"""Lines of scripts and profiles that several tests have."""
import json


def line(**fields):
    """A line with these fields, without blanks."""
    return json.dumps(fields, separators=(",", ":"))


def rule(name, precedence=100, filters=("permit out ip from any to any",), qci=9, level=8, gate="ENABLED", **more):
    """A rule as a script installs it."""
    return {
        "name": name,
        "precedence": precedence,
        "filters": [{"text": text} for text in filters],
        "qci": qci,
        "arp": {"level": level, "capability": False, "vulnerability": True},
        "gate": gate,
        **more,
    }


def install(name, **parts):
    """The line that installs a rule."""
    return line(do="install", rule=rule(name, **parts))


def take(packet, worker=0, direction="down"):
    """The line by which a worker takes a packet."""
    return line(do="take", worker=worker, dir=direction, packet=packet)


def profile(**parts):
    """A profile without fault, whose default bearer has QCI 9, with these parts in the place of its own."""
    numbers = {"ue": '"10.0.0.2"', "rows": 1000, "commands": 1000, "qci": 9, "level": 8, "up": 1000000, "down": 2000000}
    numbers.update(parts)
    declared = numbers.pop("declared", None)
    return PROFILE.format(declared=f"declared = [{declared}]\n" if declared else "", **numbers)


PROFILE = """ue = {ue}
rows = {rows}
commands = {commands}
{declared}
[default]
qci = {qci}
level = {level}
capability = false
vulnerability = true

[capacity]
up = {up}
down = {down}
"""

# A UDP packet of 28 octets from 198.51.100.7 port 53 to 10.0.0.2 port 5000.
DNS_ANSWER = "4500001c0000000040110000c63364070a0000020035138800080000"

# A filter for such packets.
DNS = "permit out 17 from any 53 to assigned"

# A rule for them that counts for the key `vid`, and a grant for that key.
WEB = install("web", filters=[DNS], key="vid")
MONITOR = line(do="monitor", key="vid", grant=1000)

ATTACH = line(do="attach")
SHOW = line(do="show")
CLOSE = line(do="close")
FLUSH = line(do="flush", worker=0)
REFRESH = line(do="refresh", worker=0)
