"""Binary frames for `pcef many --frames`, made and read by themselves: `docs/FORMATS.md` says what they mean."""
import re
import struct

LINE, TAKE, FLUSH = range(3)

# The most octets of a frame behind its length, and of a packet in one.
LONGEST = 262210
LONGEST_PACKET = 65575

# The answer to a malformed frame, by the name of its fault.
FAULTS = [
    "BadName",
    "ShortFrame",
    "LongFrame",
    "UnknownKind",
    "BadWorker",
    "BadDirection",
    "BadLine",
    "BadLength",
    "CutFrame",
]


def said(fault):
    """The answer to a malformed frame, with its line feed."""
    return b'- {"fault":%d,"name":"%s"}\n' % (FAULTS.index(fault) + 1, fault.encode())


def framed(frame):
    """A frame behind its length."""
    return struct.pack(">I", len(frame)) + frame


def named(name, kind, fields=b""):
    """A frame without its length."""
    return bytes([len(name)]) + name + bytes([kind]) + fields


def line(name, text):
    """The octets of a frame of any line."""
    return framed(named(name, LINE, text))


def take(name, packet, worker=0, direction=1):
    """The octets of a frame of a packet; direction 0 is up, and 1 down."""
    return framed(named(name, TAKE, bytes([worker, direction]) + packet))


def flush(name, worker=0):
    """The octets of a frame of a flush."""
    return framed(named(name, FLUSH, bytes([worker])))


def of_line(whole):
    """The frame of a line behind its name: of its own kind, where it has one and the line is in its usual spelling."""
    name, text = whole.split(b" ", 1)
    taken = re.fullmatch(rb'\{"do":"take","worker":(\d+),"dir":"(up|down)","packet":"((?:[0-9a-f]{2})*)"\}', text)
    if taken:
        return take(name, bytes.fromhex(taken[3].decode()), int(taken[1]), int(taken[2] == b"down"))
    flushed = re.fullmatch(rb'\{"do":"flush","worker":(\d+)\}', text)
    return flush(name, int(flushed[1])) if flushed else line(name, text)


def line_behind(kind, fields):
    """The line that stands behind the name, and no fault, or none and the fault."""
    if kind == LINE:
        if b"\n" in fields or len(fields) <= 262144 and not fields.strip(b" \t\r"):
            return None, "BadLine"
        return fields, None
    if kind not in (TAKE, FLUSH):
        return None, "UnknownKind"
    if len(fields) < (2 if kind == TAKE else 1):
        return None, "ShortFrame"
    if kind == FLUSH and len(fields) > 1:
        return None, "LongFrame"
    if fields[0] > 15:
        return None, "BadWorker"
    if kind == FLUSH:
        return b'{"do":"flush","worker":%d}' % fields[0], None
    if fields[1] > 1:
        return None, "BadDirection"
    if len(fields) - 2 > LONGEST_PACKET:
        return None, "LongFrame"
    direction = b"down" if fields[1] else b"up"
    packet = fields[2:].hex().encode()
    return b'{"do":"take","worker":%d,"dir":"%s","packet":"%s"}' % (fields[0], direction, packet), None


def meaning(frame):
    """The line that a frame means, and no fault, or none and the fault."""
    length = frame[0]
    name, rest = frame[1 : 1 + length], frame[1 + length :]
    if not rest:
        return None, "ShortFrame"
    if not 1 <= len(name) <= 64 or name == b"-" or not all(0x21 <= octet <= 0x7E for octet in name):
        return None, "BadName"
    behind, fault = line_behind(rest[0], rest[1:])
    return (name + b" " + behind, None) if fault is None else (None, fault)


def meanings(octets):
    """What each frame of an input means, up to where it ends or can't be read on."""
    place, all_meant = 0, []
    while place < len(octets):
        if len(octets) - place < 4:
            return all_meant + [(None, "CutFrame")]
        (length,) = struct.unpack_from(">I", octets, place)
        if not 1 <= length <= LONGEST:
            return all_meant + [(None, "BadLength")]
        if len(octets) - place - 4 < length:
            return all_meant + [(None, "CutFrame")]
        all_meant.append(meaning(octets[place + 4 : place + 4 + length]))
        place += 4 + length
    return all_meant
